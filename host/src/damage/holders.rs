//! Number 5: sectors that two hold, in one file, in two, or as descriptor and data.

use super::{edit, in_chain, in_descriptor, Damage};
use crate::random::Random;
use crate::volumes::{block, word, File, Run, MOST_BLOCKS};

impl Damage<'_> {
    pub(super) fn two_holders(&mut self, file: &File, random: &mut Random) {
        for number in 0..file.runs.len() {
            if number < 2 || random.once_in(16) {
                self.block_on_held_sectors(file, number, random);
            }
        }
        self.overlapping_chain(file, random);
        let next = file.runs.last().map(|run| run.sectors().end);
        if self.disk.held().any(|held| Some(held) == next) {
            self.one_sector_more("last block grown into a held sector", 5, file);
        }
    }

    /// Moves a block so that it meets the file's own descriptor, or other sectors that stay held.
    fn block_on_held_sectors(&mut self, file: &File, number: usize, random: &mut Random) {
        let run = file.runs[number];
        let held: Vec<usize> =
            self.disk.held().filter(|held| !run.sectors().contains(held)).collect();
        for target in [file.descriptor, random.pick(&held), random.pick(&held)] {
            let within = random.below(run.length);
            let last_start = self.disk.sectors - run.length;
            let start = target.saturating_sub(within).max(2).min(last_start);
            let moved = block(start, file.last_offset(number));
            self.put("block on a held sector", 5, in_chain(file, number), &moved);
        }
    }

    /// Blocks over one another, up to 4,096 sectors: more than any disk has.
    fn overlapping_chain(&mut self, file: &File, random: &mut Random) {
        let room = self.disk.sectors - 2;
        let blocks = random.within(2..=MOST_BLOCKS);
        let count = (blocks * room).min(4096);
        let mut other = file.clone();
        other.runs = overlapping_runs(count, blocks);
        other.set_count(count);
        self.put("overlapping blocks", 5, in_descriptor(file, 0), &other.described());
        if count > 255 {
            other.set_count(count % 256);
            let descriptor = other.described();
            self.put("number of sectors in a byte", 4, in_descriptor(file, 0), &descriptor);
        }
    }

    pub(super) fn one_sector_more(&mut self, what: &'static str, number: u32, file: &File) {
        let last = file.runs.len() - 1;
        let grown = block(file.runs[last].start, file.count());
        let count = word(file.count() + 1);
        let edits = vec![edit(in_chain(file, last), &grown), edit(in_descriptor(file, 14), &count)];
        self.keep(what, Some(number), edits);
    }
}

/// As many runs as asked for, each from sector 2 on, that cover so many sectors together.
fn overlapping_runs(count: usize, blocks: usize) -> Vec<Run> {
    let covered = |block: usize| block * count / blocks;
    let run = |block| Run { start: 2, length: covered(block + 1) - covered(block) };
    (0..blocks).map(run).collect()
}
