//! Number 4: the chain.

use super::{edit, in_chain, in_descriptor, Damage};
use crate::layout::Layout;
use crate::random::Random;
use crate::volumes::{block, word, File, MOST_BLOCKS, SECTOR_BYTES};

impl Damage<'_> {
    pub(super) fn block_bytes(&mut self, file: &File, random: &mut Random) {
        if file.runs.is_empty() {
            return;
        }
        let blocks = file.runs.len();
        for number in [0, blocks - 1, random.below(blocks)] {
            let at = in_chain(file, number);
            let (run, last) = (file.runs[number], file.last_offset(number));
            let below = self.disk.sectors - run.length;
            self.put("start 0", 4, at, &block(0, last));
            self.put("start 1", 4, at, &block(1, last));
            for start in [below + 1, self.disk.sectors, 4095] {
                self.put("place from n on", 4, at, &block(start, last));
            }
            self.put("block of zeros before the end", 4, at, &[0, 0, 0]);
            self.put("last offset past the disk", 4, at, &block(run.start, last + 2048));
            if number + 1 == blocks {
                self.put("second field a length", 4, at, &block(run.start, last + 1));
            }
            if number > 0 {
                self.offsets_do_not_ascend(file, number, random);
            }
        }
    }

    /// The last block's change goes with its count, so that only the order of offsets is wrong.
    fn offsets_do_not_ascend(&mut self, file: &File, number: usize, random: &mut Random) {
        let start = file.runs[number].start;
        let before = file.last_offset(number - 1);
        for last in [before, random.below(before + 1), 0] {
            let mut edits = vec![edit(in_chain(file, number), &block(start, last))];
            if number + 1 == file.runs.len() {
                edits.push(edit(in_descriptor(file, 14), &word(last + 1)));
            }
            self.keep("offsets do not ascend", Some(4), edits);
        }
    }

    pub(super) fn chain_end(&mut self, file: &File, random: &mut Random) {
        let end = in_chain(file, file.runs.len());
        let descriptor_end = in_descriptor(file, SECTOR_BYTES);
        if end < descriptor_end {
            for at in [end, end + 1, end + 2, descriptor_end - 1] {
                self.put("byte after the chain", 4, at, &[1 << random.below(8)]);
            }
            let at = random.within(end..=descriptor_end - 1);
            self.put("byte after the chain", 4, at, &[random.within(1..=255) as u8]);
            let full = vec![0xFF; descriptor_end - end];
            self.put("bytes after the chain", 4, end, &full);
        }
        let chain = random.bytes(3 * MOST_BLOCKS);
        self.keep("random chain", None, vec![edit(in_chain(file, 0), &chain)]);
        if !file.runs.is_empty() {
            self.no_sectors(file);
        }
    }

    /// The map still has the sectors; but a program that has none ends nowhere.
    fn no_sectors(&mut self, file: &File) {
        for end_offset in [file.header[16], 0, 1] {
            let mut none = file.clone();
            none.runs.clear();
            none.set_count(0);
            none.header[16] = end_offset;
            let number = if none.is_of_a_kind(Layout::MARKS) { 6 } else { 4 };
            self.put("file without its sectors", number, in_descriptor(file, 0), &none.described());
        }
    }
}
