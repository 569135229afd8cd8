//! Full volumes, and such as a call makes full.

use crate::random::Random;
use crate::table::{Arguments, Given, NONE};
use crate::volumes::{names, Disk, File, Name, Run, MARK, SECTOR_BYTES};

/// Of the volumes that all calls are measured on.
pub(crate) const SECTORS: usize = 1440;

pub(crate) const MANY: Volume = volume("127 files, a block each", (126, 1), (10, 1));
pub(crate) const PIECES: Volume = volume("127 files of 10 blocks", (126, 10), (10, 10));
pub(crate) const ONE: Volume = volume("one file of 76 blocks", (0, 0), (SECTORS - 3, 76));
pub(crate) const ALL: [Volume; 3] = [MANY, PIECES, ONE];

/// The other files and their blocks, then the called file's sectors and blocks.
pub(crate) const fn volume(
    what: &'static str,
    (files, blocks): (usize, usize),
    (called_sectors, called_blocks): (usize, usize),
) -> Volume {
    let called = Extent { sectors: called_sectors, blocks: called_blocks };
    Volume { what, sectors: SECTORS, files, blocks, called, before: Before::Data }
}

/// A volume with a file that is called, the last in the order of names.
#[derive(Clone, Copy)]
pub(crate) struct Volume {
    pub what: &'static str,
    pub sectors: usize,
    /// The other files, which share what the called one leaves, and the blocks of each.
    pub files: usize,
    pub blocks: usize,
    pub called: Extent,
    pub before: Before,
}

#[derive(Clone, Copy)]
pub(crate) struct Extent {
    pub sectors: usize,
    pub blocks: usize,
}

/// What the call finds of its file.
#[derive(Clone, Copy)]
pub(crate) enum Before {
    /// A data file that is neither protected nor marked.
    Data,
    /// The same with the mark.
    Marked,
    /// A program of whole sectors, as the longest is.
    Program,
    Absent,
    /// A data file without the sector that the call is to add.
    LacksHighest,
    LacksLowest,
    /// A data file that has a name before all others, and its old place in the index: a rename that was
    /// cut short.
    Renamed,
    /// A data file, all numbers of the index being in the opposite order.
    Reversed,
}

/// A volume as it was built, and what a call may be asked with on it.
pub(crate) struct Full {
    pub disk: Disk,
    called: Name,
    /// A name before those of all files.
    unused: Name,
    /// How many sectors the volume has for the called file.
    room: usize,
}

impl Full {
    pub(crate) fn name(&self) -> Given {
        Given::whole(&self.called)
    }

    /// Gives the mark to every file but the called one.
    pub(super) fn mark_others(&mut self) {
        let others = self.disk.files.iter_mut().filter(|file| file.name() != self.called);
        others.for_each(|file| file.header[12] |= MARK);
        self.disk.lay_down();
    }

    pub(crate) fn new_name(&self) -> Given {
        Given::whole(&self.unused)
    }

    /// The last place in the catalogue.
    pub(crate) fn place(&self) -> usize {
        self.disk.files.len().saturating_sub(1)
    }

    /// The last sector of the file.
    pub(crate) fn offset(&self) -> usize {
        self.disk.files.last().map_or(0, |file| file.count().saturating_sub(1))
    }

    pub(crate) fn sector(&self) -> Given {
        Given::whole(&Random::new(2).bytes(SECTOR_BYTES))
    }

    /// A program that fills the sectors which the volume has for it.
    pub(crate) fn program(&self) -> Given {
        Given::whole(&Random::new(2).bytes(SECTOR_BYTES * self.room))
    }

    /// A buffer that everything fits into.
    pub(crate) fn for_buffer(&self) -> Arguments {
        Arguments { room: self.disk.image.len(), ..NONE }
    }
}

impl Volume {
    /// Descriptors lie from sector 2 on and blocks behind them in any order. At the end of the disk
    /// lie the called file's first block and its descriptor, so that a search for what it leaves
    /// free passes the map.
    pub(super) fn build(&self) -> Full {
        let random = &mut Random::new(1);
        let mut named = names(self.files + 2, random).into_iter();
        let unused = named.next().expect("the first name");
        let descriptors = (2..2 + self.files).chain([self.sectors - 1]);
        let runs = self.runs(random);
        let parts = named.zip(descriptors).zip(runs);
        let mut files: Vec<File> =
            parts.map(|((name, at), runs)| File::new(name, at, runs, random)).collect();
        let file = files.pop().expect("the called file");
        let called = file.name();
        files.extend(self.before.of(file));
        let mut disk = Disk::of_files(self.sectors, files, random);
        self.before.disorder(&mut disk, unused);
        Full { disk, called, unused, room: self.called.sectors }
    }

    /// The runs of each file, the called one last.
    fn runs(&self, random: &mut Random) -> Vec<Vec<Run>> {
        let shared = self.sectors - 2 - self.files - 1 - self.called.sectors;
        let others = shares(shared, self.files).map(|sectors| (sectors, self.blocks));
        let mut runs: Vec<Vec<Run>> = others
            .chain([(self.called.sectors, self.called.blocks)])
            .map(|(sectors, blocks)| shares(sectors, blocks))
            .map(|lengths| lengths.map(|length| Run { start: 0, length }).collect())
            .collect();
        let mut next = 2 + self.files;
        for (file, block) in order(&runs, random) {
            let run = &mut runs[file][block];
            run.start = next;
            next += run.length;
        }
        runs
    }
}

/// Every block as its file and its number there, in any order but for the last file's first one.
fn order(runs: &[Vec<Run>], random: &mut Random) -> Vec<(usize, usize)> {
    let blocks = runs.iter().enumerate();
    let mut order: Vec<(usize, usize)> =
        blocks.flat_map(|(file, runs)| (0..runs.len()).map(move |block| (file, block))).collect();
    random.shuffle(&mut order);
    let at_the_end = (runs.len() - 1, 0);
    order.sort_by_key(|block| *block == at_the_end);
    order
}

/// A number in parts that differ by one at most.
fn shares(whole: usize, parts: usize) -> impl Iterator<Item = usize> {
    (0..parts).map(move |part| (part + 1) * whole / parts - part * whole / parts)
}

impl Before {
    /// What is there of the called file before the call.
    fn of(self, mut file: File) -> Option<File> {
        file.header[12] = 0x00;
        let start = |run: &&mut Run| run.start;
        match self {
            Before::Data | Before::Renamed | Before::Reversed => {}
            Before::Marked => file.header[12] = MARK,
            Before::Program => {
                file.header[12] = 0x01;
                file.header[16] = 0;
            }
            Before::Absent => return None,
            Before::LacksHighest => {
                file.runs.iter_mut().max_by_key(start)?.length -= 1;
            }
            Before::LacksLowest => {
                let run = file.runs.iter_mut().min_by_key(start)?;
                run.start += 1;
                run.length -= 1;
            }
        }
        file.runs.retain(|run| run.length > 0);
        file.set_count(file.sectors().count());
        Some(file)
    }

    /// Leaves the index of the root out of order, where it is to be so.
    fn disorder(self, disk: &mut Disk, unused: Name) {
        let last = disk.files.last().map_or(0, |file| file.descriptor);
        let index = &mut disk.image[SECTOR_BYTES..][..2 * disk.files.len()];
        match self {
            Before::Renamed => {
                disk.image[SECTOR_BYTES * last..][..10].copy_from_slice(&unused);
            }
            Before::Reversed => {
                index.reverse();
                index.chunks_mut(2).for_each(|number| number.reverse());
            }
            _ => {}
        }
    }
}
