//! Arguments of any call, and how those that several calls have are made by chance: good ones, ones
//! at the edges, and ones that are wrong in every way that the paper knows.

use super::plan::is_protected;
use crate::damage::changed_names;
use crate::layout::Layout;
use crate::pnoelithe;
use crate::random::Random;
use crate::volumes::{names, Disk, File, Name, MOST_DIRECTORIES, SECTOR_BYTES};
use std::fmt::{self, Debug, Formatter};

/// Each call takes some of these.
#[derive(Clone, Debug)]
pub(crate) struct Arguments {
    /// The layout as it crosses, with bits that are not looked at.
    pub layout_bits: u32,
    /// 0 for the root, or the number of an entry, which may be any.
    pub directory: usize,
    /// Of the disk, or of the file that is read, made or changed.
    pub name: Given,
    /// What else is lent to be read: data, a program's bytes or a new name.
    pub other: Given,
    /// n, a place in the catalogue or an offset in the file.
    pub at: usize,
    /// The drive's numbers; or a status, a record length and records per sector.
    pub bytes: [u8; 4],
    /// The length of the buffer that is lent for the answer.
    pub room: usize,
}

/// What a call has that takes none; others are this but for what they take.
pub(crate) const NONE: Arguments = Arguments {
    layout_bits: 0,
    directory: 0,
    name: Given::NOTHING,
    other: Given::NOTHING,
    at: 0,
    bytes: [0; 4],
    room: 0,
};

impl Arguments {
    /// The same by a layout, all other bits being by chance.
    pub(crate) fn by(self, layout: Layout, random: &mut Random) -> Self {
        let others = random.number() as u32 & !Layout::MARKS_AND_DIRECTORIES.bits();
        Arguments { layout_bits: layout.bits() | others, ..self }
    }

    pub(crate) fn layout(&self) -> Layout {
        Layout::of_bits(self.layout_bits)
    }

    pub(super) fn layout_for_host(&self) -> pnoelithe::Layout {
        self.layout().for_host()
    }
}

/// A name, or data to write, as it is lent: so many of the bytes, with more behind them that do not
/// count.
#[derive(Clone)]
pub(crate) struct Given {
    pub(super) bytes: Vec<u8>,
    pub(super) length: usize,
}

impl Given {
    const NOTHING: Given = Given { bytes: Vec::new(), length: 0 };

    pub(crate) fn whole(bytes: &[u8]) -> Self {
        Given::front(bytes, bytes.len())
    }

    /// So many of the bytes are lent.
    pub(crate) fn front(bytes: &[u8], length: usize) -> Self {
        Given { bytes: bytes.to_vec(), length }
    }

    pub(crate) fn lent(&self) -> &[u8] {
        &self.bytes[..self.length]
    }

    /// The name that was lent, of a call that is done.
    pub(crate) fn name(&self) -> Name {
        self.lent().try_into().expect("ten bytes")
    }
}

impl Debug for Given {
    fn fmt(&self, out: &mut Formatter) -> fmt::Result {
        let first = &self.lent()[..self.length.min(12)];
        write!(out, "{} bytes \"{}\"", self.length, first.escape_ascii())
    }
}

/// What arguments are made for: a disk, an image that may be the disk's and changed since, the
/// layout, and a directory, which need not be there.
pub(crate) struct Desk<'made> {
    pub disk: &'made Disk,
    pub layout: Layout,
    pub directory: usize,
    pub image_bytes: usize,
    /// Names for new files, so that a name that was deleted comes again.
    pub pool: &'made [Name],
}

impl Desk<'_> {
    /// Mostly one that is there, else an entry that is absent or a number that no entry has.
    pub(super) fn any_directory(&self, random: &mut Random) -> usize {
        let wrong = |random: &mut Random| match random.below(4) {
            0 | 1 => random.within(1..=MOST_DIRECTORIES),
            2 => random.pick(&[4, 5, 255, usize::MAX, usize::MAX - 1, usize::MAX / 2 + 1]),
            _ => beyond(random.below(4), random),
        };
        match self.layout.directories {
            true if random.once_in(6) => wrong(random),
            true => random.pick(&self.disk.numbers()),
            false if random.once_in(9) => wrong(random),
            false => 0,
        }
    }

    /// The files of the directory; where there is none of that number, the root's.
    pub(super) fn files(&self) -> Vec<&File> {
        let directory = if self.disk.has(self.directory) { self.directory } else { 0 };
        self.disk.files_in(directory).collect()
    }

    /// A file of the directory that keeps a rule, or any where none does.
    pub(super) fn some_file(
        &self,
        rule: impl Fn(&File) -> bool,
        random: &mut Random,
    ) -> Option<&File> {
        let all = self.files();
        let kept: Vec<&File> = all.iter().copied().filter(|file| rule(file)).collect();
        let files = if kept.is_empty() { all } else { kept };
        (!files.is_empty()).then(|| files[random.below(files.len())])
    }

    /// The name of a file that keeps a rule, of any file or of none; mostly as it is.
    pub(super) fn present(&self, rule: impl Fn(&File) -> bool, random: &mut Random) -> Given {
        let any = random.once_in(6);
        let file = self.some_file(|file| any || rule(file), random);
        let name = file.map_or_else(|| names(1, random)[0], File::name);
        as_it_is_or_not(name, random)
    }

    /// A name that no file has, more often than not.
    pub(super) fn new_name(&self, random: &mut Random) -> Given {
        let name = match (random.below(10), self.some_file(|_| true, random)) {
            (0, Some(file)) => file.name(),
            (1 | 2, Some(file)) => neighbour(file.name(), random),
            (3, _) => return self.name_of_any_file(random),
            (4 | 5, _) => names(1, random)[0],
            _ => random.pick(self.pool),
        };
        as_it_is_or_not(name, random)
    }

    /// Mostly of a file of another directory where there are any.
    pub(super) fn name_of_any_file(&self, random: &mut Random) -> Given {
        let all = &self.disk.files;
        let file = (!all.is_empty()).then(|| &all[random.below(all.len())]);
        as_it_is_or_not(file.map_or_else(|| names(1, random)[0], File::name), random)
    }

    /// The same; where a fault is likely that comes after the name's, often a malformed name or
    /// that of a file, so that both faults come together.
    pub(super) fn name_where(&self, is_fault_likely: bool, random: &mut Random) -> Given {
        if !is_fault_likely || !random.once_in(4) {
            return self.new_name(random);
        }
        match self.some_file(|_| true, random) {
            Some(file) if random.once_in(2) => Given::whole(&file.name()),
            _ => malformed(random),
        }
    }
}

fn as_it_is_or_not(name: Name, random: &mut Random) -> Given {
    if random.once_in(3) {
        given_name(name, random)
    } else {
        Given::whole(&name)
    }
}

/// Whether a sector of the file can be written.
pub(super) fn is_open_data(file: &File) -> bool {
    file.count() > 0 && !is_protected(file) && !file.is_program()
}

/// The name of a file, or any at all, mostly as it is.
pub(super) fn name_for(file: Option<&File>, random: &mut Random) -> Given {
    let name = file.map_or_else(|| names(1, random)[0], File::name);
    given_name(name, random)
}

/// Mostly the name itself; else one of the wrong length, a malformed one or another one.
pub(super) fn given_name(name: Name, random: &mut Random) -> Given {
    match random.below(14) {
        0 => of_other_length(name, random),
        1 | 2 => {
            let changed = changed_names(name, random);
            Given::whole(&changed[random.below(changed.len())])
        }
        3 => {
            // The high bit and the case of a letter among them.
            let mut other = name;
            other[random.below(10)] ^= 1 << random.below(8);
            Given::whole(&other)
        }
        4 => Given::whole(&names(1, random)[0]),
        _ => Given::whole(&name),
    }
}

/// The bytes of a name, too few or too many of them lent; those behind it are spaces, so that it
/// would do but for its length.
fn of_other_length(name: Name, random: &mut Random) -> Given {
    let used = name.iter().take_while(|byte| **byte != b' ').count();
    let length = match random.below(8) {
        0 => 0,
        1 => 9,
        2 => 11,
        3 => 20,
        4 => 256 + 10,
        5 => 65_536 + 10,
        _ if used < 10 => used,
        _ => random.below(10),
    };
    let mut bytes = name.to_vec();
    bytes.resize(length.max(10), b' ');
    Given::front(&bytes, length)
}

pub(super) fn malformed(random: &mut Random) -> Given {
    Given::whole(&random.pick(&[[b' '; 10], *b"A.B       ", *b"A B       "]))
}

/// A name with another last letter.
fn neighbour(mut name: Name, random: &mut Random) -> Name {
    let used = name.iter().take_while(|byte| **byte != b' ').count();
    name[used - 1] = random.pick(b"!-/09AZaz~");
    name
}

/// The drive's numbers.
pub(crate) fn four_bytes(random: &mut Random) -> [u8; 4] {
    [(); 4].map(|()| random.byte())
}

/// A sector's bytes, or now and then some others.
pub(super) fn data(random: &mut Random) -> Given {
    let length = match random.below(24) {
        0 => 0,
        1 => random.pick(&[1, 254, 255]),
        2 => random.pick(&[257, 258, 512]),
        3 => random.pick(&[65_536, 65_536 + SECTOR_BYTES]),
        _ => SECTOR_BYTES,
    };
    Given::whole(&random.bytes(length))
}

/// A buffer's length: as asked for, one byte off, none, less or more.
pub(super) fn room_for(length: usize, random: &mut Random) -> usize {
    match random.below(8) {
        0 => 0,
        1 => length.saturating_sub(1),
        2 => random.below(length + 1),
        3 => length + 1,
        4 => length + random.below(600),
        _ => length,
    }
}

/// A number below a bound, more often than not, or one at or past it.
pub(super) fn around(bound: usize, random: &mut Random) -> usize {
    match random.below(12) {
        0 | 1 => bound,
        2 => bound + 1 + random.below(300),
        3 => beyond(random.below(bound.max(1)), random),
        4 => usize::MAX - random.below(3),
        5 => bound.saturating_sub(1),
        _ => random.below(bound.max(1)),
    }
}

/// A number that is the given one once it is cut to fewer bits, or once it has been multiplied by
/// the bytes of a sector or of an index place.
pub(super) fn beyond(number: usize, random: &mut Random) -> usize {
    number.wrapping_add(1 << random.pick(&[8, 12, 16, 31, 32, 56, 63]))
}
