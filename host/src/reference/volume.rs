//! What the bytes of a volume say, field by field, in the order of document 01's layout.
//! Every reading is total: whether it keeps the rules is the judge's to say.

use crate::layout::Layout;
use std::ops::Range;

pub const SECTOR_BYTES: usize = 256;
pub const MOST_SECTORS: usize = 1600;
pub const HEADER_BYTES: usize = 28;
pub const MOST_FILES: usize = 127;
pub const MOST_BLOCKS: usize = 76;

pub type Sector = [u8; SECTOR_BYTES];

/// Ten bytes that compare as unsigned bytes, which is how arrays of `u8` are ordered.
pub type Name = [u8; 10];

/// An image seen as sectors, by the edition of a layout.
#[derive(Clone, Copy)]
pub struct Volume<'image> {
    image: &'image [u8],
    layout: Layout,
}

impl<'image> Volume<'image> {
    pub fn new(image: &'image [u8], layout: Layout) -> Self {
        Volume { image, layout }
    }

    pub fn sectors(self) -> usize {
        self.image.len() / SECTOR_BYTES
    }

    pub fn sector(self, number: usize) -> &'image Sector {
        array(&self.image[number * SECTOR_BYTES..])
    }

    pub fn label(self) -> Label<'image> {
        Label(self.sector(0))
    }

    /// The three entries of the second edition; the first has none.
    pub fn entries(self) -> impl Iterator<Item = DirectoryEntry<'image>> {
        let carried = if self.layout.directories { &self.sector(0)[20..56] } else { &[] };
        carried.chunks_exact(12).map(|bytes| DirectoryEntry(array(bytes)))
    }

    pub fn root(self) -> Directory<'image> {
        Directory { volume: self, index: 1 }
    }

    /// The directory of a number: 0 is the root, 1 to 3 are the entries that are there.
    pub fn directory(self, number: usize) -> Option<Directory<'image>> {
        match number.checked_sub(1) {
            None => Some(self.root()),
            Some(place) => self.entered(self.entries().nth(place)?),
        }
    }

    /// The root, then those of the entries in their order.
    pub fn directories(self) -> impl Iterator<Item = Directory<'image>> {
        let entered = self.entries().filter_map(move |entry| self.entered(entry));
        std::iter::once(self.root()).chain(entered)
    }

    fn entered(self, entry: DirectoryEntry) -> Option<Directory<'image>> {
        (!entry.is_absent()).then(|| Directory { volume: self, index: entry.index() })
    }

    /// The files of all directories, as these have them.
    pub fn files(self) -> impl Iterator<Item = (usize, Descriptor<'image>)> {
        self.directories().flat_map(Directory::files)
    }
}

/// Twelve bytes of sector 0: a directory's name and where its index is.
#[derive(Clone, Copy)]
pub struct DirectoryEntry<'image>(&'image [u8; 12]);

impl<'image> DirectoryEntry<'image> {
    pub fn is_absent(self) -> bool {
        *self.0 == [0; 12]
    }

    pub fn name(self) -> &'image Name {
        array(self.0)
    }

    /// The sector of the index.
    pub fn index(self) -> usize {
        word(self.0[10], self.0[11])
    }
}

/// The root, whose index is sector 1, or a directory of the second edition.
#[derive(Clone, Copy)]
pub struct Directory<'image> {
    volume: Volume<'image>,
    index: usize,
}

impl<'image> Directory<'image> {
    /// The sector of the index.
    pub fn sector(self) -> usize {
        self.index
    }

    pub fn index(self) -> Index<'image> {
        Index(self.volume.sector(self.index))
    }

    /// Each file's descriptor with the sector it lies in, in the order of the index.
    pub fn files(self) -> impl Iterator<Item = (usize, Descriptor<'image>)> {
        let listed = self.index().numbers().take_while(|number| *number != 0);
        listed.map(move |number| (number, Descriptor::new(self.volume.sector(number))))
    }
}

/// Sector 0.
#[derive(Clone, Copy)]
pub struct Label<'image>(&'image Sector);

impl<'image> Label<'image> {
    pub fn disk_name(self) -> &'image Name {
        array(self.0)
    }

    pub fn sectors(self) -> usize {
        word(self.0[10], self.0[11])
    }

    pub fn mark(self) -> &'image [u8; 3] {
        array(&self.0[13..])
    }

    /// Which sectors the map calls taken, eight sectors a byte.
    pub fn map(self) -> impl Iterator<Item = &'static [bool; 8]> + 'image {
        self.0[56..].iter().map(|byte| &BITS[usize::from(*byte)])
    }

    /// The free count: how many bits of the map are zero.
    pub fn free_sectors(self) -> usize {
        self.map().flatten().filter(|taken| !**taken).count()
    }
}

/// Sector 1, or the index of a directory.
#[derive(Clone, Copy)]
pub struct Index<'image>(&'image Sector);

impl<'image> Index<'image> {
    /// All 128 numbers, those after the end of the list among them.
    pub fn numbers(self) -> impl Iterator<Item = usize> + 'image {
        let pairs = self.0.chunks_exact(2);
        pairs.map(|pair| word(pair[0], pair[1]))
    }

    pub fn last(self) -> usize {
        word(self.0[254], self.0[255])
    }
}

/// The sector that describes a file.
#[derive(Clone, Copy)]
pub struct Descriptor<'image>(&'image Sector);

impl<'image> Descriptor<'image> {
    pub const PROGRAM: u8 = 0x01;
    pub const INTERNAL: u8 = 0x02;
    pub const PROTECTED: u8 = 0x08;
    pub const MARKED: u8 = 0x10;
    pub const VARIABLE: u8 = 0x80;

    pub fn new(sector: &'image Sector) -> Self {
        Descriptor(sector)
    }

    /// Bytes 0 to 27.
    pub fn header(self) -> &'image [u8; HEADER_BYTES] {
        array(self.0)
    }

    pub fn name(self) -> &'image Name {
        array(self.0)
    }

    pub fn status(self) -> u8 {
        self.0[12]
    }

    pub fn has(self, bit: u8) -> bool {
        self.status() & bit != 0
    }

    /// c, the number of sectors.
    pub fn sectors(self) -> usize {
        word(self.0[14], self.0[15])
    }

    /// The file's kind; none where it is a program that breaks the rule of its length.
    pub fn kind(self) -> Option<Kind> {
        let record_length = self.0[17];
        let form = if self.has(Self::INTERNAL) { Form::Internal } else { Form::Display };
        if self.has(Self::PROGRAM) {
            Some(Kind::Program { length: self.program_length()? })
        } else if self.has(Self::VARIABLE) {
            Some(Kind::Variable { record_length, form })
        } else {
            Some(Kind::Fixed { record_length, form })
        }
    }

    /// The bytes of a program. End offset 0 means that the last sector is full; with no sector at
    /// all nothing else is allowed.
    fn program_length(self) -> Option<usize> {
        match (self.sectors(), usize::from(self.0[16])) {
            (sectors, 0) => Some(SECTOR_BYTES * sectors),
            (0, _) => None,
            (sectors, end_offset) => Some(SECTOR_BYTES * (sectors - 1) + end_offset),
        }
    }

    pub fn chain(self) -> Chain<'image> {
        Chain(&self.0[HEADER_BYTES..])
    }
}

#[derive(Clone, Copy, Debug, PartialEq, Eq)]
pub enum Kind {
    Program { length: usize },
    Fixed { record_length: u8, form: Form },
    Variable { record_length: u8, form: Form },
}

impl Kind {
    /// What a catalogue gives as the length: a program's bytes, or else the record length.
    pub fn length(self) -> usize {
        match self {
            Kind::Program { length } => length,
            Kind::Fixed { record_length, .. } | Kind::Variable { record_length, .. } => {
                usize::from(record_length)
            }
        }
    }
}

#[derive(Clone, Copy, Debug, PartialEq, Eq)]
pub enum Form {
    Display,
    Internal,
}

/// The part of a descriptor that starts at byte 28: 76 blocks of three bytes.
#[derive(Clone, Copy)]
pub struct Chain<'image>(&'image [u8]);

impl<'image> Chain<'image> {
    /// The blocks before the three zero bytes that end the chain, or all 76.
    pub fn blocks(self) -> impl Iterator<Item = Block> + 'image {
        let fields = self.0.chunks_exact(3).map(Block::fields);
        let used = fields.take_while(|fields| *fields != (0, 0));
        used.scan(0, |next, (start, last)| {
            let first = std::mem::replace(next, last + 1);
            Some(Block { start, first, last })
        })
    }

    /// The bytes from the given block on.
    pub fn from_block(self, number: usize) -> &'image [u8] {
        &self.0[3 * number..]
    }

    /// The sectors of the disk that hold the file's sectors, in the file's order.
    pub fn places(self) -> impl Iterator<Item = usize> + 'image {
        self.blocks().flat_map(Block::places)
    }
}

/// One block of a chain: the file's sectors from `first` to `last`, at places from `start` on.
#[derive(Clone, Copy, Debug, PartialEq, Eq)]
pub struct Block {
    pub start: usize,
    pub first: usize,
    pub last: usize,
}

impl Block {
    /// The start and the last offset that three bytes hold; both are zero only for three zeros.
    fn fields(bytes: &[u8]) -> (usize, usize) {
        let [low, middle, high] = [bytes[0], bytes[1], bytes[2]].map(usize::from);
        (low + 256 * (middle % 16), middle / 16 + 16 * high)
    }

    /// The three bytes that hold the start and the last offset.
    pub fn bytes(self) -> [u8; 3] {
        let middle = self.start / 256 + 16 * (self.last % 16);
        [self.start % 256, middle, self.last / 16].map(|byte| byte as u8)
    }

    /// Meant for a block whose offsets ascend.
    pub fn places(self) -> Range<usize> {
        self.start..self.start + (self.last - self.first) + 1
    }
}

fn word(high: u8, low: u8) -> usize {
    usize::from(u16::from_be_bytes([high, low]))
}

/// The bits of every byte, lowest first.
static BITS: [[bool; 8]; 256] = bits();

const fn bits() -> [[bool; 8]; 256] {
    let mut bits = [[false; 8]; 256];
    let mut number = 0;
    while number < 8 * 256 {
        bits[number / 8][number % 8] = (number / 8) >> (number % 8) & 1 == 1;
        number += 1;
    }
    bits
}

/// The first `N` bytes of a part that has as many.
fn array<const N: usize>(part: &[u8]) -> &[u8; N] {
    part[..N].try_into().expect("a part of N bytes")
}
