//! The memory that is lent to one call of the library, so that all of it can be looked at after.

use super::{Arguments, Given, Written};
use crate::pnoelithe::{Changes, Refusal, WRITES_MOST};
use crate::random::Random;
use crate::volumes::SECTOR_BYTES;

/// How many bytes lie before and behind each part that is lent, and must stay as they are. It is
/// odd, so that no part begins where a machine would like it to.
const MARGIN: usize = 21;

/// Bytes in memory, of which some are lent.
#[derive(Clone, PartialEq, Eq)]
pub(crate) struct Part {
    bytes: Vec<u8>,
    length: usize,
}

impl Part {
    /// All of the bytes are lent.
    fn of(bytes: &[u8], random: &mut Random) -> Self {
        let length = bytes.len();
        let bytes = [&random.bytes(MARGIN), bytes, &random.bytes(MARGIN)].concat();
        Part { bytes, length }
    }

    /// What a call is given, which may be less than all of the bytes.
    fn given(given: &Given, random: &mut Random) -> Self {
        Part { length: given.length, ..Part::of(&given.bytes, random) }
    }

    pub(crate) fn lent(&mut self) -> &mut [u8] {
        &mut self.bytes[MARGIN..][..self.length]
    }

    pub(crate) fn seen(&self) -> &[u8] {
        &self.bytes[MARGIN..][..self.length]
    }

    /// Where this and another part first differ.
    fn difference(&self, what: &str, expected: &Part) -> Option<String> {
        if self == expected {
            // Looking for the place takes far longer.
            return None;
        }
        let mut pairs = self.bytes.iter().zip(&expected.bytes);
        let place = pairs.position(|(found, expected)| found != expected)?;
        let (found, expected) = (self.bytes[place], expected.bytes[place]);
        let place = place as isize - MARGIN as isize;
        let of = self.length;
        Some(format!("{} byte {} (of {}): {}, not {}", what, place, of, found, expected))
    }
}

/// The words of what a call changes: how many sectors differ, which no call says, how many are
/// written, and their numbers.
pub(crate) const CHANGES: usize = 2 + WRITES_MOST;
const WRITES: usize = 1;
const ORDER: usize = 2;

/// These words in memory, with others before and behind.
#[derive(Clone, PartialEq, Eq)]
struct Words([u32; MARGIN + CHANGES + MARGIN]);

impl Words {
    fn lent(&mut self) -> &mut [u32; CHANGES] {
        (&mut self.0[MARGIN..][..CHANGES]).try_into().expect("as many words")
    }

    /// Where these and other words first differ.
    fn difference(&self, expected: &Words) -> Option<String> {
        let mut pairs = self.0.iter().zip(&expected.0);
        let place = pairs.position(|(found, expected)| found != expected)?;
        let (found, expected) = (self.0[place], expected.0[place]);
        let place = place as isize - MARGIN as isize;
        Some(format!("word {} of changes: {}, not {}", place, found, expected))
    }
}

/// All that any call is lent. Packing's source is the image, and its target the buffer.
#[derive(Clone, PartialEq, Eq)]
pub(crate) struct Memory {
    pub image: Part,
    name: Part,
    other: Part,
    buffer: Part,
    /// Behind the pointers, in the order of the C interface.
    numbers: [usize; 4],
    /// Behind those that say of which name, and where it is wrong.
    which: usize,
    wrong: usize,
    changes: Words,
}

/// The memory as a call gets it: whatever is lent is lent mutably, also where the library promises
/// to leave it alone, so that Rust does not take it for unchanged.
pub(crate) struct Lent<'memory> {
    pub image: &'memory mut [u8],
    pub name: &'memory mut [u8],
    pub other: &'memory mut [u8],
    pub buffer: &'memory mut [u8],
    pub numbers: &'memory mut [usize; 4],
    pub which: &'memory mut usize,
    pub wrong: &'memory mut usize,
    pub changes: &'memory mut [u32; CHANGES],
}

impl Lent<'_> {
    /// Lays down what a host in Rust is given by a call that changes the image.
    pub(super) fn lay(self, changed: Result<Changes, Refusal>) -> Result<(), Refusal> {
        let (changes, image) = (changed?, &*self.image);
        let own = |sector: usize| &image[SECTOR_BYTES * sector..][..SECTOR_BYTES];
        let sectors: Vec<usize> = changes.sectors().collect();
        let writes = sectors.iter().map(|sector| (*sector, own(*sector)));
        // With other bytes, or in another order, they are no writes at all.
        let is_same = writes.eq(changes.writes(image));
        set_changes(self.changes, if is_same { &sectors } else { &[] });
        Ok(())
    }
}

/// The words of a call that writes these sectors; all others stay.
fn set_changes(changes: &mut [u32; CHANGES], sectors: &[usize]) {
    changes[WRITES] = sectors.len() as u32;
    for (word, sector) in changes[ORDER..].iter_mut().zip(sectors) {
        *word = *sector as u32;
    }
}

impl Memory {
    /// Everything that a call is to write into is random before.
    pub(crate) fn of(arguments: &Arguments, image: &[u8], random: &mut Random) -> Self {
        let buffer = random.bytes(arguments.room);
        Memory {
            image: Part::of(image, random),
            name: Part::given(&arguments.name, random),
            other: Part::given(&arguments.other, random),
            buffer: Part::of(&buffer, random),
            numbers: [(); 4].map(|()| random.number() as usize),
            which: random.number() as usize,
            wrong: random.number() as usize,
            changes: Words([(); MARGIN + CHANGES + MARGIN].map(|()| random.number() as u32)),
        }
    }

    pub(crate) fn lent(&mut self) -> Lent<'_> {
        Lent {
            image: self.image.lent(),
            name: self.name.lent(),
            other: self.other.lent(),
            buffer: self.buffer.lent(),
            numbers: &mut self.numbers,
            which: &mut self.which,
            wrong: &mut self.wrong,
            changes: self.changes.lent(),
        }
    }

    /// Lays down what a call must have written beside the image.
    pub(crate) fn write(&mut self, written: &Written) {
        self.buffer.lent()[..written.bytes.len()].copy_from_slice(&written.bytes);
        self.numbers[..written.numbers.len()].copy_from_slice(&written.numbers);
        self.which = written.which.unwrap_or(self.which);
        self.wrong = written.wrong.unwrap_or(self.wrong);
        if let Some(writes) = &written.writes {
            set_changes(self.changes.lent(), writes);
        }
    }

    /// Where the memory first is not what it is expected to be.
    pub(super) fn difference(&self, expected: &Memory) -> Option<String> {
        let parts = [
            ("image", &self.image, &expected.image),
            ("name", &self.name, &expected.name),
            ("data or new name", &self.other, &expected.other),
            ("buffer", &self.buffer, &expected.buffer),
        ];
        let mut parts = parts.into_iter();
        let part = parts.find_map(|(what, found, expected)| found.difference(what, expected));
        let changes = &expected.changes;
        let behind = |memory: &Memory| (memory.numbers, memory.which, memory.wrong);
        let (found, expected) = (behind(self), behind(expected));
        let numbers = || format!("numbers, which and wrong {:?}, not {:?}", found, expected);
        let changes = || self.changes.difference(changes);
        part.or_else(|| (found != expected).then(numbers)).or_else(changes)
    }
}
