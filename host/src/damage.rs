//! Changes of a sound disk, each aimed at one sentence of document 01, with the number that the
//! paper gives for the changed image by the new rule, by which every sound disk is one, and by the
//! edition that the disk is planned for. The number follows from the disk's plan and from the
//! sentence, never from a judge; what the other edition gives follows from it.

mod carried;
mod chain;
mod chance;
mod descriptor;
pub(crate) mod editions;
mod entries;
mod holders;
mod index;
mod label;
mod map;
mod values;

use crate::layout::Layout;
use crate::random::Random;
use crate::volumes::{Disk, File, Name, HEADER_BYTES, SECTOR_BYTES};
use editions::Roles;
use std::ops::Range;

const INDEX_PLACES: usize = 128;

/// What is done where several changes are one.
pub(crate) const SEVERAL: &str = "several faults";

/// Bytes put over the image at a place.
#[derive(Clone, Debug)]
pub struct Edit {
    pub at: usize,
    pub bytes: Vec<u8>,
}

impl Edit {
    fn meets(&self, other: &Edit) -> bool {
        self.touches(&(other.at..other.at + other.bytes.len()))
    }

    fn touches(&self, bytes: &Range<usize>) -> bool {
        self.at < bytes.end && bytes.start < self.at + self.bytes.len()
    }
}

/// What the paper gives for an image, where that is settled.
#[derive(Clone, Copy, Debug, PartialEq, Eq)]
pub struct Verdict {
    /// By the judge.
    pub judged: Option<u32>,
    /// By a repair: it is 0 also where the map is all that is wrong, or the order of names that
    /// differ.
    pub repaired: Option<u32>,
}

impl Verdict {
    /// Of an image with this number, which is not 4 for the order of names alone.
    pub(crate) fn of(number: Option<u32>) -> Self {
        let repaired = number.map(|number| if number == 6 { 0 } else { number });
        Verdict { judged: number, repaired }
    }

    /// Where nothing is wrong but that distinct names do not ascend.
    const DISORDER: Verdict = Verdict { judged: Some(4), repaired: Some(0) };
}

/// A changed image, as what is to be done to a disk's own.
#[derive(Clone, Debug)]
pub struct Change {
    /// What was done, for a report.
    pub what: &'static str,
    /// What the paper gives for the changed image by the new rule and the disk's edition, where the
    /// change settles it.
    pub own: Verdict,
    /// The same by the other edition.
    pub other: Verdict,
    pub edits: Vec<Edit>,
    /// The length in bytes of the changed image.
    pub length: usize,
}

/// Collects changes of one disk.
pub struct Damage<'disk> {
    disk: &'disk Disk,
    roles: Roles,
    pub changes: Vec<Change>,
}

impl<'disk> Damage<'disk> {
    pub fn new(disk: &'disk Disk) -> Self {
        Damage { disk, roles: Roles::of(disk), changes: Vec::new() }
    }

    /// A few changes of every sort.
    pub fn of_every_sort(&mut self, random: &mut Random) {
        self.lengths(random);
        self.disk_name(random);
        self.label();
        self.carried(random);
        self.entries(random);
        for directory in self.disk.numbers() {
            self.index_numbers(directory, random);
            self.index_end(directory, random);
            self.order_of_names(directory, random);
            for _ in 0..2 {
                self.order_of_numbers(directory, random);
            }
        }
        self.listed_elsewhere(random);
        if let Some(file) = self.some_file(random) {
            self.file_name(file, random);
            self.status(file, random);
            self.end_offset(file, random);
            self.count(file);
            self.block_bytes(file, random);
            self.chain_end(file, random);
            self.other_holders(file, random);
        }
        for _ in 0..3 {
            self.some_file(random).into_iter().for_each(|file| self.two_holders(file, random));
        }
        self.map_bits(random);
        self.whole_map(random);
        self.bytes_at_random(random);
        self.combined(random);
    }

    /// Keeps a change, which is of no number 4 that a repair would mend.
    fn keep(&mut self, what: &'static str, number: Option<u32>, edits: Vec<Edit>) {
        self.keep_as(what, Verdict::of(number), edits);
    }

    /// Keeps any change; one that alters nothing leaves the disk sound.
    fn keep_as(&mut self, what: &'static str, own: Verdict, edits: Vec<Edit>) {
        let image = &self.disk.image;
        let same = edits.iter().all(|edit| image[edit.at..].starts_with(&edit.bytes));
        let own = if same { Verdict::of(Some(0)) } else { own };
        let other = self.roles.by_other(self.disk, own, &edits);
        self.changes.push(Change { what, own, other, edits, length: image.len() });
    }

    fn put(&mut self, what: &'static str, number: u32, at: usize, bytes: &[u8]) {
        self.keep(what, Some(number), vec![edit(at, bytes)]);
    }

    /// The same in a file's header, without its name and its count: then the kind decides.
    fn put_in_header(&mut self, what: &'static str, file: &File, byte: usize, bytes: &[u8]) {
        let mut changed = file.clone();
        changed.header[byte..][..bytes.len()].copy_from_slice(bytes);
        let number = if changed.is_of_a_kind(Layout::MARKS) { 0 } else { 4 };
        self.put(what, number, in_descriptor(file, byte), bytes);
    }

    /// Of any directory, and in each as often.
    fn some_file(&self, random: &mut Random) -> Option<&'disk File> {
        let directory = random.pick(&self.disk.numbers());
        let own: Vec<&File> = self.disk.files_in(directory).collect();
        let files = if own.is_empty() { self.disk.files.iter().collect() } else { own };
        (!files.is_empty()).then(|| files[random.below(files.len())])
    }

    /// Where the index of a directory begins.
    fn index(&self, directory: usize) -> usize {
        SECTOR_BYTES * self.disk.index_of(directory)
    }

    /// Where it has the number of a file.
    fn in_index(&self, file: &File) -> usize {
        let mut listed = self.disk.files_in(file.directory);
        let place = listed.position(|other| other.descriptor == file.descriptor);
        self.index(file.directory) + 2 * place.expect("a file of the disk")
    }
}

fn edit(at: usize, bytes: &[u8]) -> Edit {
    Edit { at, bytes: bytes.to_vec() }
}

fn in_descriptor(file: &File, byte: usize) -> usize {
    SECTOR_BYTES * file.descriptor + byte
}

fn in_chain(file: &File, block: usize) -> usize {
    in_descriptor(file, HEADER_BYTES + 3 * block)
}

/// A byte no name may have, at any place: the edges of what is allowed, and the dot.
const NO_LETTERS: [u8; 7] = [0, 31, 46, 127, 128, 160, 255];

/// Names that differ from a given one in one place, and blank ones.
pub(crate) fn changed_names(name: Name, random: &mut Random) -> Vec<Name> {
    let mut changed = vec![[32; 10], [0; 10], *b" A        ", *b"A B       ", *b"A.B       "];
    for place in 0..10 {
        for byte in [random.pick(&NO_LETTERS), 32, random.pick(&[33, 45, 47, 126])] {
            let mut other = name;
            other[place] = byte;
            changed.push(other);
        }
    }
    changed
}
