//! Changes that may break anything, and several faults at once.

use super::editions::of_both;
use super::{edit, in_descriptor, Change, Damage, Edit, Verdict, INDEX_PLACES, SEVERAL};
use crate::random::Random;
use crate::volumes::{word, ENTRIES, HEADER_BYTES, MAP, SECTOR_BYTES};

impl Damage<'_> {
    pub(super) fn bytes_at_random(&mut self, random: &mut Random) {
        for _ in 0..6 {
            let edits = (0..random.within(1..=4)).map(|_| {
                let at = self.judged_byte(random);
                let one_bit = self.disk.image[at] ^ (1 << random.below(8));
                edit(at, &[if random.once_in(2) { one_bit } else { random.byte() }])
            });
            let edits = edits.collect();
            self.keep("bytes at random", None, edits);
        }
        let index = self.index(random.pick(&self.disk.numbers()));
        for at in [0, index] {
            self.keep("random sector", None, vec![edit(at, &random.bytes(SECTOR_BYTES))]);
        }
        let entries = random.bytes(MAP - ENTRIES);
        self.keep_entries("random entries", 3, vec![edit(ENTRIES, &entries)]);
        let numbers = (0..INDEX_PLACES - 1).map(|_| word(random.within(2..=self.disk.sectors - 1)));
        let mut numbers: Vec<u8> = numbers.flatten().collect();
        numbers.truncate(2 * random.within(1..=INDEX_PLACES - 1));
        self.keep("index of random numbers", None, vec![edit(index, &numbers)]);
        if let Some(file) = self.some_file(random) {
            let at = in_descriptor(file, 0);
            self.keep("random descriptor", None, vec![edit(at, &random.bytes(SECTOR_BYTES))]);
            self.keep("random header", None, vec![edit(at, &random.bytes(HEADER_BYTES))]);
        }
        if random.once_in(8) {
            let image = random.bytes(self.disk.image.len());
            self.keep("random image", None, vec![edit(0, &image)]);
        }
    }

    /// A byte of sector 0, an index or a descriptor.
    fn judged_byte(&self, random: &mut Random) -> usize {
        let directory = random.pick(&self.disk.numbers());
        let sector = match (random.below(4), self.some_file(random)) {
            (0, _) => 0,
            (2 | 3, Some(file)) => file.descriptor,
            _ => self.disk.index_of(directory),
        };
        SECTOR_BYTES * sector + random.below(SECTOR_BYTES)
    }

    /// Faults of several numbers at once: the first in order is given.
    pub(super) fn combined(&mut self, random: &mut Random) {
        let single: Vec<Change> =
            self.changes.iter().filter(|change| stays(change)).cloned().collect();
        for _ in 0..30 {
            let (one, other) = (random.below(single.len()), random.below(single.len()));
            self.changes.extend(self.both(&single[one], &single[other]));
        }
        // Names out of order, and what a repair finds behind that.
        let (disorder, behind): (Vec<&Change>, Vec<&Change>) = single
            .iter()
            .filter(|change| change.own == Verdict::DISORDER || change.own.judged > Some(4))
            .partition(|change| change.own == Verdict::DISORDER);
        for _ in 0..if disorder.is_empty() || behind.is_empty() { 0 } else { 10 } {
            let (one, other) = (random.pick(&disorder), random.pick(&behind));
            self.changes.extend(self.both(one, other));
        }
    }

    fn both(&self, one: &Change, other: &Change) -> Option<Change> {
        let apart = one.edits.iter().all(|edit| !other.edits.iter().any(|also| edit.meets(also)));
        if one.own.judged >= other.own.judged || !apart {
            return None;
        }
        let edits = [&one.edits[..], &other.edits[..]].concat();
        let own = Verdict { repaired: self.repaired_both(one, other), ..one.own };
        let by_both = of_both(one.other, other.other).filter(|_| self.disk.has_directories());
        let other = by_both.unwrap_or_else(|| self.roles.by_other(self.disk, own, &edits));
        // Only faults of number 1 and 2 change the length, so the other's is the disk's own or is
        // of no account beside number 1.
        Some(Change { what: SEVERAL, own, other, edits, length: one.length })
    }

    /// Where the order of names is mended, the other fault is left, unless it brings other names
    /// into an index.
    fn repaired_both(&self, one: &Change, other: &Change) -> Option<u32> {
        let is_of_index = |edit: &Edit| {
            let indexes = self.disk.numbers().into_iter().map(|number| self.index(number));
            indexes.map(|index| index..index + SECTOR_BYTES).any(|index| edit.touches(&index))
        };
        if one.own != Verdict::DISORDER {
            one.own.repaired
        } else {
            other.own.repaired.filter(|_| !other.edits.iter().any(is_of_index))
        }
    }
}

/// Whether a fault goes with others: not where number 6 comes of a file taken away or moved, or a
/// later one than 3 of a directory that is elsewhere, which may take another fault with it.
fn stays(change: &Change) -> bool {
    let is_of_entries = change.edits.iter().any(|edit| edit.touches(&(ENTRIES..MAP)));
    match change.own.judged {
        Some(4..=6) if is_of_entries => false,
        Some(6) => change.edits.iter().all(|edit| edit.at < SECTOR_BYTES),
        Some(number) => number > 0,
        None => false,
    }
}
