//! Number 4 but for the chain: names and their order, status, the end offset of a program without
//! sectors, the number of sectors.

use super::{changed_names, edit, in_descriptor, Damage, Verdict};
use crate::random::Random;
use crate::volumes::{is_name, word, File, Name, DATA_STATUS, MARK, PROGRAM_STATUS};
use std::collections::BTreeSet;

impl Damage<'_> {
    pub(super) fn file_name(&mut self, file: &File, random: &mut Random) {
        for changed in changed_names(file.name(), random) {
            let listed = self.disk.files_in(file.directory);
            let names = listed.map(|other| match other.descriptor {
                own if own == file.descriptor => changed,
                _ => other.name(),
            });
            let names: Vec<Name> = names.collect();
            let ascending = names.windows(2).all(|pair| pair[0] < pair[1]);
            let are_distinct = names.iter().collect::<BTreeSet<_>>().len() == names.len();
            let own = match (is_name(&changed), ascending, are_distinct) {
                (true, true, _) => Verdict::of(Some(0)),
                (true, false, true) => Verdict::DISORDER,
                _ => Verdict::of(Some(4)),
            };
            self.keep_as("file name", own, vec![edit(in_descriptor(file, 0), &changed)]);
        }
    }

    pub(super) fn status(&mut self, file: &File, random: &mut Random) {
        let wrong = [0x03, 0x04, 0x0B, 0x20, 0x40, 0x81, 0x83, 0x89, 0x8B, 0xEF];
        let right = DATA_STATUS.into_iter().chain(PROGRAM_STATUS);
        for status in wrong.into_iter().chain(right).chain([random.byte()]) {
            self.put_in_header("status", file, 12, &[status]);
            self.put_in_header("status with the mark", file, 12, &[status | MARK]);
        }
    }

    pub(super) fn end_offset(&mut self, file: &File, random: &mut Random) {
        for end_offset in [0, 1, 128, 255, random.byte()] {
            self.put_in_header("end offset", file, 16, &[end_offset]);
        }
    }

    pub(super) fn count(&mut self, file: &File) {
        let count = file.count();
        let [high, low] = word(count);
        let at = in_descriptor(file, 14);
        for other in [count + 1, count + 0xFFFF, count ^ 0x100, count ^ 0x1000, 4096, 0] {
            self.put("number of sectors", 4, at, &word(other % 0x10000));
        }
        self.put("number of sectors low byte first", 4, at, &[low, high]);
    }

    pub(super) fn order_of_names(&mut self, directory: usize, random: &mut Random) {
        let files: Vec<&File> = self.disk.files_in(directory).collect();
        if files.len() < 2 {
            return;
        }
        for place in [0, files.len() - 2, random.below(files.len() - 1)] {
            let (file, next) = (files[place], files[place + 1]);
            let at = self.in_index(file);
            let (own, other) = (word(file.descriptor), word(next.descriptor));
            let swapped = vec![edit(at, &[other, own].concat())];
            self.keep_as("numbers swapped", Verdict::DISORDER, swapped);
            self.put("number repeated", 4, at + 2, &own);
            self.put("number repeated before its place", 4, at, &other);
            self.put("name repeated", 4, in_descriptor(next, 0), &file.name());
            let (own, other) = (in_descriptor(file, 0), in_descriptor(next, 0));
            let swapped = vec![edit(own, &next.name()), edit(other, &file.name())];
            self.keep_as("names swapped", Verdict::DISORDER, swapped);
        }
        let first = word(files[0].descriptor);
        let last = self.in_index(files[files.len() - 1]);
        self.put("first number again as the last", 4, last, &first);
    }

    /// The numbers of an index in other orders, and numbers and names that stand there twice.
    pub(super) fn order_of_numbers(&mut self, directory: usize, random: &mut Random) {
        let files: Vec<&File> = self.disk.files_in(directory).collect();
        if files.len() < 2 {
            return;
        }
        let numbers: Vec<usize> = files.iter().map(|file| file.descriptor).collect();
        let one = random.below(files.len());
        let other = (one + random.within(1..=files.len() - 1)) % files.len();
        let mut exchanged = numbers.clone();
        exchanged.swap(one, other);
        let mut rotated = numbers.clone();
        rotated.rotate_left(random.within(1..=files.len() - 1));
        // One number moved to another place, the others in their order.
        let mut displaced = numbers.clone();
        let moved = displaced.remove(one);
        displaced.insert(other, moved);
        let reversed: Vec<usize> = numbers.iter().rev().copied().collect();
        let mut shuffled = numbers;
        random.shuffle(&mut shuffled);
        let orders = [
            ("numbers exchanged", exchanged),
            ("numbers rotated", rotated),
            ("number displaced", displaced),
            ("numbers reversed", reversed),
            ("numbers shuffled", shuffled),
        ];
        let index = self.index(directory);
        for (what, numbers) in orders {
            let bytes: Vec<u8> = numbers.into_iter().flat_map(word).collect();
            self.keep_as(what, Verdict::DISORDER, vec![edit(index, &bytes)]);
        }
        if one.abs_diff(other) > 1 {
            let (own, other) = (files[one], files[other]);
            let (at, name) = (self.in_index(other), own.name());
            self.put("number repeated apart", 4, at, &word(own.descriptor));
            self.put("name repeated apart", 4, in_descriptor(other, 0), &name);
        }
    }
}
