//! What the paper says of calls that write in so many words, each shown with a short sequence by
//! each rule: case M and the bench cases 6, 7, 9, 11, 12 and 13; every status, which chance might
//! leave out; which calls set the backup mark, leave it and clear it; and what directories there
//! are.

use super::sequence::Sequence;
use crate::layout::Layout;
use crate::paper::{all_shown, put_directories, CASE_M, CASE_M_MARKED};
use crate::pnoelithe::{catalogue, padded, summary, Refusal};
use crate::random::Random;
use crate::table::{Arguments, Call, Given, Rules, CALLS, NONE};
use crate::table::{
    APPEND, CLEAR_MARK, CREATE, DELETE, FORMAT, LISTING, OVERWRITE, PROTECT, RENAME, STORE,
    UNPROTECT,
};
use crate::tally::Tally;
use crate::volumes::{Disk, MOST_DIRECTORIES, MOST_FILES, SECTOR_BYTES};

pub(super) fn cases(random: &mut Random, tally: &mut Tally) -> Result<(), String> {
    for layout in Layout::ALL {
        let mut bench = Bench { layout, random, tally };
        all_shown(&[
            ("case M and bench cases 6, 7 and 9", bench.case_m()?),
            ("bench case 11", bench.case_11()?),
            ("bench case 12", bench.case_12()?),
            ("bench case 13", bench.case_13()?),
            ("the four statuses of create", bench.statuses()?),
            ("which calls set the mark, leave it and clear it", bench.marks()?),
            ("that a mark is 4 by the old rule and not by the new one", bench.marked()?),
            ("two directories", bench.directories()?),
            ("that a directory is 6 by the first edition", bench.by_first_edition()?),
            ("which directories there are", bench.which_directories()?),
            ("127 files in each directory", bench.full_directories()?),
        ])
        .map_err(|wrong| format!("{}, by {:?}", wrong, layout))?;
    }
    Ok(())
}

struct Bench<'comparison> {
    layout: Layout,
    random: &'comparison mut Random,
    tally: &'comparison mut Tally,
}

impl Bench<'_> {
    /// An empty volume that the library formatted.
    fn formatted(&mut self, sectors: usize) -> Result<Sequence, String> {
        let image = self.random.bytes(SECTOR_BYTES * sectors);
        let directories = [None; MOST_DIRECTORIES];
        let disk = Disk { sectors, directories, files: Vec::new(), image };
        let mut sequence = Sequence::on(disk);
        let (name, bytes) = (named("SHELF"), [9, 40, 1, 1]);
        let arguments = Arguments { name, at: sectors, bytes, ..NONE };
        self.call(&mut sequence, &FORMAT, arguments)?;
        Ok(sequence)
    }

    fn call(
        &mut self,
        sequence: &mut Sequence,
        call: &'static Call,
        arguments: Arguments,
    ) -> Result<u32, String> {
        let arguments = arguments.by(self.layout, self.random);
        sequence.call(call, &arguments, self.random, self.tally)
    }

    fn store(&mut self, sequence: &mut Sequence, name: &str, length: usize) -> Result<u32, String> {
        let other = Given::whole(&self.random.bytes(length));
        let arguments = Arguments { name: named(name), other, ..NONE };
        self.call(sequence, &STORE, arguments)
    }

    fn create(&mut self, sequence: &mut Sequence, name: &str, status: u8) -> Result<u32, String> {
        let bytes = [status, 80, 3, 0];
        let arguments = Arguments { name: named(name), bytes, ..NONE };
        self.call(sequence, &CREATE, arguments)
    }

    fn append(&mut self, sequence: &mut Sequence, name: &str) -> Result<u32, String> {
        let other = Given::whole(&self.random.bytes(SECTOR_BYTES));
        let arguments = Arguments { name: named(name), other, ..NONE };
        self.call(sequence, &APPEND, arguments)
    }

    /// "ALPHA's descriptor in sector 2, block 22 10 00; NOTES in 3, data in 36"; "byte 56 is 0F,
    /// byte 60 is 1C"; "300 bytes: 2 sectors, end offset 44".
    fn case_m(&mut self) -> Result<bool, String> {
        let mut sequence = self.formatted(64)?;
        let numbers = [
            self.store(&mut sequence, "ALPHA", 300)?,
            self.create(&mut sequence, "NOTES", 0x80)?,
            self.append(&mut sequence, "NOTES")?,
        ];
        let image = &sequence.disk.image;
        let (alpha, notes) = (image[512..768].to_vec(), image[768..1024].to_vec());
        let placed = alpha[..5] == *b"ALPHA" && alpha[28..31] == [0x22, 0x10, 0x00];
        let listed = notes[..5] == *b"NOTES" && notes[28..31] == [0x24, 0x00, 0x00];
        let map = image[56] == 0x0F && image[60] == 0x1C;
        let length = alpha[14..17] == [0, 2, 44];
        let listing = if self.layout.marks { CASE_M_MARKED } else { CASE_M };
        let is_listed = catalogue(image, self.layout.for_host(), 0) == Ok(listing.to_string());
        Ok(numbers == [0; 3] && placed && listed && map && length && is_listed)
    }

    /// "Two sectors stored on an empty 35-sector volume: blocks 34 then 3."
    fn case_11(&mut self) -> Result<bool, String> {
        let mut sequence = self.formatted(35)?;
        let number = self.store(&mut sequence, "TWO", 300)?;
        let chain = &sequence.disk.image[2 * SECTOR_BYTES + 28..][..9];
        Ok(number == 0 && *chain == [34, 0, 0, 3, 0x10, 0, 0, 0, 0])
    }

    /// "127 files: the next create gives 11, also when the disk is full."
    fn case_12(&mut self) -> Result<bool, String> {
        let mut shown = true;
        for spare in [0, 1, 2, 10] {
            let mut sequence = self.formatted(2 + MOST_FILES + spare)?;
            for file in 0..MOST_FILES {
                shown &= self.create(&mut sequence, &format!("F{}", file), 0x00)? == 0;
            }
            for _ in 0..30 {
                shown &= self.create(&mut sequence, "ONEMORE", 0x00)? == 11;
                shown &= self.store(&mut sequence, "ONEMORE", 0)? == 11;
            }
        }
        Ok(shown)
    }

    /// "32,768 bytes store; 32,769 give 15."
    fn case_13(&mut self) -> Result<bool, String> {
        let mut sequence = self.formatted(360)?;
        let numbers = [
            self.store(&mut sequence, "MOST", 32_768)?,
            self.store(&mut sequence, "MORE", 32_769)?,
        ];
        Ok(numbers == [0, 15])
    }

    /// "status 00, 02, 80 or 82 hex"
    fn statuses(&mut self) -> Result<bool, String> {
        let mut shown = true;
        let mut sequence = self.formatted(300)?;
        for status in 0..=255 {
            let number = self.create(&mut sequence, &format!("S{}", status), status)?;
            shown &= number == if status & 0x7D == 0 { 0 } else { 15 };
        }
        Ok(shown)
    }

    /// "create, store, append, overwrite, rename [..] set it; a new call clears it. Protecting
    /// leaves it." For each step its number and the status then; by the old rule that has no mark.
    fn marks(&mut self) -> Result<bool, String> {
        let data = Given::whole(&self.random.bytes(SECTOR_BYTES));
        let old = Arguments { name: named("OLD"), other: named("NEW"), ..NONE };
        let new = Arguments { name: named("NEW"), other: data.clone(), ..NONE };
        let written = Arguments { other: data, ..old.clone() };
        let created = Arguments { bytes: [0x82, 80, 3, 0], ..old.clone() };
        let wrongly = Arguments { bytes: [0x12, 80, 3, 0], ..new.clone() };
        let steps: [(&Call, &Arguments, u32, u8); 23] = [
            (&CREATE, &created, 0, 0x92),
            (&CLEAR_MARK, &old, 0, 0x82),
            (&APPEND, &written, 0, 0x92),
            (&APPEND, &written, 0, 0x92),
            (&CLEAR_MARK, &old, 0, 0x82),
            (&CLEAR_MARK, &old, 0, 0x82),
            (&PROTECT, &old, 0, 0x8A),
            (&UNPROTECT, &old, 0, 0x82),
            (&OVERWRITE, &written, 0, 0x92),
            (&OVERWRITE, &written, 0, 0x92),
            (&PROTECT, &old, 0, 0x9A),
            (&CLEAR_MARK, &old, 0, 0x8A),
            (&OVERWRITE, &written, 10, 0x8A),
            (&RENAME, &old, 10, 0x8A),
            (&UNPROTECT, &old, 0, 0x82),
            (&RENAME, &old, 0, 0x92),
            (&UNPROTECT, &new, 0, 0x92),
            (&PROTECT, &new, 0, 0x9A),
            (&APPEND, &new, 10, 0x9A),
            (&CLEAR_MARK, &old, 8, 0x9A),
            (&STORE, &written, 0, 0x9A),
            (&CREATE, &wrongly, 9, 0x9A),
            (&CLEAR_MARK, &new, 0, 0x8A),
        ];
        let mut sequence = self.formatted(64)?;
        let mut shown = true;
        for (call, arguments, number, status) in steps {
            let status = if self.layout.marks { status } else { status & 0xEF };
            shown &= self.call(&mut sequence, call, arguments.clone())? == number;
            shown &= status_in(&sequence, 2) == status;
        }
        // The program has the next descriptor.
        let stored = if self.layout.marks { 0x11 } else { 0x01 };
        shown &= status_in(&sequence, 3) == stored;
        shown &= self.call(&mut sequence, &CLEAR_MARK, old)? == 0;
        Ok(shown && status_in(&sequence, 3) == 0x01)
    }

    /// Every call that goes by the rule it is asked with, on a volume with one file, which is
    /// marked; and the call that clears the mark, which goes by the new one.
    fn marked(&mut self) -> Result<bool, String> {
        let mut sequence = self.formatted(64)?;
        let mut shown = self.create(&mut sequence, "NOTES", 0x80)? == 0;
        let mut image = sequence.disk.image.clone();
        image[2 * SECTOR_BYTES + 12] = 0x90;
        let goes_by_it = |call: &&&Call| matches!(call.rules, Rules::AsAsked | Rules::ToRepair);
        for call in CALLS.iter().filter(goes_by_it) {
            sequence.goes_on_with(&image);
            // Ten bytes are what a summary is lent.
            let arguments = Arguments { name: named("NOTES"), room: 10, ..NONE };
            let number = self.call(&mut sequence, call, arguments)?;
            shown &= self.layout.marks != (number == 4);
        }
        sequence.goes_on_with(&image);
        let arguments = Arguments { name: named("NOTES"), ..NONE };
        shown &= self.call(&mut sequence, &CLEAR_MARK, arguments)? == 0;
        Ok(shown && status_in(&sequence, 2) == 0x80)
    }
}

impl Bench<'_> {
    /// Case M's volume with two directories, as the second edition or the first has it.
    fn with_directories(&mut self) -> Result<Sequence, String> {
        let mut sequence = self.formatted(64)?;
        self.store(&mut sequence, "ALPHA", 300)?;
        self.create(&mut sequence, "NOTES", 0x80)?;
        self.append(&mut sequence, "NOTES")?;
        let mut image = sequence.disk.image.clone();
        put_directories(&mut image);
        sequence.goes_on_with(&image);
        Ok(sequence)
    }

    /// "Every file call takes 0 for the root or 1 to 3 for an entry"; "names are unique within one
    /// index". The places and the bytes are those of the worked example of docs/FORMAT.md.
    fn directories(&mut self) -> Result<bool, String> {
        if !self.layout.directories {
            return Ok(true);
        }
        let mut sequence = self.with_directories()?;
        let data = Given::whole(&self.random.bytes(SECTOR_BYTES));
        let in_games = |name, other| Arguments { directory: 1, name: named(name), other, ..NONE };
        let letter = Arguments { directory: 3, name: named("LETTER"), other: data, ..NONE };
        let created = Arguments { bytes: [0x80, 80, 3, 0], ..letter.clone() };
        let stored = in_games("ALPHA", Given::whole(&self.random.bytes(100)));
        let steps: [(&Call, Arguments, u32); 12] = [
            (&STORE, stored.clone(), 0),
            (&STORE, stored, 9),
            (&CREATE, created.clone(), 0),
            (&CREATE, Arguments { directory: 2, ..created }, 8),
            (&APPEND, letter.clone(), 0),
            (&APPEND, Arguments { directory: 1, ..letter.clone() }, 8),
            (&APPEND, Arguments { directory: 0, ..letter }, 8),
            (&RENAME, in_games("ALPHA", named("NOTES")), 0),
            (&PROTECT, in_games("NOTES", named("")), 0),
            (&RENAME, in_games("NOTES", named("ALPHA")), 10),
            (&UNPROTECT, in_games("NOTES", named("")), 0),
            (&RENAME, in_games("NOTES", named("ALPHA")), 0),
        ];
        let mut shown = true;
        for (call, arguments, number) in steps {
            shown &= self.call(&mut sequence, call, arguments)? == number;
        }
        let image = &sequence.disk.image;
        let part = |sector: usize, at: usize, bytes: usize| {
            image[SECTOR_BYTES * sector + at..][..bytes].to_vec()
        };
        let bit = if self.layout.marks { 0x10 } else { 0 };
        shown &=
            part(0, 20, 12) == b"GAMES     \x00\x04" && part(0, 44, 12) == b"TEXTS     \x00\x06";
        shown &= part(0, 32, 12) == [0; 12] && part(0, 56, 5) == [0xFF, 0, 0, 0, 0x7C];
        shown &= part(1, 0, 6) == [0, 2, 0, 3, 0, 0];
        shown &= part(4, 0, 4) == [0, 5, 0, 0] && part(6, 0, 4) == [0, 7, 0, 0];
        shown &= part(5, 0, 10) == b"ALPHA     " && part(5, 28, 6) == [0x25, 0, 0, 0, 0, 0];
        shown &= part(7, 0, 10) == b"LETTER    " && part(7, 28, 6) == [0x26, 0, 0, 0, 0, 0];
        shown &= part(5, 12, 5) == [0x01 | bit, 0, 0, 1, 100];
        shown &= part(7, 12, 6) == [0x80 | bit, 3, 0, 1, 0, 80];
        let listed = |directory| catalogue(image, self.layout.for_host(), directory);
        let mark = if self.layout.marks { " M" } else { "" };
        let texts = [
            format!("SHELF 64 51\nALPHA PROGRAM 300 2 U{0}\nNOTES DIS/VAR 80 1 U{0}\n", mark),
            format!("SHELF 64 51\nALPHA PROGRAM 100 1 U{}\n", mark),
            format!("SHELF 64 51\nLETTER DIS/VAR 80 1 U{}\n", mark),
        ];
        shown &= [0, 1, 3].map(listed) == texts.map(Ok);
        Ok(shown && [2, 4, 5].map(listed) == [(); 3].map(|()| Err(Refusal::NotFound)))
    }

    /// Every call that judges, on a volume with a directory: the first edition finds its index in
    /// the map, and nobody who holds it.
    fn by_first_edition(&mut self) -> Result<bool, String> {
        let image = self.with_directories()?.disk.image;
        let mut shown = true;
        for call in CALLS.iter().filter(|call| call.is_judging()) {
            // By the old rule the library has left a mark on nothing.
            let mut sequence = self.formatted(64)?;
            sequence.goes_on_with(&image);
            let arguments = Arguments { name: named("NOTES"), room: 10, ..NONE };
            let number = self.call(&mut sequence, call, arguments)?;
            // A repair makes the map that of the root.
            let expected = if matches!(call.rules, Rules::ToRepair) { 0 } else { 6 };
            shown &= self.layout.directories || number == expected;
            shown &= !self.layout.directories || number != 6;
        }
        Ok(shown)
    }

    /// "8 for no such entry, after 7": which numbers each call takes, on an empty volume and on one
    /// with two directories.
    fn which_directories(&mut self) -> Result<bool, String> {
        let mut shown = true;
        let empty = self.formatted(64)?.disk.image;
        let second = self.with_directories()?.disk.image;
        let two: &[usize] = if self.layout.directories { &[0, 1, 3] } else { &[0] };
        for (image, there) in [(&empty, &[0][..]), (&second, two)] {
            if *image == second && !self.layout.directories {
                continue;
            }
            for directory in [0, 1, 2, 3, 4, 255, 256, 257, 1 << 32, usize::MAX] {
                let mut sequence = self.formatted(64)?;
                sequence.goes_on_with(image);
                let arguments = Arguments { directory, name: named("NEW"), ..NONE };
                let is_there = there.contains(&directory);
                let number = self.call(&mut sequence, &CREATE, arguments.clone())?;
                shown &= number == if is_there { 0 } else { 8 };
                let room = Arguments { directory, room: 400, ..NONE };
                let number = self.call(&mut sequence, &LISTING, room)?;
                shown &= number == if is_there { 0 } else { 8 };
                let number = self.call(&mut sequence, &PROTECT, arguments)?;
                shown &= number == if is_there { 0 } else { 8 };
                let bad = Arguments { directory, name: named(""), ..NONE };
                shown &= self.call(&mut sequence, &CREATE, bad)? == 7;
            }
        }
        Ok(shown)
    }

    /// "9 and 11 count within the named index": 127 files of the same names in each.
    fn full_directories(&mut self) -> Result<bool, String> {
        if !self.layout.directories {
            return Ok(true);
        }
        let mut sequence = self.formatted(400)?;
        let mut image = sequence.disk.image.clone();
        put_directories(&mut image);
        sequence.goes_on_with(&image);
        let mut shown = true;
        for directory in [1, 3, 0] {
            let asked = |file: &str| Arguments { directory, name: named(file), ..NONE };
            for file in 0..MOST_FILES {
                let arguments = asked(&format!("F{}", file));
                shown &= self.call(&mut sequence, &CREATE, arguments.clone())? == 0;
            }
            shown &= self.call(&mut sequence, &CREATE, asked("F0"))? == 9;
            shown &= self.call(&mut sequence, &CREATE, asked("ONEMORE"))? == 11;
            shown &= self.call(&mut sequence, &STORE, asked("ONEMORE"))? == 11;
            for _ in 0..20 {
                shown &= self.call(&mut sequence, &DELETE, asked("F0"))? == 0;
                shown &= self.call(&mut sequence, &STORE, asked("F0"))? == 0;
            }
        }
        let summary = summary(&sequence.disk.image, self.layout.for_host());
        Ok(shown && summary.map(|summary| summary.files) == Ok(3 * MOST_FILES))
    }
}

/// The status of the descriptor in a sector.
fn status_in(sequence: &Sequence, sector: usize) -> u8 {
    sequence.disk.image[SECTOR_BYTES * sector + 12]
}

fn named(name: &str) -> Given {
    Given::whole(&padded(name))
}
