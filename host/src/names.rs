//! Names that are wrong in every way: each byte at each place of short and long ones, each byte
//! after a space, each length. Every call that takes a name is asked with all of them, by one layout
//! or another, in the root or in a directory. Library, reference and plan must agree on where a name is wrong, and what they
//! agree on must be the place at which it was made wrong.

use crate::layout::Layout;
use crate::random::Random;
use crate::suites::Image;
use crate::table::{self, Arguments, Call, Given, CALLS, NONE};
use crate::tally::{hold, write_row, LEAST};
use crate::volumes::{is_letter, Directory, Disk, File, Name, Run, MARK, SECTOR_BYTES};
use std::collections::BTreeMap;

const LETTERS: &Name = b"ABCDEFGHIJ";
const SPACE: u8 = b' ';
/// What the place is of a name that is not ten bytes.
const NOT_TEN: usize = 10;
const MOST_BYTES: usize = 300;

/// The names of the volume's files, and one that none has.
const FILES: [&Name; 3] = [b"A         ", b"ABCD      ", LETTERS];
const NEW: &Name = b"NEW       ";

/// A name, and where it is wrong by the way in which it was made.
struct Made {
    name: Given,
    wrong: Option<usize>,
}

/// All names in all calls, with other bytes and volumes by a seed; how many calls were compared.
pub fn compared(seed: u64) -> Result<u64, String> {
    println!("names, seed {}", seed);
    let names = all();
    let mut comparison = Names::new(seed);
    for made in &names {
        comparison.name(made, &names).map_err(|wrong| format!("{}\n  seed {}", wrong, seed))?;
    }
    println!("{:>8} names", names.len());
    comparison.report()?;
    let calls = comparison.calls;
    println!("compared {} calls by names, seed {}: no difference\n", calls, seed);
    Ok(calls)
}

fn all() -> Vec<Made> {
    let mut names = told();
    for (place, byte) in (0..10).flat_map(|place| (0..=255).map(move |byte| (place, byte))) {
        names.extend((0..=10).map(|letters| with_byte(letters, place, byte)));
        names.extend((0..place).map(|space| with_space_and_byte(space, place, byte)));
    }
    names.extend((0..=MOST_BYTES).flat_map(of_length));
    names
}

/// What is said of names in so many words.
fn told() -> Vec<Made> {
    let told: [(&[u8], Option<usize>); 9] = [
        (b"TENLETTERS", None),
        (b"A         ", None),
        (b"          ", Some(0)),
        (b" A        ", Some(1)),
        (b"A\0        ", Some(1)),
        (b"A .       ", Some(2)),
        (b"AB C      ", Some(3)),
        (b"NINEBYTES", Some(10)),
        (b"", Some(10)),
    ];
    told.map(|(name, wrong)| Made { name: Given::whole(name), wrong }).into()
}

/// So many letters, spaces up to the tenth byte, and then one byte that is another.
fn with_byte(letters: usize, place: usize, byte: u8) -> Made {
    let mut name = [SPACE; 10];
    name[..letters].copy_from_slice(&LETTERS[..letters]);
    name[place] = byte;
    let wrong = if byte != SPACE {
        (place > letters || !is_letter(byte)).then_some(place)
    } else if place + 1 < letters {
        // The next letter comes after it.
        Some(place + 1)
    } else {
        (name == [SPACE; 10]).then_some(0)
    };
    Made { name: Given::whole(&name), wrong }
}

/// Ten letters, but for a space and a byte behind it.
fn with_space_and_byte(space: usize, place: usize, byte: u8) -> Made {
    let mut name = *LETTERS;
    name[space] = SPACE;
    name[place] = byte;
    let next = if place == space + 1 && byte == SPACE { place + 1 } else { space + 1 };
    Made { name: Given::whole(&name), wrong: (next < 10).then_some(next) }
}

/// Letters, one letter with its padding, and spaces: so many bytes of each are lent, and more of the
/// same lie behind.
fn of_length(length: usize) -> [Made; 3] {
    let mut padded = [SPACE; MOST_BYTES];
    padded[0] = LETTERS[0];
    let bytes = [([LETTERS[0]; MOST_BYTES], None), (padded, None), ([SPACE; MOST_BYTES], Some(0))];
    bytes.map(|(bytes, wrong)| {
        let wrong = if length == 10 { wrong } else { Some(NOT_TEN) };
        Made { name: Given::front(&bytes, length), wrong }
    })
}

struct Names {
    random: Random,
    /// Without any mark, and with all; then the same with directories.
    disks: [Disk; 4],
    /// The wrong places and how often each came up, by what was asked.
    places: BTreeMap<(&'static str, Option<usize>), u64>,
    calls: u64,
}

/// The rows of the report for the two names of a rename.
const OLD: &str = "rename, old name";
const NEW_NAME: &str = "rename, new name";
const BOTH: &str = "rename, both";

impl Names {
    fn new(seed: u64) -> Self {
        let mut random = Random::new(seed);
        let kinds = [(0, false), (MARK, false), (0, true), (MARK, true)];
        let disks = kinds.map(|(mark, is_second)| volume(mark, is_second, &mut random));
        Names { random, disks, places: BTreeMap::new(), calls: 0 }
    }

    /// Every call with a name. A rename has it as its old name, as its new one, and as its old one
    /// beside any of the others.
    fn name(&mut self, made: &Made, others: &[Made]) -> Result<(), String> {
        let Made { name, wrong } = made;
        for call in CALLS.iter().filter(|call| call.names == 1) {
            let other = Given::whole(&self.random.bytes(SECTOR_BYTES));
            self.call(call.title, call, [name, &other], None, *wrong)?;
        }
        let (file, new) = (Given::whole(FILES[1]), Given::whole(NEW));
        let which = |which| wrong.map(|_| which);
        self.call(OLD, &table::RENAME, [name, &new], which(0), *wrong)?;
        self.call(NEW_NAME, &table::RENAME, [&file, name], which(1), *wrong)?;
        let other = &others[self.random.below(others.len())];
        if wrong.is_some() && other.wrong.is_some() {
            self.call(BOTH, &table::RENAME, [name, &other.name], Some(0), *wrong)?;
        }
        Ok(())
    }

    /// A call, which must say that a name is wrong, which one and where, or nothing of it.
    fn call(
        &mut self,
        row: &'static str,
        call: &'static Call,
        [name, other]: [&Given; 2],
        which: Option<usize>,
        wrong: Option<usize>,
    ) -> Result<(), String> {
        let layout = self.random.pick(&Layout::ALL);
        // By the new rule both will do.
        let marked = layout.marks && self.random.once_in(2);
        let disk = &self.disks[usize::from(marked) + 2 * usize::from(layout.directories)];
        // The name is tested before there is a directory or none.
        let wrong_directory = wrong.is_some() && self.random.once_in(3);
        let directory = match layout.directories && call.in_directory {
            _ if wrong_directory => self.random.pick(&[2, 4, 1 << 32]),
            true => self.random.pick(&[0, 1, 3]),
            false => 0,
        };
        let at = if call.is_judging() { 0 } else { disk.sectors };
        let (name, other, room) = (name.clone(), other.clone(), SECTOR_BYTES);
        let arguments = Arguments { directory, name, other, at, room, ..NONE };
        let arguments = arguments.by(layout, &mut self.random);
        let image = Image::as_planned("a volume for names", disk);
        let case = table::compared(call, &arguments, &image, &mut self.random)?;
        let found = (case.number == 7, case.written.which, case.written.wrong);
        if found != (wrong.is_some(), which, wrong) {
            return Err(format!(
                "{} {:?}: number {}, which {:?} and wrong {:?}; {:?} and {:?} by how it was made",
                row, arguments, case.number, case.written.which, case.written.wrong, which, wrong
            ));
        }
        *self.places.entry((row, wrong)).or_default() += 1;
        self.calls += 1;
        Ok(())
    }

    /// Writes how often each place came up, and fails where one did too rarely.
    fn report(&self) -> Result<(), String> {
        let places = || std::iter::once(None).chain((0..=NOT_TEN).map(Some));
        let title = |place: Option<usize>| place.map_or("none".to_string(), |at| at.to_string());
        write_row("names wrong at", places().map(title));
        let calls = CALLS.iter().filter(|call| call.names == 1).map(|call| call.title);
        for row in calls.chain([OLD, NEW_NAME, BOTH]) {
            let is_reached = |place: &Option<usize>| row != BOTH || place.is_some();
            let count = |place| self.places.get(&(row, place)).copied().unwrap_or(0);
            let cell = |place| match is_reached(&place) {
                true => count(place).to_string(),
                false => "-".to_string(),
            };
            write_row(row, places().map(cell));
            let reached = places().filter(is_reached);
            let counts = reached.map(|place| (format!("{} {}", row, title(place)), count(place)));
            hold(LEAST, counts.collect())?;
        }
        Ok(())
    }
}

/// A small one with a file of each of the names, every one with a sector and marked or not; by the
/// second edition in the root and in two directories alike.
fn volume(mark: u8, is_second: bool, random: &mut Random) -> Disk {
    let numbers: &[usize] = if is_second { &[0, 1, 3] } else { &[0] };
    let places = numbers.iter().flat_map(|number| FILES.iter().map(move |name| (*number, **name)));
    let file = |(place, (directory, name)): (usize, (usize, Name))| {
        let runs = vec![Run { start: 14 + place, length: 1 }];
        let mut file = File::new(name, 4 + place, runs, random);
        file.header[12] |= mark;
        File { directory, ..file }
    };
    let files: Vec<File> = places.enumerate().map(file).collect();
    if !is_second {
        return Disk::of_files(25, files, random);
    }
    let [one, three] =
        [(LETTERS, 2), (NEW, 3)].map(|(name, index)| Directory { name: *name, index });
    Disk::of_directories(25, [Some(one), None, Some(three)], files, random)
}
