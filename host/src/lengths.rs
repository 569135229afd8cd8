//! Programs of every length around whole sectors, short ones and the longest: each is stored on
//! volumes with more sectors free than it takes, with just as many, and with one less; then it is
//! looked at and loaded. Library, reference and plan must agree on every call, and what they agree
//! on must be what the paper's formulas say, which stand here once more. All of it is done by each
//! layout, by the second edition in a directory too.

use crate::layout::Layout;
use crate::random::Random;
use crate::suites::Image;
use crate::table::{self, Arguments, Call, Given, Written};
use crate::table::{ENTRY, FREE_COUNT, LOAD, NONE, STORE};
use crate::volumes::{Directory, Disk, File, Name, Run, HEADER_BYTES};
use std::ops::RangeInclusive;

const LENGTHS: [RangeInclusive<usize>; 2] = [0..=1100, 32_500..=32_768];
const TOO_LONG: usize = 32_769;
/// How many sectors are to spare at most, and how many another file on the volume has.
const MOST_OTHERS: usize = 60;

const PROGRAM: &Name = b"PROGRAM   ";
const OTHER: &Name = b"OTHER     ";

/// All lengths, with bytes and volumes by a seed; how many calls were compared.
pub fn compared(seed: u64) -> Result<u64, String> {
    println!("lengths of programs, seed {}", seed);
    let mut lengths = Lengths::new(seed);
    for layout in Layout::ALL {
        lengths.layout = layout;
        for length in LENGTHS.into_iter().flatten() {
            lengths.length(length).map_err(|wrong| told(length, &wrong, seed))?;
        }
        lengths.too_long().map_err(|wrong| told(TOO_LONG, &wrong, seed))?;
    }
    let Lengths { calls, lengths, loaded, few_sectors, few_bytes, too_long, .. } = lengths;
    println!(
        "{:>8} lengths, from 0 to 1,100 and from 32,500 to 32,768 bytes by each layout",
        lengths
    );
    println!("{:>8} programs stored, looked at and loaded", loaded);
    println!("{:>8} stores with a sector too few free: 12", few_sectors);
    println!("{:>8} loads with a byte too few lent: 15", few_bytes);
    println!("{:>8} stores of 32,769 bytes: 15", too_long);
    println!("compared {} calls by lengths of programs, seed {}: no difference\n", calls, seed);
    Ok(calls)
}

fn told(length: usize, wrong: &str, seed: u64) -> String {
    format!("a program of {} bytes: {}\n  seed {}", length, wrong, seed)
}

/// What was compared.
struct Lengths {
    random: Random,
    layout: Layout,
    /// In which the program is stored.
    directory: usize,
    calls: u64,
    lengths: u64,
    loaded: u64,
    few_sectors: u64,
    few_bytes: u64,
    too_long: u64,
}

impl Lengths {
    fn new(seed: u64) -> Self {
        let (random, layout, directory) = (Random::new(seed), Layout::OLD, 0);
        let (calls, lengths, loaded) = (0, 0, 0);
        let (few_sectors, few_bytes, too_long) = (0, 0, 0);
        Lengths {
            random,
            layout,
            directory,
            calls,
            lengths,
            loaded,
            few_sectors,
            few_bytes,
            too_long,
        }
    }

    fn length(&mut self, length: usize) -> Result<(), String> {
        // "L bytes take L/256 sectors rounded up"; the descriptor has one more.
        let sectors = if length % 256 == 0 { length / 256 } else { length / 256 + 1 };
        let takes = 1 + sectors;
        let bytes = self.random.bytes(length);
        let spare = self.random.within(1..=MOST_OTHERS);
        if self.layout.directories {
            self.directory = self.random.pick(&[0, 1, 3]);
        }
        for free in [takes, takes + spare] {
            let before = self.volume_with(free);
            let (_, disk) = self.call(&STORE, &to_store(&bytes), &before, 0)?;
            let disk = disk.ok_or("a store that is done leaves a disk")?;
            let (written, _) = self.call(&FREE_COUNT, &NONE, &disk, 0)?;
            must_be("free sectors", written.numbers[0], free - takes)?;
            self.entry(&disk, &bytes, sectors)?;
            self.load(&disk, &bytes)?;
        }
        let full = self.volume_with(takes - 1);
        self.call(&STORE, &to_store(&bytes), &full, 12)?;
        self.few_sectors += 1;
        self.lengths += 1;
        Ok(())
    }

    /// "byte 16 is L mod 256", and the length is read from it and c.
    fn entry(&mut self, disk: &Disk, bytes: &[u8], sectors: usize) -> Result<(), String> {
        let mut listed = disk.files_in(self.directory);
        let at = listed.position(|file| file.name() == *PROGRAM).unwrap_or(usize::MAX);
        let asked = Arguments { at, room: HEADER_BYTES, ..NONE };
        let (entry, _) = self.call(&ENTRY, &asked, disk, 0)?;
        let status = if self.layout.marks { 0x11 } else { 0x01 };
        must_be("status", entry.bytes[12].into(), status)?;
        must_be("byte 16", entry.bytes[16].into(), bytes.len() % 256)?;
        must_be("number of the kind", entry.numbers[0], 0)?;
        must_be("length of the entry", entry.numbers[1], bytes.len())?;
        must_be("sectors", entry.numbers[2], sectors)
    }

    /// Into a buffer of just the length, and of a byte less.
    fn load(&mut self, disk: &Disk, bytes: &[u8]) -> Result<(), String> {
        let (loaded, _) = self.call(&LOAD, &to_load(bytes.len()), disk, 0)?;
        must_be("number of bytes loaded", loaded.numbers[0], bytes.len())?;
        if loaded.bytes != bytes {
            return Err("other bytes are loaded than were stored".to_string());
        }
        self.loaded += 1;
        if let Some(less) = bytes.len().checked_sub(1) {
            self.call(&LOAD, &to_load(less), disk, 15)?;
            self.few_bytes += 1;
        }
        Ok(())
    }

    /// 15 comes before 12: with room or without.
    fn too_long(&mut self) -> Result<(), String> {
        let bytes = self.random.bytes(TOO_LONG);
        for free in [0, 1, 128, 129, 130, 200] {
            let disk = self.volume_with(free);
            self.call(&STORE, &to_store(&bytes), &disk, 15)?;
            self.too_long += 1;
        }
        Ok(())
    }

    /// What a call writes, and the disk that it leaves, if it gives the number.
    fn call(
        &mut self,
        call: &'static Call,
        arguments: &Arguments,
        disk: &Disk,
        number: u32,
    ) -> Result<(Written, Option<Disk>), String> {
        let image = Image::as_planned("a volume for a program", disk);
        let directory = if call.in_directory { self.directory } else { 0 };
        let arguments = Arguments { directory, ..arguments.clone() };
        let arguments = arguments.by(self.layout, &mut self.random);
        let case = table::compared(call, &arguments, &image, &mut self.random)?;
        self.calls += 1;
        must_be(call.title, case.number as usize, number as usize)?;
        Ok((case.written, case.disk))
    }

    /// A volume on which so many sectors are free, all before or all behind those of another file,
    /// which may have the mark where there are marks, and lie in a directory where there are any.
    fn volume_with(&mut self, free: usize) -> Disk {
        let random = &mut self.random;
        let held = random.within(1..=MOST_OTHERS);
        let descriptor = random.pick(&[2, 2 + free]);
        let run = Run { start: descriptor + 1, length: held - 1 };
        let runs = if run.length == 0 { vec![] } else { vec![run] };
        let mut file = File::new(*OTHER, descriptor, runs, random);
        let sectors = 2 + held + free;
        let mut disk = if self.layout.directories {
            // The indexes come behind all else.
            let [one, three] = [(OTHER, 0), (PROGRAM, 1)]
                .map(|(name, place)| Directory { name: *name, index: sectors + place });
            file.directory = random.pick(&[0, 1, 3]);
            let directories = [Some(one), None, Some(three)];
            Disk::of_directories(sectors + 2, directories, vec![file], random)
        } else {
            Disk::of_files(sectors, vec![file], random)
        };
        if self.layout.marks {
            disk.mark_by_chance(random);
        }
        disk
    }
}

fn must_be(what: &str, found: usize, expected: usize) -> Result<(), String> {
    if found == expected {
        Ok(())
    } else {
        Err(format!("{} {}, not {}", what, found, expected))
    }
}

fn to_store(bytes: &[u8]) -> Arguments {
    Arguments { name: Given::whole(PROGRAM), other: Given::whole(bytes), ..NONE }
}

fn to_load(room: usize) -> Arguments {
    Arguments { name: Given::whole(PROGRAM), room, ..NONE }
}
