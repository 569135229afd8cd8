//! The judges on sound and damaged disks of 1,440 sectors, by the old rule and by the new one, and by
//! the second edition: the library's, the reference's and the tuned one.

use super::{by, is_held, ratio, Table, NOBODY, TIMES};
use crate::directories::with_entries;
use crate::layout::Layout;
use crate::random::Random;
use crate::volumes::SECTOR_BYTES;
use crate::volumes::{block, word, Disk, Order, Shape};
use crate::volumes::{ENTRIES, ENTRY_BYTES, HEADER_BYTES, MARK, MOST_BLOCKS, MOST_FILES};
use crate::{library, reference, tuned};
use std::time::Instant;

const SECTORS: usize = 1440;
/// What the library may take, as a multiple of the reference.
const BOUND: f64 = 1.05;
const ROUNDS: usize = 300;
const CALLS_A_ROUND: usize = 20;

type Judge = fn(&[u8], Layout) -> u32;

/// In the order of the table's columns.
const JUDGES: [(&str, Judge); 3] =
    [("library", library::number), ("reference", reference::number), ("tuned", tuned::number)];

pub(super) const TABLE: Table = Table {
    name: "judges",
    sides: &["library", "reference", "tuned"],
    rows: || rows().len(),
    check: || rows().iter().try_for_each(Row::check),
    repeat: repeat_by_name,
    write,
};

struct Row {
    what: &'static str,
    image: Vec<u8>,
    layout: Layout,
    /// The paper's number for the image by the layout.
    number: u32,
}

fn rows() -> Vec<Row> {
    let random = &mut Random::new(1);
    let shape = |files: usize, blocks: usize| {
        let runs = (files * blocks).max(1);
        let (scattered, even, order) = (false, true, Order::Shuffled);
        let blocks = blocks..=blocks;
        Shape { sectors: SECTORS, files, scattered, runs, even, order, blocks }
    };
    let twenty = Shape { runs: 80, blocks: 1..=3, ..shape(20, 3) };
    let fragmented = shape(MOST_FILES, 10).build(random);
    let disks = [
        ("full, 127 files, a block each", shape(MOST_FILES, 1).build(random)),
        ("full, 127 files of 10 blocks", fragmented.clone()),
        ("full, 18 files of 76 blocks", shape(18, MOST_BLOCKS).build(random)),
        ("one file in one block", shape(1, 1).build(random)),
        ("one file of 75 blocks", shape(1, 75).build(random)),
        ("20 files of 1 to 3 blocks", twenty.build(random)),
        ("empty", shape(0, 0).build(random)),
    ];
    let sound = |(what, disk): &(&'static str, Disk)| Row::of(what, &disk.image, 0);
    let mut rows: Vec<Row> = disks.iter().map(sound).collect();
    rows.extend(damaged_rows(&fragmented));
    rows.extend(disks[..3].iter().map(|(what, disk)| by_marks(sound(&(*what, marked(disk))))));
    let fragmented = marked(&fragmented);
    let late = |row: &Row| row.number == 4 || row.number == 6;
    rows.extend(damaged_rows(&fragmented).into_iter().filter(late).map(by_marks));
    rows.push(Row::of("4: a mark on every file, old rule", &fragmented.image, 4));
    rows.extend(rows_of_directories(random));
    rows
}

/// By the second edition, with three directories.
fn rows_of_directories(random: &mut Random) -> Vec<Row> {
    let mut full = |files, blocks| {
        with_entries(SECTORS, [true; 3], random, |sectors, _, random| {
            Shape::full(sectors, files, blocks, Order::Shuffled).build(random)
        })
    };
    let (many, pieces, empty) = (full(4 * MOST_FILES, 1), full(MOST_FILES, 10), full(1, 1));
    let number = SECTOR_BYTES * many.index_of(3) + 2 * (MOST_FILES - 1);
    let mut range = many.clone();
    range.image[number..][..2].copy_from_slice(&word(SECTORS));
    let mut entry = many.clone();
    entry.image[ENTRIES + 2 * ENTRY_BYTES] = 0;
    let rows = [
        ("full, 508 files in three directories and the root", &many, 0),
        ("full, 127 files of 10 blocks in these", &pieces, 0),
        ("one file in these", &empty, 0),
        ("3: name of the last entry", &entry, 3),
        ("3: last number of the last index out of range", &range, 3),
    ];
    rows.map(|(what, disk, number)| Row {
        layout: Layout::DIRECTORIES,
        ..Row::of(what, &disk.image, number)
    })
    .into()
}

/// The disk with the mark on every file.
fn marked(disk: &Disk) -> Disk {
    let mut disk = disk.clone();
    disk.files.iter_mut().for_each(|file| file.header[12] |= MARK);
    disk.lay_down();
    disk
}

fn by_marks(row: Row) -> Row {
    Row { layout: Layout::MARKS, ..row }
}

/// The disk with each fault early and late, where that can be told apart.
fn damaged_rows(disk: &Disk) -> Vec<Row> {
    let damaged = |what, number, at: usize, bytes: &[u8]| {
        let mut image = disk.image.clone();
        image[at..][..bytes.len()].copy_from_slice(bytes);
        Row::of(what, &image, number)
    };
    let last = disk.files.len() - 1;
    let status = |file: usize| SECTOR_BYTES * disk.files[file].descriptor + 12;
    let second_block = |file: usize| SECTOR_BYTES * disk.files[file].descriptor + HEADER_BYTES + 3;
    let on_the_first = |file: usize| {
        let file = &disk.files[file];
        block(file.runs[0].start, file.last_offset(1))
    };
    vec![
        damaged("2: disk name", 2, 0, b"."),
        damaged("3: last number out of range", 3, SECTOR_BYTES + 2 * last, &word(SECTORS)),
        damaged("4: status of the first file", 4, status(0), &[0x04]),
        damaged("4: status of the last file", 4, status(last), &[0x04]),
        damaged("5: in the first file", 5, second_block(0), &on_the_first(0)),
        damaged("5: in the last file", 5, second_block(last), &on_the_first(last)),
        damaged("6: first byte of the map", 6, 56, &[disk.image[56] ^ 0x80]),
        damaged("6: last byte of the map", 6, 255, &[disk.image[255] ^ 0x80]),
    ]
}

impl Row {
    /// By the old rule.
    fn of(what: &'static str, image: &[u8], number: u32) -> Self {
        Row { what, image: image.to_vec(), layout: Layout::OLD, number }
    }

    fn title(&self) -> String {
        [self.what, by(self.layout)].concat()
    }

    fn check(&self) -> Result<(), String> {
        let is_wrong = |judge: Judge| judge(&self.image, self.layout) != self.number;
        match JUDGES.iter().find(|(_, judge)| is_wrong(*judge)) {
            Some((judge, _)) => Err(format!("{}: wrong number from {}", self.title(), judge)),
            None => Ok(()),
        }
    }
}

fn repeat_by_name(row: usize, side: &str) -> Result<(), String> {
    let nobody: (&str, Judge) = (NOBODY, |_, _| 0);
    let mut judges = JUDGES.into_iter().chain([nobody]);
    let (_, judge) = judges.find(|(name, _)| *name == side).ok_or("no such judge")?;
    let rows = rows();
    let row = rows.get(row).ok_or("no such row")?;
    row.check()?;
    repeat(judge, row, TIMES);
    Ok(())
}

fn repeat(judge: Judge, row: &Row, times: usize) {
    for _ in 0..times {
        // The compiler cannot tell which judge this reads, so it leaves no call out.
        let judge = unsafe { std::ptr::read_volatile(&judge) };
        judge(&row.image, row.layout);
    }
}

fn write(figures: &[Vec<f64>]) -> Vec<String> {
    let rows = rows();
    write_table("instructions", &rows, figures, is_held);
    let misses =
        |(_, figures): &(&Row, &Vec<f64>)| is_held(figures[1]) && figures[0] > BOUND * figures[1];
    rows.iter().zip(figures).filter(misses).map(|(row, _)| row.title()).collect()
}

/// The same table in nanoseconds.
pub fn write_times() -> Result<(), String> {
    let rows = rows();
    rows.iter().try_for_each(Row::check)?;
    let figures: Vec<Vec<f64>> = rows.iter().map(least_times).collect();
    write_table("nanoseconds", &rows, &figures, |_| true);
    Ok(())
}

/// The least time of a call over all rounds, the judges taking turns.
fn least_times(row: &Row) -> Vec<f64> {
    let mut least = vec![f64::INFINITY; JUDGES.len()];
    for _ in 0..ROUNDS {
        for (least, (_, judge)) in least.iter_mut().zip(JUDGES) {
            let start = Instant::now();
            repeat(judge, row, CALLS_A_ROUND);
            let taken = start.elapsed().as_nanos() as f64 / CALLS_A_ROUND as f64;
            *least = least.min(taken);
        }
    }
    least
}

/// `held` says of the reference's figure whether the row is held to its bound.
fn write_table(unit: &str, rows: &[Row], figures: &[Vec<f64>], held: fn(f64) -> bool) {
    println!("| Image ({} a call) | Library | Reference | Ratio | Tuned | Ratio |", unit);
    println!("|---|---:|---:|---:|---:|---:|");
    for (row, figures) in rows.iter().zip(figures) {
        let (library, reference, tuned) = (figures[0], figures[1], figures[2]);
        let to = |other| ratio(library, other, held(reference));
        println!(
            "| {} | {:.0} | {:.0} | {} | {:.0} | {} |",
            row.title(),
            library,
            reference,
            to(reference),
            tuned,
            to(tuned)
        );
    }
}
