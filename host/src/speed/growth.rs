//! The library's calls on full volumes of all sizes.

use super::row::{self, Row};
use super::volume::{Before, Extent, Volume};
use super::Table;
use crate::layout::Layout;
use crate::table::{Call, DELETE, JUDGE, PACK, STORE, SUMMARY};

pub(super) const TABLE: Table = Table {
    name: "growth",
    sides: &["library"],
    rows: || rows().len(),
    check: || rows().iter().try_for_each(Row::check),
    repeat: |row, side| row::repeat(&rows(), row, side),
    write,
};

const SIZES: [usize; 6] = [90, 180, 360, 720, 1440, 1600];
static CALLS: [(&Call, Before); 5] = [
    (&JUDGE, Before::Data),
    (&SUMMARY, Before::Data),
    (&STORE, Before::Absent),
    (&DELETE, Before::Data),
    (&PACK, Before::Data),
];

/// The sectors of the longest program.
const LONGEST: usize = 128;
/// What a file of those that are not called has, about, its descriptor among them.
const SECTORS_A_FILE: usize = 12;
const BLOCKS_A_FILE: usize = 10;

/// Size by size, the calls in their order.
fn rows() -> Vec<Row> {
    let on = |sectors| {
        let (what, layout, volume) = ("", Layout::OLD, volume(sectors));
        CALLS.map(|(call, before)| Row { call, what, layout, volume: Volume { before, ..volume } })
    };
    SIZES.into_iter().flat_map(on).collect()
}

/// The called file has half of the volume, or what a program has at most.
fn volume(sectors: usize) -> Volume {
    let called = (sectors / 2).min(LONGEST);
    let files = (sectors - called) / SECTORS_A_FILE;
    let called = Extent { sectors: called, blocks: called.min(74) };
    let (what, before) = ("full", Before::Data);
    Volume { what, sectors, files, blocks: BLOCKS_A_FILE, called, before }
}

fn write(figures: &[Vec<f64>]) -> Vec<String> {
    let titles = CALLS.map(|(call, _)| format!(" {} | a sector |", call.title));
    println!("| Sectors (instructions a call) |{}", titles.concat());
    println!("|---:|{}", "---:|---:|".repeat(CALLS.len()));
    for (sectors, figures) in SIZES.iter().zip(figures.chunks(CALLS.len())) {
        let cells = figures.iter().map(|figures| figures[0]);
        let cells: Vec<String> = cells
            .map(|count| format!(" {:.0} | {:.0} |", count, count / *sectors as f64))
            .collect();
        println!("| {} |{}", sectors, cells.concat());
    }
    Vec::new()
}
