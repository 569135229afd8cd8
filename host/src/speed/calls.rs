//! The calls on full volumes of 1,440 sectors.

use super::row::{self, Row};
use super::volume::{Before, Volume};
use super::{is_held, ratio, Table};
use crate::table::{Rules, CALLS};

/// What the library may take, as a multiple of the reference; what it may for a repair; and for that of an
/// index in the opposite order. No stop leaves one, and what puts a number in its place from behind, as the
/// library does, goes past all others there.
const BOUND: f64 = 2.0;
const BOUND_OF_REPAIR: f64 = 1.5;
const BOUND_OF_REVERSED: f64 = 7.5;

pub(super) const TABLE: Table = Table {
    name: "calls",
    sides: &["library", "reference"],
    rows: || rows().len(),
    check: || rows().iter().try_for_each(Row::check),
    repeat: |row, side| row::repeat(&rows(), row, side),
    write,
};

fn rows() -> Vec<Row> {
    let mut rows = Vec::new();
    for call in CALLS {
        for (what, layout, before, volumes) in call.measured.on {
            rows.extend(volumes.iter().map(|volume| {
                let volume = Volume { before: *before, ..*volume };
                Row { call, what, layout: *layout, volume }
            }));
        }
    }
    rows
}

fn bound(row: &Row) -> f64 {
    match (&row.call.rules, row.volume.before) {
        (Rules::ToRepair, Before::Reversed) => BOUND_OF_REVERSED,
        (Rules::ToRepair, _) => BOUND_OF_REPAIR,
        _ => BOUND,
    }
}

fn write(figures: &[Vec<f64>]) -> Vec<String> {
    println!("| Call | Volume (instructions a call) | Library | Reference | Ratio |");
    println!("|---|---|---:|---:|---:|");
    let mut missed = Vec::new();
    for (row, figures) in rows().iter().zip(figures) {
        let (library, reference) = (figures[0], figures[1]);
        let held = is_held(reference);
        let ratio = ratio(library, reference, held);
        let (call, volume) = (row.call_title(), row.volume.what);
        println!("| {} | {} | {:.0} | {:.0} | {} |", call, volume, library, reference, ratio);
        if held && library > bound(row) * reference {
            missed.push(row.title());
        }
    }
    missed
}
