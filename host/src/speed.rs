//! What the benchmark measures, a table each: the judges on sound and damaged disks, the calls on
//! full volumes, and how the library's calls grow with the volume.

mod calls;
mod growth;
mod judges;
mod row;
mod volume;

pub use judges::write_times;
pub(crate) use volume::{volume, Before, Full, Volume, ALL, MANY, ONE, PIECES, SECTORS};

use crate::layout::Layout;
use crate::table::Arguments;

/// How often a row's call is made in a run whose instructions are counted.
pub const TIMES: usize = 4;
/// A side that does all but the call.
pub const NOBODY: &str = "nobody";
/// A row that the reference settles in fewer instructions is shown and not held.
const LEAST_HELD: f64 = 1000.0;

/// What is measured of a call: with which arguments on a full volume, and on which volumes, with
/// what stands behind the call's title, by which layout, and what the call finds of its file.
pub(crate) struct Measured {
    pub arguments: fn(&Full) -> Arguments,
    pub on: &'static [(&'static str, Layout, Before, &'static [Volume])],
}

pub const TABLES: [Table; 3] = [judges::TABLE, calls::TABLE, growth::TABLE];

pub struct Table {
    pub name: &'static str,
    /// Who makes the calls.
    pub sides: &'static [&'static str],
    pub rows: fn() -> usize,
    /// A figure for a wrong answer would say nothing.
    pub check: fn() -> Result<(), String>,
    /// A row's call by a side. The row is checked first, so that what only a first call does is
    /// done before, whoever the side is.
    pub repeat: fn(usize, &str) -> Result<(), String>,
    /// Writes the table of the instructions a call, for each row those of each side, and names the
    /// rows that miss their bound.
    pub write: fn(&[Vec<f64>]) -> Vec<String>,
}

fn is_held(reference: f64) -> bool {
    reference >= LEAST_HELD
}

/// What stands in a row's title besides.
fn by(layout: Layout) -> &'static str {
    match (layout.marks, layout.directories) {
        (false, false) => "",
        (true, false) => ", marks",
        (false, true) => ", directories",
        (true, true) => ", marks, directories",
    }
}

/// In brackets where it is not held.
fn ratio(library: f64, other: f64, held: bool) -> String {
    let ratio = library / other;
    if held {
        format!("{:.2}", ratio)
    } else {
        format!("({:.2})", ratio)
    }
}
