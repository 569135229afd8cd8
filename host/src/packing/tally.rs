//! What packs are meant to give and to meet.

use super::twins::Difference;
use crate::table::{Case, Meeting, PACK};
use crate::tally::Tally;
use crate::volumes::{Disk, File, Name, MOST_BLOCKS, MOST_FILES, SECTOR_BYTES};

pub(super) const LEFT_BY_CALLS: &str = "volume left by calls packed";
pub(super) const RELAID: &str = "laid out otherwise: the same bytes";

/// What the packs are meant to meet besides the numbers.
const MET: &[Meeting] = &[
    ("empty volume packed", |case| packs(case, |disk| disk.files.is_empty())),
    ("full volume packed", |case| packs(case, |disk| disk.free().is_empty())),
    ("volume of 127 files packed", |case| packs(case, |disk| disk.files.len() == MOST_FILES)),
    ("volume with directories packed", |case| packs(case, Disk::has_directories)),
    ("volume with three directories packed", |case| packs(case, |disk| disk.numbers().len() == 4)),
    ("volume with an absent entry before a directory packed", |case| {
        packs(case, |disk| {
            let [one, two, three] = disk.directories.map(|directory| directory.is_some());
            three && !(one && two) || two && !one
        })
    }),
    ("volume with a directory without files packed", |case| {
        packs(case, |disk| {
            disk.numbers()[1..].iter().any(|number| disk.files_in(*number).count() == 0)
        })
    }),
    ("volume with a directory of 127 files packed", |case| {
        packs(case, |disk| {
            disk.numbers()[1..].iter().any(|number| disk.files_in(*number).count() == MOST_FILES)
        })
    }),
    ("volume of more than 127 files packed", |case| {
        packs(case, |disk| disk.files.len() > MOST_FILES)
    }),
    ("volume with one name in several directories packed", |case| packs(case, has_shared_name)),
    ("volume with directories by the first edition", |case| {
        let disk = case.asked.image.planned;
        let is_second = !case.asked.by.directories && disk.map_or(false, Disk::has_directories);
        case.number == 6 && is_second
    }),
    ("volume with remains in free sectors packed", |case| packs(case, has_remains)),
    ("empty volume with remains packed", |case| {
        packs(case, |disk| disk.files.is_empty() && has_remains(disk))
    }),
    ("volume with and without marks packed", |case| {
        packs_file(case, File::is_marked) && packs_file(case, |file| !file.is_marked())
    }),
    ("volume with a mark by the old rule", |case| {
        case.number == 4 && case.asked.image.planned.is_some()
    }),
    ("file of 76 blocks packed", |case| packs_file(case, |file| file.runs.len() == MOST_BLOCKS)),
    ("file of more than 256 sectors packed", |case| packs_file(case, |file| file.count() > 256)),
    ("file without a sector packed", |case| packs_file(case, |file| file.count() == 0)),
    ("file with blocks that could be one packed", |case| {
        packs_file(case, |file| pairs(file, |end, start| end == start))
    }),
    ("file with a block before the one it follows packed", |case| {
        packs_file(case, |file| pairs(file, |end, start| start < end))
    }),
    ("unsound source and target of another length", |case| {
        case.is_unsound() && !is_off_by(case, 0)
    }),
    ("target of no byte", |case| case.number == 15 && case.asked.room == 0),
    ("target a byte shorter or longer", |case| case.number == 15 && is_off_by(case, 1)),
    ("target a sector shorter or longer", |case| case.number == 15 && is_off_by(case, 256)),
    ("target 65,536 bytes shorter or longer", |case| case.number == 15 && is_off_by(case, 65_536)),
];

fn packs(case: &Case, rule: fn(&Disk) -> bool) -> bool {
    case.is_done() && case.asked.disk().map_or(false, rule)
}

fn packs_file(case: &Case, rule: fn(&File) -> bool) -> bool {
    let disk = case.asked.disk();
    case.is_done() && disk.map_or(false, |disk| disk.files.iter().any(rule))
}

fn has_shared_name(disk: &Disk) -> bool {
    let mut names: Vec<Name> = disk.files.iter().map(File::name).collect();
    names.sort_unstable();
    names.windows(2).any(|pair| pair[0] == pair[1])
}

/// Whether the target has so many bytes more or less than the source.
fn is_off_by(case: &Case, bytes: usize) -> bool {
    let (source, target) = (case.asked.image.bytes.len(), case.asked.room);
    source + bytes == target || target + bytes == source
}

/// Whether a free sector holds other bytes than a formatted one.
fn has_remains(disk: &Disk) -> bool {
    let free = disk.free().into_iter();
    let mut sectors = free.map(|sector| &disk.image[SECTOR_BYTES * sector..][..SECTOR_BYTES]);
    sectors.any(|sector| sector.iter().any(|byte| *byte != 0xE5))
}

/// Whether a rule holds of the end of a block and the start of the next.
fn pairs(file: &File, rule: fn(usize, usize) -> bool) -> bool {
    file.runs.windows(2).any(|pair| rule(pair[0].sectors().end, pair[1].start))
}

pub(super) fn new() -> Tally {
    let mut tally = Tally::of([&PACK].into_iter(), &[MET]);
    tally.mean([LEFT_BY_CALLS, RELAID]);
    tally.mean(Difference::ALL.map(Difference::title));
    tally
}
