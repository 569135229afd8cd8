//! What calls by any layout are meant to meet: volumes of the other rule and of the other edition,
//! and directories that are not there.

use super::{Case, Meeting};
use crate::volumes::{Disk, MOST_DIRECTORIES};

pub(crate) const LAYOUTS_MET: &[Meeting] = &[
    ("volume with a mark by the old rule", |case| {
        case.number == 4 && case.asked.image.planned.is_some()
    }),
    ("volume with directories by the first edition", |case| {
        case.number == 6 && case.asked.image.planned.is_some()
    }),
    ("volume with directories by the second edition", |case| {
        case.is_done() && case.asked.on_disk(Disk::has_directories)
    }),
    ("volume without a directory by the second edition", |case| {
        case.is_done() && case.asked.by.directories && !case.asked.on_disk(Disk::has_directories)
    }),
    ("entry that is absent", |case| {
        is_no_entry(case) && case.asked.by.directories && case.asked.files().is_none()
    }),
    ("directory by the first edition", |case| is_no_entry(case) && !case.asked.by.directories),
    ("directory above 3", |case| case.number == 8 && case.asked.directory > MOST_DIRECTORIES),
    ("directory of 2^31 or more", |case| case.number == 8 && case.asked.directory >= 1 << 31),
];

fn is_no_entry(case: &Case) -> bool {
    case.number == 8 && (1..=MOST_DIRECTORIES).contains(&case.asked.directory)
}
