//! The orders of writing as the paper names them, sector by sector: on case M's volume, and on the
//! same with two directories.

use crate::layout::Layout;
use crate::paper::{all_shown, formatted, put_directories};
use crate::pnoelithe::{append, clear_mark, create, delete, overwrite, protect, rename, repair};
use crate::pnoelithe::{store, unprotect, Changes, Refusal};

const ALPHA: &[u8] = b"ALPHA     ";
const NOTES: &[u8] = b"NOTES     ";
const OMEGA: &[u8] = b"OMEGA     ";
const SECTOR: [u8; 256] = [7; 256];

pub(super) fn cases() -> Result<(), String> {
    for layout in Layout::ALL {
        all_shown(&[
            ("the orders of writing", in_root(layout) == Ok(true)),
            (
                "the orders of writing in directories",
                !layout.directories || in_directories(layout) == Ok(true),
            ),
        ])
        .map_err(|wrong| format!("{}, by {:?}", wrong, layout))?;
    }
    Ok(())
}

fn list(changes: Changes) -> Vec<usize> {
    changes.sectors().collect()
}

/// ALPHA has the descriptor's sector 2 and sectors 34 and 35, NOTES 3 and 36.
fn in_root(layout: Layout) -> Result<bool, Refusal> {
    let (mut volume, by) = (formatted(64)?, layout.for_host());
    let image = &mut volume;
    let mut shown = true;
    // "create and store: data in file order, descriptor, sector 0, sector 1"
    shown &= list(store(image, by, 0, ALPHA, &[1; 300])?) == [34, 35, 2, 0, 1];
    shown &= list(create(image, by, 0, NOTES, 0x80, 80, 3)?) == [3, 0, 1];
    // "append: data, sector 0, descriptor"
    shown &= list(append(image, by, 0, NOTES, &SECTOR)?) == [36, 0, 3];
    // "overwriting and protecting: their one sector"; "on the new rule overwriting writes descriptor,
    // then data"; "clearing follows Asks 8 and 9 as protecting does"
    let overwritten: &[usize] = if layout.marks { &[3, 36] } else { &[36] };
    shown &= list(overwrite(image, by, 0, NOTES, 0, &SECTOR)?) == overwritten;
    shown &= list(overwrite(image, by, 0, NOTES, 0, &SECTOR)?) == overwritten;
    shown &= list(protect(image, by, 0, NOTES)?) == [3];
    shown &= list(protect(image, by, 0, NOTES)?) == [3];
    shown &= list(unprotect(image, by, 0, NOTES)?) == [3];
    shown &= list(clear_mark(image, by, 0, NOTES)?) == [3];
    // "rename: descriptor, sector 1"
    shown &= list(rename(image, by, 0, ALPHA, OMEGA)?) == [2, 1];
    shown &= list(rename(image, by, 0, OMEGA, ALPHA)?) == [2, 1];
    // "a repair call that orders sector 1 by name and makes the map anew"
    shown &= list(repair(image, by)?) == [1, 0];
    // "delete: sector 1, sector 0"
    shown &= list(delete(image, by, 0, ALPHA)?) == [1, 0];
    // A program without sectors, and as many sectors as there may be.
    shown &= list(store(image, by, 0, ALPHA, &[])?) == [2, 0, 1];
    let (mut large, program) = (formatted(200)?, [1; 32_768]);
    let all: Vec<usize> = (34..34 + 128).chain([2, 0, 1]).collect();
    Ok(shown && list(store(&mut large, by, 0, ALPHA, &program)?) == all)
}

/// "With the directory's index in sector 1's place, and repair orders every index": the first entry's
/// is in sector 4, the third's in sector 6.
fn in_directories(layout: Layout) -> Result<bool, Refusal> {
    let (mut volume, by) = (formatted(64)?, layout.for_host());
    let image = &mut volume;
    list(store(image, by, 0, ALPHA, &[1; 300])?);
    list(create(image, by, 0, NOTES, 0x80, 80, 3)?);
    put_directories(image);
    let mut shown = true;
    shown &= list(store(image, by, 1, ALPHA, &[1; 300])?) == [36, 37, 5, 0, 4];
    shown &= list(create(image, by, 3, NOTES, 0x80, 80, 3)?) == [7, 0, 6];
    shown &= list(append(image, by, 3, NOTES, &SECTOR)?) == [38, 0, 7];
    let overwritten: &[usize] = if layout.marks { &[7, 38] } else { &[38] };
    shown &= list(overwrite(image, by, 3, NOTES, 0, &SECTOR)?) == overwritten;
    shown &= list(protect(image, by, 3, NOTES)?) == [7];
    shown &= list(rename(image, by, 1, ALPHA, OMEGA)?) == [5, 4];
    shown &= list(repair(image, by)?) == [1, 4, 6, 0];
    shown &= list(delete(image, by, 1, OMEGA)?) == [4, 0];
    Ok(shown && list(create(image, by, 0, OMEGA, 0x80, 80, 3)?) == [5, 0, 1])
}
