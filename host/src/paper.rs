//! What the paper prints, as far as several parts of the comparison show it.

use crate::pnoelithe::{self, Geometry, Refusal};
use crate::volumes::SECTOR_BYTES;

/// The listing of case M.
pub(crate) const CASE_M: &str = "SHELF 64 57\nALPHA PROGRAM 300 2 U\nNOTES DIS/VAR 80 1 U\n";
/// By the new rule, of files without the mark, and of those that calls by that rule have made.
pub(crate) const CASE_M_UNMARKED: &str =
    "SHELF 64 57\nALPHA PROGRAM 300 2 U -\nNOTES DIS/VAR 80 1 U -\n";
pub(crate) const CASE_M_MARKED: &str =
    "SHELF 64 57\nALPHA PROGRAM 300 2 U M\nNOTES DIS/VAR 80 1 U M\n";

/// Puts two directories on case M's volume, GAMES at the first entry and TEXTS at the third: their
/// indexes, which list nothing, are sectors 4 and 6.
pub(crate) fn put_directories(image: &mut [u8]) {
    image[20..32].copy_from_slice(b"GAMES     \x00\x04");
    image[44..56].copy_from_slice(b"TEXTS     \x00\x06");
    for index in [4, 6] {
        image[56] |= 1 << index;
        image[SECTOR_BYTES * index..][..SECTOR_BYTES].fill(0);
    }
}

/// Fails where a case is not shown.
pub(crate) fn all_shown(cases: &[(&str, bool)]) -> Result<(), String> {
    match cases.iter().find(|(_, is_shown)| !is_shown) {
        Some((case, _)) => Err(format!("the library does not show {}", case)),
        None => Ok(()),
    }
}

/// An empty volume of so many sectors.
pub(crate) fn formatted(sectors: usize) -> Result<Vec<u8>, Refusal> {
    let mut image = vec![0; SECTOR_BYTES * sectors];
    let geometry = Geometry { sectors_per_track: 9, tracks: 40, sides: 1, density: 1 };
    pnoelithe::format(&mut image, sectors, b"SHELF     ", geometry)?;
    Ok(image)
}
