//! Formatting: an empty volume, whatever the image held.

use super::judge::is_length;
use super::name::given_name;
use super::refusal::{holds, Refusal};
use super::volume::{Name, Sector, MOST_SECTORS, SECTOR_BYTES};

/// What sector 0 carries besides the name and n.
#[derive(Clone, Copy, Debug, PartialEq, Eq)]
pub struct Geometry {
    pub sectors_per_track: u8,
    pub tracks: u8,
    pub sides: u8,
    pub density: u8,
}

/// The bytes of an image that has so many of them, after formatting for n sectors.
pub fn format(
    image_bytes: usize,
    n: usize,
    name: &[u8],
    geometry: Geometry,
) -> Result<Vec<u8>, Refusal> {
    let sectors = image_bytes / SECTOR_BYTES;
    holds(is_length(image_bytes) && n == sectors, Refusal::Length)?;
    let label = label_of_empty(sectors, given_name(name)?, geometry);
    let index = [0; SECTOR_BYTES];
    let rest = vec![0xE5; image_bytes - label.len() - index.len()];
    Ok([&label[..], &index, &rest].concat())
}

fn label_of_empty(sectors: usize, name: &Name, geometry: Geometry) -> Sector {
    let Geometry { sectors_per_track, tracks, sides, density } = geometry;
    let mut label = [0; SECTOR_BYTES];
    label[..10].copy_from_slice(name);
    label[10..12].copy_from_slice(&(sectors as u16).to_be_bytes());
    label[12] = sectors_per_track;
    label[13..16].copy_from_slice(b"DSK");
    label[16] = b' ';
    label[17..20].copy_from_slice(&[tracks, sides, density]);
    for taken in (0..2).chain(sectors..MOST_SECTORS) {
        label[56 + taken / 8] |= 1 << (taken % 8);
    }
    label
}
