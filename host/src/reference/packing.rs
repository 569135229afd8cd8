//! Packing: the label area and the catalogue of a volume, laid down in the one way that the paper
//! gives. Nothing of the result comes from where the source's files lay or from its free sectors.

use super::judge::judge;
use super::refusal::{holds, Refusal};
use super::volume::{Block, Descriptor, Sector, Volume};
use super::volume::{HEADER_BYTES, MOST_SECTORS, SECTOR_BYTES};
use crate::layout::Layout;
use std::ops::Range;

/// Where sector 0's map begins; packing keeps the bytes before it, but for the sectors of the
/// directories.
const MAP: usize = 56;
/// Where the entries of the directories begin.
const ENTRIES: usize = 20;
/// The sector of the first directory's index, or where there is none of the first descriptor.
const FIRST: usize = 2;

/// The bytes of a target that has so many of them, after packing the source into it.
pub fn pack(source: &[u8], layout: Layout, target_bytes: usize) -> Result<Vec<u8>, Refusal> {
    let volume = judge(source, layout)?;
    holds(target_bytes == source.len(), Refusal::Argument)?;
    // The root's index is in sector 1, so there is one directory less than there are indexes.
    let first = FIRST + volume.directories().count() - 1;
    let (mut indexes, mut descriptors, mut data) = (Vec::new(), Vec::new(), Vec::new());
    let mut number = first;
    for directory in volume.directories() {
        let files = directory.files().count();
        indexes.extend(index(number..number + files));
        number += files;
    }
    let mut next = number;
    for (_, file) in volume.files() {
        descriptors.extend(described(file, next));
        data.extend(file.chain().places().flat_map(|place| volume.sector(place)));
        next += file.sectors();
    }
    let label = label(volume, next);
    let mut packed = [&label[..], &indexes, &descriptors, &data].concat();
    packed.resize(target_bytes, 0xE5);
    Ok(packed)
}

/// Sector 0 of a volume whose sectors below a bound are taken and no others, and whose directories
/// have the first of them in the order of their entries.
fn label(volume: Volume, bound: usize) -> Sector {
    let mut label = [0; SECTOR_BYTES];
    label[..MAP].copy_from_slice(&volume.sector(0)[..MAP]);
    let mut next = FIRST;
    for (bytes, entry) in label[ENTRIES..MAP].chunks_exact_mut(12).zip(volume.entries()) {
        if !entry.is_absent() {
            bytes[10..].copy_from_slice(&(next as u16).to_be_bytes());
            next += 1;
        }
    }
    for taken in (0..bound).chain(volume.sectors()..MOST_SECTORS) {
        label[MAP + taken / 8] |= 1 << (taken % 8);
    }
    label
}

/// The index of files whose descriptors lie one after another.
fn index(numbers: Range<usize>) -> Sector {
    let mut index = [0; SECTOR_BYTES];
    for (bytes, number) in index.chunks_exact_mut(2).zip(numbers) {
        bytes.copy_from_slice(&(number as u16).to_be_bytes());
    }
    index
}

/// A file's descriptor with its data from the given sector on: one block, or none where there is no
/// data.
fn described(file: Descriptor, start: usize) -> Sector {
    let mut descriptor = [0; SECTOR_BYTES];
    descriptor[..HEADER_BYTES].copy_from_slice(file.header());
    if let Some(last) = file.sectors().checked_sub(1) {
        let block = Block { start, first: 0, last };
        descriptor[HEADER_BYTES..][..3].copy_from_slice(&block.bytes());
    }
    descriptor
}
