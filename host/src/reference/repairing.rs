//! Repair: what a call has left whose writes were cut short becomes a sound volume again.

use super::draft::{Draft, Writes};
use super::judge::judge_to_repair;
use super::refusal::Refusal;
use super::volume::Directory;
use crate::layout::Layout;

/// Every index in the order of names, and the map of the holders; all else stays.
pub fn repair(image: &mut [u8], layout: Layout) -> Result<Writes, Refusal> {
    let (volume, held) = judge_to_repair(image, layout)?;
    let indexes: Vec<usize> = volume.directories().map(Directory::sector).collect();
    let map = held.map(volume.sectors());

    let mut draft = Draft::new(image);
    indexes.into_iter().for_each(|index| draft.sort(index));
    draft.set_map(&map);
    Ok(draft.writes())
}
