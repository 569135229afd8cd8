//! The judge: numbers 0 to 6 of document 01. Each test looks at the whole image and is only met
//! by an image that passed those before it, so a reading never leaves the image.

use super::name::is_name;
use super::refusal::{holds, Refusal};
use super::volume::{Block, Chain, Descriptor, Directory, Volume};
use super::volume::{MOST_SECTORS, SECTOR_BYTES};
use crate::layout::Layout;
use std::collections::BTreeSet;

/// The sound volume that an image is, or the first refusal in the paper's order.
pub fn judge(image: &[u8], layout: Layout) -> Result<Volume<'_>, Refusal> {
    let volume = judge_system(image, layout)?;
    judge_descriptors(volume, layout)?;
    let marks = judge_holders(volume)?;
    judge_map(volume, marks)?;
    Ok(volume)
}

/// The volume that an image is but for the order of names and the map, and which of its sectors are
/// held; or the first refusal, where neither would help.
pub(super) fn judge_to_repair(
    image: &[u8],
    layout: Layout,
) -> Result<(Volume<'_>, Marks), Refusal> {
    let volume = judge_system(image, layout)?;
    judge_descriptors_in_any_order(volume, layout)?;
    let marks = judge_holders(volume)?;
    Ok((volume, marks))
}

/// Numbers 1 to 3.
fn judge_system(image: &[u8], layout: Layout) -> Result<Volume<'_>, Refusal> {
    let volume = judge_length(image, layout)?;
    judge_label(volume)?;
    judge_entries(volume)?;
    volume.directories().try_for_each(|directory| judge_index(directory, volume.sectors()))?;
    Ok(volume)
}

/// The paper's number for an image.
pub fn number(image: &[u8], layout: Layout) -> u32 {
    match judge(image, layout) {
        Ok(_) => 0,
        Err(refusal) => refusal.number(),
    }
}

/// The number that a repair gives for an image.
pub fn number_to_repair(image: &[u8], layout: Layout) -> u32 {
    match judge_to_repair(image, layout) {
        Ok(_) => 0,
        Err(refusal) => refusal.number(),
    }
}

fn judge_length(image: &[u8], layout: Layout) -> Result<Volume<'_>, Refusal> {
    holds(is_length(image.len()), Refusal::Length)?;
    Ok(Volume::new(image, layout))
}

/// Whether an image of so many bytes can be a volume.
pub(super) fn is_length(bytes: usize) -> bool {
    bytes % SECTOR_BYTES == 0 && (3..=MOST_SECTORS).contains(&(bytes / SECTOR_BYTES))
}

fn judge_label(volume: Volume) -> Result<(), Refusal> {
    let label = volume.label();
    let rule =
        is_name(label.disk_name()) && label.sectors() == volume.sectors() && label.mark() == b"DSK";
    holds(rule, Refusal::Label)
}

/// Each entry that is there has a name that no other has, and an index that lies on the disk.
fn judge_entries(volume: Volume) -> Result<(), Refusal> {
    let mut names = Vec::new();
    for entry in volume.entries().filter(|entry| !entry.is_absent()) {
        let is_new = is_name(entry.name()) && !names.contains(&entry.name());
        let is_placed = (2..volume.sectors()).contains(&entry.index());
        holds(is_new && is_placed, Refusal::Index)?;
        names.push(entry.name());
    }
    Ok(())
}

fn judge_index(directory: Directory, sectors: usize) -> Result<(), Refusal> {
    let index = directory.index();
    let mut numbers = index.numbers();
    let in_range = numbers
        .by_ref()
        .take_while(|number| *number != 0)
        .all(|number| (2..sectors).contains(&number));
    let ended = numbers.all(|number| number == 0) && index.last() == 0;
    holds(in_range && ended, Refusal::Index)
}

fn judge_descriptors(volume: Volume, layout: Layout) -> Result<(), Refusal> {
    let allowed = allowed_bits(layout);
    for directory in volume.directories() {
        // None is below every name.
        let mut previous = None;
        for (_, descriptor) in directory.files() {
            let name = Some(descriptor.name());
            let rule = previous < name && is_descriptor(descriptor, volume.sectors(), allowed);
            holds(rule, Refusal::Descriptor)?;
            previous = name;
        }
    }
    Ok(())
}

/// The same where the names of an index may stand in any order: they only have to differ.
fn judge_descriptors_in_any_order(volume: Volume, layout: Layout) -> Result<(), Refusal> {
    let allowed = allowed_bits(layout);
    for directory in volume.directories() {
        let mut names = BTreeSet::new();
        for (_, descriptor) in directory.files() {
            let rule = names.insert(descriptor.name())
                && is_descriptor(descriptor, volume.sectors(), allowed);
            holds(rule, Refusal::Descriptor)?;
        }
    }
    Ok(())
}

fn is_descriptor(descriptor: Descriptor, sectors: usize, allowed: u8) -> bool {
    is_name(descriptor.name())
        && is_status(descriptor, allowed)
        && length_of_chain(descriptor.chain(), sectors) == Some(descriptor.sectors())
        && descriptor.kind().is_some()
}

const DATA: u8 = Descriptor::INTERNAL | Descriptor::VARIABLE;

/// The bits that a status may have.
fn allowed_bits(layout: Layout) -> u8 {
    let old = Descriptor::PROGRAM | Descriptor::PROTECTED | DATA;
    if layout.marks {
        old | Descriptor::MARKED
    } else {
        old
    }
}

fn is_status(descriptor: Descriptor, allowed: u8) -> bool {
    descriptor.status() & !allowed == 0
        && !(descriptor.has(Descriptor::PROGRAM) && descriptor.has(DATA))
}

/// How many sectors a chain covers; none where it breaks a rule.
fn length_of_chain(chain: Chain, sectors: usize) -> Option<usize> {
    const NO_BLOCKS: [u8; 228] = [0; 228];
    let (mut used, mut length) = (0, 0);
    for block in chain.blocks() {
        if !is_block(block, sectors) {
            return None;
        }
        used += 1;
        length = block.last + 1;
    }
    let rest = chain.from_block(used);
    (rest == &NO_BLOCKS[..rest.len()]).then_some(length)
}

fn is_block(block: Block, sectors: usize) -> bool {
    block.start >= 2 && block.first <= block.last && block.places().end <= sectors
}

/// Which sectors are claimed.
pub(super) struct Marks([bool; MOST_SECTORS]);

impl Marks {
    /// The bytes of the map that calls these sectors taken, and those from n on.
    pub(super) fn map(mut self, sectors: usize) -> [u8; MOST_SECTORS / 8] {
        self.0[sectors..].fill(true);
        let mut map = [0; MOST_SECTORS / 8];
        for (byte, marked) in map.iter_mut().zip(self.0.chunks_exact(8)) {
            *byte = marked.iter().rev().fold(0, |byte, marked| 2 * byte + u8::from(*marked));
        }
        map
    }

    fn claim(&mut self, sector: usize) -> Result<(), Refusal> {
        let claimed = std::mem::replace(&mut self.0[sector], true);
        holds(!claimed, Refusal::TwoHolders)
    }
}

fn judge_holders(volume: Volume) -> Result<Marks, Refusal> {
    let mut marks = Marks([false; MOST_SECTORS]);
    marks.claim(0)?;
    volume.directories().try_for_each(|directory| marks.claim(directory.sector()))?;
    for (number, descriptor) in volume.files() {
        marks.claim(number)?;
        let mut places = descriptor.chain().places();
        places.try_for_each(|place| marks.claim(place))?;
    }
    Ok(marks)
}

/// The map calls the sectors from n on taken, as if they had a holder.
fn judge_map(volume: Volume, mut marks: Marks) -> Result<(), Refusal> {
    marks.0[volume.sectors()..].fill(true);
    let mut pairs = volume.label().map().zip(marks.0.chunks_exact(8));
    holds(pairs.all(|(taken, marked)| taken == marked), Refusal::Map)
}
