//! An image that a call has found no fault with and now changes, sector by sector. The order in which
//! a call comes to its sectors is that in which they are to be written through.

use super::volume::{Block, Name, Sector, HEADER_BYTES, SECTOR_BYTES};

/// The numbers of the sectors that a call writes, in their order, none of them twice.
pub type Writes = Vec<usize>;

pub(super) struct Draft<'image> {
    image: &'image mut [u8],
    writes: Writes,
}

impl<'image> Draft<'image> {
    pub(super) fn new(image: &'image mut [u8]) -> Self {
        Draft { image, writes: Writes::new() }
    }

    /// The sectors that were come to.
    pub(super) fn writes(self) -> Writes {
        self.writes
    }

    /// A sector to be changed. Whether any byte of it is then another is all one.
    pub(super) fn sector(&mut self, number: usize) -> &mut Sector {
        if !self.writes.contains(&number) {
            self.writes.push(number);
        }
        let sector = &mut self.image[SECTOR_BYTES * number..][..SECTOR_BYTES];
        sector.try_into().expect("256 bytes")
    }

    pub(super) fn take(&mut self, sector: usize) {
        self.sector(0)[56 + sector / 8] |= 1 << (sector % 8);
    }

    pub(super) fn give_back(&mut self, sector: usize) {
        self.sector(0)[56 + sector / 8] &= !(1 << (sector % 8));
    }

    pub(super) fn set_map(&mut self, map: &[u8]) {
        self.sector(0)[56..].copy_from_slice(map);
    }

    /// Lists a file that the index in a sector does not have, at the place that its name has in the
    /// order.
    pub(super) fn list(&mut self, index: usize, number: usize) {
        let name = self.name(number);
        let mut numbers = self.listed(index);
        let place = numbers.iter().take_while(|listed| self.name(**listed) < name).count();
        numbers.insert(place, number);
        self.set_listed(index, &numbers);
    }

    pub(super) fn unlist(&mut self, index: usize, number: usize) {
        let mut numbers = self.listed(index);
        numbers.retain(|listed| *listed != number);
        self.set_listed(index, &numbers);
    }

    /// Lists a file of the index at the place that its name has in the order now.
    pub(super) fn list_anew(&mut self, index: usize, number: usize) {
        self.unlist(index, number);
        self.list(index, number);
    }

    /// Orders an index by the names.
    pub(super) fn sort(&mut self, index: usize) {
        let mut numbers = self.listed(index);
        numbers.sort_by_key(|number| self.name(*number));
        self.set_listed(index, &numbers);
    }

    /// The name in a descriptor.
    fn name(&self, number: usize) -> Name {
        self.image[SECTOR_BYTES * number..][..10].try_into().expect("ten bytes")
    }

    fn listed(&self, index: usize) -> Vec<usize> {
        let pairs = self.image[SECTOR_BYTES * index..][..SECTOR_BYTES].chunks_exact(2);
        let numbers = pairs.map(|pair| usize::from(u16::from_be_bytes([pair[0], pair[1]])));
        numbers.take_while(|number| *number != 0).collect()
    }

    fn set_listed(&mut self, index: usize, numbers: &[usize]) {
        let index = self.sector(index);
        index.fill(0);
        for (bytes, number) in index.chunks_exact_mut(2).zip(numbers) {
            bytes.copy_from_slice(&(*number as u16).to_be_bytes());
        }
    }
}

/// Lays a chain down, and c with it; where it ends there must be zeros already.
pub(super) fn set_chain(descriptor: &mut Sector, blocks: &[Block]) {
    let count = blocks.last().map_or(0, |block| block.last + 1);
    descriptor[14..16].copy_from_slice(&(count as u16).to_be_bytes());
    for (bytes, block) in descriptor[HEADER_BYTES..].chunks_exact_mut(3).zip(blocks) {
        bytes.copy_from_slice(&block.bytes());
    }
}
