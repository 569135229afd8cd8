//! What the paper chooses where the layout is free: which sectors a call takes, and how a chain
//! grows by them.

use super::volume::{Block, Volume};
use std::collections::BTreeSet;

/// Data goes to sectors from here on as long as there are any.
const FIRST_FOR_DATA: usize = 34;

/// The sectors of a sound volume that are free, less those that were taken since.
pub(super) struct Free(BTreeSet<usize>);

impl Free {
    pub(super) fn of(volume: Volume) -> Self {
        let taken = volume.label().map().flatten().enumerate();
        Free(taken.filter(|(_, taken)| !**taken).map(|(sector, _)| sector).collect())
    }

    pub(super) fn count(&self) -> usize {
        self.0.len()
    }

    /// The lowest; sectors 0 and 1 are never free.
    pub(super) fn take_for_descriptor(&mut self) -> Option<usize> {
        let lowest = self.0.iter().next().copied()?;
        self.0.take(&lowest)
    }

    /// The lowest from 34 up, or where none is left there the lowest of all.
    pub(super) fn take_for_data(&mut self) -> Option<usize> {
        let high = self.0.range(FIRST_FOR_DATA..).next().copied();
        let chosen = high.or_else(|| self.0.iter().next().copied())?;
        self.0.take(&chosen)
    }
}

/// A sector that follows the last block's last one extends that block, any other begins a block.
pub(super) fn grow(blocks: &mut Vec<Block>, sector: usize) {
    let covered = blocks.last().map_or(0, |block| block.last + 1);
    match blocks.last_mut() {
        Some(block) if block.places().end == sector => block.last = covered,
        _ => blocks.push(Block { start: sector, first: covered, last: covered }),
    }
}
