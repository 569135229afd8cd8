//! Number 6: the map beside its holders, either of them changed.

use super::{edit, in_chain, Damage};
use crate::random::Random;
use crate::volumes::{block, word, File, Run, MAP, MOST_SECTORS, SECTOR_BYTES};

impl Damage<'_> {
    pub fn map_bit(&mut self, sector: usize) {
        let byte = MAP + sector / 8;
        let flipped = self.disk.image[byte] ^ (1 << (sector % 8));
        self.put("bit of the map", 6, byte, &[flipped]);
    }

    pub(super) fn map_bits(&mut self, random: &mut Random) {
        let n = self.disk.sectors;
        for sector in [0, 1, 2, n - 1, n.min(MOST_SECTORS - 1), MOST_SECTORS - 1] {
            self.map_bit(sector);
        }
        for _ in 0..6 {
            self.map_bit(random.below(MOST_SECTORS));
            self.map_bit(random.below(n));
        }
    }

    pub(super) fn whole_map(&mut self, random: &mut Random) {
        let map = self.disk.map();
        let reversed = map.map(u8::reverse_bits);
        let inverted = map.map(|byte| !byte);
        for other in [reversed, inverted, [0; 200], [0xFF; 200]] {
            self.put("whole map", 6, MAP, &other);
        }
        self.put("random map", 6, MAP, &random.bytes(200));
        self.put("byte of the map", 6, MAP + random.below(200), &random.bytes(1));
    }

    /// The map as it was, with a file less, a file moved or a file grown.
    pub(super) fn other_holders(&mut self, file: &File, random: &mut Random) {
        let last = self.disk.files_in(file.directory).last().unwrap_or(file);
        self.put("last file not listed", 6, self.in_index(last), &[0, 0]);
        let free = self.disk.free();
        if free.is_empty() {
            return;
        }
        if let Some(number) = file.runs.iter().position(|run| run.length == 1) {
            let moved = block(random.pick(&free), file.last_offset(number));
            self.put("sector moved to a free one", 6, in_chain(file, number), &moved);
        }
        let is_beside = |run: &Run| free.binary_search(&run.sectors().end).is_ok();
        let grows = |file: &&File| file.runs.last().map_or(false, is_beside);
        if let Some(file) = std::iter::once(file).chain(&self.disk.files).find(grows) {
            self.one_sector_more("last block grown into a free sector", 6, file);
        }
        self.descriptor_elsewhere(file, random.pick(&free));
    }

    fn descriptor_elsewhere(&mut self, file: &File, free: usize) {
        let listed = edit(self.in_index(file), &word(free));
        let moved = vec![listed.clone(), edit(SECTOR_BYTES * free, &file.described())];
        self.keep("descriptor moved to a free sector", Some(6), moved);
        let formatted = vec![listed, edit(SECTOR_BYTES * free, &[0xE5; SECTOR_BYTES])];
        self.keep("number of a formatted sector", Some(4), formatted);
    }
}
