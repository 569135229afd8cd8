//! Number 3: the range of an index's numbers, and where they end.

use super::{edit, Damage, INDEX_PLACES};
use crate::random::Random;
use crate::volumes::{word, SECTOR_BYTES};

impl Damage<'_> {
    pub(super) fn index_numbers(&mut self, directory: usize, random: &mut Random) {
        let (index, files) = (self.index(directory), self.disk.files_in(directory).count());
        if files == 0 {
            return;
        }
        let n = self.disk.sectors;
        for place in [0, files - 1, random.below(files)] {
            let at = index + 2 * place;
            for number in [1, n, n + 1, 0x8000 + n - 1, 0xFFFF] {
                self.put("number out of range", 3, at, &word(number));
            }
            if place + 1 < files {
                self.put("gap in the index", 3, at, &[0, 0]);
            }
        }
        // One byte of a number changed: where it is in range still, the rest decides.
        let at = index + random.below(2 * files);
        self.keep("byte of a number", None, vec![edit(at, &random.bytes(1))]);
    }

    pub(super) fn index_end(&mut self, directory: usize, random: &mut Random) {
        let (index, files) = (self.index(directory), self.disk.files_in(directory).count());
        let sector = random.within(2..=self.disk.sectors - 1);
        self.put("128th number", 3, index + SECTOR_BYTES - 2, &word(sector));
        self.put("last byte of the index", 3, index + SECTOR_BYTES - 1, &[2]);
        for _ in 0..3 {
            // The zero that ends the list stands before this place.
            let place = random.within(files + 1..=INDEX_PLACES);
            if place < INDEX_PLACES {
                self.put("number after the end", 3, index + 2 * place, &word(sector));
                let byte = index + 2 * place + random.below(2);
                self.put("byte after the end", 3, byte, &[1 << random.below(8)]);
            }
        }
        let full = self.disk.files_in(directory).map(|file| word(file.descriptor));
        let repeated: Vec<u8> = full.cycle().take(INDEX_PLACES).flatten().collect();
        if files > 0 {
            self.put("128 numbers in range", 3, index, &repeated);
        }
    }
}
