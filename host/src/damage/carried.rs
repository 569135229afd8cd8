//! Number 0: bytes that are carried and not judged, and protection and mark, which any file may
//! have. Of a program without sectors the end offset is judged all the same.

use super::{in_descriptor, Damage};
use crate::random::Random;
use crate::volumes::{File, ENTRIES, MAP, MARK, SECTOR_BYTES};

impl Damage<'_> {
    pub(super) fn carried(&mut self, random: &mut Random) {
        self.put("sectors per track", 0, 12, &random.bytes(1));
        let by_all = ENTRIES - 16;
        let carried = if self.disk.has_directories() { by_all } else { MAP - 16 };
        self.put("label's carried bytes", 0, 16, &random.bytes(by_all));
        self.put("label's carried bytes", 0, 16, &random.bytes(carried));
        for sector in self.disk.free() {
            if random.once_in(200) {
                self.put("free sector", 0, SECTOR_BYTES * sector, &random.bytes(SECTOR_BYTES));
            }
        }
        for _ in 0..4 {
            if let Some(file) = self.some_file(random) {
                self.carried_of_file(file, random);
            }
        }
    }

    fn carried_of_file(&mut self, file: &File, random: &mut Random) {
        for (byte, bytes) in [(10, 2), (13, 1), (16, 1), (17, 1), (18, 2), (20, 8), (16, 12)] {
            self.put_in_header("descriptor's carried bytes", file, byte, &random.bytes(bytes));
        }
        let status = in_descriptor(file, 12);
        self.put("protection", 0, status, &[file.status() ^ 0x08]);
        self.put("mark", 0, status, &[file.status() ^ MARK]);
        self.put("protection and mark", 0, status, &[file.status() ^ MARK ^ 0x08]);
        if let Some(sector) = file.sectors().next() {
            self.put("data", 0, SECTOR_BYTES * sector, &random.bytes(SECTOR_BYTES));
        }
    }
}
