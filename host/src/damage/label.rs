//! Numbers 1 and 2: the length of the image, and sector 0 but for the map.

use super::{changed_names, Change, Damage, Verdict};
use crate::random::Random;
use crate::volumes::{is_name, word, Name, MOST_SECTORS, SECTOR_BYTES};

impl Damage<'_> {
    pub fn length(&mut self, length: usize) {
        let whole =
            length % SECTOR_BYTES == 0 && (3..=MOST_SECTORS).contains(&(length / SECTOR_BYTES));
        let number = if length == self.disk.image.len() {
            0
        } else if whole {
            // The label's n is another.
            2
        } else {
            1
        };
        let (what, own) = ("length of the image", Verdict::of(Some(number)));
        let other = self.roles.by_other(self.disk, own, &[]);
        self.changes.push(Change { what, own, other, edits: Vec::new(), length });
    }

    pub(super) fn lengths(&mut self, random: &mut Random) {
        let own = self.disk.image.len();
        let most = SECTOR_BYTES * MOST_SECTORS;
        for length in [0, 1, 255, 256, 512, 767, 769, most + 1, most + SECTOR_BYTES] {
            self.length(length);
        }
        for length in [own - 1, own + 1, own - SECTOR_BYTES, own + SECTOR_BYTES, random.below(most)]
        {
            self.length(length);
        }
        for sectors in [0, 1, 2, MOST_SECTORS + 1] {
            self.put("n of no volume in label and length", 1, 10, &word(sectors));
            self.changes.last_mut().expect("a change").length = SECTOR_BYTES * sectors;
        }
    }

    pub(super) fn disk_name(&mut self, random: &mut Random) {
        let name: Name = self.disk.image[..10].try_into().expect("ten bytes");
        for changed in changed_names(name, random) {
            let number = if is_name(&changed) { 0 } else { 2 };
            self.put("disk name", number, 0, &changed);
        }
    }

    pub(super) fn label(&mut self) {
        let sectors = self.disk.sectors;
        for other in [0, sectors - 1, sectors + 1, sectors + 256, sectors ^ 0x8000, 0xFFFF] {
            self.put("n in the label", 2, 10, &word(other));
        }
        let [high, low] = word(sectors);
        self.put("n low byte first", 2, 10, &[low, high]);
        for mark in [b"dsk", b"KSD", b"   "] {
            self.put("other bytes for DSK", 2, 13, mark);
        }
        for bit in 0..24 {
            let byte = 13 + bit / 8;
            self.put("bit of DSK", 2, byte, &[self.disk.image[byte] ^ (1 << (bit % 8))]);
        }
    }
}
