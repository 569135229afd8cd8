//! Every value of a field, one after the other.

use super::{edit, in_chain, in_descriptor, Damage};
use crate::volumes::{is_name, File, HEADER_BYTES, MOST_BLOCKS, SECTOR_BYTES};

const VALUE: &str = "value of a byte";

impl Damage<'_> {
    /// All values of one byte, `number` saying what the paper gives for the changed image.
    pub fn every_value(&mut self, at: usize, number: impl Fn(&[u8]) -> Option<u32>) {
        let mut image = self.disk.image.clone();
        for value in 0..=255 {
            image[at] = value;
            self.keep(VALUE, number(&image), vec![edit(at, &[value])]);
        }
    }

    pub fn every_header_byte(&mut self, file: &File) {
        let start = in_descriptor(file, 0);
        for byte in (0..10).chain([14, 15]) {
            self.every_value(start + byte, |image| match byte {
                0..=9 if is_name(&image[start..start + 10].try_into().expect("ten bytes")) => {
                    Some(0)
                }
                _ => Some(4),
            });
        }
        for byte in (10..14).chain(16..HEADER_BYTES) {
            (0..=255).for_each(|value| self.put_in_header(VALUE, file, byte, &[value]));
        }
    }

    /// A bit of the blocks may leave a chain that keeps the rules; one after them never does.
    pub fn every_chain_bit(&mut self, file: &File) {
        let blocks_end = in_chain(file, file.runs.len());
        for at in in_chain(file, 0)..in_chain(file, MOST_BLOCKS) {
            let number = if at < blocks_end { None } else { Some(4) };
            self.every_bit("bit of a chain", at, number);
        }
    }

    /// A bit of the listed numbers, or of the zero after them, may leave numbers in range.
    pub fn every_index_bit(&mut self, directory: usize) {
        let (index, files) = (self.index(directory), self.disk.files_in(directory).count());
        let (end, index_end) = (index + 2 * files + 2, index + SECTOR_BYTES);
        for at in index..index_end {
            let last = at >= index_end - 2;
            let number = if at < end && !last { None } else { Some(3) };
            self.every_bit("bit of the index", at, number);
        }
    }

    fn every_bit(&mut self, what: &'static str, at: usize, number: Option<u32>) {
        for bit in 0..8 {
            let flipped = self.disk.image[at] ^ (1 << bit);
            self.keep(what, number, vec![edit(at, &[flipped])]);
        }
    }
}
