//! The judge of document 01 once more, tuned for speed: a second yardstick beside `reference`.
//! It goes through the descriptors once for numbers 4 and 5 together, marks whole runs of sectors
//! as bits, 64 a word, and tests a name's bytes all at once. Safe Rust all the same.

use crate::layout::Layout;

const SECTOR_BYTES: usize = 256;
const MOST_SECTORS: usize = 1600;
const WORDS: usize = MOST_SECTORS / 64;
const ZEROS: [u8; SECTOR_BYTES] = [0; SECTOR_BYTES];

/// The paper's number for an image.
pub fn number(image: &[u8], layout: Layout) -> u32 {
    match judge(image, layout) {
        Ok(()) => 0,
        Err(number) => number,
    }
}

fn judge(image: &[u8], layout: Layout) -> Result<(), u32> {
    let sectors = image.len() / SECTOR_BYTES;
    if image.len() % SECTOR_BYTES != 0 || !(3..=MOST_SECTORS).contains(&sectors) {
        return Err(1);
    }
    let (label, index) = image[..2 * SECTOR_BYTES].split_at(SECTOR_BYTES);
    if !is_label(label, sectors) {
        return Err(2);
    }
    let mut marks = Marks { words: [0; WORDS], twice: 0 };
    marks.claim(0, 2);
    let mut lists = [listed(index, sectors).ok_or(3_u32)?, &[], &[], &[]];
    if layout.directories {
        list_entries(image, &mut lists, &mut marks).ok_or(3_u32)?;
    }
    for listed in lists {
        claim_files(image, layout, listed, &mut marks).ok_or(4_u32)?;
    }
    if marks.twice != 0 {
        return Err(5);
    }
    if sectors < MOST_SECTORS {
        // The map's end is filled as if it had holders.
        marks.claim(sectors, MOST_SECTORS);
    }
    let map = label[56..].chunks_exact(8).map(le_word);
    if map.eq(marks.words) {
        Ok(())
    } else {
        Err(6)
    }
}

fn is_label(label: &[u8], sectors: usize) -> bool {
    is_name(name(label)) && be_word(&label[10..12]) == sectors && &label[13..16] == b"DSK"
}

/// Puts what the directories list behind what the root does, and claims their indexes; none where
/// an entry or an index is wrong.
fn list_entries<'image>(
    image: &'image [u8],
    lists: &mut [&'image [u8]; 4],
    marks: &mut Marks,
) -> Option<()> {
    let sectors = image.len() / SECTOR_BYTES;
    let mut names = [0; 3];
    for (place, entry) in image[20..56].chunks_exact(12).enumerate() {
        if entry == &ZEROS[..12] {
            continue;
        }
        let (name, number) = (name(entry), be_word(&entry[10..]));
        if !is_name(name) || names.contains(&name) || number < 2 || number >= sectors {
            return None;
        }
        names[place] = name;
        lists[place + 1] = listed(&image[number * SECTOR_BYTES..][..SECTOR_BYTES], sectors)?;
        marks.claim(number, number + 1);
    }
    Some(())
}

/// The part of an index before its first zero; none where the range or the end is wrong.
fn listed(index: &[u8], sectors: usize) -> Option<&[u8]> {
    let mut end = 0;
    for pair in index.chunks_exact(2) {
        let number = be_word(pair);
        if number == 0 {
            break;
        }
        if number < 2 || number >= sectors {
            return None;
        }
        end += 2;
    }
    let (listed, rest) = index.split_at(end);
    (!rest.is_empty() && rest == &ZEROS[..rest.len()]).then_some(listed)
}

fn claim_files(image: &[u8], layout: Layout, listed: &[u8], marks: &mut Marks) -> Option<()> {
    // Any file may be protected, and marked where there are marks, so these bits are left aside.
    let aside = if layout.marks { 0x18 } else { 0x08 };
    let mut previous = 0;
    for pair in listed.chunks_exact(2) {
        let number = be_word(pair);
        let descriptor = &image[number * SECTOR_BYTES..][..SECTOR_BYTES];
        let name = name(descriptor);
        let count = be_word(&descriptor[14..16]);
        if name <= previous || !is_name(name) || !is_kind(descriptor, count, aside) {
            return None;
        }
        previous = name;
        marks.claim(number, number + 1);
        claim_chain(&descriptor[28..], count, image.len() / SECTOR_BYTES, marks)?;
    }
    Some(())
}

fn claim_chain(chain: &[u8], count: usize, sectors: usize, marks: &mut Marks) -> Option<()> {
    let (mut used, mut next) = (0, 0);
    for block in chain.chunks_exact(3) {
        let fields = u32::from_le_bytes([block[0], block[1], block[2], 0]) as usize;
        if fields == 0 {
            break;
        }
        // Twelve bits each: the paper's two formulas in one.
        let (start, last) = (fields % 4096, fields / 4096);
        let end = start + last + 1;
        if start < 2 || last < next || end > sectors + next {
            return None;
        }
        marks.claim(start, end - next);
        next = last + 1;
        used += 3;
    }
    let rest = &chain[used..];
    (next == count && rest == &ZEROS[..rest.len()]).then_some(())
}

/// A bit for each sector that was claimed; in `twice` some bit once one was claimed again.
struct Marks {
    words: [u64; WORDS],
    twice: u64,
}

impl Marks {
    /// Claims the sectors from `from` to before `to`, of which there is at least one.
    fn claim(&mut self, from: usize, to: usize) {
        let (first, last) = (from / 64, (to - 1) / 64);
        let (low, high) = (u64::MAX << (from % 64), u64::MAX >> (63 - (to - 1) % 64));
        if first == last {
            return self.claim_bits(first, low & high);
        }
        self.claim_bits(first, low);
        (first + 1..last).for_each(|word| self.claim_bits(word, u64::MAX));
        self.claim_bits(last, high);
    }

    fn claim_bits(&mut self, word: usize, bits: u64) {
        self.twice |= self.words[word] & bits;
        self.words[word] |= bits;
    }
}

/// A program without sectors has end offset 0.
fn is_kind(descriptor: &[u8], count: usize, aside: u8) -> bool {
    match descriptor[12] & !aside {
        0x00 | 0x02 | 0x80 | 0x82 => true,
        0x01 => count > 0 || descriptor[16] == 0,
        _ => false,
    }
}

/// A name as one number whose order is the order of names.
fn name(sector: &[u8]) -> u128 {
    let mut bytes = *b"                ";
    bytes[..10].copy_from_slice(&sector[..10]);
    u128::from_be_bytes(bytes)
}

/// Tests sixteen bytes at once by a high bit in each: none carries into its neighbour, for with
/// bytes below 128 no sum reaches 256. The six spaces after a name's ten bytes keep the rule.
fn is_name(name: u128) -> bool {
    const EACH: u128 = u128::MAX / 255;
    const HIGH: u128 = EACH * 0x80;
    let differs = |byte: u8| ((name ^ (EACH * u128::from(byte))) + EACH * 0x7F) & HIGH;
    if name & HIGH != 0 {
        return false;
    }
    let from_space_on = (name + EACH * (0x80 - 32)) & HIGH;
    let letters = differs(b' ');
    let good = from_space_on & differs(b'.') & differs(127);
    // The letters lead, so the bytes of the padding, all ones, make one less than a power of two.
    let padding = ((HIGH & !letters) >> 7) * 0xFF;
    letters >> 127 == 1 && good == HIGH && padding & (padding + 1) == 0
}

fn be_word(pair: &[u8]) -> usize {
    usize::from(pair[0]) * 256 + usize::from(pair[1])
}

fn le_word(eight: &[u8]) -> u64 {
    u64::from_le_bytes(eight.try_into().expect("a part of eight bytes"))
}
