//! What the paper says of packing in so many words: bench cases 8 and 14, and a volume with
//! directories, by the library's calls.

use super::pack::{answer, compared, into_target};
use crate::layout::Layout;
use crate::paper::{all_shown, formatted, put_directories};
use crate::pnoelithe::{append, create, delete, store, Refusal};
use crate::random::Random;
use crate::suites::{Image, Numbers};
use crate::volumes::SECTOR_BYTES;

const ALPHA: &[u8; 10] = b"ALPHA     ";
const NOTES: &[u8; 10] = b"NOTES     ";
const LETTER: &[u8; 10] = b"LETTER    ";

pub(super) fn cases(random: &mut Random) -> Result<(), String> {
    all_shown(&[
        ("bench case 8", case_8(Layout::OLD, random)?),
        ("bench case 8 by the new rule, marks and all", case_8(Layout::MARKS, random)?),
        ("bench case 14", case_14(random)?),
        ("two directories packed", two_directories(Layout::DIRECTORIES, random)?),
        (
            "two directories packed by the new rule",
            two_directories(Layout::MARKS_AND_DIRECTORIES, random)?,
        ),
    ])
}

/// "Case M packed: blocks 04 10 00 and 06 00 00; byte 56 is 7F."
fn case_8(layout: Layout, random: &mut Random) -> Result<bool, String> {
    let (program, data) = (random.bytes(300), random.bytes(SECTOR_BYTES));
    let packed = packed(&case_m(layout, &program, &data).map_err(told)?, layout, random)?;
    let sector = |number: usize| &packed[SECTOR_BYTES * number..][..SECTOR_BYTES];
    let (alpha, notes) = (sector(2), sector(3));
    let index = sector(1)[..4] == [0, 2, 0, 3] && is_all(&sector(1)[4..], 0);
    let blocks = alpha[28..31] == [0x04, 0x10, 0x00] && notes[28..31] == [0x06, 0x00, 0x00];
    let named = alpha[..10] == ALPHA[..] && notes[..10] == NOTES[..];
    let statuses = if layout.marks { [0x11, 0x90] } else { [0x01, 0x80] };
    let named = named && [alpha[12], notes[12]] == statuses;
    let ends = is_all(&alpha[31..], 0) && is_all(&notes[31..], 0);
    let stored = &packed[4 * SECTOR_BYTES..6 * SECTOR_BYTES];
    let program_lies = stored[..300] == program && is_all(&stored[300..], 0);
    let lies = program_lies && sector(6) == data && is_all(&packed[7 * SECTOR_BYTES..], 0xE5);
    let map = packed[56] == 0x7F && is_all(&packed[57..64], 0) && is_all(&packed[64..256], 0xFF);
    Ok(index && named && blocks && ends && lies && map)
}

/// "Packed: index sectors from 2 in entry order, their new numbers put into the entries, then
/// descriptors, root first, then data likewise." The volume is the worked example of docs/FORMAT.md.
fn two_directories(layout: Layout, random: &mut Random) -> Result<bool, String> {
    let [alpha, games, notes, letter] = [300, 100, 256, 256].map(|length| random.bytes(length));
    let host = layout.for_host();
    let made = case_m(layout, &alpha, &notes).and_then(|mut image| {
        put_directories(&mut image);
        store(&mut image, host, 1, ALPHA, &games)?;
        create(&mut image, host, 3, LETTER, 0x80, 80, 3)?;
        append(&mut image, host, 3, LETTER, &letter)?;
        Ok(image)
    });
    let packed = packed(&made.map_err(told)?, layout, random)?;
    let sector = |number: usize| &packed[SECTOR_BYTES * number..][..SECTOR_BYTES];
    let entries = packed[20..32] == *b"GAMES     \x00\x02"
        && packed[32..44] == [0; 12]
        && packed[44..56] == *b"TEXTS     \x00\x03";
    let lists = |index: usize, numbers: &[u8]| {
        sector(index).starts_with(numbers) && is_all(&sector(index)[numbers.len()..], 0)
    };
    let indexes = lists(1, &[0, 4, 0, 5]) && lists(2, &[0, 6]) && lists(3, &[0, 7]);
    let describes = |number: usize, name: &[u8; 10], block: [u8; 3]| {
        let descriptor = sector(number);
        descriptor[..10] == *name && descriptor[28..31] == block && is_all(&descriptor[31..], 0)
    };
    let described = describes(4, ALPHA, [0x08, 0x10, 0x00])
        && describes(5, NOTES, [0x0A, 0x00, 0x00])
        && describes(6, ALPHA, [0x0B, 0x00, 0x00])
        && describes(7, LETTER, [0x0C, 0x00, 0x00]);
    let lies = [(8, &alpha[..256]), (9, &alpha[256..]), (10, &notes), (11, &games), (12, &letter)]
        .iter()
        .all(|(number, bytes)| {
            sector(*number).starts_with(bytes) && is_all(&sector(*number)[bytes.len()..], 0)
        });
    let map = packed[56] == 0xFF && packed[57] == 0x1F && is_all(&packed[58..64], 0);
    let free = is_all(&packed[13 * SECTOR_BYTES..], 0xE5) && is_all(&packed[64..256], 0xFF);
    Ok(entries && indexes && described && lies && map && free)
}

fn case_m(layout: Layout, program: &[u8], data: &[u8]) -> Result<Vec<u8>, Refusal> {
    let layout = layout.for_host();
    let mut image = formatted(64)?;
    store(&mut image, layout, 0, ALPHA, program)?;
    create(&mut image, layout, 0, NOTES, 0x80, 80, 3)?;
    append(&mut image, layout, 0, NOTES, data)?;
    Ok(image)
}

/// "Empty volume packed, deleted remains on it: all E5 from sector 2." So it is as just formatted.
fn case_14(random: &mut Random) -> Result<bool, String> {
    let mut shown = true;
    for sectors in [4, 35, 36, 64, 360, 1600] {
        let empty = formatted(sectors).map_err(told)?;
        let length = (SECTOR_BYTES * (sectors - 3)).min(32_768);
        let image = with_remains(&empty, &random.bytes(length)).map_err(told)?;
        let packed = packed(&image, Layout::OLD, random)?;
        shown &= image != empty && packed == empty;
        shown &= is_all(&packed[2 * SECTOR_BYTES..], 0xE5);
    }
    Ok(shown)
}

/// A volume that had one more file.
fn with_remains(image: &[u8], program: &[u8]) -> Result<Vec<u8>, Refusal> {
    let mut image = image.to_vec();
    let layout = Layout::OLD.for_host();
    store(&mut image, layout, 0, ALPHA, program)?;
    delete(&mut image, layout, 0, ALPHA)?;
    Ok(image)
}

fn told(refusal: Refusal) -> String {
    format!("a call of the paper's is refused: {}", refusal)
}

fn packed(image: &[u8], layout: Layout, random: &mut Random) -> Result<Vec<u8>, String> {
    let (what, numbers) = ("a case of the paper", Numbers::each(|_| None));
    let source = Image { what, bytes: image, numbers, planned: None };
    let arguments = into_target(image.len()).by(layout, random);
    let case = compared(&source, &arguments, random)?;
    answer(case).map_err(|number| format!("a volume of the paper is refused: {}", number))
}

fn is_all(bytes: &[u8], value: u8) -> bool {
    bytes.iter().all(|byte| *byte == value)
}
