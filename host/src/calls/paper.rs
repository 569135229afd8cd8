//! What the paper itself prints and the calls so far can show, letter for letter.

use crate::paper::{all_shown, formatted, CASE_M, CASE_M_UNMARKED};
use crate::pnoelithe::{self, Layout, Refusal};
use crate::random::Random;
use crate::volumes::{Disk, File, Name, Run, HEADER_BYTES, SECTOR_BYTES};

pub(super) fn cases(random: &mut Random) -> Result<(), String> {
    let image = case_m(random).image;
    let lists =
        |layout, text: &str| pnoelithe::catalogue(&image, layout, 0) == Ok(text.to_string());
    all_shown(&[
        ("case M", lists(Layout::OLD, CASE_M)),
        ("case M by the new rule", lists(Layout::MARKS, CASE_M_UNMARKED)),
        ("bench case 4", case_4() == Ok(true)),
        ("bench case 5", case_5() == Ok(true)),
        ("bench case 10", case_10(Layout::OLD)),
        ("bench case 10 by the new rule", case_10(Layout::MARKS)),
        ("the paper's numbers in pnoelithe.rs", numbers()),
    ])
}

/// The table of numbers, in its order.
fn numbers() -> bool {
    let refusals = [
        (Refusal::Length, 1),
        (Refusal::Label, 2),
        (Refusal::Index, 3),
        (Refusal::Descriptor, 4),
        (Refusal::TwoHolders, 5),
        (Refusal::Map, 6),
        (Refusal::Name { place: 0 }, 7),
        (Refusal::NotFound, 8),
        (Refusal::Present, 9),
        (Refusal::Protected, 10),
        (Refusal::Kind, 14),
        (Refusal::Argument, 15),
        (Refusal::IndexFull, 11),
        (Refusal::DiskFull, 12),
        (Refusal::ChainFull, 13),
    ];
    refusals.into_iter().all(|(refusal, number)| refusal.number() == number)
}

/// The disk of case M: the places are those of bench case 6.
fn case_m(random: &mut Random) -> Disk {
    let alpha = header(b"ALPHA     ", 0x01, 2, 44, 0);
    let notes = header(b"NOTES     ", 0x80, 1, 0, 80);
    let files = vec![
        file(2, alpha, Run { start: 34, length: 2 }),
        file(3, notes, Run { start: 36, length: 1 }),
    ];
    let mut disk = Disk::of_files(64, files, random);
    disk.image[..10].copy_from_slice(b"SHELF     ");
    disk
}

fn file(descriptor: usize, header: [u8; HEADER_BYTES], run: Run) -> File {
    File { directory: 0, descriptor, header, runs: vec![run] }
}

fn header(name: &Name, status: u8, count: u8, end: u8, record_length: u8) -> [u8; HEADER_BYTES] {
    let mut header = [0; HEADER_BYTES];
    header[..10].copy_from_slice(name);
    header[12] = status;
    header[15] = count;
    header[16] = end;
    header[17] = record_length;
    header
}

/// "Map of an empty 35-sector volume: byte 56 is 03, byte 60 is F8; free 33."
fn case_4() -> Result<bool, Refusal> {
    let image = formatted(35)?;
    Ok((image[56], image[60], pnoelithe::free_count(&image, Layout::OLD)?) == (0x03, 0xF8, 33))
}

/// "Empty 360: bytes 57-100 are 00, 101-255 are FF."
fn case_5() -> Result<bool, Refusal> {
    let image = formatted(360)?;
    let zeros = image[57..=100].iter().all(|byte| *byte == 0x00);
    Ok(zeros && image[101..=255].iter().all(|byte| *byte == 0xFF))
}

/// "Image of 512 bytes: 1; of 768 bytes, formatted: 0."
fn case_10(layout: Layout) -> bool {
    let of_512_bytes = pnoelithe::judge(&[0; 2 * SECTOR_BYTES], layout);
    let of_768_bytes = formatted(3).and_then(|image| pnoelithe::judge(&image, layout));
    let refused = Err(Refusal::Length);
    formatted(2).map(|_| ()) == refused && of_512_bytes == refused && of_768_bytes == Ok(())
}
