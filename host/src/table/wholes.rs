//! Calls that make a whole volume: format and pack.

use super::arguments::{beyond, four_bytes, given_name};
use super::plan::bad_name;
use super::{Answer, Arguments, Call, Case, Often, Plan, Reading, Rules, Written, NONE};
use crate::layout::Layout;
use crate::library::ask;
use crate::packing::moved;
use crate::reference::Geometry;
use crate::speed::{Before, Measured, ALL};
use crate::volumes::{names, word, Directory, Disk, File, Run};
use crate::volumes::{MOST_DIRECTORIES, MOST_SECTORS, SECTOR_BYTES};
use crate::{pnoelithe, reference};

/// It asks for nothing of the image but its length.
pub(crate) static FORMAT: Call = Call {
    title: "format",
    tests: &[
        (1, |asked| {
            // No n above the greatest gets as far as the product.
            let (n, length) = (asked.at, asked.image.bytes.len());
            !(3..=MOST_SECTORS).contains(&n) || length != SECTOR_BYTES * n
        }),
        (7, bad_name),
    ],
    together: &[(1, &[7])],
    names: 1,
    in_directory: false,
    rules: Rules::None,
    often: Often::single(3),
    any: |desk, random| {
        let sectors = desk.image_bytes / SECTOR_BYTES;
        let at = match random.below(8) {
            0 => random.pick(&[sectors + 1, sectors.wrapping_sub(1), desk.image_bytes, 0]),
            1 => beyond(sectors, random),
            2 => usize::MAX,
            _ => sectors,
        };
        let (bytes, name) = (four_bytes(random), names(1, random)[0]);
        Arguments { name: given_name(name, random), at, bytes, ..NONE }
    },
    by_library: |lent, asked| {
        let [sectors_per_track, tracks, sides, density] = asked.bytes;
        ask!(
            pno_format,
            [lent.image],
            asked.at,
            [lent.name],
            sectors_per_track,
            tracks,
            sides,
            density,
            lent.wrong
        )
    },
    by_host: |lent, asked| {
        let [sectors_per_track, tracks, sides, density] = asked.bytes;
        let geometry = pnoelithe::Geometry { sectors_per_track, tracks, sides, density };
        pnoelithe::format(lent.image, asked.at, lent.name, geometry)
    },
    by_reference: |image, asked| {
        let [sectors_per_track, tracks, sides, density] = asked.bytes;
        let geometry = Geometry { sectors_per_track, tracks, sides, density };
        let formatted = reference::format(image.len(), asked.at, asked.name.lent(), geometry)?;
        image.copy_from_slice(&formatted);
        Ok(Answer::Done)
    },
    by_plan: Plan::Formats(formatted),
    met: &[
        ("format on an image of number 0", |case| is_on(case, 0)),
        ("format on an image of number 1", |case| is_on(case, 1)),
        ("format on an image of number 2", |case| is_on(case, 2)),
        ("format on an image of number 3", |case| is_on(case, 3)),
        ("format on an image of number 4", |case| is_on(case, 4)),
        ("format on an image of number 5", |case| is_on(case, 5)),
        ("format on an image of number 6", |case| is_on(case, 6)),
    ],
    measured: Measured { arguments: |_| NONE, on: &[] },
};

/// By the old rule: it is all one to formatting.
fn is_on(case: &Case, number: u32) -> bool {
    case.asked.image.number(Layout::OLD) == Some(number)
}

fn formatted(length: usize, asked: &Arguments) -> Disk {
    let [sectors_per_track, tracks, sides, density] = asked.bytes;
    let (directories, image) = ([None; MOST_DIRECTORIES], Vec::with_capacity(length));
    let mut disk = Disk { sectors: asked.at, directories, files: Vec::new(), image };
    disk.image.extend(asked.name.lent());
    disk.image.extend(word(asked.at));
    disk.image.push(sectors_per_track);
    disk.image.extend(b"DSK ");
    disk.image.extend([tracks, sides, density]);
    disk.image.extend([0; 36]);
    disk.image.extend(disk.map());
    disk.image.extend([0; SECTOR_BYTES]);
    disk.image.resize(length, 0xE5);
    disk
}

/// The image is the source, and the buffer the target.
pub(crate) static PACK: Call = Call {
    title: "pack",
    tests: &[(15, |asked| asked.room != asked.image.bytes.len())],
    together: &[],
    names: 0,
    in_directory: false,
    rules: Rules::AsAsked,
    often: Often::NEVER,
    any: |desk, _| Arguments { room: desk.image_bytes, ..NONE },
    by_library: |lent, asked| ask!(pno_pack, [lent.image], asked.layout_bits, [lent.buffer]),
    by_host: |lent, asked| pnoelithe::pack(lent.image, asked.layout_for_host(), lent.buffer),
    by_reference: |image, asked| {
        reference::pack(image, asked.layout(), asked.room).map(Answer::Bytes)
    },
    by_plan: Plan::Reads(Reading {
        of_disk: |disk, _| Some(Written::new(&packed(disk).image, &[])),
        all: |_| Vec::new(),
    }),
    met: &[],
    measured: Measured {
        arguments: |full| full.for_buffer(),
        on: &[("", Layout::OLD, Before::Data, &ALL)],
    },
};

/// The directories and the files moved to where the paper wants them, on a disk that held nothing.
fn packed(disk: &Disk) -> Disk {
    let mut indexes = 2..;
    let directories = disk.directories.map(|directory| {
        let Directory { name, .. } = directory?;
        Some(Directory { name, index: indexes.next()? })
    });
    let first = indexes.start;
    let mut next = first + disk.files.len();
    let mut moved_file = |(place, file): (usize, &File)| {
        let run = Run { start: next, length: file.count() };
        next += run.length;
        let runs = if run.length == 0 { vec![] } else { vec![run] };
        File { descriptor: first + place, runs, ..file.clone() }
    };
    let files = disk.files.iter().enumerate().map(&mut moved_file).collect();
    moved(disk, directories, files, vec![0xE5; disk.image.len()])
}
