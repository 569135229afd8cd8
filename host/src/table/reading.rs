//! Calls that read what a file holds: read and load.

use super::arguments::{around, name_for, room_for};
use super::plan::length_of;
use super::plan::{absent, bad_name, find, is_elsewhere, is_named_twice, is_protected};
use super::{Answer, Arguments, Call, Case, Given, Listed, Often, Plan, Reading, Rules};
use super::{Written, NONE};
use crate::layout::Layout;
use crate::library::ask;
use crate::speed::{volume, Before, Measured, Volume, ALL, SECTORS};
use crate::volumes::{Disk, File, HEADER_BYTES, MOST_SECTORS, SECTOR_BYTES};
use crate::{pnoelithe, reference};

pub(crate) static READ: Call = Call {
    title: "read",
    tests: &[
        (7, bad_name),
        (8, absent),
        (15, |asked| asked.past().is_some() || asked.room < SECTOR_BYTES),
    ],
    together: &[(7, &[8, 15]), (8, &[15])],
    names: 1,
    in_directory: true,
    rules: Rules::AsAsked,
    often: Often::single(5),
    any: |desk, random| {
        let any = random.once_in(4);
        let file = desk.some_file(|file| any || file.count() > 0, random);
        let name = name_for(file, random);
        let room = match random.below(3) {
            0 => random.pick(&[0, 1, HEADER_BYTES, SECTOR_BYTES - 2, SECTOR_BYTES - 1]),
            1 => SECTOR_BYTES,
            _ => random.pick(&[SECTOR_BYTES + 1, SECTOR_BYTES + 2, 2 * SECTOR_BYTES, 1000]),
        };
        let at = around(file.map_or(1, File::count), random);
        Arguments { name, at, room, ..NONE }
    },
    by_library: |lent, asked| {
        let (layout, directory, at) = (asked.layout_bits, asked.directory, asked.at);
        ask!(pno_read, [lent.image], layout, directory, [lent.name], at, [lent.buffer], lent.wrong)
    },
    by_host: |lent, asked| {
        let (layout, directory) = (asked.layout_for_host(), asked.directory);
        pnoelithe::read(lent.image, layout, directory, lent.name, asked.at, lent.buffer).map(drop)
    },
    by_reference: |image, asked| {
        let (layout, directory, name) = (asked.layout(), asked.directory, asked.name.lent());
        reference::read(image, layout, directory, name, asked.at, asked.room).map(Answer::Sector)
    },
    by_plan: Plan::Reads(Reading {
        of_disk: |disk, asked| {
            let sector = find(disk, asked.directory, &asked.name)?.sectors().nth(asked.at)?;
            Some(Written::new(&disk.image[SECTOR_BYTES * sector..][..SECTOR_BYTES], &[]))
        },
        all: |files| {
            let of_file = |(name, sectors): &Listed| {
                let name = Given::whole(name);
                let all = (0..=*sectors).map(|at| (at, SECTOR_BYTES + 2));
                let first = [(0, SECTOR_BYTES - 1), (0, SECTOR_BYTES)];
                let asked = move |(at, room)| Arguments { name: name.clone(), at, room, ..NONE };
                all.chain(first).map(asked).collect::<Vec<_>>()
            };
            files.iter().chain(&NO_FILES).flat_map(of_file).collect()
        },
    }),
    met: &[
        ("offset one past the last", |case| {
            let Arguments { room, .. } = case.asked.arguments;
            case.number == 15 && *room >= SECTOR_BYTES && case.asked.past() == Some(0)
        }),
        ("sector of a program", |case| case.is_done() && case.asked.on_file(File::is_program)),
        ("sector of a protected file", |case| case.is_done() && case.asked.on_file(is_protected)),
        ("sector of a file with the mark", |case| {
            case.is_done() && case.asked.on_file(File::is_marked)
        }),
        ("sector of a file of a directory", |case| case.is_done() && case.asked.directory > 0),
        ("sector of one of several files of that name", |case| {
            case.is_done() && is_named_twice(&case.asked)
        }),
        ("sector of a file that is in another directory", is_elsewhere),
        ("sector not in the first block", |case| {
            let at = case.asked.at;
            case.is_done() && case.asked.on_file(|file| at > file.last_offset(0))
        }),
    ],
    measured: Measured {
        arguments: |full| Arguments { name: full.name(), at: full.offset(), ..full.for_buffer() },
        on: &[("", Layout::OLD, Before::Data, &ALL)],
    },
};

pub(crate) static LOAD: Call = Call {
    title: "load",
    tests: &[
        (7, bad_name),
        (8, absent),
        (14, |asked| asked.on_file(|file| !file.is_program())),
        (15, |asked| asked.on_file(|file| asked.room < length_of(file))),
    ],
    together: &[(7, &[8])],
    names: 1,
    in_directory: true,
    rules: Rules::AsAsked,
    often: Often::single(4),
    any: |desk, random| {
        let any = random.once_in(4);
        let file = desk.some_file(|file| any || file.is_program(), random);
        let name = name_for(file, random);
        let (length, sectors) = file.map_or((300, 2), |file| (length_of(file), file.count()));
        let is_whole = random.once_in(8);
        let room = if is_whole { SECTOR_BYTES * sectors } else { room_for(length, random) };
        Arguments { name, room, ..NONE }
    },
    by_library: |lent, asked| {
        let (layout, directory, length) =
            (asked.layout_bits, asked.directory, &mut lent.numbers[0]);
        ask!(
            pno_load,
            [lent.image],
            layout,
            directory,
            [lent.name],
            [lent.buffer],
            length,
            lent.wrong
        )
    },
    by_host: |lent, asked| {
        let (layout, directory) = (asked.layout_for_host(), asked.directory);
        let loaded = pnoelithe::load(lent.image, layout, directory, lent.name, lent.buffer)?;
        lent.numbers[0] = loaded.len();
        Ok(())
    },
    by_reference: |image, asked| {
        let (layout, directory, name) = (asked.layout(), asked.directory, asked.name.lent());
        reference::load(image, layout, directory, name, asked.room).map(Answer::Counted)
    },
    by_plan: Plan::Reads(Reading {
        of_disk: |disk, asked| {
            let file = find(disk, asked.directory, &asked.name)?;
            let mut content = content(disk, file);
            content.truncate(length_of(file));
            Some(Written::counted(&content))
        },
        all: |files| {
            let rooms = [0, SECTOR_BYTES * MOST_SECTORS];
            let of_file = |(name, _): &Listed| {
                let name = Given::whole(name);
                rooms.map(|room| Arguments { name: name.clone(), room, ..NONE })
            };
            files.iter().chain(&NO_FILES).flat_map(of_file).collect()
        },
    }),
    met: &[
        ("not a program and no buffer", |case| case.number == 14 && case.asked.room == 0),
        ("program with the mark", |case| case.is_done() && case.asked.on_file(File::is_marked)),
        ("program of a directory", |case| case.is_done() && case.asked.directory > 0),
        ("program that is in another directory", is_elsewhere),
        ("program of no bytes", |case| loads(case, |length| length == 0)),
        ("program that ends on a full sector", |case| {
            loads(case, |length| length > 0 && length % SECTOR_BYTES == 0)
        }),
        ("program of more than 65,535 bytes", |case| loads(case, |length| length > 65_535)),
    ],
    measured: Measured {
        arguments: |full| Arguments { name: full.name(), ..full.for_buffer() },
        on: &[("", Layout::OLD, Before::Program, &PROGRAMS)],
    },
};

/// What no file has as its name, and what no file may have.
const NO_FILES: [Listed; 2] = [(*b"~~~~~~~~~~", 0), ([b' '; 10], 0)];

const PROGRAMS: [Volume; 3] = [
    volume("126 files, a block each; 32,768 bytes in one", (126, 1), (128, 1)),
    volume("126 files of 9 blocks; 32,768 bytes in 74", (126, 9), (128, 74)),
    volume("one program of 367,872 bytes in 76 blocks", (0, 0), (SECTORS - 3, 76)),
];

/// The bytes of all sectors of a file.
fn content(disk: &Disk, file: &File) -> Vec<u8> {
    let sectors = file.sectors().map(|sector| &disk.image[SECTOR_BYTES * sector..][..SECTOR_BYTES]);
    sectors.collect::<Vec<_>>().concat()
}

fn loads(case: &Case, rule: fn(usize) -> bool) -> bool {
    case.is_done() && rule(case.written.bytes.len())
}
