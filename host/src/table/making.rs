//! Calls that make a file: create and store.

use super::plan::{bad_name, fill, full_index, grown, is_named_twice, is_too_long, mark};
use super::plan::{no_directory, present};
use super::{Answer, Arguments, Asked, Call, Case, Given, Often, Part, Plan, Rules, Writing};
use super::{LOAD, NONE};
use crate::layout::Layout;
use crate::library::{as_changes, ask};
use crate::speed::{volume, Before, Measured, Volume};
use crate::volumes::{Disk, File, Run, HEADER_BYTES, MARK, SECTOR_BYTES};
use crate::volumes::{MOST_BLOCKS, MOST_FILES};
use crate::{pnoelithe, reference};

/// The statuses that create takes.
const CREATED: [u8; 4] = [0x00, 0x02, 0x80, 0x82];
const MOST_PROGRAM_BYTES: usize = 32_768;

/// The bytes are the status, the record length and the records per sector.
pub(crate) static CREATE: Call = Call {
    title: "create",
    tests: &[
        (7, bad_name),
        (8, no_directory),
        (9, present),
        (15, |asked| !CREATED.contains(&asked.bytes[0])),
        (11, full_index),
        (12, |asked| asked.lacks(1)),
    ],
    together: &[
        (7, &[8, 15, 11, 12]),
        (8, &[15, 12]),
        (9, &[15, 11, 12]),
        (15, &[11, 12]),
        (11, &[12]),
    ],
    names: 1,
    in_directory: true,
    rules: Rules::AsAsked,
    often: Often::writing(18, 12, 6, 4),
    any: |desk, random| {
        let status = match random.below(6) {
            0 => random.byte(),
            1 => random.pick(&[0x01, 0x08, 0x09, 0x0A, 0x88, 0x8A, 0x03, 0x81, 0x83, 0x04, 0xFF]),
            2 if random.once_in(4) => random.pick(&CREATED) | MARK,
            _ => random.pick(&CREATED),
        };
        let bytes = [status, random.byte(), random.byte(), 0];
        let name = desk.name_where(desk.files().len() == MOST_FILES, random);
        Arguments { name, bytes, ..NONE }
    },
    by_library: |lent, asked| {
        let [status, record_length, records_per_sector, _] = asked.bytes;
        ask!(
            pno_create,
            [lent.image],
            asked.layout_bits,
            asked.directory,
            [lent.name],
            status,
            record_length,
            records_per_sector,
            lent.wrong,
            as_changes(lent.changes)
        )
    },
    by_host: |lent, asked| {
        let [status, record_length, records_per_sector, _] = asked.bytes;
        let changed = pnoelithe::create(
            lent.image,
            asked.layout_for_host(),
            asked.directory,
            lent.name,
            status,
            record_length,
            records_per_sector,
        );
        lent.lay(changed)
    },
    by_reference: |image, asked| {
        let [status, record_length, records_per_sector, _] = asked.bytes;
        reference::create(
            image,
            asked.layout(),
            asked.directory,
            asked.name.lent(),
            status,
            record_length,
            records_per_sector,
        )
        .map(Answer::Changed)
    },
    by_plan: Plan::Writes(Writing {
        on_disk: |disk, asked| {
            let mut file = made(disk, asked, Vec::new());
            [file.header[12], file.header[17], file.header[13], _] = asked.bytes;
            mark(&mut file, asked);
            disk.files.push(file);
        },
        on_shelf: |mut file, asked| {
            let [status, record_length, records_per_sector, _] = asked.bytes;
            file.header[12] = status;
            file.header[13] = records_per_sector;
            file.header[17] = record_length;
            Some(file.changed(asked))
        },
        order: &[Part::Descriptor, Part::Map, Part::Index],
        decided_by: Part::Index,
        look: None,
    }),
    met: &[
        ("file with the mark created", makes_marked),
        ("status of create with the mark", |case| {
            case.number == 15 && CREATED.map(|status| status | MARK).contains(&case.asked.bytes[0])
        }),
        ("create that takes the last free sector", |case| fills(case, 1)),
        ("127th file made", is_last_place),
        ("128th file asked for on a full disk", is_out_of_both),
        ("file of a directory made", |case| case.is_done() && case.asked.directory > 0),
        ("file made whose name another directory has", is_named_again),
        ("127th file of a directory made", is_last_of_directory),
        ("128th file of a directory asked for where another has room", is_full_beside_room),
        ("file made beside a directory that is full", is_beside_full),
    ],
    measured: Measured {
        // Display, variable, with records of 80 bytes.
        arguments: |full| Arguments { name: full.name(), bytes: [0x80, 80, 3, 0], ..NONE },
        on: &[
            ("", Layout::OLD, Before::Absent, &FOR_A_DESCRIPTOR),
            ("", Layout::MARKS, Before::Absent, &FOR_A_DESCRIPTOR),
        ],
    },
};

const FOR_A_DESCRIPTOR: [Volume; 3] = [
    volume("126 files, a block each; last sector free", (126, 1), (0, 0)),
    volume("126 files of 10 blocks; last sector free", (126, 10), (0, 0)),
    volume("one file of 76 blocks; last sector free", (1, 76), (0, 0)),
];

pub(crate) static STORE: Call = Call {
    title: "store",
    tests: &[
        (7, bad_name),
        (8, no_directory),
        (9, present),
        (15, |asked| asked.other.lent().len() > MOST_PROGRAM_BYTES),
        (11, full_index),
        (12, |asked| asked.lacks(1 + sectors(asked.arguments))),
        (13, |asked| is_too_long(stored(asked))),
    ],
    together: &[
        (7, &[8, 15, 11, 12, 13]),
        (8, &[15, 12, 13]),
        (9, &[15, 11, 12, 13]),
        (15, &[11, 12, 13]),
        (11, &[12, 13]),
    ],
    names: 1,
    in_directory: true,
    rules: Rules::AsAsked,
    often: Often::writing(20, 18, 50, 6),
    any: |desk, random| {
        let free = desk.disk.free();
        // As many bytes as just fit on the disk: the descriptor has a sector of its own.
        let fitting = SECTOR_BYTES * free.len().saturating_sub(1);
        let holes = free.windows(2).filter(|pair| pair[0] + 1 < pair[1]).count();
        let is_in_pieces = holes > MOST_BLOCKS - 5;
        // What a chain holds whose blocks have a sector each.
        let chain = SECTOR_BYTES * MOST_BLOCKS;
        let length = match random.below(12) {
            0..=7 if is_in_pieces => {
                random.pick(&[chain - 255, chain, chain + 1, chain + 1024, 32_768, 32_769, 32_769])
            }
            0 => random.pick(&[0, 1, 255, 256, 257, 511, 512]),
            1 => random.pick(&[32_767, 32_768, 32_769]),
            2 => random.pick(&[fitting, fitting + 1]).min(33_000),
            3 => random.pick(&[chain - 256, chain - 255, chain, chain + 1, chain + 256]),
            4 => random.pick(&[33_000, 65_536, 65_536 + 300, 100_000]),
            5 => random.below(33_000),
            6 | 7 => random.below(8 * SECTOR_BYTES),
            _ => random.below(3 * SECTOR_BYTES),
        };
        let name = desk.name_where(is_in_pieces, random);
        Arguments { name, other: Given::whole(&random.bytes(length)), ..NONE }
    },
    by_library: |lent, asked| {
        let (layout, directory) = (asked.layout_bits, asked.directory);
        ask!(
            pno_store,
            [lent.image],
            layout,
            directory,
            [lent.name],
            [lent.other],
            lent.wrong,
            as_changes(lent.changes)
        )
    },
    by_host: |lent, asked| {
        let (layout, directory) = (asked.layout_for_host(), asked.directory);
        let changed = pnoelithe::store(lent.image, layout, directory, lent.name, lent.other);
        lent.lay(changed)
    },
    by_reference: |image, asked| {
        let (name, bytes) = (asked.name.lent(), asked.other.lent());
        reference::store(image, asked.layout(), asked.directory, name, bytes).map(Answer::Changed)
    },
    by_plan: Plan::Writes(Writing {
        on_disk: |disk, asked| {
            let runs = runs_of_program(disk, asked).expect("room for a program");
            let mut file = made(disk, asked, runs);
            file.header[12] = 0x01;
            file.header[16] = (asked.other.lent().len() % SECTOR_BYTES) as u8;
            mark(&mut file, asked);
            fill(disk, file.sectors(), asked.other.lent());
            disk.files.push(file);
        },
        on_shelf: |mut file, asked| {
            file.header[12] = 0x01;
            file.bytes = asked.other.lent().to_vec();
            file.header[16] = file.bytes.len() as u8;
            while file.bytes.len() % SECTOR_BYTES != 0 {
                file.bytes.push(0);
            }
            Some(file.changed(asked))
        },
        order: &[Part::Data, Part::Descriptor, Part::Map, Part::Index],
        decided_by: Part::Index,
        look: Some(("program loaded that was just stored", |_, asked| {
            let (name, room) = (asked.name.clone(), asked.other.lent().len());
            (&LOAD, Arguments { directory: asked.directory, name, room, ..NONE })
        })),
    }),
    met: &[
        ("program with the mark stored", makes_marked),
        ("store that takes the last free sector", |case| {
            fills(case, 1 + sectors(case.asked.arguments))
        }),
        ("store in several blocks", |case| stores(case, |runs| runs.len() > 1)),
        ("store in 76 blocks", |case| stores(case, |runs| runs.len() == MOST_BLOCKS)),
        ("store that passes from sector 34 up to those below", |case| {
            stores(case, |runs| runs.len() > 1 && runs[runs.len() - 1].sectors().end <= 34)
        }),
        ("store of no byte", |case| case.is_done() && is_of(case, &[0])),
        ("store of whole sectors", |case| case.is_done() && is_of(case, &[256, 512, 32_768])),
        ("store of 32,768 bytes", |case| case.is_done() && is_of(case, &[32_768])),
        ("store of 32,769 bytes", |case| case.number == 15 && is_of(case, &[32_769])),
        ("127th file made", is_last_place),
        ("128th file asked for on a full disk", is_out_of_both),
        ("program of a directory stored", |case| case.is_done() && case.asked.directory > 0),
        ("file made whose name another directory has", is_named_again),
        ("127th file of a directory made", is_last_of_directory),
        ("128th file of a directory asked for where another has room", is_full_beside_room),
        ("file made beside a directory that is full", is_beside_full),
    ],
    measured: Measured {
        arguments: |full| Arguments { name: full.name(), other: full.program(), ..NONE },
        on: &[
            (" of 32,768 bytes", Layout::OLD, Before::Absent, &FOR_A_PROGRAM),
            (" of 256 bytes", Layout::OLD, Before::Absent, &FOR_BOTH),
            (" of no byte", Layout::OLD, Before::Absent, &FOR_A_DESCRIPTOR),
            (" of 256 bytes", Layout::MARKS, Before::Absent, &FOR_BOTH),
        ],
    },
};

/// A program of 32,768 bytes has 128 sectors. Some of the 74 blocks lie side by side.
const FOR_A_PROGRAM: [Volume; 4] = [
    volume("126 files, a block each; end free", (126, 1), (128, 1)),
    volume("126 files of 9 blocks; end free", (126, 9), (128, 1)),
    volume("126 files of 9 blocks; free in about 70 pieces", (126, 9), (128, 74)),
    volume("one file of 76 blocks; end free", (1, 76), (128, 1)),
];

const FOR_BOTH: [Volume; 3] = [
    volume("126 files, a block each; last two free", (126, 1), (1, 1)),
    volume("126 files of 10 blocks; last two free", (126, 10), (1, 1)),
    volume("one file of 76 blocks; last two free", (1, 76), (1, 1)),
];

/// The sectors of a program, the last of which it may fill in part.
fn sectors(asked: &Arguments) -> usize {
    (asked.other.lent().len() + SECTOR_BYTES - 1) / SECTOR_BYTES
}

/// The runs that a program would have; none where there are too few sectors.
fn stored(asked: &Asked) -> Option<Vec<Run>> {
    runs_of_program(asked.disk()?, asked.arguments)
}

/// The lowest free sector goes to the descriptor.
fn runs_of_program(disk: &Disk, asked: &Arguments) -> Option<Vec<Run>> {
    grown(Vec::new(), disk.free().get(1..)?, sectors(asked))
}

/// The file that is made, with no byte but those of its name and its count.
fn made(disk: &Disk, asked: &Arguments, runs: Vec<Run>) -> File {
    let mut header = [0; HEADER_BYTES];
    header[..10].copy_from_slice(asked.name.lent());
    let (directory, descriptor) = (asked.directory, disk.free()[0]);
    let mut file = File { directory, descriptor, header, runs };
    file.set_count(file.sectors().count());
    file
}

fn stores(case: &Case, rule: fn(&[Run]) -> bool) -> bool {
    case.is_done() && stored(&case.asked).map_or(false, |runs| rule(&runs))
}

fn is_of(case: &Case, lengths: &[usize]) -> bool {
    lengths.contains(&case.asked.other.lent().len())
}

/// Whether the call is done and took so many sectors, and there were no more.
pub(super) fn fills(case: &Case, sectors: usize) -> bool {
    case.is_done() && case.asked.on_disk(|disk| disk.free().len() == sectors)
}

fn makes_marked(case: &Case) -> bool {
    case.is_done() && case.asked.by.marks
}

fn is_last_place(case: &Case) -> bool {
    let is_last = |files: Vec<&File>| files.len() == MOST_FILES - 1;
    case.is_done() && case.asked.files().map_or(false, is_last)
}

fn is_last_of_directory(case: &Case) -> bool {
    is_last_place(case) && case.asked.directory > 0
}

fn is_full_beside_room(case: &Case) -> bool {
    let has_room = |disk: &Disk| {
        disk.numbers().into_iter().any(|number| disk.files_in(number).count() < MOST_FILES)
    };
    case.number == 11 && case.asked.directory > 0 && case.asked.on_disk(has_room)
}

fn is_beside_full(case: &Case) -> bool {
    let is_full = |disk: &Disk| {
        disk.numbers().into_iter().any(|number| disk.files_in(number).count() == MOST_FILES)
    };
    case.is_done() && case.asked.on_disk(is_full)
}

fn is_named_again(case: &Case) -> bool {
    case.is_done() && is_named_twice(&case.asked)
}

fn is_out_of_both(case: &Case) -> bool {
    case.number == 11 && case.asked.on_disk(|disk| disk.free().is_empty())
}
