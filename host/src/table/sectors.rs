//! Calls that write a sector of a data file: append and overwrite.

use super::arguments::{around, data, given_name, is_open_data};
use super::making::fills;
use super::plan::{absent, bad_name, called, fill, find, grown, is_elsewhere, is_named_twice};
use super::plan::{is_protected, is_too_long, mark, not_a_sector, program, protected};
use super::{Answer, Arguments, Asked, Call, Case, Often, Part, Plan, Rules, Writing, NONE, READ};
use crate::layout::Layout;
use crate::library::{as_changes, ask};
use crate::speed::{volume, Before, Measured, Volume, ALL, SECTORS};
use crate::volumes::{names, Disk, File, Run, MOST_BLOCKS, SECTOR_BYTES};
use crate::{pnoelithe, reference};

pub(crate) static APPEND: Call = Call {
    title: "append",
    tests: &[
        (7, bad_name),
        (8, absent),
        (10, protected),
        (14, program),
        (15, not_a_sector),
        (12, |asked| asked.lacks(1)),
        (13, |asked| is_too_long(appended(asked))),
    ],
    together: &[
        (7, &[8, 15, 12]),
        (8, &[15, 12]),
        (10, &[14, 15, 12, 13]),
        (14, &[15, 12, 13]),
        (15, &[12, 13]),
    ],
    names: 1,
    in_directory: true,
    rules: Rules::AsAsked,
    often: Often::writing(36, 24, 8, 50),
    any: |desk, random| {
        let is_long = |file: &File| file.runs.len() >= MOST_BLOCKS - 2;
        let name = match random.below(5) {
            0 | 1 if desk.files().into_iter().any(is_long) => desk.present(is_long, random),
            2 => desk.present(|_| true, random),
            _ => desk.present(|file| !is_protected(file) && !file.is_program(), random),
        };
        Arguments { name, other: data(random), ..NONE }
    },
    by_library: |lent, asked| {
        let (layout, directory) = (asked.layout_bits, asked.directory);
        ask!(
            pno_append,
            [lent.image],
            layout,
            directory,
            [lent.name],
            [lent.other],
            lent.wrong,
            as_changes(lent.changes)
        )
    },
    by_host: |lent, asked| {
        let (layout, directory) = (asked.layout_for_host(), asked.directory);
        let changed = pnoelithe::append(lent.image, layout, directory, lent.name, lent.other);
        lent.lay(changed)
    },
    by_reference: |image, asked| {
        let (name, data) = (asked.name.lent(), asked.other.lent());
        reference::append(image, asked.layout(), asked.directory, name, data).map(Answer::Changed)
    },
    by_plan: Plan::Writes(Writing {
        on_disk: |disk, asked| {
            let runs = runs_after(disk, asked).expect("room for a sector");
            let file = called(disk, asked);
            file.runs = runs;
            file.set_count(file.count() + 1);
            mark(file, asked);
            let place = file.sectors().last();
            fill(disk, place.into_iter(), asked.other.lent());
        },
        on_shelf: |mut file, asked| {
            file.bytes.extend(asked.other.lent());
            Some(file.changed(asked))
        },
        order: &[Part::LastOfData, Part::Map, Part::Descriptor],
        decided_by: Part::Descriptor,
        look: Some((READ_BACK, |disk, asked| {
            let file = find(disk, asked.directory, &asked.name);
            let at = file.map_or(0, |file| file.count() - 1);
            (&READ, read_back(asked, at))
        })),
    }),
    met: &[
        ("append to a file with the mark", |case| is_on_marked(case, true)),
        ("append to a file without the mark, which it gets", |case| is_on_marked(case, false)),
        ("append that extends the last block", |case| {
            appends(case, |was, now| was.len() == now.len())
        }),
        ("append that begins a block", |case| appends(case, |was, now| was.len() < now.len())),
        ("append that extends the last of 76 blocks", |case| {
            appends(case, |was, now| was.len() == MOST_BLOCKS && now.len() == MOST_BLOCKS)
        }),
        ("append that begins the 76th block", |case| {
            appends(case, |was, now| was.len() < MOST_BLOCKS && now.len() == MOST_BLOCKS)
        }),
        ("append into a sector below 34", |case| {
            appends(case, |_, now| now[now.len() - 1].sectors().end <= 34)
        }),
        ("append that takes the last free sector", |case| fills(case, 1)),
        ("append to a file of a directory", |case| case.is_done() && case.asked.directory > 0),
        ("append to one of several files of that name", is_of_several),
        ("append to a file that is in another directory", is_elsewhere),
    ],
    measured: Measured {
        arguments: |full| Arguments { name: full.name(), other: full.sector(), ..NONE },
        on: &[
            ("", Layout::OLD, Before::LacksHighest, &FOR_A_SECTOR),
            ("", Layout::OLD, Before::LacksLowest, &[LOW]),
            ("", Layout::MARKS, Before::LacksHighest, &FOR_A_SECTOR),
        ],
    },
};

const FOR_A_SECTOR: [Volume; 3] = [
    volume("127 files, a block each; last but one free", (126, 1), (10, 1)),
    volume("127 files of 10 blocks; last but one free", (126, 10), (10, 10)),
    volume("one file of 75 blocks; last but one free", (0, 0), (SECTORS - 3, 75)),
];
const LOW: Volume = volume("one file of 75 blocks; sector 2 free", (0, 0), (SECTORS - 3, 75));

pub(crate) static OVERWRITE: Call = Call {
    title: "overwrite",
    tests: &[
        (7, bad_name),
        (8, absent),
        (10, protected),
        (14, program),
        (15, |asked| asked.past().is_some() || not_a_sector(asked)),
    ],
    together: &[(7, &[8, 15]), (8, &[15]), (10, &[14, 15]), (14, &[15])],
    names: 1,
    in_directory: true,
    rules: Rules::AsAsked,
    often: Often::writing(10, 10, 4, 6),
    any: |desk, random| {
        let any = random.once_in(3);
        let file = desk.some_file(|file| any || is_open_data(file), random);
        let at = around(file.map_or(1, File::count), random);
        let name = file.map_or_else(|| names(1, random)[0], File::name);
        let name = given_name(name, random);
        Arguments { name, at, other: data(random), ..NONE }
    },
    by_library: |lent, asked| {
        let (layout, directory, at) = (asked.layout_bits, asked.directory, asked.at);
        ask!(
            pno_overwrite,
            [lent.image],
            layout,
            directory,
            [lent.name],
            at,
            [lent.other],
            lent.wrong,
            as_changes(lent.changes)
        )
    },
    by_host: |lent, asked| {
        let (layout, directory) = (asked.layout_for_host(), asked.directory);
        let changed =
            pnoelithe::overwrite(lent.image, layout, directory, lent.name, asked.at, lent.other);
        lent.lay(changed)
    },
    by_reference: |image, asked| {
        let (name, data) = (asked.name.lent(), asked.other.lent());
        reference::overwrite(image, asked.layout(), asked.directory, name, asked.at, data)
            .map(Answer::Changed)
    },
    by_plan: Plan::Writes(Writing {
        on_disk: |disk, asked| {
            let file = called(disk, asked);
            mark(file, asked);
            let place = file.sectors().nth(asked.at);
            fill(disk, place.into_iter(), asked.other.lent());
        },
        on_shelf: |mut file, asked| {
            let sector = &mut file.bytes[SECTOR_BYTES * asked.at..][..SECTOR_BYTES];
            sector.copy_from_slice(asked.other.lent());
            Some(file.changed(asked))
        },
        order: &[Part::Mark, Part::AtOffset],
        decided_by: Part::AtOffset,
        look: Some((READ_BACK, |_, asked| (&READ, read_back(asked, asked.at)))),
    }),
    met: &[
        ("overwrite in a file with the mark", |case| is_on_marked(case, true)),
        ("overwrite in a file without the mark, which it gets", |case| is_on_marked(case, false)),
        ("offset one past the last", |case| case.number == 15 && case.asked.past() == Some(0)),
        ("offset of 2^31 or more", |case| case.number == 15 && case.asked.past() >= Some(1 << 31)),
        ("overwrite in a file of a directory", |case| case.is_done() && case.asked.directory > 0),
        ("overwrite in one of several files of that name", is_of_several),
    ],
    measured: Measured {
        arguments: |full| Arguments {
            name: full.name(),
            other: full.sector(),
            at: full.offset(),
            ..NONE
        },
        on: &[("", Layout::OLD, Before::Data, &ALL), ("", Layout::MARKS, Before::Data, &ALL)],
    },
};

/// Whether it is done by the new rule, and the file had the mark before.
pub(super) fn is_on_marked(case: &Case, marked: bool) -> bool {
    case.is_done() && case.asked.by.marks && case.asked.on_file(|file| file.is_marked() == marked)
}

/// Whether it is done on a file of whose name there are several.
pub(super) fn is_of_several(case: &Case) -> bool {
    case.is_done() && is_named_twice(&case.asked)
}

const READ_BACK: &str = "sector read that was just written";

fn read_back(written: &Arguments, at: usize) -> Arguments {
    let (directory, name) = (written.directory, written.name.clone());
    Arguments { directory, name, at, room: SECTOR_BYTES, ..NONE }
}

/// The runs of the file after an append; none where there is no file or no room.
fn appended(asked: &Asked) -> Option<Vec<Run>> {
    runs_after(asked.disk()?, asked.arguments)
}

fn runs_after(disk: &Disk, asked: &Arguments) -> Option<Vec<Run>> {
    grown(find(disk, asked.directory, &asked.name)?.runs.clone(), &disk.free(), 1)
}

/// Whether it is done, and keeps a rule by the file's runs before and after.
fn appends(case: &Case, rule: fn(&[Run], &[Run]) -> bool) -> bool {
    case.is_done()
        && match (case.asked.file(), appended(&case.asked)) {
            (Some(file), Some(now)) => rule(&file.runs, &now),
            _ => false,
        }
}
