//! Calls that look at a volume: judge, free count, summary, entry and listing.

use super::answer::number_of_kind;
use super::arguments::{around, room_for};
use super::plan::{is_protected, length_of, no_directory};
use super::{Answer, Arguments, Call, Often, Plan, Reading, Rules, Written, NONE};
use crate::layout::Layout;
use crate::library::ask;
use crate::speed::{Before, Measured, ALL};
use crate::volumes::{Disk, File, HEADER_BYTES, MARK, MOST_SECTORS, SECTOR_BYTES};
use crate::{pnoelithe, reference};

pub(crate) static JUDGE: Call = Call {
    title: "judge",
    tests: &[],
    together: &[],
    names: 0,
    in_directory: false,
    rules: Rules::AsAsked,
    often: Often::single(2),
    any: |_, _| NONE,
    by_library: |lent, asked| ask!(pno_judge, [lent.image], asked.layout_bits),
    by_host: |lent, asked| pnoelithe::judge(lent.image, asked.layout_for_host()),
    by_reference: |image, asked| reference::judge(image, asked.layout()).map(|_| Answer::Done),
    by_plan: Plan::Reads(Reading { of_disk: |_, _| Some(Written::default()), all: |_| vec![NONE] }),
    met: &[],
    measured: Measured { arguments: |_| NONE, on: &[] },
};

pub(crate) static FREE_COUNT: Call = Call {
    title: "free count",
    tests: &[],
    together: &[],
    names: 0,
    in_directory: false,
    rules: Rules::AsAsked,
    often: Often::single(2),
    any: |_, _| NONE,
    by_library: |lent, asked| {
        ask!(pno_free_count, [lent.image], asked.layout_bits, &mut lent.numbers[0])
    },
    by_host: |lent, asked| {
        lent.numbers[0] = pnoelithe::free_count(lent.image, asked.layout_for_host())?;
        Ok(())
    },
    by_reference: |image, asked| reference::free_count(image, asked.layout()).map(Answer::Number),
    by_plan: Plan::Reads(Reading {
        of_disk: |disk, _| Some(Written::new(&[], &[disk.free().len()])),
        all: |_| vec![NONE],
    }),
    met: &[],
    measured: Measured { arguments: |_| NONE, on: &[("", Layout::OLD, Before::Data, &ALL)] },
};

/// The buffer has the ten bytes of the disk name.
pub(crate) static SUMMARY: Call = Call {
    title: "summary",
    tests: &[],
    together: &[],
    names: 0,
    in_directory: false,
    rules: Rules::AsAsked,
    often: Often::single(2),
    any: |_, _| for_a_name(),
    by_library: |lent, asked| {
        let [n, files, free_sectors, _] = lent.numbers;
        let disk_name = lent.buffer.as_mut_ptr();
        ask!(pno_summary, [lent.image], asked.layout_bits, disk_name, n, files, free_sectors)
    },
    by_host: |lent, asked| {
        let summary = pnoelithe::summary(lent.image, asked.layout_for_host())?;
        lent.buffer.copy_from_slice(&summary.disk_name);
        let numbers = [summary.sectors, summary.files, summary.free_sectors];
        lent.numbers[..3].copy_from_slice(&numbers);
        Ok(())
    },
    by_reference: |image, asked| reference::summary(image, asked.layout()).map(Answer::Summary),
    by_plan: Plan::Reads(Reading {
        of_disk: |disk, _| {
            let numbers = [disk.sectors, disk.files.len(), disk.free().len()];
            Some(Written::new(&disk.image[..10], &numbers))
        },
        all: |_| vec![for_a_name()],
    }),
    met: &[],
    measured: Measured {
        arguments: |_| for_a_name(),
        on: &[("", Layout::OLD, Before::Data, &ALL)],
    },
};

fn for_a_name() -> Arguments {
    Arguments { room: 10, ..NONE }
}

pub(crate) static ENTRY: Call = Call {
    title: "entry",
    tests: &[
        (8, |asked| {
            let is_past = |files: Vec<&File>| asked.at >= files.len();
            no_directory(asked) || asked.files().map_or(false, is_past)
        }),
        (15, |asked| asked.room < HEADER_BYTES),
    ],
    together: &[(8, &[15])],
    names: 0,
    in_directory: true,
    rules: Rules::AsAsked,
    often: Often::single(3),
    any: |desk, random| {
        let room = match random.below(3) {
            0 => random.pick(&[0, 1, HEADER_BYTES - 2, HEADER_BYTES - 1]),
            1 => random.pick(&[HEADER_BYTES, HEADER_BYTES + 1]),
            _ => random.pick(&[HEADER_BYTES + 2, 255, 256, 257, 256 + HEADER_BYTES - 1]),
        };
        Arguments { at: around(desk.files().len(), random), room, ..NONE }
    },
    by_library: |lent, asked| {
        let [kind, length, sectors, is_protected] = lent.numbers;
        ask!(
            pno_entry,
            [lent.image],
            asked.layout_bits,
            asked.directory,
            asked.at,
            [lent.buffer],
            kind,
            length,
            sectors,
            is_protected
        )
    },
    by_host: |lent, asked| {
        let (layout, directory) = (asked.layout_for_host(), asked.directory);
        let pnoelithe::Entry { kind, sectors, is_protected } =
            pnoelithe::entry(lent.image, layout, directory, asked.at, lent.buffer)?;
        *lent.numbers = [number_of_kind(kind), kind.length(), sectors, is_protected.into()];
        Ok(())
    },
    by_reference: |image, asked| {
        let (layout, directory) = (asked.layout(), asked.directory);
        reference::entry(image, layout, directory, asked.at, asked.room).map(Answer::Entry)
    },
    by_plan: Plan::Reads(Reading {
        of_disk: |disk, asked| {
            let file = disk.files_in(asked.directory).nth(asked.at)?;
            let numbers = [kind(file).0, length_of(file), file.count(), is_protected(file).into()];
            Some(Written::new(&file.header, &numbers))
        },
        all: |files| {
            let rooms = [HEADER_BYTES - 1, HEADER_BYTES, HEADER_BYTES + 2];
            let at_place = |at| rooms.map(|room| Arguments { at, room, ..NONE });
            (0..=files.len()).flat_map(at_place).collect()
        },
    }),
    met: &[
        ("place one past the last", |case| {
            let places = case.asked.files().map(|files| files.len());
            case.number == 8 && places == Some(case.asked.at)
        }),
        ("entry of a file with the mark", |case| {
            let file = case.asked.files().and_then(|files| files.get(case.asked.at).copied());
            case.is_done() && file.map_or(false, File::is_marked)
        }),
        ("entry of a file of a directory", |case| case.is_done() && case.asked.directory > 0),
        ("place that another directory has", |case| {
            let is_there = |disk: &Disk| {
                let mut numbers = disk.numbers().into_iter();
                numbers.any(|number| disk.files_in(number).count() > case.asked.at)
            };
            case.number == 8 && case.asked.files().is_some() && case.asked.on_disk(is_there)
        }),
    ],
    measured: Measured {
        arguments: |full| Arguments { at: full.place(), ..full.for_buffer() },
        on: &[("", Layout::OLD, Before::Data, &ALL)],
    },
};

/// The listing's buffer is not in the paper: it is held to the rule of the others.
pub(crate) static LISTING: Call = Call {
    title: "listing",
    tests: &[
        (8, no_directory),
        (15, |asked| {
            let disk = asked.disk().filter(|disk| disk.has(asked.directory));
            let takes = disk.map(|disk| lines(disk, asked.by, asked.directory).len());
            takes.map_or(asked.room == 0, |takes| asked.room < takes)
        }),
    ],
    together: &[(8, &[15])],
    names: 0,
    in_directory: true,
    rules: Rules::AsAsked,
    often: Often::single(2),
    any: |desk, random| {
        // Now and then the length that the text has by the other rule.
        let either = random.pick(&desk.layout.of_edition());
        let layout = if random.once_in(8) { either } else { desk.layout };
        let directory = if desk.disk.has(desk.directory) { desk.directory } else { 0 };
        let takes = lines(desk.disk, layout, directory).len();
        Arguments { room: room_for(takes, random), ..NONE }
    },
    by_library: |lent, asked| {
        let (layout, length) = (asked.layout_bits, &mut lent.numbers[0]);
        ask!(pno_listing, [lent.image], layout, asked.directory, [lent.buffer], length)
    },
    by_host: |lent, asked| {
        let (layout, directory) = (asked.layout_for_host(), asked.directory);
        let text = pnoelithe::listing(lent.image, layout, directory, lent.buffer)?;
        lent.numbers[0] = text.len();
        Ok(())
    },
    by_reference: |image, asked| {
        let (layout, directory) = (asked.layout(), asked.directory);
        reference::listing(image, layout, directory, asked.room).map(Answer::Text)
    },
    by_plan: Plan::Reads(Reading {
        of_disk: |disk, asked| {
            let lines = lines(disk, asked.layout(), asked.directory);
            disk.has(asked.directory).then(|| Written::counted(lines.as_bytes()))
        },
        all: |_| {
            let rooms = [0, SECTOR_BYTES * MOST_SECTORS];
            rooms.map(|room| Arguments { room, ..NONE }).into()
        },
    }),
    met: &[
        ("listing of files with and without the mark", |case| {
            let is_of = |rule: fn(&File) -> bool| {
                case.asked.files().map_or(false, |files| files.into_iter().any(rule))
            };
            case.is_done() && is_of(File::is_marked) && is_of(|file| !file.is_marked())
        }),
        ("buffer that the old rule's text would fit into", |case| {
            let text = |disk: &Disk| lines(disk, Layout::OLD, case.asked.directory);
            let is_enough = |disk: &Disk| text(disk).len() <= case.asked.room;
            case.number == 15 && case.asked.on_disk(is_enough)
        }),
        ("listing of a directory with files", |case| {
            let is_full = |files: Vec<&File>| !files.is_empty();
            case.is_done() && case.asked.directory > 0 && case.asked.files().map_or(false, is_full)
        }),
        ("listing of a directory without a file", |case| {
            let is_empty = |files: Vec<&File>| files.is_empty();
            case.is_done() && case.asked.directory > 0 && case.asked.files().map_or(false, is_empty)
        }),
    ],
    measured: Measured {
        arguments: |full| full.for_buffer(),
        on: &[("", Layout::OLD, Before::Data, &ALL)],
    },
};

/// The number and the word for the kind of a file of a sound disk, marked or not.
fn kind(file: &File) -> (usize, &'static str) {
    match file.status() & !MARK {
        0x00 | 0x08 => (1, "DIS/FIX"),
        0x80 | 0x88 => (2, "DIS/VAR"),
        0x02 | 0x0A => (3, "INT/FIX"),
        0x82 | 0x8A => (4, "INT/VAR"),
        _ => (0, "PROGRAM"),
    }
}

/// The listing of a directory of a disk that is sound by the layout.
pub fn lines(disk: &Disk, layout: Layout, directory: usize) -> String {
    let free = disk.free().len();
    let mut lines = line(&[&unpadded(&disk.image[..10]), &disk.sectors, &free]);
    for file in disk.files_in(directory) {
        let protection = if is_protected(file) { "P" } else { "U" };
        let mark = if file.is_marked() { "M" } else { "-" };
        let (_, kind) = kind(file);
        let (name, length, count) = (unpadded(&file.name()), length_of(file), file.count());
        let fields: [&dyn ToString; 6] = [&name, &kind, &length, &count, &protection, &mark];
        lines += &line(if layout.marks { &fields } else { &fields[..5] });
    }
    lines
}

fn line(fields: &[&dyn ToString]) -> String {
    let fields: Vec<String> = fields.iter().map(|field| field.to_string()).collect();
    fields.join(" ") + "\n"
}

fn unpadded(name: &[u8]) -> String {
    name.iter().filter(|byte| **byte != b' ').map(|byte| char::from(*byte)).collect()
}
