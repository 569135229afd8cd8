//! The call that mends what others have left whose writes were cut short.

use super::plan::of_image;
use super::{Answer, Call, Case, Meeting, Often, Plan, Rules, NONE};
use crate::damage::SEVERAL;
use crate::layout::Layout;
use crate::library::{as_changes, ask};
use crate::speed::{Before, Measured, MANY, PIECES};
use crate::volumes::{word, Disk};
use crate::volumes::{ENTRIES, ENTRY_BYTES, HEADER_BYTES, MAP, MOST_SECTORS, SECTOR_BYTES};
use crate::{pnoelithe, reference};
use std::collections::BTreeMap;

pub(crate) static REPAIR: Call = Call {
    title: "repair",
    tests: &[],
    together: &[],
    names: 0,
    in_directory: false,
    rules: Rules::ToRepair,
    often: Often { single: 1, filling: 1, wearing: 1, storing: 1, appending: 1 },
    any: |_, _| NONE,
    by_library: |lent, asked| {
        ask!(pno_repair, [lent.image], asked.layout_bits, as_changes(lent.changes))
    },
    by_host: |lent, asked| {
        let changed = pnoelithe::repair(lent.image, asked.layout_for_host());
        lent.lay(changed)
    },
    by_reference: |image, asked| reference::repair(image, asked.layout()).map(Answer::Changed),
    by_plan: Plan::Repairs(repaired),
    met: &[
        ("repair of a sound volume", |case| repairs(case, 0)),
        ("repair of a wrong map", |case| repairs(case, 6)),
    ],
    measured: Measured {
        arguments: |_| NONE,
        on: &[
            (", in order", Layout::OLD, Before::Data, &[MANY, PIECES]),
            (", one number displaced", Layout::OLD, Before::Renamed, &[MANY, PIECES]),
            (", reversed", Layout::OLD, Before::Reversed, &[MANY, PIECES]),
        ],
    },
};

/// What repairs are meant to meet on damaged images.
pub(crate) const REPAIRS_MET: &[Meeting] = &[
    ("repair of two numbers that were swapped", |case| is_done_on(case, "numbers swapped")),
    ("repair of two numbers that were exchanged", |case| is_done_on(case, "numbers exchanged")),
    ("repair of numbers that were rotated", |case| is_done_on(case, "numbers rotated")),
    ("repair of numbers that were reversed", |case| is_done_on(case, "numbers reversed")),
    ("repair of numbers that were shuffled", |case| is_done_on(case, "numbers shuffled")),
    ("repair of names that were swapped", |case| is_done_on(case, "names swapped")),
    ("repair of an index out of order and a wrong map", |case| {
        is_done_on(case, SEVERAL) && repairs(case, 4)
    }),
    ("repair of an index out of order, refused for two holders", |case| {
        is_repair(case) && (case.asked.number(), case.number) == (Some(4), 5)
    }),
    ("repair refused for a name that stands twice side by side", |case| {
        is_refused_on(case, "name repeated")
    }),
    ("repair refused for a name that stands twice apart", |case| {
        is_refused_on(case, "name repeated apart")
    }),
    ("repair refused for a number that stands twice apart", |case| {
        is_refused_on(case, "number repeated apart")
    }),
    ("repair of a directory that is out of order", |case| {
        let has_directories = |disk: &Disk| disk.has_directories();
        repairs(case, 4) && case.disk.as_ref().map_or(false, has_directories)
    }),
    ("repair of a volume with three directories", |case| {
        let has_all = |disk: &Disk| disk.numbers().len() == 4;
        (repairs(case, 4) || repairs(case, 6)) && case.disk.as_ref().map_or(false, has_all)
    }),
    ("repair of a volume with directories by the first edition, which loses them", |case| {
        let is_second = case.asked.image.number(case.asked.by.other_edition()) == Some(0);
        repairs(case, 6) && !case.asked.by.directories && is_second
    }),
    ("repair of a volume of 1,600 sectors", |case| {
        let is_largest = case.asked.image.bytes.len() == SECTOR_BYTES * MOST_SECTORS;
        (repairs(case, 4) || repairs(case, 6)) && is_largest
    }),
];

fn is_repair(case: &Case) -> bool {
    matches!(case.call.rules, Rules::ToRepair)
}

/// Whether an image was repaired that the judge gives the number for.
fn repairs(case: &Case, judged: u32) -> bool {
    is_repair(case) && case.is_done() && case.asked.number() == Some(judged)
}

fn is_done_on(case: &Case, what: &str) -> bool {
    is_repair(case) && case.is_done() && case.asked.image.what == what
}

fn is_refused_on(case: &Case, what: &str) -> bool {
    is_repair(case) && case.number == 4 && case.asked.image.what == what
}

/// The disk that is left of an image that can be repaired: each index has its numbers in the order
/// of their names, and the map has what these lead to.
fn repaired(image: &[u8], layout: Layout) -> Option<Disk> {
    let sector = |number: usize| &image[SECTOR_BYTES * number..][..SECTOR_BYTES];
    let mut repaired = image.to_vec();
    let mut held: Vec<usize> = (image.len() / SECTOR_BYTES..MOST_SECTORS).chain([0]).collect();
    for index in indexes(image, layout) {
        held.push(index);
        let listed = words(sector(index)).take_while(|number| *number > 0);
        let by_name: BTreeMap<&[u8], usize> =
            listed.map(|number| (&sector(number)[..10], number)).collect();
        for (place, number) in by_name.into_values().enumerate() {
            repaired[SECTOR_BYTES * index + 2 * place..][..2].copy_from_slice(&word(number));
            held.push(number);
            held.extend(covered(sector(number)));
        }
    }
    repaired[MAP..SECTOR_BYTES].fill(0);
    held.into_iter().for_each(|sector| repaired[MAP + sector / 8] |= 1 << (sector % 8));
    of_image(&repaired)
}

/// The sectors of the indexes: the root's, and those of the entries that are there.
fn indexes(image: &[u8], layout: Layout) -> Vec<usize> {
    let entries = if layout.directories { &image[ENTRIES..MAP] } else { &[] };
    let numbers = entries.chunks(ENTRY_BYTES).flat_map(|entry| words(&entry[10..]));
    std::iter::once(1).chain(numbers.filter(|number| *number > 0)).collect()
}

fn words(bytes: &[u8]) -> impl Iterator<Item = usize> + '_ {
    bytes.chunks(2).map(|pair| 256 * usize::from(pair[0]) + usize::from(pair[1]))
}

/// The sectors of the file that a descriptor describes.
fn covered(descriptor: &[u8]) -> Vec<usize> {
    let mut covered = Vec::new();
    for block in descriptor[HEADER_BYTES..].chunks(3) {
        let [low, middle, high] = [block[0], block[1], block[2]].map(usize::from);
        let (start, count) = (low + middle % 16 * 256, middle / 16 + high * 16 + 1);
        if start == 0 {
            break;
        }
        covered.extend(start..start + count - covered.len());
    }
    covered
}
