//! Calls that leave the sectors of files alone: delete, rename, protect, unprotect and clear mark.

use super::arguments::malformed;
use super::plan::protected;
use super::plan::{absent, bad_name, called, find, is_elsewhere, is_good, is_protected, mark};
use super::sectors::{is_of_several, is_on_marked};
use super::{Answer, Arguments, Call, Case, Often, Part, Plan, Rules, Writing, NONE};
use crate::layout::Layout;
use crate::library::{as_changes, ask};
use crate::speed::{volume, Before, Measured, Volume, ALL, MANY, ONE, PIECES};
use crate::volumes::{Disk, File, MARK};
use crate::{pnoelithe, reference};

pub(crate) static DELETE: Call = Call {
    title: "delete",
    tests: &[(7, bad_name), (8, absent), (10, protected)],
    together: &[(7, &[8])],
    names: 1,
    in_directory: true,
    rules: Rules::AsAsked,
    often: Often::writing(2, 19, 8, 8),
    any: |desk, random| {
        let name = desk.present(|file| !is_protected(file), random);
        Arguments { name, ..NONE }
    },
    by_library: |lent, asked| {
        let (layout, directory) = (asked.layout_bits, asked.directory);
        ask!(
            pno_delete,
            [lent.image],
            layout,
            directory,
            [lent.name],
            lent.wrong,
            as_changes(lent.changes)
        )
    },
    by_host: |lent, asked| {
        let (layout, directory) = (asked.layout_for_host(), asked.directory);
        let changed = pnoelithe::delete(lent.image, layout, directory, lent.name);
        lent.lay(changed)
    },
    by_reference: |image, asked| {
        reference::delete(image, asked.layout(), asked.directory, asked.name.lent())
            .map(Answer::Changed)
    },
    by_plan: Plan::Writes(Writing {
        on_disk: |disk, asked| {
            let place = (asked.directory, asked.name.name());
            disk.files.retain(|file| file.place() != place);
        },
        on_shelf: |_, _| None,
        order: &[Part::Index, Part::Map],
        decided_by: Part::Index,
        look: None,
    }),
    met: &[
        ("file of several blocks deleted", |case| {
            case.is_done() && case.asked.on_file(|file| file.runs.len() > 1)
        }),
        ("file with the mark deleted", |case| is_on_marked(case, true)),
        ("file of a directory deleted", |case| case.is_done() && case.asked.directory > 0),
        ("one of several files of that name deleted", is_of_several),
        ("delete of a file that is in another directory", is_elsewhere),
    ],
    measured: Measured {
        arguments: |full| Arguments { name: full.name(), ..NONE },
        on: &[("", Layout::OLD, Before::Data, &[MANY, PIECES, LARGE, ONE])],
    },
};

const LARGE: Volume = volume("128 sectors in 74 blocks; 126 files of 9", (126, 9), (128, 74));

pub(crate) static RENAME: Call = Call {
    title: "rename",
    tests: &[
        (7, |asked| bad_name(asked) || !is_good(&asked.other)),
        (8, absent),
        (9, |asked| asked.on_disk(|disk| find(disk, asked.directory, &asked.other).is_some())),
        (10, protected),
    ],
    together: &[(7, &[8, 9, 10]), (8, &[9]), (9, &[10])],
    names: 2,
    in_directory: true,
    rules: Rules::AsAsked,
    often: Often::writing(14, 15, 6, 6),
    any: |desk, random| {
        let name = match random.below(8) {
            0 => desk.new_name(random),
            _ => desk.present(|_| true, random),
        };
        let other = match random.below(10) {
            0 => name.clone(),
            1 | 2 => desk.present(|_| true, random),
            3 => malformed(random),
            4 => desk.name_of_any_file(random),
            _ => desk.new_name(random),
        };
        Arguments { name, other, ..NONE }
    },
    by_library: |lent, asked| {
        let (layout, directory) = (asked.layout_bits, asked.directory);
        ask!(
            pno_rename,
            [lent.image],
            layout,
            directory,
            [lent.name],
            [lent.other],
            lent.which,
            lent.wrong,
            as_changes(lent.changes)
        )
    },
    by_host: |lent, asked| {
        let (layout, directory) = (asked.layout_for_host(), asked.directory);
        let renamed = pnoelithe::rename(lent.image, layout, directory, lent.name, lent.other);
        let changed = renamed.map_err(|pnoelithe::RenameRefusal { refusal, which }| {
            if let Some(which) = which {
                *lent.which = which as usize;
            }
            refusal
        });
        lent.lay(changed)
    },
    by_reference: |image, asked| {
        let (old, new) = (asked.name.lent(), asked.other.lent());
        reference::rename(image, asked.layout(), asked.directory, old, new).map(Answer::Changed)
    },
    by_plan: Plan::Writes(Writing {
        on_disk: |disk, asked| {
            let file = called(disk, asked);
            file.header[..10].copy_from_slice(asked.other.lent());
            mark(file, asked);
        },
        on_shelf: |mut file, asked| {
            file.header[..10].copy_from_slice(asked.other.lent());
            Some(file.changed(asked))
        },
        order: &[Part::Descriptor, Part::Index],
        decided_by: Part::Descriptor,
        look: None,
    }),
    met: &[
        ("rename to its own name", |case| {
            let Arguments { name, other, .. } = case.asked.arguments;
            case.number == 9 && name.lent() == other.lent()
        }),
        ("rename of a file with the mark", |case| is_on_marked(case, true)),
        ("rename of a file without the mark, which it gets", |case| is_on_marked(case, false)),
        ("rename in a directory", |case| case.is_done() && case.asked.directory > 0),
        ("rename to a name that another directory has", |case| {
            let is_there = |disk: &Disk| {
                let mut numbers = disk.numbers().into_iter();
                numbers.any(|number| find(disk, number, &case.asked.other).is_some())
            };
            case.is_done() && case.asked.on_disk(is_there)
        }),
    ],
    measured: Measured {
        arguments: |full| Arguments { name: full.name(), other: full.new_name(), ..NONE },
        on: &[("", Layout::OLD, Before::Data, &ALL), ("", Layout::MARKS, Before::Data, &ALL)],
    },
};

pub(crate) static PROTECT: Call = Call {
    title: "protect",
    tests: &[(7, bad_name), (8, absent)],
    together: &[(7, &[8])],
    names: 1,
    in_directory: true,
    rules: Rules::AsAsked,
    often: Often::writing(3, 4, 2, 2),
    any: |desk, random| Arguments { name: desk.present(|_| true, random), ..NONE },
    by_library: |lent, asked| {
        let (layout, directory) = (asked.layout_bits, asked.directory);
        ask!(
            pno_protect,
            [lent.image],
            layout,
            directory,
            [lent.name],
            lent.wrong,
            as_changes(lent.changes)
        )
    },
    by_host: |lent, asked| {
        let (layout, directory) = (asked.layout_for_host(), asked.directory);
        let changed = pnoelithe::protect(lent.image, layout, directory, lent.name);
        lent.lay(changed)
    },
    by_reference: |image, asked| {
        reference::protect(image, asked.layout(), asked.directory, asked.name.lent())
            .map(Answer::Changed)
    },
    by_plan: Plan::Writes(Writing {
        on_disk: |disk, asked| called(disk, asked).header[12] |= 0x08,
        on_shelf: |mut file, _| {
            file.header[12] |= 0x08;
            Some(file)
        },
        order: &[Part::Descriptor],
        decided_by: Part::Descriptor,
        look: None,
    }),
    met: &[
        ("protected file protected", |case| is_on_protected(case, true)),
        ("file with the mark protected", |case| is_on_marked(case, true)),
        ("file without the mark protected by the new rule", |case| is_on_marked(case, false)),
        ("one of several files of that name protected", is_of_several),
    ],
    measured: Measured {
        arguments: |full| Arguments { name: full.name(), ..NONE },
        on: &[("", Layout::OLD, Before::Data, &ALL)],
    },
};

pub(crate) static UNPROTECT: Call = Call {
    title: "unprotect",
    tests: &[(7, bad_name), (8, absent)],
    together: &[(7, &[8])],
    names: 1,
    in_directory: true,
    rules: Rules::AsAsked,
    often: Often::writing(5, 6, 4, 8),
    any: |desk, random| Arguments { name: desk.present(is_protected, random), ..NONE },
    by_library: |lent, asked| {
        let (layout, directory) = (asked.layout_bits, asked.directory);
        ask!(
            pno_unprotect,
            [lent.image],
            layout,
            directory,
            [lent.name],
            lent.wrong,
            as_changes(lent.changes)
        )
    },
    by_host: |lent, asked| {
        let (layout, directory) = (asked.layout_for_host(), asked.directory);
        let changed = pnoelithe::unprotect(lent.image, layout, directory, lent.name);
        lent.lay(changed)
    },
    by_reference: |image, asked| {
        reference::unprotect(image, asked.layout(), asked.directory, asked.name.lent())
            .map(Answer::Changed)
    },
    by_plan: Plan::Writes(Writing {
        on_disk: |disk, asked| called(disk, asked).header[12] &= !0x08,
        on_shelf: |mut file, _| {
            file.header[12] &= 0xF7;
            Some(file)
        },
        order: &[Part::Descriptor],
        decided_by: Part::Descriptor,
        look: None,
    }),
    met: &[
        ("unprotected file unprotected", |case| is_on_protected(case, false)),
        ("file with the mark unprotected", |case| is_on_marked(case, true)),
        ("file without the mark unprotected by the new rule", |case| is_on_marked(case, false)),
        ("one of several files of that name unprotected", is_of_several),
    ],
    measured: Measured { arguments: |full| Arguments { name: full.name(), ..NONE }, on: &[] },
};

pub(crate) static CLEAR_MARK: Call = Call {
    title: "clear mark",
    tests: &[(7, bad_name), (8, absent)],
    together: &[(7, &[8])],
    names: 1,
    in_directory: true,
    rules: Rules::OfMarks,
    often: Often::writing(6, 8, 4, 8),
    any: |desk, random| Arguments { name: desk.present(File::is_marked, random), ..NONE },
    by_library: |lent, asked| {
        let (layout, directory) = (asked.layout_bits, asked.directory);
        ask!(
            pno_clear_mark,
            [lent.image],
            layout,
            directory,
            [lent.name],
            lent.wrong,
            as_changes(lent.changes)
        )
    },
    by_host: |lent, asked| {
        let (layout, directory) = (asked.layout_for_host(), asked.directory);
        let changed = pnoelithe::clear_mark(lent.image, layout, directory, lent.name);
        lent.lay(changed)
    },
    by_reference: |image, asked| {
        reference::clear_mark(image, asked.layout(), asked.directory, asked.name.lent())
            .map(Answer::Changed)
    },
    by_plan: Plan::Writes(Writing {
        on_disk: |disk, asked| called(disk, asked).header[12] &= !MARK,
        on_shelf: |mut file, _| {
            file.header[12] &= 0xEF;
            Some(file)
        },
        order: &[Part::Descriptor],
        decided_by: Part::Descriptor,
        look: None,
    }),
    met: &[
        ("mark of an unprotected file cleared", |case| clears(case, |file| !is_protected(file))),
        ("mark of a protected file cleared", |case| clears(case, is_protected)),
        ("mark of a program cleared", |case| clears(case, File::is_program)),
        ("mark cleared that there was not", |case| is_on_marked(case, false)),
        ("mark cleared on an image that the old rule refuses, asked by that", |case| {
            let is_old = !case.asked.arguments.layout().marks;
            is_old && clears(case, |_| true)
        }),
        ("mark of a file of a directory cleared", |case| {
            clears(case, |_| true) && case.asked.directory > 0
        }),
    ],
    measured: Measured {
        arguments: |full| Arguments { name: full.name(), ..NONE },
        on: &[("", Layout::MARKS, Before::Marked, &ALL)],
    },
};

/// Whether a mark was cleared, of a file that keeps a rule.
fn clears(case: &Case, rule: fn(&File) -> bool) -> bool {
    is_on_marked(case, true) && case.asked.on_file(rule)
}

fn is_on_protected(case: &Case, protected: bool) -> bool {
    case.is_done() && case.asked.on_file(|file| is_protected(file) == protected)
}
