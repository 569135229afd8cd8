//! The calls of the library, a row each: what a call tests and with which arguments it is asked;
//! how it is asked of the library, of the wrapper for hosts, of the reference and of the plan of a
//! disk; what it is meant to meet, and what the benchmark measures of it. The comparisons, their
//! tallies and the benchmark take the calls from here.

mod answer;
pub(crate) mod arguments;
mod case;
mod keeping;
mod layouts;
pub(crate) mod lent;
mod looking;
mod making;
pub(crate) mod plan;
mod reading;
mod repairing;
mod sectors;
mod wholes;

pub(crate) use answer::{Answer, Written};
pub(crate) use arguments::{Arguments, Desk, Given, NONE};
pub(crate) use case::{compared, Case};
pub(crate) use keeping::*;
pub(crate) use layouts::LAYOUTS_MET;
pub use looking::lines;
pub(crate) use looking::*;
pub(crate) use making::*;
pub(crate) use plan::{sectors_of, Asked, Listed, Part, Plan, Reading, Writing};
pub(crate) use reading::*;
pub(crate) use repairing::*;
pub(crate) use sectors::*;
pub(crate) use wholes::*;

use crate::layout::Layout;
use crate::pnoelithe;
use crate::random::Random;
use crate::reference::Refusal;
use crate::speed::Measured;
use arguments::malformed;
use lent::Lent;

/// Every call of the header, in its order.
pub(crate) static CALLS: &[&Call] = &[
    &JUDGE,
    &FORMAT,
    &FREE_COUNT,
    &SUMMARY,
    &ENTRY,
    &READ,
    &LOAD,
    &LISTING,
    &CREATE,
    &APPEND,
    &OVERWRITE,
    &STORE,
    &DELETE,
    &RENAME,
    &PROTECT,
    &UNPROTECT,
    &CLEAR_MARK,
    &REPAIR,
    &PACK,
];

/// A row of the table.
pub(crate) struct Call {
    /// The name in the header, with spaces and without `pno_`.
    pub title: &'static str,
    /// What is tested, in the order of the paper's table. All but formatting test the whole image
    /// for 1 to 6 before.
    pub tests: &'static [Test],
    /// Which numbers can be due at once on a sound volume: the one that is given, and others.
    pub together: &'static [(u32, &'static [u32])],
    /// How many names it takes: none, `name`, or `name` and `other`.
    pub names: usize,
    /// Whether it takes a directory.
    pub in_directory: bool,
    pub rules: Rules,
    pub often: Often,
    /// Arguments by chance.
    pub any: fn(&Desk, &mut Random) -> Arguments,
    /// The library's number.
    pub by_library: fn(Lent, &Arguments) -> u32,
    /// The same as a host in Rust asks it. What it gives back, in place of writing it behind
    /// pointers, is laid down there; not so the place that a refusal has.
    pub by_host: fn(Lent, &Arguments) -> Result<(), pnoelithe::Refusal>,
    /// The answer by the reference, which changes the image where the call does.
    pub by_reference:
        for<'asked> fn(&'asked mut [u8], &'asked Arguments) -> Result<Answer<'asked>, Refusal>,
    pub by_plan: Plan,
    /// What the call is meant to meet besides its numbers.
    pub met: &'static [Meeting],
    pub measured: Measured,
}

/// By which rules a call reads the image.
pub(crate) enum Rules {
    /// It does not read it.
    None,
    AsAsked,
    /// Those of the mark, whatever it is asked with, and by the edition that it is asked with.
    OfMarks,
    /// As asked, but neither the order of names nor the map is looked at.
    ToRepair,
}

/// A number, and whether it is due. Of an image that is no sound volume, or not known, a test sees
/// the arguments alone.
pub(crate) type Test = (u32, fn(&Asked) -> bool);

/// What a call may meet, and whether a case does.
pub(crate) type Meeting = (&'static str, fn(&Case) -> bool);

/// How often a call comes among others: of those that are made singly, and of those that write in
/// a sequence, by the sequence's mood.
pub(crate) struct Often {
    single: usize,
    filling: usize,
    wearing: usize,
    storing: usize,
    appending: usize,
}

impl Often {
    /// Packing has a comparison of its own.
    const NEVER: Often = Often::single(0);

    const fn single(single: usize) -> Self {
        Often { single, filling: 0, wearing: 0, storing: 0, appending: 0 }
    }

    const fn writing(filling: usize, wearing: usize, storing: usize, appending: usize) -> Self {
        Often { single: 0, filling, wearing, storing, appending }
    }
}

pub(crate) type Mood = fn(&Often) -> usize;

/// Calls that are made singly; files are made and grow; they come and go; one call above all; each
/// as often as any other.
pub(crate) const SINGLE: Mood = |often| often.single;
pub(crate) const FILLING: Mood = |often| often.filling;
pub(crate) const WEARING: Mood = |often| often.wearing;
pub(crate) const STORING: Mood = |often| often.storing;
pub(crate) const APPENDING: Mood = |often| often.appending;
pub(crate) const EVEN: Mood =
    |often| (often.filling + often.wearing + often.storing + often.appending).min(1);

/// The calls that come in a mood.
pub(crate) fn calls_in(mood: Mood) -> impl Iterator<Item = &'static Call> {
    CALLS.iter().copied().filter(move |call| mood(&call.often) > 0)
}

/// Any call, each as often as the mood has it, with arguments.
pub(crate) fn any(mood: Mood, desk: &Desk, random: &mut Random) -> (&'static Call, Arguments) {
    let shares = calls_in(mood).map(|call| mood(&call.often));
    let mut rest = random.below(shares.sum());
    for call in calls_in(mood) {
        let share = mood(&call.often);
        if rest < share {
            return (call, asked(call, desk, random));
        }
        rest -= share;
    }
    unreachable!("a share of the sum")
}

/// Arguments by chance, those that every call has among them.
pub(crate) fn asked(call: &Call, desk: &Desk, random: &mut Random) -> Arguments {
    if !call.in_directory {
        return (call.any)(desk, random).by(desk.layout, random);
    }
    let directory = desk.any_directory(random);
    // Now and then with names of another directory.
    let named = if random.once_in(6) { desk.any_directory(random) } else { directory };
    let mut arguments = (call.any)(&Desk { directory: named, ..*desk }, random);
    if call.names > 0 && !desk.disk.has(directory) && random.once_in(4) {
        // Both faults come together.
        arguments.name = malformed(random);
    }
    Arguments { directory, ..arguments }.by(desk.layout, random)
}

/// The paper's numbers, in the order of its table.
pub(crate) const NUMBERS: [u32; 16] = [0, 1, 2, 3, 4, 5, 6, 7, 8, 9, 10, 14, 15, 11, 12, 13];

impl Call {
    /// The numbers that it can give, in the order of the paper's table.
    pub(crate) fn numbers(&self) -> Vec<u32> {
        let of_image = match self.rules {
            Rules::None => &NUMBERS[..1],
            Rules::AsAsked | Rules::OfMarks => &NUMBERS[..7],
            Rules::ToRepair => &NUMBERS[..6],
        };
        let tested = self.tests.iter().map(|(number, _)| *number);
        of_image.iter().copied().chain(tested).collect()
    }

    pub(crate) fn reading(&self) -> Option<&Reading> {
        match &self.by_plan {
            Plan::Reads(reading) => Some(reading),
            _ => None,
        }
    }

    pub(crate) fn writing(&self) -> Option<&Writing> {
        match &self.by_plan {
            Plan::Writes(writing) => Some(writing),
            _ => None,
        }
    }

    /// Whether it changes the image and says which sectors it writes.
    pub(crate) fn is_changing(&self) -> bool {
        matches!(self.by_plan, Plan::Writes(_) | Plan::Repairs(_))
    }

    /// Whether the whole image is tested for 1 to 6, or where it is to be repaired for 1 to 5, before
    /// all else.
    pub(crate) fn is_judging(&self) -> bool {
        !matches!(self.rules, Rules::None)
    }

    /// The layout by which it reads the image.
    pub(crate) fn layout(&self, arguments: &Arguments) -> Layout {
        match self.rules {
            Rules::None | Rules::AsAsked | Rules::ToRepair => arguments.layout(),
            Rules::OfMarks => arguments.layout().with_marks(),
        }
    }

    /// The layouts that it can be asked with.
    pub(crate) fn layouts(&self) -> &'static [Layout] {
        if self.is_judging() {
            &Layout::ALL
        } else {
            &[Layout::OLD]
        }
    }

    fn symbol(&self) -> String {
        format!("pno_{}", self.title.replace(' ', "_"))
    }

    /// Whether the tests have the order of the paper's table.
    fn is_in_order(&self) -> bool {
        let place = |number: &u32| NUMBERS.iter().position(|other| other == number);
        let places: Vec<Option<usize>> = self.numbers().iter().map(place).collect();
        places.windows(2).all(|pair| pair[0] < pair[1])
    }
}

/// That the table has the calls of the header, each with its tests in the paper's order.
pub fn check() -> Result<(), String> {
    let header = include_str!("../../include/pnoelithe.h");
    let declared = header.lines().filter_map(|line| {
        let (symbol, _) = line.strip_prefix("uint32_t ")?.split_once('(')?;
        Some(symbol.to_string())
    });
    if !declared.eq(CALLS.iter().map(|call| call.symbol())) {
        return Err("the table has other calls than the header, or in another order".to_string());
    }
    match CALLS.iter().find(|call| !call.is_in_order()) {
        Some(call) => Err(format!("{}: tests in another order than the paper's", call.title)),
        None => Ok(()),
    }
}
