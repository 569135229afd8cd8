//! Many sequences, on volumes of every size and in every state.

use super::paper;
use super::sequence::{Sequence, READING};
use super::starts::{self, Start};
use crate::comparison::Part;
use crate::layout::Layout;
use crate::outside::Outside;
use crate::random::Random;
use crate::reference;
use crate::table::arguments::four_bytes;
use crate::table::plan::is_good;
use crate::table::{self, calls_in, Arguments, Call, Desk, Given, Meeting, Mood, Rules};
use crate::table::{EVEN, FILLING, FORMAT, LAYOUTS_MET, NONE, NUMBERS, SINGLE, WEARING};
use crate::tally::Tally;
use crate::volumes::{names, Disk, Name, SECTOR_BYTES};

pub type Comparison = crate::comparison::Comparison<Sequences>;

/// How many calls a sequence has on a sound disk, how many where it is a long one, and how many
/// then on an unsound image.
const CALLS: usize = 44;
const CALLS_LONG: usize = 1000;
const CALLS_UNSOUND: usize = 24;
/// How many names new files have for the most part.
const POOL: usize = 16;

/// What any call that writes is meant to meet.
const MET: &[Meeting] = &[
    ("unsound image and bad name", |case| case.is_unsound() && case.due.contains(&7)),
    ("unsound image and bad argument", |case| case.is_unsound() && case.due.contains(&15)),
];
const SEQUENCES: &str = "sequences";

pub struct Sequences {
    tally: Tally,
}

impl Part for Sequences {
    const TITLE: &'static str = "calls in sequences";

    fn new() -> Self {
        Sequences { tally: new_tally() }
    }

    fn begin(&mut self, random: &mut Random) -> Result<(), String> {
        paper::cases(random, &mut self.tally)
    }

    fn on_volume_of(&mut self, sectors: usize, random: &mut Random) -> Result<(), String> {
        let layout = random.pick(&Layout::ALL);
        let start = starts::any(sectors, layout, random);
        if reference::number(&start.disk.image, layout) != 0 {
            return Err("a disk that was planned to be sound is not".to_string());
        }
        let other = match random.below(10) {
            0 => Some(random.bytes(SECTOR_BYTES * sectors)),
            1 if !layout.marks => Some(starts::marked(&start.disk, random)),
            2 => Some(starts::of_other_edition(sectors, layout, random)),
            _ => None,
        };
        self.sequence(start, other.as_deref(), random)
    }

    fn any_size(random: &mut Random) -> usize {
        let (least, most) = random.pick(&[(3, 40), (3, 300), (300, 500), (400, 700)]);
        random.within(least..=most)
    }

    fn on_outside(&mut self, outside: &Outside, random: &mut Random) -> Result<(), String> {
        let mut by = |layout| {
            let start = starts::any(40, layout, random);
            self.sequence(start, Some(&outside.image), random)
        };
        Layout::ALL.into_iter().try_for_each(&mut by)
    }

    fn tally(&self) -> &Tally {
        &self.tally
    }
}

/// Rows for each call that writes, for formatting, and for all that read.
fn new_tally() -> Tally {
    let mut tally = Tally::of(calls_in(EVEN), &[MET, LAYOUTS_MET]);
    let looks = calls_in(EVEN).filter_map(|call| call.writing()?.look.as_ref());
    tally.mean(looks.map(|(what, _)| *what).chain([SEQUENCES]));
    tally.reach((FORMAT.title, FORMAT.layouts(), FORMAT.numbers()));
    let read = calls_in(SINGLE).filter(|call| call.reading().is_some());
    let read: Vec<u32> = read.flat_map(|call| call.numbers()).collect();
    let is_given = |number: &u32| read.contains(number);
    tally.reach((READING, &Layout::ALL, NUMBERS.into_iter().filter(is_given).collect()));
    tally
}

impl Sequences {
    /// A sequence on a disk, or on another image.
    fn sequence(
        &mut self,
        start: Start,
        other: Option<&[u8]>,
        random: &mut Random,
    ) -> Result<(), String> {
        self.tally.meet(SEQUENCES);
        let Start { disk, layout, mood } = start;
        let pool = names(POOL, random);
        let mut sequence = Sequence::on(disk);
        other.into_iter().for_each(|image| sequence.goes_on_with(image));
        Steps { sequence, layout, pool, random, tally: &mut self.tally }.run(mood)
    }
}

/// A disk of any sort that sequences by a layout begin on.
pub(crate) fn built(sectors: usize, layout: Layout, random: &mut Random) -> Disk {
    starts::any(sectors, layout, random).disk
}

/// The volume that a sequence leaves, after so many calls that come and go.
pub(crate) fn left_by_calls(
    sectors: usize,
    layout: Layout,
    calls: usize,
    random: &mut Random,
) -> Result<Disk, String> {
    let sequence = Sequence::on(built(sectors, layout, random));
    let pool = names(POOL, random);
    let mut steps = Steps { sequence, layout, pool, random, tally: &mut new_tally() };
    steps.steps(WEARING, calls)?;
    Ok(steps.sequence.disk)
}

/// A sequence that runs, all of it by one layout.
struct Steps<'comparison> {
    sequence: Sequence,
    layout: Layout,
    pool: Vec<Name>,
    random: &'comparison mut Random,
    tally: &'comparison mut Tally,
}

impl Steps<'_> {
    fn run(&mut self, mood: Mood) -> Result<(), String> {
        if !self.is_sound() {
            self.steps(EVEN, CALLS_UNSOUND / 2)?;
            self.format()?;
        }
        if self.random.once_in(80) {
            self.steps(WEARING, CALLS_LONG)?;
        }
        self.steps(mood, CALLS)?;
        if self.random.once_in(2) {
            let image = starts::damaged(&self.sequence.disk, self.layout, self.random)?;
            self.sequence.goes_on_with(&image);
            self.steps(EVEN, CALLS_UNSOUND)?;
        }
        if self.random.once_in(8) {
            self.format()?;
            self.steps(FILLING, CALLS / 2)?;
        }
        Ok(())
    }

    fn is_sound(&self) -> bool {
        self.sequence.number(self.layout) == Some(0)
    }

    fn steps(&mut self, mood: Mood, calls: usize) -> Result<(), String> {
        for _ in 0..calls {
            let mood = if self.random.once_in(8) { SINGLE } else { mood };
            let (disk, image_bytes) = (&self.sequence.disk, self.sequence.image().len());
            let (layout, directory) = (self.layout, 0);
            let desk = Desk { disk, layout, directory, image_bytes, pool: &self.pool };
            let (call, arguments) = table::any(mood, &desk, self.random);
            // Too much formatting would leave no disk time to wear, and too much repairing no
            // unsound image time to be refused.
            let is_left = self.is_wiping(call, &arguments) && !self.random.once_in(8)
                || self.is_mending(call) && !self.random.once_in(3);
            if !is_left {
                self.step(call, &arguments)?;
            }
        }
        Ok(())
    }

    /// Whether the call would wipe a sound volume.
    fn is_wiping(&self, call: &Call, arguments: &Arguments) -> bool {
        !call.is_judging()
            && self.is_sound()
            && arguments.at == self.sequence.disk.sectors
            && is_good(&arguments.name)
    }

    /// Whether the call would make a sound volume of an image that is none.
    fn is_mending(&self, call: &Call) -> bool {
        let is_done = self.sequence.repaired(self.layout) == Some(0);
        matches!(call.rules, Rules::ToRepair) && is_done && !self.is_sound()
    }

    /// The call, and often a look at what it wrote.
    fn step(&mut self, call: &'static Call, arguments: &Arguments) -> Result<(), String> {
        let number = self.sequence.call(call, arguments, self.random, self.tally)?;
        let look = call.writing().and_then(|writing| writing.look.as_ref());
        if let (0, Some((what, look))) = (number, look) {
            if self.random.once_in(2) {
                self.tally.meet(what);
                let (call, arguments) = look(&self.sequence.disk, arguments);
                let arguments = arguments.by(self.layout, self.random);
                self.sequence.call(call, &arguments, self.random, self.tally)?;
            }
        }
        Ok(())
    }

    /// Formats the image, for as many sectors as it has; some lengths are of no volume.
    fn format(&mut self) -> Result<(), String> {
        let at = self.sequence.image().len() / SECTOR_BYTES;
        let name = Given::whole(&names(1, self.random)[0]);
        let bytes = four_bytes(self.random);
        let arguments = Arguments { name, at, bytes, ..NONE };
        self.sequence.call(&FORMAT, &arguments, self.random, self.tally).map(|_| ())
    }
}
