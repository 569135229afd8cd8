//! Many packs: of volumes of every size and in every state, of unsound images, and into targets of
//! other lengths.

use super::pack::{answer, compared, into_target, Answer};
use super::paper;
use super::tally::{self, LEFT_BY_CALLS, RELAID};
use super::twins::{relaid, Difference};
use crate::comparison::Part;
use crate::directories::planned;
use crate::layout::Layout;
use crate::outside::Outside;
use crate::random::Random;
use crate::sequences::{built, damaged, left_by_calls};
use crate::suites::{Image, Numbers};
use crate::table::plan::{numbers_of, of_image};
use crate::tally::Tally;
use crate::volumes::{Disk, MOST_SECTORS, SECTOR_BYTES};

pub type Comparison = crate::comparison::Comparison<Packs>;

/// How many calls leave a volume, and how many a worn one.
const CALLS: usize = 30;
const CALLS_WORN: usize = 400;

pub struct Packs {
    tally: Tally,
}

impl Part for Packs {
    const TITLE: &'static str = "packs";

    fn new() -> Self {
        Packs { tally: tally::new() }
    }

    fn begin(&mut self, random: &mut Random) -> Result<(), String> {
        paper::cases(random)
    }

    fn on_volume_of(&mut self, sectors: usize, random: &mut Random) -> Result<(), String> {
        let layout = random.pick(&Layout::ALL);
        if random.once_in(20) {
            let disk = planned(sectors, layout.directories, random, |sectors, _, random| {
                Disk::of_files(sectors, Vec::new(), random)
            });
            return self.volume("empty disk", &disk, layout, random);
        }
        if !random.once_in(6) {
            return self.volume("disk as built", &built(sectors, layout, random), layout, random);
        }
        let calls = if random.once_in(12) { CALLS_WORN } else { CALLS };
        let disk = left_by_calls(sectors, layout, calls, random)?;
        self.tally.meet(LEFT_BY_CALLS);
        self.volume("volume left by calls", &disk, layout, random)
    }

    fn on_outside(&mut self, outside: &Outside, random: &mut Random) -> Result<(), String> {
        for layout in Layout::ALL {
            let (source, length) = (Image::of_outside(outside), outside.image.len());
            match of_image(&outside.image) {
                Some(disk) if Numbers::of_sound(&disk).by(layout) == Some(0) => {
                    self.volume(&outside.name, &disk, layout, random)?;
                }
                _ => drop(self.pack(&source, length, layout, random)?),
            }
        }
        Ok(())
    }

    fn tally(&self) -> &Tally {
        &self.tally
    }
}

/// A volume, the layout by which it is sound, and what it packs to.
struct Source<'packed> {
    disk: &'packed Disk,
    layout: Layout,
    packed: &'packed [u8],
}

impl Packs {
    /// A volume that is sound by the layout, and what can be made of it.
    fn volume(
        &mut self,
        what: &str,
        disk: &Disk,
        layout: Layout,
        random: &mut Random,
    ) -> Result<(), String> {
        let packed = self.pack_sound(what, disk, layout, random)?;
        let source = Source { disk, layout, packed: &packed };
        if random.once_in(3) {
            self.laid_out_otherwise(&source, random)?;
        }
        self.changed(&source, random)?;
        if random.once_in(2) {
            let length = other_length(disk.image.len(), random);
            let _ = self.pack(&Image::as_planned(what, disk), length, layout, random)?;
        }
        if random.once_in(3) {
            // By another layout it may be unsound, or packed as something else.
            let by = random.pick(&Layout::ALL);
            let _ = self.pack(&Image::as_planned(what, disk), disk.image.len(), by, random)?;
        }
        self.unsound(&source, random)
    }

    /// The same catalogue in other sectors packs to the same bytes.
    fn laid_out_otherwise(&mut self, source: &Source, random: &mut Random) -> Result<(), String> {
        let other = relaid(source.disk, random);
        self.tally.meet(RELAID);
        if self.pack_sound("laid out otherwise", &other, source.layout, random)? == source.packed {
            return Ok(());
        }
        Err(wrong_beside(source.disk, RELAID))
    }

    /// A catalogue or a label area that differs in one thing packs to other bytes.
    fn changed(&mut self, source: &Source, random: &mut Random) -> Result<(), String> {
        let difference = Difference::any(source.layout, random);
        let mut other = match difference.of(source.disk, source.layout, random) {
            Some(other) => other,
            None => return Ok(()),
        };
        if random.once_in(2) {
            other = relaid(&other, random);
        }
        self.tally.meet(difference.title());
        if self.pack_sound(difference.title(), &other, source.layout, random)? != source.packed {
            return Ok(());
        }
        Err(wrong_beside(source.disk, difference.title()))
    }

    /// The disk damaged to a number, and often a target of another length besides.
    fn unsound(&mut self, source: &Source, random: &mut Random) -> Result<(), String> {
        let Source { disk, layout, .. } = *source;
        let image = damaged(disk, layout, random)?;
        let numbers = numbers_of(&image);
        let planned = of_image(&image);
        let (what, planned) = ("damaged disk", planned.as_ref());
        let source = Image { what, bytes: &image, numbers, planned };
        let length = match random.below(3) {
            0 => other_length(image.len(), random),
            // What the target of the disk itself would be.
            1 => disk.image.len(),
            _ => image.len(),
        };
        self.pack(&source, length, layout, random).map(|_| ())
    }

    fn pack_sound(
        &mut self,
        what: &str,
        disk: &Disk,
        layout: Layout,
        random: &mut Random,
    ) -> Result<Vec<u8>, String> {
        let packed = self.pack(&Image::as_planned(what, disk), disk.image.len(), layout, random)?;
        packed.map_err(|number| format!("{} for sound \"{}\"", number, what))
    }

    fn pack(
        &mut self,
        source: &Image,
        target_bytes: usize,
        layout: Layout,
        random: &mut Random,
    ) -> Result<Answer, String> {
        let arguments = into_target(target_bytes).by(layout, random);
        let case = compared(source, &arguments, random)?;
        self.tally.count(&case);
        Ok(answer(case))
    }
}

/// What two packs should have shown and have not.
fn wrong_beside(disk: &Disk, rule: &str) -> String {
    let kept = Image::as_planned("", disk).keep();
    format!("packing does not keep this: {}\n  volume before the change kept as {}", rule, kept)
}

/// A number of bytes that is not the given one.
fn other_length(bytes: usize, random: &mut Random) -> usize {
    let shorter = |by: usize| bytes.checked_sub(by).unwrap_or(bytes + by);
    let length = match random.below(10) {
        0 | 1 => 0,
        2 | 3 => random.pick(&[shorter(1), bytes + 1]),
        4 | 5 => random.pick(&[shorter(SECTOR_BYTES), bytes + SECTOR_BYTES]),
        6 | 7 => random.pick(&[shorter(65_536), bytes + 65_536]),
        8 => SECTOR_BYTES * random.within(3..=MOST_SECTORS),
        _ => random.below(SECTOR_BYTES * (MOST_SECTORS + 2)),
    };
    if length == bytes {
        bytes + 1
    } else {
        length
    }
}
