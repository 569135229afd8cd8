//! Many calls on sound and unsound images, each compared with both answers and byte for byte.

use super::{outside, paper};
use crate::comparison::Part;
use crate::layout::Layout;
use crate::outside::Outside;
use crate::random::Random;
use crate::suites::{Batch, Image, Numbers};
use crate::table::{self, calls_in, compared, Arguments, Call, Desk, Meeting};
use crate::table::{CALLS, LAYOUTS_MET, NONE, REPAIR, REPAIRS_MET, SINGLE};
use crate::tally::{hold, Tally};
use crate::volumes::{Disk, MOST_SECTORS, SECTOR_BYTES};
use std::collections::BTreeMap;

pub type Comparison = crate::comparison::Comparison<Calls>;

/// How many changes of one disk are tried, with a call on each.
const CHANGES: usize = 60;
/// How often a repair must at least have been tried on each sort of change.
const LEAST_OF_CHANGE: u64 = 10;

/// What any of these calls is meant to meet. Where two faults come together the number is that of
/// the first; the image's come before all others.
const MET: &[Meeting] = &[
    ("unsound image and bad name", |case| case.is_unsound() && case.due.contains(&7)),
    ("unsound image and short buffer", |case| case.is_unsound() && case.due.contains(&15)),
    ("volume with a mark by the new rule", |case| {
        case.is_done() && case.asked.disk().map_or(false, Disk::is_marked)
    }),
    ("volume without a mark by the new rule", |case| {
        let is_unmarked = |disk: &Disk| !disk.files.is_empty() && !disk.is_marked();
        case.is_done() && case.asked.by.marks && case.asked.disk().map_or(false, is_unmarked)
    }),
    ("place, offset or n of 2^31 or more", |case| case.asked.at >= 1 << 31),
    ("buffer one byte short", |case| case.number == 15 && case.spare() == Some(-1)),
    ("buffer of just the length", |case| case.is_done() && case.spare() == Some(0)),
    ("buffer with bytes to spare", |case| case.is_done() && case.spare() > Some(0)),
];

pub struct Calls {
    tally: Tally,
    /// Where the images are laid.
    buffer: Vec<u8>,
    /// How many images came from outside, and how often each call was made on them.
    outside: u64,
    on_outside: BTreeMap<&'static str, u64>,
    /// How often a repair was tried on each sort of change.
    repairs: BTreeMap<String, u64>,
}

impl Part for Calls {
    const TITLE: &'static str = "calls";

    fn new() -> Self {
        let (buffer, on_outside, repairs) = (Vec::new(), BTreeMap::new(), BTreeMap::new());
        let tally = Tally::of(calls_in(SINGLE), &[MET, LAYOUTS_MET, REPAIRS_MET]);
        Calls { tally, buffer, outside: 0, on_outside, repairs }
    }

    fn begin(&mut self, random: &mut Random) -> Result<(), String> {
        self.buffer = random.bytes(SECTOR_BYTES * (MOST_SECTORS + 2));
        paper::cases(random)
    }

    fn on_volume_of(&mut self, sectors: usize, random: &mut Random) -> Result<(), String> {
        self.batch(&Batch::of_any_shape(sectors, CHANGES, random), random)?;
        for _ in 0..6 {
            self.batch(&Batch::of_any_plan(random), random)?;
        }
        if random.once_in(8) {
            self.batch(&Batch::of_long_files(random), random)?;
        }
        let sectors = if random.once_in(40) { MOST_SECTORS } else { random.within(6..=150) };
        self.repairs(&Batch::of_each_sort(sectors, random), random)
    }

    /// All that can be read of it, and what a repair makes of it.
    fn on_outside(&mut self, outside: &Outside, random: &mut Random) -> Result<(), String> {
        let image = Image::of_outside(outside);
        self.outside += 1;
        for (call, reading) in CALLS.iter().filter_map(|call| Some((call, call.reading()?))) {
            for layout in Layout::ALL {
                for directory in outside::directories(&outside.image, call, layout) {
                    let files = outside::files(&outside.image, layout, directory);
                    for arguments in (reading.all)(&files) {
                        let arguments = Arguments { directory, ..arguments }.by(layout, random);
                        self.call(call, &arguments, &image, random)?;
                        *self.on_outside.entry(call.title).or_default() += 1;
                    }
                }
            }
        }
        for layout in Layout::ALL {
            self.call(&REPAIR, &NONE.by(layout, random), &image, random)?;
            *self.on_outside.entry(REPAIR.title).or_default() += 1;
        }
        outside::texts(outside)
    }

    fn tally(&self) -> &Tally {
        &self.tally
    }

    fn report(&self) -> Result<(), String> {
        self.tally.report()?;
        let each: Vec<String> =
            self.on_outside.iter().map(|(call, count)| format!("{} {}", call, count)).collect();
        let calls: u64 = self.on_outside.values().sum();
        println!("{} calls on {} images from outside: {}", calls, self.outside, each.join(", "));
        let repairs: u64 = self.repairs.values().sum();
        println!("{} repairs of {} sorts of changes", repairs, self.repairs.len());
        hold(LEAST_OF_CHANGE, self.repairs.clone().into_iter().collect())
    }
}

impl Calls {
    fn batch(&mut self, batch: &Batch, random: &mut Random) -> Result<(), String> {
        let mut buffer = std::mem::take(&mut self.buffer);
        batch.each_image(&mut buffer, |image| {
            let (disk, image_bytes) = (&batch.disk, image.bytes.len());
            for _ in 0..image.planned.map_or(1, calls_as_planned) {
                let (layout, directory) = (any_layout(disk, random), 0);
                let desk = Desk { disk, layout, directory, image_bytes, pool: &[] };
                let (call, arguments) = table::any(SINGLE, &desk, random);
                self.call(call, &arguments, image, random)?;
            }
            Ok(())
        })?;
        self.buffer = buffer;
        Ok(())
    }

    /// A disk and changes of it, each repaired.
    fn repairs(&mut self, batch: &Batch, random: &mut Random) -> Result<(), String> {
        let mut buffer = std::mem::take(&mut self.buffer);
        batch.each_image(&mut buffer, |image| {
            let arguments = NONE.by(any_layout(&batch.disk, random), random);
            *self.repairs.entry(image.what.to_string()).or_default() += 1;
            self.call(&REPAIR, &arguments, image, random)
        })?;
        self.buffer = buffer;
        Ok(())
    }

    fn call(
        &mut self,
        call: &'static Call,
        arguments: &Arguments,
        image: &Image,
        random: &mut Random,
    ) -> Result<(), String> {
        self.tally.count(&compared(call, arguments, image, random)?);
        Ok(())
    }
}

/// Mostly one by which the disk is sound.
fn any_layout(disk: &Disk, random: &mut Random) -> Layout {
    let sound = Numbers::of_sound(disk);
    let sound: Vec<Layout> =
        Layout::ALL.into_iter().filter(|layout| sound.by(*layout) == Some(0)).collect();
    if sound.is_empty() || random.once_in(6) {
        random.pick(&Layout::ALL)
    } else {
        random.pick(&sound)
    }
}

/// How many calls are made on a disk as it was planned: few where there is little to read.
fn calls_as_planned(disk: &Disk) -> usize {
    if disk.files.is_empty() {
        4
    } else {
        60
    }
}
