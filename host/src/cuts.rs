//! Calls whose writes are cut short. A call is made on a sound volume; then a medium has the image as
//! it was before, and of the changed one the first of the sectors that the call writes: none, one,
//! and so on to all. Whatever is on the medium is repaired by library, reference and plan, and must
//! then be a sound volume with the files before the call or with those after it. Overwriting by the
//! new rule has a third state between its two writes: the files before the call, and the mark.

mod paper;

use crate::comparison::Part;
use crate::layout::Layout;
use crate::outside::Outside;
use crate::pnoelithe::{self, Refusal};
use crate::random::Random;
use crate::reference::Writes;
use crate::sequences::{built, Shelf};
use crate::suites::{Image, Numbers};
use crate::table::plan::of_image;
use crate::table::{asked, calls_in, compared, sectors_of, Arguments, Call, Case, Desk, Writing};
use crate::table::{EVEN, NONE, REPAIR};
use crate::tally::Tally;
use crate::volumes::{names, Disk, Name, MAP, MARK, SECTOR_BYTES};
use crate::{library, reference, tuned};

pub type Comparison = crate::comparison::Comparison<Cuts>;

/// How many calls are cut on a volume, and how often arguments are sought with which one is done.
const CALLS: usize = 3;
const TRIES: usize = 8;
/// How many sectors of a file are read on a repaired volume.
const READ: usize = 3;

const BEFORE_FIRST: &str = "cut before the first write";
const BETWEEN: &str = "cut between two writes";
const AFTER_LAST: &str = "cut after the last write";
const WITHIN_DATA: &str = "cut within the data of a store";
const MOST_WRITES: &str = "cut of a store of 131 writes";
const IN_DIRECTORY: &str = "cut of a call on a file of a directory";
const FULL: &str = "cut of a call that takes the last free sector";
const LEFT_BEFORE: &str = "between two writes: files as before the call";
const LEFT_AFTER: &str = "between two writes: files as after the call";
const LEFT_MARKED: &str = "between two writes: files as before the call, and the mark";
const NO_CHANGE: &str = "call whose writes change nothing";
const REPAIR_CUT: &str = "repair cut short and begun again";

const MEANT: [&str; 12] = [
    BEFORE_FIRST,
    BETWEEN,
    AFTER_LAST,
    WITHIN_DATA,
    MOST_WRITES,
    IN_DIRECTORY,
    FULL,
    LEFT_BEFORE,
    LEFT_AFTER,
    LEFT_MARKED,
    NO_CHANGE,
    REPAIR_CUT,
];

pub struct Cuts {
    tally: Tally,
}

impl Part for Cuts {
    const TITLE: &'static str = "cuts";

    /// A row for each call, with what the judge gives for the medium before it is repaired.
    fn new() -> Self {
        let mut tally = Tally::default();
        for (call, writing) in writing_calls() {
            tally.reach((call.title, call.layouts(), judged(writing)));
        }
        tally.mean(MEANT);
        Cuts { tally }
    }

    fn begin(&mut self, _: &mut Random) -> Result<(), String> {
        paper::cases()
    }

    fn on_volume_of(&mut self, sectors: usize, random: &mut Random) -> Result<(), String> {
        let layout = random.pick(&Layout::ALL);
        let disk = built(sectors, layout, random);
        self.on_disk(&disk, layout, random)
    }

    fn any_size(random: &mut Random) -> usize {
        let (least, most) = random.pick(&[(3, 40), (3, 40), (3, 300), (150, 400)]);
        random.within(least..=most)
    }

    fn on_outside(&mut self, outside: &Outside, random: &mut Random) -> Result<(), String> {
        let disk = match of_image(&outside.image) {
            Some(disk) => disk,
            None => return Ok(()),
        };
        let numbers = Numbers::of_sound(&disk);
        let is_sound = |layout: &Layout| numbers.by(*layout) == Some(0);
        let mut layouts = Layout::ALL.into_iter().filter(is_sound);
        layouts.try_for_each(|layout| self.on_disk(&disk, layout, random))
    }

    fn tally(&self) -> &Tally {
        &self.tally
    }
}

/// The calls of whose writes it is promised.
fn writing_calls() -> impl Iterator<Item = (&'static Call, &'static Writing)> {
    calls_in(EVEN).filter_map(|call| Some((call, call.writing()?)))
}

/// What the judge may give between two writes: the map comes before or behind what it is of, and a
/// new name before its place.
fn judged(writing: &Writing) -> Vec<u32> {
    use crate::table::Part::{Index, Map};
    if writing.order.contains(&Map) {
        vec![0, 6]
    } else if writing.order.contains(&Index) {
        vec![0, 4]
    } else {
        vec![0]
    }
}

impl Cuts {
    /// Some calls on a disk that is sound by a layout.
    fn on_disk(&mut self, disk: &Disk, layout: Layout, random: &mut Random) -> Result<(), String> {
        self.tally.size(disk.sectors);
        let pool = names(4, random);
        let mut calls: Vec<(&Call, &Writing)> = writing_calls().collect();
        random.shuffle(&mut calls);
        for (call, writing) in calls.into_iter().take(CALLS) {
            for _ in 0..TRIES {
                let (directory, image_bytes) = (0, disk.image.len());
                let desk = Desk { disk, layout, directory, image_bytes, pool: &pool };
                let arguments = asked(call, &desk, random);
                let image = Image::as_planned("a disk before the call", disk);
                let case = compared(call, &arguments, &image, random)?;
                if case.is_done() {
                    self.cuts(&Scene::of(&case, disk, writing)?, random)?;
                    break;
                }
            }
        }
        Ok(())
    }

    /// The call cut at every place.
    fn cuts(&mut self, scene: &Scene, random: &mut Random) -> Result<(), String> {
        let mut medium = scene.before.image.clone();
        for count in 0..=scene.writes.len() {
            if let Some(sector) = count.checked_sub(1).map(|last| scene.writes[last]) {
                write_through(&mut medium, &scene.after.image, sector);
            }
            self.count(scene, count, &medium);
            let cut = Cut { scene, count, medium: &medium };
            cut.check(random).map_err(|wrong| cut.tell(&wrong))?;
            self.tally.meet(REPAIR_CUT);
        }
        Ok(())
    }

    fn count(&mut self, scene: &Scene, count: usize, medium: &[u8]) {
        let Scene { call, asked_by, by, writes, .. } = scene;
        self.tally.give(call.title, *asked_by, reference::number(medium, *by));
        let between = count > 0 && count < writes.len();
        let is_as = |state: &State| std::ptr::eq(scene.expected(count), state);
        let is_marked = scene.marked.as_ref().map_or(false, is_as);
        self.tally.meet_all([
            (BEFORE_FIRST, count == 0),
            (BETWEEN, between),
            (AFTER_LAST, count == writes.len()),
            (WITHIN_DATA, between && count + 3 < writes.len()),
            (MOST_WRITES, writes.len() == pnoelithe::WRITES_MOST),
            (IN_DIRECTORY, scene.arguments.directory > 0),
            (FULL, scene.is_filling),
            (LEFT_BEFORE, between && is_as(&scene.before)),
            (LEFT_AFTER, between && is_as(&scene.after)),
            (LEFT_MARKED, between && is_marked),
            (NO_CHANGE, scene.before.image == scene.after.image),
        ]);
    }
}

/// What is on a volume, by the reference and by the library's listings.
struct State {
    /// An image that has it.
    image: Vec<u8>,
    shelf: Shelf,
    listings: Vec<Result<String, Refusal>>,
}

impl State {
    fn new(image: &[u8], shelf: Shelf, by: Layout) -> Self {
        State { image: image.to_vec(), shelf, listings: listings(image, by) }
    }
}

/// Of the root, of each entry, and of a number that no directory has.
fn listings(image: &[u8], by: Layout) -> Vec<Result<String, Refusal>> {
    (0..=4).map(|directory| pnoelithe::catalogue(image, by.for_host(), directory)).collect()
}

/// A call that is done, and all that there may be after a cut.
struct Scene<'case> {
    call: &'static Call,
    arguments: &'case Arguments,
    asked_by: Layout,
    /// The layout by which the image is read.
    by: Layout,
    writes: Writes,
    /// With which of the writes the files are those after the call.
    decisive: usize,
    is_filling: bool,
    before: State,
    after: State,
    /// The files before the call, one of them with the mark: what comes between the two writes of an
    /// overwrite by the new rule.
    marked: Option<State>,
}

impl<'case> Scene<'case> {
    fn of(case: &Case<'case>, disk: &Disk, writing: &Writing) -> Result<Self, String> {
        let (arguments, by) = (case.asked.arguments, case.asked.by);
        let changed = case.disk.as_ref().ok_or("a call that is done leaves a disk")?;
        let writes = case.written.writes.clone().ok_or("a call that writes says what")?;
        let parts = |parts: &[_]| sectors_of(parts, [disk, changed], arguments);
        let decisive = parts(&[writing.decided_by])[0];
        let shelf = Shelf::of(&disk.image, by);
        let mut shelf_after = shelf.clone();
        shelf_after.change(writing, arguments);
        let has_mark = writing.order.contains(&crate::table::Part::Mark) && by.marks;
        let marked = has_mark.then(|| {
            let mut image = disk.image.clone();
            image[SECTOR_BYTES * writes[0] + 12] |= MARK;
            State::new(&image, Shelf::of(&image, by), by)
        });
        let scene = Scene {
            call: case.call,
            arguments,
            asked_by: case.asked_by(),
            by,
            decisive,
            is_filling: !disk.free().is_empty() && changed.free().is_empty(),
            before: State::new(&disk.image, shelf, by),
            after: State::new(&changed.image, shelf_after, by),
            marked,
            writes,
        };
        scene.check_writes()?;
        Ok(scene)
    }

    /// That no sector is written twice, and none is changed that is not written.
    fn check_writes(&self) -> Result<(), String> {
        let mut sectors = self.writes.clone();
        sectors.sort_unstable();
        let is_twice = sectors.windows(2).any(|pair| pair[0] == pair[1]);
        let before = self.before.image.chunks(SECTOR_BYTES);
        let mut pairs = before.zip(self.after.image.chunks(SECTOR_BYTES)).enumerate();
        let is_left = pairs.any(|(sector, (was, is))| was != is && !sectors.contains(&sector));
        if is_twice || is_left {
            let what = "a sector is written twice, or changed and not written";
            return Err(format!(
                "{} {:?}: {}: {:?}",
                self.call.title, self.arguments, what, sectors
            ));
        }
        Ok(())
    }

    /// What must be left after so many writes.
    fn expected(&self, count: usize) -> &State {
        let is_decided = self.writes[..count].contains(&self.decisive);
        match &self.marked {
            _ if is_decided => &self.after,
            Some(marked) if count > 0 => marked,
            _ => &self.before,
        }
    }
}

/// A medium after some of the writes.
struct Cut<'scene, 'case> {
    scene: &'scene Scene<'case>,
    count: usize,
    medium: &'scene [u8],
}

impl Cut<'_, '_> {
    fn tell(&self, wrong: &str) -> String {
        let Cut { scene, count, medium } = self;
        let Scene { call, arguments, writes, .. } = scene;
        let kept = self.image(medium).keep();
        let place = format!("after {} of {} writes {:?}", count, writes.len(), writes);
        let call = format!("{} {:?}, cut {}", call.title, arguments, place);
        [wrong, &call, &format!("medium before the repair kept as {}", kept)].join("\n  ")
    }

    /// An image of which it is known that it can be repaired.
    fn image<'image>(&self, bytes: &'image [u8]) -> Image<'image> {
        let by = self.scene.by;
        let numbers = Numbers::each(|_| None).repaired_by(|layout| (layout == by).then_some(0));
        Image { what: "a medium after a cut", bytes, numbers, planned: None }
    }

    fn check(&self, random: &mut Random) -> Result<(), String> {
        let (by, image) = (self.scene.by, self.image(self.medium));
        let arguments = NONE.by(by, random);
        let case = compared(&REPAIR, &arguments, &image, random)?;
        let repaired = &case.disk.as_ref().ok_or("a repair that is done leaves a disk")?.image;
        let writes = case.written.writes.as_deref().unwrap_or_default();
        let expected = self.scene.expected(self.count);
        let is_first = self.count > 0 || std::ptr::eq(expected, &self.scene.before);
        let is_last =
            self.count < self.scene.writes.len() || std::ptr::eq(expected, &self.scene.after);
        let judges = [library::number, reference::number, tuned::number];
        let rules = [
            (is_first && is_last, "cut before all writes or after them is taken for another"),
            (judges.iter().all(|judge| judge(repaired, by) == 0), "is not sound"),
            (is_kept(self.medium, repaired, writes), "has changed elsewhere, or lists others"),
            (expected.shelf.is_on(repaired, by), "has other files than it should"),
            (listings(repaired, by) == expected.listings, "is listed otherwise than it should"),
            (self.is_read(repaired, expected, random), "is read otherwise than it should"),
            (self.ends_the_same(repaired, writes), "is not what a repair that is cut ends with"),
        ];
        match rules.into_iter().find(|(kept, _)| !kept) {
            Some((_, what)) => Err(format!("the repaired volume {}", what)),
            None => Ok(()),
        }
    }

    /// Whether the library reads the file that was called, under each of its names.
    fn is_read(&self, repaired: &[u8], expected: &State, random: &mut Random) -> bool {
        let Arguments { directory, name, other, .. } = self.scene.arguments;
        let new = (self.scene.call.names > 1).then_some(other);
        let mut named = std::iter::once(name).chain(new).map(|name| name.name());
        named.all(|name| self.is_read_as(repaired, (*directory, name), expected, random))
    }

    /// Whether a file has the bytes that it should, or is not found where there is none.
    fn is_read_as(
        &self,
        repaired: &[u8],
        (directory, name): (usize, Name),
        expected: &State,
        random: &mut Random,
    ) -> bool {
        let by = self.scene.by.for_host();
        let read = |offset: usize| {
            let mut sector = [0; SECTOR_BYTES];
            pnoelithe::read(repaired, by, directory, &name, offset, &mut sector)?;
            Ok(sector.to_vec())
        };
        let sectors = match expected.shelf.sectors_of(directory, name) {
            Some(sectors) => sectors,
            None => return read(0) == Err(Refusal::NotFound),
        };
        let is_as = |offset: usize| {
            read(offset)
                == sectors.get(offset).map_or(Err(Refusal::Argument), |own| Ok(own.to_vec()))
        };
        let mut offsets = [sectors.len(); READ];
        offsets[1..].fill_with(|| random.below(sectors.len() + 1));
        offsets.into_iter().all(is_as)
    }

    /// Whether a repair that is itself cut after any of its writes, all among them, and begun again
    /// leaves the same, by library and reference.
    fn ends_the_same(&self, repaired: &[u8], writes: &[usize]) -> bool {
        let by = self.scene.by;
        let mut medium = self.medium.to_vec();
        let mut is_same = true;
        for sector in writes {
            write_through(&mut medium, repaired, *sector);
            let mut again = medium.clone();
            let changes = pnoelithe::repair(&mut again, by.for_host());
            is_same &=
                changes.map_or(false, |changes| changes.sectors().eq(writes.iter().copied()));
            is_same &= again == repaired;
            again.copy_from_slice(&medium);
            is_same &= reference::repair(&mut again, by).as_deref() == Ok(writes);
            is_same &= again == repaired;
        }
        is_same
    }
}

/// A sector of the changed image as it reaches the medium.
fn write_through(medium: &mut [u8], changed: &[u8], sector: usize) {
    let bytes = SECTOR_BYTES * sector..SECTOR_BYTES * (sector + 1);
    medium[bytes.clone()].copy_from_slice(&changed[bytes]);
}

/// Whether a repair has changed nothing but the map and the order of numbers in indexes: those are
/// all that it writes but the last, which is sector 0.
fn is_kept(medium: &[u8], repaired: &[u8], writes: &[usize]) -> bool {
    let (label, indexes) = match writes.split_last() {
        Some((label, indexes)) => (label, indexes),
        None => return false,
    };
    let sorted = |sector: &[u8]| {
        let mut numbers: Vec<[u8; 2]> = sector.chunks(2).map(|pair| [pair[0], pair[1]]).collect();
        numbers.sort_unstable();
        numbers
    };
    let mut pairs = medium.chunks(SECTOR_BYTES).zip(repaired.chunks(SECTOR_BYTES)).enumerate();
    *label == 0
        && pairs.all(|(sector, (was, is))| {
            was == is
                || sector == 0 && was[..MAP] == is[..MAP]
                || indexes.contains(&sector) && sorted(was) == sorted(is)
        })
}
