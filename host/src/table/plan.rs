//! What a call must do by the plan of a disk, which knows the files and where everything lies. Every
//! fault is looked for on its own, and the first in the paper's order gives the number. What is
//! read comes from the plan, the disk name and the sectors of files apart; a call that writes
//! changes the plan's files, and map, indexes and descriptors are laid down from these anew; which
//! sectors it writes follows from where the file lies then.

use super::{Arguments, Call, Case, Given, Rules, Written};
use crate::layout::Layout;
use crate::reference;
use crate::sequences::Shelved;
use crate::suites::{Image, Numbers};
use crate::volumes::{is_letter, is_name, Directory, Disk, File, Name, Run, MARK};
use crate::volumes::{MOST_BLOCKS, MOST_DIRECTORIES, MOST_FILES, SECTOR_BYTES};
use std::ops::Deref;

const FIRST_FOR_DATA: usize = 34;

/// What a call that has no fault does.
pub(crate) enum Plan {
    Reads(Reading),
    /// The disk that it makes of an image of so many bytes, whatever they were.
    Formats(fn(usize, &Arguments) -> Disk),
    Writes(Writing),
    /// The disk that it makes of an image that is one but for the order of names and the map.
    Repairs(fn(&[u8], Layout) -> Option<Disk>),
}

pub(crate) struct Reading {
    /// What is given of a disk if the buffer is long enough; none where there is nothing to give.
    pub of_disk: fn(&Disk, &Arguments) -> Option<Written>,
    /// All that can be read of a directory with these files; at each end one step further, under
    /// names that no file has, and with buffers that are too short.
    pub all: fn(&[Listed]) -> Vec<Arguments>,
}

/// A file of a volume: its name and its number of sectors.
pub(crate) type Listed = (Name, usize);

pub(crate) struct Writing {
    /// Changes the files and what lies in their sectors.
    pub on_disk: fn(&mut Disk, &Arguments),
    /// The file as the caller knows it: one without bytes where there was none, and none where
    /// there is none then.
    pub on_shelf: fn(Shelved, &Arguments) -> Option<Shelved>,
    /// What is written through, in this order.
    pub order: &'static [Part],
    /// With which of them the files are those after the call.
    pub decided_by: Part,
    pub look: Option<Look>,
}

/// What a call writes, of the volume or of the file that it makes or changes.
#[derive(Clone, Copy, PartialEq, Eq)]
pub(crate) enum Part {
    /// Sector 0.
    Map,
    /// Of the file's directory.
    Index,
    Descriptor,
    /// The descriptor where there are marks, and else nothing.
    Mark,
    /// All sectors of the file, the last one, or the one at the offset.
    Data,
    LastOfData,
    AtOffset,
}

impl Part {
    /// The sectors of this, of a file as it lies on a disk.
    fn sectors(self, disk: &Disk, file: &File, asked: &Arguments) -> Vec<usize> {
        match self {
            Part::Map => vec![0],
            Part::Index => vec![disk.index_of(file.directory)],
            Part::Descriptor => vec![file.descriptor],
            Part::Mark if asked.layout().marks => vec![file.descriptor],
            Part::Mark => vec![],
            Part::Data => file.sectors().collect(),
            Part::LastOfData => file.sectors().last().into_iter().collect(),
            Part::AtOffset => file.sectors().nth(asked.at).into_iter().collect(),
        }
    }
}

/// The sectors that these are, for a call that makes the second disk of the first.
pub(crate) fn sectors_of(parts: &[Part], disks: [&Disk; 2], asked: &Arguments) -> Vec<usize> {
    let [before, after] = disks;
    // Where there is no file of the name any more, it lies as it did.
    let now = find(after, asked.directory, &asked.name);
    let file = now.or_else(|| find(before, asked.directory, &asked.name));
    let file = file.expect("a call without fault has one");
    parts.iter().flat_map(|part| part.sectors(after, file, asked)).collect()
}

/// What is often done next, and the call that does it, to look at what was written: on the disk
/// afterwards, by the arguments of the call that wrote.
pub(crate) type Look = (&'static str, fn(&Disk, &Arguments) -> (&'static Call, Arguments));

/// A call's arguments, the image that they are for, and the layout by which the call reads it.
#[derive(Clone, Copy)]
pub(crate) struct Asked<'case> {
    pub arguments: &'case Arguments,
    pub image: &'case Image<'case>,
    pub by: Layout,
}

impl Deref for Asked<'_> {
    type Target = Arguments;

    fn deref(&self) -> &Arguments {
        self.arguments
    }
}

impl<'case> Asked<'case> {
    /// The image's own, where it is settled.
    pub(crate) fn number(&self) -> Option<u32> {
        self.image.number(self.by)
    }

    /// What a call gives for the image, whatever else it is asked with.
    fn number_by(&self, call: &Call) -> Option<u32> {
        match call.rules {
            Rules::None => Some(0),
            Rules::AsAsked | Rules::OfMarks => self.number(),
            Rules::ToRepair => self.image.repaired(self.by),
        }
    }

    pub(crate) fn disk(&self) -> Option<&'case Disk> {
        self.image.planned(self.by)
    }

    pub(crate) fn file(&self) -> Option<&'case File> {
        find(self.disk()?, self.directory, &self.name)
    }

    /// The files of the directory, where that is there.
    pub(crate) fn files(&self) -> Option<Vec<&'case File>> {
        let disk = self.disk()?;
        disk.has(self.directory).then(|| disk.files_in(self.directory).collect())
    }

    /// Whether the disk is known and keeps a rule.
    pub(crate) fn on_disk(&self, rule: impl FnOnce(&Disk) -> bool) -> bool {
        self.disk().map_or(false, rule)
    }

    /// The same of the file.
    pub(super) fn on_file(&self, rule: impl FnOnce(&File) -> bool) -> bool {
        self.file().map_or(false, rule)
    }

    /// How far the offset lies past the last, where it does.
    pub(super) fn past(&self) -> Option<usize> {
        self.at.checked_sub(self.file()?.count())
    }

    /// Whether fewer sectors are free than are taken.
    pub(super) fn lacks(&self, sectors: usize) -> bool {
        self.on_disk(|disk| disk.free().len() < sectors)
    }
}

/// Tests that several calls have, by their numbers.
pub(super) fn bad_name(asked: &Asked) -> bool {
    !is_good(&asked.name)
}

pub(super) fn absent(asked: &Asked) -> bool {
    let is_no_file = asked.disk().is_some() && asked.file().is_none();
    no_directory(asked) || !bad_name(asked) && is_no_file
}

/// Above 3 there is none on any disk, and by the first edition none but the root. Where that is all
/// one, the number says it without the disk.
pub(super) fn no_directory(asked: &Asked) -> bool {
    let is_none = match asked.directory {
        0 => false,
        1..=MOST_DIRECTORIES => !asked.by.directories,
        _ => true,
    };
    is_none || asked.on_disk(|disk| !disk.has(asked.directory))
}

pub(super) fn present(asked: &Asked) -> bool {
    asked.file().is_some()
}

pub(super) fn protected(asked: &Asked) -> bool {
    asked.on_file(is_protected)
}

pub(super) fn program(asked: &Asked) -> bool {
    asked.on_file(File::is_program)
}

/// Whether other directories than the one that is asked for have a file of the name.
pub(super) fn is_named_twice(asked: &Asked) -> bool {
    asked.on_disk(|disk| {
        let mut others = disk.numbers().into_iter().filter(|number| *number != asked.directory);
        others.any(|number| find(disk, number, &asked.name).is_some())
    })
}

/// Whether the file is not found, and a directory that is not asked for has one of that name.
pub(super) fn is_elsewhere(case: &Case) -> bool {
    case.number == 8 && case.asked.files().is_some() && is_named_twice(&case.asked)
}

/// Data that is to be one sector is not.
pub(super) fn not_a_sector(asked: &Asked) -> bool {
    asked.other.lent().len() != SECTOR_BYTES
}

pub(super) fn full_index(asked: &Asked) -> bool {
    asked.files().map_or(false, |files| files.len() == MOST_FILES)
}

/// Whether a chain would have too many blocks; none is where the file cannot grow for other reasons.
pub(super) fn is_too_long(runs: Option<Vec<Run>>) -> bool {
    runs.map_or(false, |runs| runs.len() > MOST_BLOCKS)
}

pub(crate) fn is_good(name: &Given) -> bool {
    name.lent().try_into().map_or(false, is_name)
}

/// The place of a name's first wrong byte: 10 of a name that is not ten bytes, 0 of a blank one, and
/// else the least that has a byte other than a space which no name has or which comes after a space.
fn first_wrong(name: &Given) -> Option<usize> {
    let name = name.lent();
    if name.len() != 10 {
        return Some(10);
    }
    if *name == [b' '; 10] {
        return Some(0);
    }
    let is_wrong = |place: &usize| {
        let byte = name[*place];
        byte != b' ' && (!is_letter(byte) || name[..*place].contains(&b' '))
    };
    (0..10).find(is_wrong)
}

/// What goes behind the pointers with number 7. Names are tested in their order, each wholly.
fn misnamed(call: &Call, arguments: &Arguments) -> Written {
    let mut names = [&arguments.name, &arguments.other].into_iter().take(call.names).enumerate();
    match names.find_map(|(which, name)| Some((which, first_wrong(name)?))) {
        Some((which, place)) => {
            let which = (call.names > 1).then_some(which);
            Written { which, wrong: Some(place), ..Written::nothing(call) }
        }
        None => Written::nothing(call),
    }
}

/// Marks the file that a call has made or changed, where there are marks.
pub(super) fn mark(file: &mut File, arguments: &Arguments) {
    if arguments.layout().marks {
        file.header[12] |= MARK;
    }
}

pub(crate) fn is_protected(file: &File) -> bool {
    file.status() & 0x08 != 0
}

/// A program's bytes or else the record length.
pub(super) fn length_of(file: &File) -> usize {
    if file.is_program() {
        file.program_length()
    } else {
        usize::from(file.header[17])
    }
}

/// A file of a directory by a name that keeps the rule: no other has one.
pub(super) fn find<'disk>(
    disk: &'disk Disk,
    directory: usize,
    name: &Given,
) -> Option<&'disk File> {
    disk.files_in(directory).find(|file| file.name()[..] == *name.lent())
}

/// The file that a call without fault changes.
pub(super) fn called<'disk>(disk: &'disk mut Disk, arguments: &Arguments) -> &'disk mut File {
    let place = (arguments.directory, arguments.name.name());
    disk.files.iter_mut().find(|file| file.place() == place).expect("a call without fault has one")
}

/// The runs of a file that takes so many sectors more, of those that are free; none where they are
/// fewer.
pub(super) fn grown(mut runs: Vec<Run>, free: &[usize], more: usize) -> Option<Vec<Run>> {
    let (high, low): (Vec<usize>, Vec<usize>) =
        free.iter().partition(|sector| **sector >= FIRST_FOR_DATA);
    for place in [high, low].concat().get(..more)? {
        match runs.last_mut() {
            Some(run) if run.start + run.length == *place => run.length += 1,
            _ => runs.push(Run { start: *place, length: 1 }),
        }
    }
    Some(runs)
}

/// Fills sectors with the bytes, and what is left of the last one with zeros.
pub(super) fn fill(disk: &mut Disk, places: impl Iterator<Item = usize>, bytes: &[u8]) {
    for (place, part) in places.zip(bytes.chunks(SECTOR_BYTES)) {
        let sector = &mut disk.image[SECTOR_BYTES * place..][..SECTOR_BYTES];
        sector[..part.len()].copy_from_slice(part);
        sector[part.len()..].fill(0);
    }
}

/// All that is known to be wrong with a call, in the order in which it is tested.
pub(super) fn faults(call: &Call, asked: &Asked) -> Vec<u32> {
    let of_image = asked.number_by(call).filter(|number| *number != 0);
    let due = call.tests.iter().filter(|(_, is_due)| is_due(asked));
    of_image.into_iter().chain(due.map(|(number, _)| *number)).collect()
}

/// What a call gives by the plan.
pub(super) struct Planned {
    pub number: u32,
    pub written: Written,
    /// The disk that the call makes or changes.
    pub disk: Option<Disk>,
}

/// None where it is not settled what the image holds.
pub(super) fn planned(call: &Call, asked: &Asked, faults: &[u32]) -> Option<Planned> {
    let Asked { arguments, image, .. } = asked;
    let number = faults.first().copied().unwrap_or(0);
    let (mut written, mut disk) = (Written::nothing(call), None);
    let is_all_known = match &call.by_plan {
        Plan::Formats(_) | Plan::Repairs(_) => true,
        Plan::Reads(_) | Plan::Writes(_) => asked.disk().is_some(),
    };
    let of_image = asked.number_by(call);
    if of_image.is_none() || of_image == Some(0) && !is_all_known {
        return None;
    }
    match (number, &call.by_plan, asked.disk()) {
        (7, _, _) => written = misnamed(call, arguments),
        (0, Plan::Reads(reading), Some(disk)) => {
            written = (reading.of_disk)(disk, arguments).unwrap_or_default();
        }
        (0, Plan::Formats(formats), _) => disk = Some(formats(image.bytes.len(), arguments)),
        (0, Plan::Writes(writing), Some(planned)) => {
            let mut changed = planned.clone();
            (writing.on_disk)(&mut changed, arguments);
            changed.files.sort_by_key(File::place);
            changed.lay_down();
            let writes = sectors_of(writing.order, [planned, &changed], arguments);
            written = Written::changed(writes);
            disk = Some(changed);
        }
        (0, Plan::Repairs(repairs), _) => {
            disk = repairs(image.bytes, asked.by);
            let indexes = disk
                .iter()
                .flat_map(|disk| disk.numbers().into_iter().map(|number| disk.index_of(number)));
            written = Written::changed(indexes.chain([0]).collect());
        }
        _ => {}
    }
    Some(Planned { number, written, disk })
}

/// How many bytes a reading call gives where its buffer is long enough, and the plan knows.
pub(super) fn takes(call: &Call, asked: &Asked) -> Option<usize> {
    match &call.by_plan {
        Plan::Reads(reading) => {
            Some((reading.of_disk)(asked.disk()?, asked.arguments)?.bytes.len())
        }
        _ => None,
    }
}

/// The plan of an image that was not built from one, as the reference reads it; none where it is
/// sound by no layout. Where it is so by both editions, it has no directory.
pub(crate) fn of_image(image: &[u8]) -> Option<Disk> {
    let by_first = reference::judge(image, Layout::MARKS);
    let volume =
        by_first.or_else(|_| reference::judge(image, Layout::MARKS_AND_DIRECTORIES)).ok()?;
    let mut directories = [None; MOST_DIRECTORIES];
    for (directory, entry) in directories.iter_mut().zip(volume.entries()) {
        let own = Directory { name: *entry.name(), index: entry.index() };
        *directory = (!entry.is_absent()).then_some(own);
    }
    let numbers =
        (0..=MOST_DIRECTORIES).filter_map(|number| Some((number, volume.directory(number)?)));
    let files = numbers.flat_map(|(directory, listing)| {
        listing.files().map(move |(descriptor, described)| File {
            directory,
            descriptor,
            header: *described.header(),
            runs: described.chain().blocks().map(run).collect(),
        })
    });
    let (sectors, files) = (volume.sectors(), files.collect());
    Some(Disk { sectors, directories, files, image: image.to_vec() })
}

/// The numbers of such an image.
pub(crate) fn numbers_of(image: &[u8]) -> Numbers {
    let judged = |layout| Some(reference::number(image, layout));
    Numbers::each(judged).repaired_by(|layout| Some(reference::number_to_repair(image, layout)))
}

fn run(block: reference::Block) -> Run {
    Run { start: block.start, length: block.last - block.first + 1 }
}
