//! The images of the comparison: disks, each with changes of it. Some suites go through every
//! value of a field once; the others build disks of every size and take changes by chance.

use crate::damage::editions::{as_built, of_unplanned, root_of};
use crate::damage::{Change, Damage, Verdict, SEVERAL};
use crate::directories::{self, deal};
use crate::layout::Layout;
use crate::outside::Outside;
use crate::random::Random;
use crate::volumes::{are_entries, is_name, names, Directory, Disk, File, Order, Run, Shape};
use crate::volumes::{ENTRIES, ENTRY_BYTES, MAP, MARK, MOST_DIRECTORIES, SECTOR_BYTES};
use crate::volumes::{MOST_BLOCKS, MOST_FILES, MOST_SECTORS};
use std::collections::BTreeMap;

/// A disk, the paper's number for it by the new rule and the edition that it is planned for, that by
/// the other edition, and changes of it.
pub struct Batch {
    pub disk: Disk,
    pub number: u32,
    by_other: Option<u32>,
    pub changes: Vec<Change>,
}

/// The paper's number for an image by each layout, and that of a repair, where they are settled.
#[derive(Clone, Copy, Debug)]
pub struct Numbers {
    judged: [Option<u32>; 4],
    repaired: [Option<u32>; 4],
}

impl Numbers {
    /// Whether a 4 is for the order of names alone, so that a repair mends it, is not known.
    pub fn each(number: impl Fn(Layout) -> Option<u32>) -> Self {
        let judged = Layout::ALL.map(number);
        let repaired =
            judged.map(|number| Verdict::of(number).repaired.filter(|number| *number != 4));
        Numbers { judged, repaired }
    }

    /// The same, with numbers of a repair that are known.
    pub fn repaired_by(self, number: impl Fn(Layout) -> Option<u32>) -> Self {
        Numbers { repaired: Layout::ALL.map(number), ..self }
    }

    /// Of an image that was made of a disk, whose number by the new rule is known by the disk's
    /// edition and by the other one. The rules differ in one thing: by the old one a mark is a
    /// fault of number 4.
    pub fn by_new(disk: &Disk, own: Verdict, other: Verdict, image: &[u8]) -> Self {
        let by = |layout: Layout, number: fn(Verdict) -> Option<u32>| {
            let is_own = layout.directories == disk.has_directories();
            let number = number(if is_own { own } else { other })?;
            let is_fault = !layout.marks && matches!(number, 0 | 5 | 6);
            Some(if is_fault && is_marked(image, layout) { 4 } else { number })
        };
        let judged = Numbers::each(|layout| by(layout, |verdict| verdict.judged));
        judged.repaired_by(|layout| by(layout, |verdict| verdict.repaired))
    }

    /// Of one whose number by the old rule and the first edition is known: where that is 4, a mark
    /// may be why.
    pub fn by_old(number: Option<u32>, image: &[u8]) -> Self {
        Numbers::each(|layout| {
            let number = number.filter(|number| *number != 4 || !layout.marks);
            if layout.directories {
                of_unplanned(image, number)
            } else {
                number
            }
        })
    }

    /// Of a disk that is sound by its edition and the new rule.
    pub fn of_sound(disk: &Disk) -> Self {
        let [own, other] = [Some(0), as_built(disk)].map(Verdict::of);
        Numbers::by_new(disk, own, other, &disk.image)
    }

    /// Whether both editions find it sound, with marks.
    pub fn is_by_both(self) -> bool {
        [Layout::MARKS, Layout::MARKS_AND_DIRECTORIES].map(|by| self.by(by)) == [Some(0); 2]
    }

    pub fn by(self, layout: Layout) -> Option<u32> {
        self.judged[place(layout)]
    }

    /// That of a repair.
    pub fn repaired(self, layout: Layout) -> Option<u32> {
        self.repaired[place(layout)]
    }
}

fn place(layout: Layout) -> usize {
    let place = Layout::ALL.iter().position(|other| *other == layout);
    place.expect("one of all layouts")
}

/// Whether a file has the mark, of those that an index lists; each of them has a descriptor.
fn is_marked(image: &[u8], layout: Layout) -> bool {
    let word = |at: usize| usize::from(image[at]) * 256 + usize::from(image[at + 1]);
    let entries = if layout.directories { ENTRIES..MAP } else { 0..0 };
    // An entry that is absent has 0 there.
    let indexes = entries.step_by(ENTRY_BYTES).map(|entry| word(entry + 10));
    let mut indexes = indexes.filter(|index| *index > 0).chain([1]);
    indexes.any(|index| {
        let numbers = (0..SECTOR_BYTES).step_by(2).map(|at| word(SECTOR_BYTES * index + at));
        let mut listed = numbers.take_while(|number| *number > 0);
        listed.any(|number| image[SECTOR_BYTES * number + 12] & MARK != 0)
    })
}

/// One image of a batch.
pub struct Image<'batch> {
    /// What was done to the disk, for a report.
    pub what: &'batch str,
    pub bytes: &'batch [u8],
    pub numbers: Numbers,
    /// The disk, where it is sound by its edition and the new rule, and the image is as planned.
    pub planned: Option<&'batch Disk>,
}

impl<'batch> Image<'batch> {
    /// A disk as it was built.
    pub fn as_planned(what: &'batch str, disk: &'batch Disk) -> Self {
        Image { what, bytes: &disk.image, numbers: Numbers::of_sound(disk), planned: Some(disk) }
    }

    pub fn number(&self, layout: Layout) -> Option<u32> {
        self.numbers.by(layout)
    }

    /// What a repair gives.
    pub fn repaired(&self, layout: Layout) -> Option<u32> {
        self.numbers.repaired(layout)
    }

    /// The disk, where it is sound by the layout.
    pub fn planned(&self, layout: Layout) -> Option<&'batch Disk> {
        self.planned.filter(|_| self.number(layout) == Some(0))
    }

    pub fn of_outside(outside: &'batch Outside) -> Self {
        let Outside { name, image, numbers, .. } = outside;
        Image { what: name, bytes: image, numbers: *numbers, planned: None }
    }

    /// Writes the image beside this program and says where.
    pub fn keep(&self) -> String {
        let kept = std::env::current_exe().and_then(|program| {
            let path = program.with_file_name("difference.dsk");
            std::fs::write(&path, self.bytes)?;
            Ok(path.display().to_string())
        });
        kept.unwrap_or_else(|error| format!("no file: {}", error))
    }
}

impl Batch {
    /// The disk as it stands, then each of its changes. They are laid into the start of a buffer,
    /// where bytes after them serve for lengths that are too great.
    pub fn each_image(
        &self,
        buffer: &mut [u8],
        mut each: impl FnMut(&Image) -> Result<(), String>,
    ) -> Result<(), String> {
        let image = &self.disk.image;
        buffer[..image.len()].copy_from_slice(image);
        let planned = (self.number == 0).then_some(&self.disk);
        let bytes = &buffer[..image.len()];
        let [own, other] = [Some(self.number), self.by_other].map(Verdict::of);
        let numbers = Numbers::by_new(&self.disk, own, other, bytes);
        each(&Image { what: "disk as built", bytes, numbers, planned })?;
        for change in &self.changes {
            for edit in &change.edits {
                buffer[edit.at..][..edit.bytes.len()].copy_from_slice(&edit.bytes);
            }
            let bytes = &buffer[..change.length];
            let numbers = Numbers::by_new(&self.disk, change.own, change.other, bytes);
            each(&Image { what: change.what, bytes, numbers, planned: None })?;
            for edit in &change.edits {
                let bytes = edit.at..edit.at + edit.bytes.len();
                buffer[bytes.clone()].copy_from_slice(&image[bytes]);
            }
        }
        Ok(())
    }

    fn of_sound(disk: Disk, damage: impl FnOnce(&mut Damage)) -> Self {
        let mut collected = Damage::new(&disk);
        damage(&mut collected);
        let changes = collected.changes;
        Batch { changes, ..Batch::sound(disk) }
    }

    fn sound(disk: Disk) -> Self {
        Batch { number: 0, by_other: as_built(&disk), disk, changes: Vec::new() }
    }

    /// A sound disk of any shape, with so many changes out of all sorts of them. As with the other
    /// disks here, some have files with the mark, and some have directories.
    pub fn of_any_shape(sectors: usize, changes: usize, random: &mut Random) -> Self {
        let is_second = random.once_in(2);
        let disk = directories::of_any_shape(sectors, is_second, random);
        let disk = marked_or_not(disk, random);
        let mut batch = Batch::of_sound(disk, |damage| damage.of_every_sort(random));
        random.shuffle(&mut batch.changes);
        batch.changes.truncate(changes);
        batch
    }

    /// A sound disk of any shape, with a change of each sort, and a few where several are one.
    pub fn of_each_sort(sectors: usize, random: &mut Random) -> Self {
        let mut batch = Batch::of_any_shape(sectors, usize::MAX, random);
        let mut kept = BTreeMap::new();
        batch.changes.retain(|change| {
            let count = kept.entry(change.what).or_insert(0);
            *count += 1;
            *count <= if change.what == SEVERAL { 8 } else { 1 }
        });
        batch
    }

    /// A full disk of few files, which are therefore long.
    pub fn of_long_files(random: &mut Random) -> Self {
        let sectors = random.within(MOST_SECTORS / 2..=MOST_SECTORS);
        let files = random.within(1..=3);
        let is_second = random.once_in(2);
        let disk = directories::planned(sectors, is_second, random, |sectors, _, random| {
            Shape::full(sectors, files, MOST_BLOCKS, Order::Shuffled).build(random)
        });
        Batch::sound(marked_or_not(disk, random))
    }

    /// A small disk whose files lie anywhere, over one another and past the end.
    pub fn of_any_plan(random: &mut Random) -> Self {
        let sectors = random.within(3..=40);
        let mut room: Vec<usize> = (2..sectors).collect();
        random.shuffle(&mut room);
        let is_second = random.once_in(2);
        let directories =
            if is_second { any_directories(&mut room, random) } else { [None; MOST_DIRECTORIES] };
        room.truncate(random.below(5));
        let names = names(room.len(), random);
        let files = names.into_iter().zip(room).map(|(name, descriptor)| {
            let runs = any_runs(sectors, random);
            let mut file = File::new(name, descriptor, runs, random);
            if random.once_in(8) {
                file.header[12] = random.byte();
            }
            if random.once_in(8) {
                file.set_count(random.below(8));
            }
            if random.once_in(8) {
                file.header[16] = random.byte();
            }
            file
        });
        let mut files: Vec<File> = files.collect();
        if !is_second {
            return Batch::of_plan(sectors, files, random);
        }
        deal(&mut files, &listing(&directories), random);
        Batch::of_planned(Disk::of_directories(sectors, directories, files, random), random)
    }

    /// One file of one block, which may lie anywhere and reach past everything.
    pub fn of_one_block(sectors: usize, run: Run, random: &mut Random) -> Self {
        let descriptor = random.pick(&[2, sectors - 1]);
        let file = File::new(names(1, random)[0], descriptor, vec![run], random);
        Batch::of_plan(sectors, vec![file], random)
    }

    /// Two blocks, of one file or of a file each: they lie apart, side by side or over one another.
    pub fn of_two_blocks(runs: [Run; 2], in_one_file: bool, random: &mut Random) -> Self {
        let chains =
            if in_one_file { vec![runs.to_vec()] } else { runs.map(|run| vec![run]).to_vec() };
        let placed = names(chains.len(), random).into_iter().zip(chains).zip(2..);
        let files =
            placed.map(|((name, runs), descriptor)| File::new(name, descriptor, runs, random));
        Batch::of_plan(TWO_BLOCKS_SECTORS, files.collect(), random)
    }

    fn of_plan(sectors: usize, files: Vec<File>, random: &mut Random) -> Self {
        Batch::of_planned(Disk::of_files(sectors, files, random), random)
    }

    fn of_planned(disk: Disk, random: &mut Random) -> Self {
        let disk = marked_or_not(disk, random);
        let number = number_of_plan(&disk);
        let by_other = if disk.has_directories() {
            Some(number_of_root(&disk))
        } else {
            of_unplanned(&disk.image, Some(number))
        };
        Batch { number, by_other, disk, changes: Vec::new() }
    }
}

/// Directories whose indexes are taken from the room; now and then two have one index.
fn any_directories(
    room: &mut Vec<usize>,
    random: &mut Random,
) -> [Option<Directory>; MOST_DIRECTORIES] {
    let mut named = names(MOST_DIRECTORIES, random);
    random.shuffle(&mut named);
    let mut last = None;
    let mut directory = |name| {
        let again = last.filter(|_| random.once_in(6));
        let index = if random.once_in(2) { None } else { again.or_else(|| room.pop()) }?;
        last = Some(index);
        Some(Directory { name, index })
    };
    [directory(named[0]), directory(named[1]), directory(named[2])]
}

/// The directories that get files: of those with one index the last, which is laid down last.
fn listing(directories: &[Option<Directory>; MOST_DIRECTORIES]) -> Vec<usize> {
    let index = |place: usize| directories.get(place).copied().flatten().map(|own| own.index);
    let is_last = |place: &usize| {
        let own = index(*place);
        own.is_some() && (place + 1..MOST_DIRECTORIES).all(|later| index(later) != own)
    };
    let last = (0..MOST_DIRECTORIES).filter(is_last).map(|place| place + 1);
    std::iter::once(0).chain(last).collect()
}

/// Half of the disks have no mark for certain: they are sound by both rules.
fn marked_or_not(mut disk: Disk, random: &mut Random) -> Disk {
    if random.once_in(2) {
        disk.mark_by_chance(random);
    }
    disk
}

/// Runs that mostly lie on the disk. None starts at 0: with offset 0 that would be no block.
fn any_runs(sectors: usize, random: &mut Random) -> Vec<Run> {
    let mut runs = Vec::new();
    for block in 0..random.below(4) {
        let start = if random.once_in(16) { 1 } else { random.within(2..=sectors) };
        let least = if block == 0 || !random.once_in(16) { 1 } else { 0 };
        runs.push(Run { start, length: least + random.below(2) });
    }
    runs
}

/// The paper's number by the first edition for a disk with directories that is written as planned.
fn number_of_root(disk: &Disk) -> u32 {
    let root = root_of(disk);
    match number_of_plan(&root) {
        0 if root.map() != disk.map() => 6,
        number => number,
    }
}

/// The paper's number by the new rule and the disk's edition for a disk written as planned, whose
/// entries, names and map are therefore right.
fn number_of_plan(disk: &Disk) -> u32 {
    let sound = |file: &File| {
        let placed =
            |run: &Run| run.start >= 2 && run.length >= 1 && run.sectors().end <= disk.sectors;
        file.runs.iter().all(placed)
            && file.count() == file.sectors().count()
            && file.is_of_a_kind(Layout::MARKS)
    };
    if !disk.files.iter().all(sound) {
        return 4;
    }
    let mut held: Vec<usize> = disk.held().collect();
    held.sort_unstable();
    let two_holders = held.windows(2).any(|pair| pair[0] == pair[1]);
    5 * u32::from(two_holders)
}

/// The suites that go through every value.
pub fn of_every_value(random: &mut Random) -> Vec<Batch> {
    let mut batches = every_map_bit(random);
    batches.push(every_length(random));
    batches.push(every_label_byte(random));
    batches.push(every_entry_byte(random));
    batches.extend(every_descriptor_byte(random));
    batches.extend(every_index_bit(random));
    batches
}

/// One file in the middle of a small disk, with so many sectors in one block or none.
fn one_file(status: u8, count: usize, random: &mut Random) -> Disk {
    Disk::of_files(35, vec![planned_file(status, count, random)], random)
}

fn planned_file(status: u8, count: usize, random: &mut Random) -> File {
    let run = Run { start: 20, length: count };
    let runs = if count == 0 { vec![] } else { vec![run] };
    let mut file = File::new(names(1, random)[0], 10, runs, random);
    file.set_status(status);
    file
}

/// The same in a directory, beside one that is empty and an entry that is absent.
fn one_file_in_directory(status: u8, count: usize, random: &mut Random) -> Disk {
    let mut file = planned_file(status, count, random);
    file.directory = 3;
    let named = names(2, random);
    let [empty, own] =
        [(0, 30), (1, 7)].map(|(name, index)| Directory { name: named[name], index });
    Disk::of_directories(35, [Some(empty), None, Some(own)], vec![file], random)
}

fn every_map_bit(random: &mut Random) -> Vec<Batch> {
    let sizes = [3, 4, 7, 8, 9, 15, 16, 17, 35, 360, 721, 1440, 1592, 1599, MOST_SECTORS];
    let mut batch = |(place, sectors)| {
        let disk = directories::of_any_shape(sectors, place % 2 == 0, random);
        Batch::of_sound(disk, |damage| (0..MOST_SECTORS).for_each(|bit| damage.map_bit(bit)))
    };
    sizes.into_iter().enumerate().map(&mut batch).collect()
}

fn every_length(random: &mut Random) -> Batch {
    let disk = Shape::any(5, MOST_FILES, random).build(random);
    let near_sectors =
        (1..=MOST_SECTORS + 1).flat_map(|n| SECTOR_BYTES * n - 1..=SECTOR_BYTES * n + 1);
    Batch::of_sound(disk, |damage| {
        (0..2000).chain(near_sectors).for_each(|length| damage.length(length))
    })
}

fn every_label_byte(random: &mut Random) -> Batch {
    let disk = Shape::any(35, MOST_FILES, random).build(random);
    Batch::of_sound(disk, |damage| {
        for byte in 0..MAP {
            damage.every_value(byte, |label| match byte {
                0..=9 if is_name(&label[..10].try_into().expect("ten bytes")) => Some(0),
                0..=11 | 13..=15 => Some(2),
                _ => Some(0),
            });
        }
    })
}

/// Of the entries of directories, of which one is absent. Another sector for an index may hold
/// anything.
fn every_entry_byte(random: &mut Random) -> Batch {
    let disk = one_file_in_directory(0x00, 2, random);
    let sectors = disk.sectors;
    Batch::of_sound(disk, |damage| {
        for byte in ENTRIES..MAP {
            damage.every_value(byte, |label| match are_entries(&label[ENTRIES..MAP], sectors) {
                false => Some(3),
                true if (byte - ENTRIES) % ENTRY_BYTES < 10 => Some(0),
                true => None,
            });
        }
    })
}

/// A descriptor's header, and every bit of chains of no, one and 76 blocks; programs and another
/// file have none, and two files have the mark.
fn every_descriptor_byte(random: &mut Random) -> Vec<Batch> {
    let blocks = MOST_BLOCKS..=MOST_BLOCKS;
    let order = Order::Ascending;
    let (files, scattered, runs, even) = (1, false, MOST_BLOCKS, false);
    let filled = Shape { sectors: 200, files, scattered, runs, even, order, blocks };
    let disks = [
        one_file(0x00, 0, random),
        one_file(0x01, 0, random),
        one_file(0x01, 3, random),
        one_file(0x11, 0, random),
        one_file(0x98, 2, random),
        filled.build(random),
        one_file_in_directory(0x01, 0, random),
        one_file_in_directory(0x92, 3, random),
    ];
    let batch = |disk: Disk| {
        let file = disk.files[0].clone();
        Batch::of_sound(disk, |damage| {
            damage.every_header_byte(&file);
            damage.every_chain_bit(&file);
        })
    };
    disks.into_iter().map(batch).collect()
}

/// Sector 1 with one file, where all from its third number on is after the end, and with 127; the
/// indexes of directories with no file, one and 127.
fn every_index_bit(random: &mut Random) -> Vec<Batch> {
    let full = Shape::full(MOST_FILES + 50, MOST_FILES, 1, Order::Ascending).build(random);
    let mut files = full.files.clone();
    files.iter_mut().for_each(|file| file.directory = 2);
    let index = Directory { name: names(1, random)[0], index: full.sectors };
    let in_second = [None, Some(index), None];
    let full_second = Disk::of_directories(full.sectors + 1, in_second, files, random);
    let one = one_file_in_directory(0x00, 1, random);
    let indexes = [
        (one_file(0x00, 1, random), 0),
        (full, 0),
        (one.clone(), 1),
        (one, 3),
        (full_second.clone(), 0),
        (full_second, 2),
    ];
    let batch =
        |(disk, directory)| Batch::of_sound(disk, |damage| damage.every_index_bit(directory));
    indexes.into_iter().map(batch).collect()
}

const TWO_BLOCKS_SECTORS: usize = 52;

/// Two blocks in every way in which bytes of the map can part them: the first begins at each bit of
/// a byte and covers up to three bytes, the second begins anywhere from before it to behind it.
pub fn two_blocks() -> impl Iterator<Item = [Run; 2]> {
    let firsts = (16..24).flat_map(|start| (1..=17).map(move |length| Run { start, length }));
    firsts.flat_map(|first| {
        [1, 8, 9].into_iter().flat_map(move |length| {
            let starts = first.start - length - 1..=first.sectors().end + 1;
            starts.map(move |start| [first, Run { start, length }])
        })
    })
}

/// Single blocks at the edges of the disk, of the fields and of what they may cover: for each the
/// number of the disk's sectors and where the block lies.
pub fn edges_of_a_block() -> Vec<(usize, Run)> {
    let mut edges = Vec::new();
    for sectors in [4, 5, 17, 256, 258, MOST_SECTORS - 1, MOST_SECTORS] {
        for start in [1, 2, 3, sectors - 2, sectors - 1, sectors, 255, 256, 4095] {
            for length in [1, 2, 16, 17, 255, 256, 257, sectors - 3, sectors - 2, sectors, 4096] {
                edges.push((sectors, Run { start, length }));
            }
        }
    }
    edges
}
