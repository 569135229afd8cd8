//! Sound volumes built from document 01, with nothing of the judges' reading: a disk is planned
//! as files that lie in runs of sectors, and then written byte for byte. Those of the second edition
//! are planned without directories first, and then get some.

use crate::layout::Layout;
use crate::random::Random;
use std::ops::RangeInclusive;

pub const SECTOR_BYTES: usize = 256;
pub const MOST_SECTORS: usize = 1600;
pub const MOST_FILES: usize = 127;
pub const MOST_BLOCKS: usize = 76;
pub const HEADER_BYTES: usize = 28;
/// Where sector 0 has the entries of directories, and how many bytes each has.
pub const ENTRIES: usize = 20;
pub const ENTRY_BYTES: usize = 12;
pub const MOST_DIRECTORIES: usize = 3;
pub const MAP: usize = 56;

/// The status bytes that the paper allows, program apart from the rest. By the new rule each may
/// have the mark besides.
pub const DATA_STATUS: [u8; 8] = [0x00, 0x02, 0x08, 0x0A, 0x80, 0x82, 0x88, 0x8A];
pub const PROGRAM_STATUS: [u8; 2] = [0x01, 0x09];
pub const MARK: u8 = 0x10;

const EDGES: [u8; 3] = [0, 1, 255];

pub type Name = [u8; 10];

/// Consecutive sectors of the disk: what one block of a chain stands for.
#[derive(Clone, Copy, Debug, PartialEq, Eq)]
pub struct Run {
    pub start: usize,
    pub length: usize,
}

impl Run {
    pub fn sectors(self) -> std::ops::Range<usize> {
        self.start..self.start + self.length
    }
}

#[derive(Clone)]
pub struct File {
    /// The directory that lists it, 0 being the root.
    pub directory: usize,
    /// The sector of the descriptor.
    pub descriptor: usize,
    /// The descriptor's bytes 0 to 27.
    pub header: [u8; HEADER_BYTES],
    /// Where the data lies, a block each, in the file's order.
    pub runs: Vec<Run>,
}

impl File {
    /// A file of a random kind whose carried bytes are random.
    pub fn new(name: Name, descriptor: usize, runs: Vec<Run>, random: &mut Random) -> Self {
        let mut header = [0; HEADER_BYTES];
        random.fill(&mut header);
        if header[27] % 2 == 0 {
            // The end offset and the record length at an edge. Bytes that are there already say
            // which, so that it takes no further numbers from the generator.
            header[16] = EDGES[usize::from(header[26]) % EDGES.len()];
            header[17] = EDGES[usize::from(header[25]) % EDGES.len()];
        }
        header[..10].copy_from_slice(&name);
        let mut file = File { directory: 0, descriptor, header, runs };
        file.set_count(file.sectors().count());
        let is_program = random.once_in(3);
        file.set_status(random.pick(if is_program { &PROGRAM_STATUS } else { &DATA_STATUS }));
        file
    }

    pub fn name(&self) -> Name {
        self.header[..10].try_into().expect("ten bytes")
    }

    /// What files are in the order of: root first, then each directory, in each by name.
    pub fn place(&self) -> (usize, Name) {
        (self.directory, self.name())
    }

    pub fn status(&self) -> u8 {
        self.header[12]
    }

    /// A program that has no sector gets the end offset that it must have.
    pub fn set_status(&mut self, status: u8) {
        self.header[12] = status;
        if !self.is_of_a_kind(Layout::MARKS) {
            self.header[16] = 0;
        }
    }

    pub fn is_program(&self) -> bool {
        self.status() & 0x01 != 0
    }

    pub fn is_marked(&self) -> bool {
        self.status() & MARK != 0
    }

    /// Whether the rules of status and kind allow the header: a program without sectors has end
    /// offset 0.
    pub fn is_of_a_kind(&self, layout: Layout) -> bool {
        let status = if layout.marks { self.status() & !MARK } else { self.status() };
        DATA_STATUS.contains(&status)
            || PROGRAM_STATUS.contains(&status) && (self.count() > 0 || self.header[16] == 0)
    }

    /// The bytes of a program: those of its sectors less what is left over of the last one. Of one
    /// that is of no kind any number will do.
    pub fn program_length(&self) -> usize {
        let left_over = (SECTOR_BYTES - usize::from(self.header[16])) % SECTOR_BYTES;
        (SECTOR_BYTES * self.count()).saturating_sub(left_over)
    }

    pub fn count(&self) -> usize {
        usize::from(self.header[14]) * 256 + usize::from(self.header[15])
    }

    pub fn set_count(&mut self, count: usize) {
        self.header[14..16].copy_from_slice(&word(count));
    }

    /// The places of the file's sectors, in the file's order.
    pub fn sectors(&self) -> impl Iterator<Item = usize> + '_ {
        self.runs.iter().flat_map(|run| run.sectors())
    }

    /// The last offset of the block with the given number: the paper counts in file sectors.
    pub fn last_offset(&self, block: usize) -> usize {
        let covered: usize = self.runs[..=block].iter().map(|run| run.length).sum();
        covered - 1
    }

    fn chain(&self) -> [u8; 3 * MOST_BLOCKS] {
        let mut chain = [0; 3 * MOST_BLOCKS];
        let mut covered = 0;
        for (bytes, run) in chain.chunks_mut(3).zip(&self.runs) {
            covered += run.length;
            bytes.copy_from_slice(&block(run.start, covered - 1));
        }
        chain
    }

    /// The 256 bytes of the descriptor.
    pub fn described(&self) -> Vec<u8> {
        [&self.header[..], &self.chain()].concat()
    }
}

/// The three bytes of a block.
pub fn block(start: usize, last_offset: usize) -> [u8; 3] {
    let middle = start / 256 + 16 * (last_offset % 16);
    [(start % 256) as u8, middle as u8, (last_offset / 16) as u8]
}

pub fn word(number: usize) -> [u8; 2] {
    [(number / 256) as u8, (number % 256) as u8]
}

/// A directory of the second edition.
#[derive(Clone, Copy, Debug, PartialEq, Eq)]
pub struct Directory {
    pub name: Name,
    /// The sector of its index.
    pub index: usize,
}

impl Directory {
    /// The twelve bytes of its entry.
    pub fn entry(&self) -> [u8; ENTRY_BYTES] {
        let mut entry = [0; ENTRY_BYTES];
        entry[..10].copy_from_slice(&self.name);
        entry[10..].copy_from_slice(&word(self.index));
        entry
    }
}

/// A planned disk and its image. By the first edition it has no directory, and by the second none,
/// some or all: where it has none, both editions see the same, unless bytes 20 to 55 of sector 0,
/// which the first carries, are no absent entries.
#[derive(Clone)]
pub struct Disk {
    pub sectors: usize,
    /// Directories 1 to 3, as far as they are there.
    pub directories: [Option<Directory>; MOST_DIRECTORIES],
    /// Those of all directories, in the order of their places.
    pub files: Vec<File>,
    pub image: Vec<u8>,
}

impl Disk {
    /// Writes the files down as they are planned, sound or not, for the first edition.
    pub fn of_files(sectors: usize, files: Vec<File>, random: &mut Random) -> Self {
        let mut image = vec![0xE5; SECTOR_BYTES * sectors];
        if !random.once_in(4) {
            random.fill(&mut image);
        }
        let directories = [None; MOST_DIRECTORIES];
        let mut disk = Disk { sectors, directories, files, image };
        disk.leave_remains(random);
        disk.write_label(random);
        disk.lay_down();
        disk
    }

    /// The same for the second edition, with these directories.
    pub fn of_directories(
        sectors: usize,
        directories: [Option<Directory>; MOST_DIRECTORIES],
        files: Vec<File>,
        random: &mut Random,
    ) -> Self {
        let mut disk = Disk::of_files(sectors, files, random);
        disk.directories = directories;
        disk.image[ENTRIES..MAP].fill(0);
        disk.lay_down();
        disk
    }

    /// Writes what the files and the directories determine: the entries of those, the map, the
    /// indexes and the descriptors.
    pub fn lay_down(&mut self) {
        let entries = self.image[ENTRIES..MAP].chunks_mut(ENTRY_BYTES).zip(self.directories);
        for (entry, directory) in entries {
            directory.into_iter().for_each(|own| entry.copy_from_slice(&own.entry()));
        }
        let map = self.map();
        self.image[MAP..SECTOR_BYTES].copy_from_slice(&map);
        for directory in self.numbers() {
            let listed = self.files_in(directory).map(|file| word(file.descriptor));
            let mut index: Vec<u8> = listed.flatten().collect();
            index.resize(SECTOR_BYTES, 0);
            self.sector_mut(self.index_of(directory)).copy_from_slice(&index);
        }
        for place in 0..self.files.len() {
            let described = self.files[place].described();
            self.sector_mut(self.files[place].descriptor).copy_from_slice(&described);
        }
    }

    fn sector_mut(&mut self, sector: usize) -> &mut [u8] {
        &mut self.image[SECTOR_BYTES * sector..][..SECTOR_BYTES]
    }

    /// The numbers of the root and of the directories that are there.
    pub fn numbers(&self) -> Vec<usize> {
        (0..=MOST_DIRECTORIES).filter(|number| self.has(*number)).collect()
    }

    /// Whether there is a directory of a number, or it is the root's.
    pub fn has(&self, number: usize) -> bool {
        number == 0 || self.directories.get(number - 1).map_or(false, Option::is_some)
    }

    pub fn has_directories(&self) -> bool {
        self.directories != [None; MOST_DIRECTORIES]
    }

    /// The sector of the index of a directory that is there, or of the root.
    pub fn index_of(&self, number: usize) -> usize {
        match number.checked_sub(1) {
            Some(place) => self.directories[place].expect("a directory that is there").index,
            None => 1,
        }
    }

    /// The files of a directory, in their order.
    pub fn files_in(&self, number: usize) -> impl Iterator<Item = &File> + Clone {
        self.files.iter().filter(move |file| file.directory == number)
    }

    /// The edition for which the disk is planned, with marks.
    pub fn layout(&self) -> Layout {
        Layout { marks: true, directories: self.has_directories() }
    }

    /// Gives the mark to no file, to one, to each by chance or to all. A disk that was sound is so
    /// by the new rule then.
    pub fn mark_by_chance(&mut self, random: &mut Random) {
        let files = self.files.len();
        match random.below(4) {
            0 => return,
            1 if files > 0 => self.files[random.below(files)].header[12] |= MARK,
            2 => self.files.iter_mut().for_each(|file| file.header[12] |= random.byte() & MARK),
            _ => self.files.iter_mut().for_each(|file| file.header[12] |= MARK),
        }
        self.lay_down();
    }

    pub fn is_marked(&self) -> bool {
        self.files.iter().any(File::is_marked)
    }

    fn write_label(&mut self, random: &mut Random) {
        let name = names(1, random)[0];
        let label = &mut self.image[..SECTOR_BYTES];
        random.fill(&mut label[..MAP]);
        if random.once_in(2) {
            // As formatting leaves them, and as both editions take them.
            label[ENTRIES..MAP].fill(0);
        }
        label[..10].copy_from_slice(&name);
        label[10..12].copy_from_slice(&word(self.sectors));
        label[13..16].copy_from_slice(b"DSK");
    }

    /// Deleted files keep their bytes: some free sectors hold descriptors of no file.
    fn leave_remains(&mut self, random: &mut Random) {
        for sector in self.free() {
            if !self.files.is_empty() && random.once_in(8) {
                let file = &self.files[random.below(self.files.len())];
                let remains = &mut self.image[SECTOR_BYTES * sector..][..SECTOR_BYTES];
                remains.copy_from_slice(&file.described());
            }
        }
    }

    /// Each sector once for each of its holders but for sectors 0 and 1.
    pub fn held(&self) -> impl Iterator<Item = usize> + '_ {
        let files = self.files.iter();
        let by_files =
            files.flat_map(|file| std::iter::once(file.descriptor).chain(file.sectors()));
        self.directories.iter().flatten().map(|directory| directory.index).chain(by_files)
    }

    pub fn free(&self) -> Vec<usize> {
        let mut free: Vec<bool> = vec![true; self.sectors];
        for sector in self.held().chain([0, 1]) {
            if sector < self.sectors {
                free[sector] = false;
            }
        }
        (0..self.sectors).filter(|sector| free[*sector]).collect()
    }

    /// The map of the holders, one bit after the other.
    pub fn map(&self) -> [u8; MOST_SECTORS / 8] {
        let mut map = [0; MOST_SECTORS / 8];
        let filled_end = self.sectors..MOST_SECTORS;
        for sector in self.held().chain([0, 1]).chain(filled_end) {
            if sector < MOST_SECTORS {
                map[sector / 8] |= 1 << (sector % 8);
            }
        }
        map
    }
}

/// What a sound disk is to look like.
#[derive(Clone, Debug)]
pub struct Shape {
    pub sectors: usize,
    pub files: usize,
    /// Whether descriptors lie anywhere and not from sector 2 up.
    pub scattered: bool,
    /// Into how many runs the sectors beside the descriptors are cut, more where a descriptor
    /// lies between, and whether the runs are of one length.
    pub runs: usize,
    pub even: bool,
    pub order: Order,
    /// How many of the runs a file gets; those that are left are free.
    pub blocks: RangeInclusive<usize>,
}

/// In which order of the disk the runs are handed to the files.
#[derive(Clone, Copy, Debug)]
pub enum Order {
    Ascending,
    Descending,
    Shuffled,
}

impl Shape {
    pub fn build(&self, random: &mut Random) -> Disk {
        let mut room: Vec<usize> = (2..self.sectors).collect();
        if self.scattered {
            random.shuffle(&mut room);
        }
        let descriptors: Vec<usize> = room.drain(..self.files).collect();
        room.sort_unstable();
        let mut runs = self.cut(&room, random).into_iter();
        let mut files = Vec::new();
        for (name, descriptor) in names(self.files, random).into_iter().zip(descriptors) {
            let blocks = random.within(self.blocks.clone());
            let own = runs.by_ref().take(blocks).collect();
            files.push(File::new(name, descriptor, own, random));
        }
        Disk::of_files(self.sectors, files, random)
    }

    /// The room in runs, in this shape's order.
    fn cut(&self, room: &[usize], random: &mut Random) -> Vec<Run> {
        let cuts = self.cuts(room.len(), random);
        let mut runs: Vec<Run> = Vec::new();
        for (sector, cut) in room.iter().copied().zip(cuts) {
            match runs.last_mut() {
                Some(run) if run.sectors().end == sector && !cut => run.length += 1,
                _ => runs.push(Run { start: sector, length: 1 }),
            }
        }
        match self.order {
            Order::Ascending => {}
            Order::Descending => runs.reverse(),
            Order::Shuffled => random.shuffle(&mut runs),
        }
        runs
    }

    /// For each sector of the room, whether a run begins there.
    fn cuts(&self, room: usize, random: &mut Random) -> Vec<bool> {
        let runs = self.runs.min(room);
        let mut cuts = vec![false; room];
        if self.even {
            (0..runs).for_each(|run| cuts[run * room / runs] = true);
        } else {
            cuts[..runs].fill(true);
            // The first sector begins a run whatever is cut.
            cuts.get_mut(1..).into_iter().for_each(|rest| random.shuffle(rest));
        }
        cuts
    }

    /// A shape for a disk of the given size: empty, one file, many small ones, a few cut anyhow,
    /// a few whose chains fill all 76 blocks, some files, or one of two sorts of full disk.
    pub fn any(sectors: usize, most_files: usize, random: &mut Random) -> Shape {
        let room = sectors - 2;
        let some = random.within(0..=room.min(most_files));
        let many = room.min(if random.once_in(2) { MOST_FILES } else { most_files });
        let few = room.min(1 + random.below(4));
        let order = random.pick(&[Order::Ascending, Order::Descending, Order::Shuffled]);
        let scattered = random.once_in(2);
        let even = random.once_in(2);
        let cut = random.within(1..=room);
        let (files, runs, blocks) = match random.below(8) {
            0 => (0, 1, 0..=0),
            1 => (1, 1, 1..=1),
            2 => (many, room, 0..=12),
            3 => (few, cut, 0..=MOST_BLOCKS),
            4 => (few, room, MOST_BLOCKS..=MOST_BLOCKS),
            5 => (some, cut, 0..=3),
            6 => return Self::full(sectors, many, 1, order),
            _ => return Self::full(sectors, some.max(1), MOST_BLOCKS, order),
        };
        Shape { sectors, files, scattered, runs, even, order, blocks }
    }

    /// Every sector is held, and each file has at most so many blocks.
    pub fn full(sectors: usize, files: usize, most_blocks: usize, order: Order) -> Shape {
        let room = sectors - 2 - files;
        let blocks = (room / files + 1).min(most_blocks);
        let runs = blocks * files;
        Shape { sectors, files, scattered: false, runs, even: true, order, blocks: blocks..=blocks }
    }
}

/// Whether the name rule allows the byte before the padding.
pub fn is_letter(byte: u8) -> bool {
    matches!(byte, 33..=45 | 47..=126)
}

/// Whether the bytes of the three entries keep the rules on a disk of so many sectors. What they
/// lead to is not looked at.
pub fn are_entries(bytes: &[u8], sectors: usize) -> bool {
    let entries: Vec<&[u8]> = bytes.chunks(ENTRY_BYTES).collect();
    let present = entries.iter().filter(|entry| entry.iter().any(|byte| *byte != 0));
    let mut names: Vec<&[u8]> = present.clone().map(|entry| &entry[..10]).collect();
    names.sort_unstable();
    names.windows(2).all(|pair| pair[0] != pair[1])
        && names.iter().all(|name| is_name(&(*name).try_into().expect("ten bytes")))
        && present
            .map(|entry| 256 * usize::from(entry[10]) + usize::from(entry[11]))
            .all(|index| index > 1 && index < sectors)
}

/// The name rule, read from the end of the padding.
pub fn is_name(name: &Name) -> bool {
    let padding = name.iter().rev().take_while(|byte| **byte == 32).count();
    padding < 10 && name[..10 - padding].iter().copied().all(is_letter)
}

/// As many names as asked for, ascending; many of them differ in little.
pub fn names(count: usize, random: &mut Random) -> Vec<Name> {
    let mut names: Vec<Name> = Vec::new();
    while names.len() < count {
        let name = match names.last() {
            Some(last) if random.once_in(2) => neighbour(*last, random),
            _ => any_name(random),
        };
        names.push(name);
        if names.len() == count {
            names.sort_unstable();
            names.dedup();
        }
    }
    names
}

fn any_name(random: &mut Random) -> Name {
    let mut name = [32; 10];
    let used = random.within(1..=10);
    name[..used].fill_with(|| letter(random));
    name
}

/// A name that differs from another in one place or in its length.
fn neighbour(mut name: Name, random: &mut Random) -> Name {
    let used = name.iter().take_while(|byte| **byte != 32).count();
    let place = random.below((used + 1).min(10));
    name[place] = letter(random);
    name
}

/// A byte that names allow, often one at the edge of what they allow.
fn letter(random: &mut Random) -> u8 {
    if random.once_in(4) {
        return random.pick(&[33, 45, 47, 126]);
    }
    loop {
        let byte = random.byte();
        if is_letter(byte) {
            return byte;
        }
    }
}
