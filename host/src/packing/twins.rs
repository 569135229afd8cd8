//! Volumes beside a given one: with the same label area and catalogue laid out otherwise, which
//! must pack to the same bytes, and with one thing changed, which must not.

use crate::layout::Layout;
use crate::random::Random;
use crate::volumes::{is_name, names, Directory, Disk, File, Name, Run, HEADER_BYTES, MARK};
use crate::volumes::{DATA_STATUS, PROGRAM_STATUS, SECTOR_BYTES};
use crate::volumes::{ENTRIES, MOST_BLOCKS, MOST_DIRECTORIES, MOST_FILES};

type Directories = [Option<Directory>; MOST_DIRECTORIES];

/// Bytes 0 to 55 of sector 0.
const LABEL_AREA: usize = 56;
/// How often a byte is tried before there is taken to be none.
const TRIES: usize = 100;

/// The same files and label area, in other sectors and with other bytes in the free ones.
pub(super) fn relaid(disk: &Disk, random: &mut Random) -> Disk {
    let background = match random.below(3) {
        0 => vec![0xE5; disk.image.len()],
        // What was moved away stays behind, as if deleted.
        1 => disk.image.clone(),
        _ => random.bytes(disk.image.len()),
    };
    let (directories, files) = match random.once_in(5) {
        true => (disk.directories, disk.files.clone()),
        false => scattered(disk, random),
    };
    moved(disk, directories, files, background)
}

/// A disk's label area, its directories and its files, which lie elsewhere now, laid over other
/// bytes.
pub(crate) fn moved(
    disk: &Disk,
    directories: Directories,
    files: Vec<File>,
    background: Vec<u8>,
) -> Disk {
    let mut moved = Disk { sectors: disk.sectors, directories, files, image: background };
    moved.image[..LABEL_AREA].copy_from_slice(&disk.image[..LABEL_AREA]);
    moved.lay_down();
    let places: Vec<usize> = moved.files.iter().flat_map(File::sectors).collect();
    for (from, to) in disk.files.iter().flat_map(File::sectors).zip(places) {
        let sector = &disk.image[SECTOR_BYTES * from..][..SECTOR_BYTES];
        moved.image[SECTOR_BYTES * to..][..SECTOR_BYTES].copy_from_slice(sector);
    }
    moved
}

/// The files with their data cut anew, and indexes, descriptors, data and gaps in any order.
fn scattered(disk: &Disk, random: &mut Random) -> (Directories, Vec<File>) {
    let gaps = cut(disk.free().len(), random);
    let mut pieces: Vec<(Piece, usize)> =
        gaps.into_iter().map(|length| (Piece::Gap, length)).collect();
    let mut directories = disk.directories;
    let present = (0..).zip(&directories).filter(|(_, directory)| directory.is_some());
    pieces.extend(present.map(|(place, _)| (Piece::Index(place), 1)));
    let mut files = disk.files.clone();
    for (place, file) in files.iter_mut().enumerate() {
        let lengths = cut(file.count(), random);
        file.runs = lengths.into_iter().map(|length| Run { start: 0, length }).collect();
        pieces.push((Piece::Descriptor(place), 1));
        let blocks = file.runs.iter().enumerate();
        pieces.extend(blocks.map(|(block, run)| (Piece::Block(place, block), run.length)));
    }
    random.shuffle(&mut pieces);
    let mut next = 2;
    for (piece, length) in pieces {
        match piece {
            Piece::Gap => {}
            Piece::Index(place) => {
                directories[place].iter_mut().for_each(|directory| directory.index = next);
            }
            Piece::Descriptor(place) => files[place].descriptor = next,
            Piece::Block(place, block) => files[place].runs[block].start = next,
        }
        next += length;
    }
    (directories, files)
}

/// What some consecutive sectors are for: nothing, the index of the directory at a place, or a part
/// of the file at a place.
enum Piece {
    Gap,
    Index(usize),
    Descriptor(usize),
    Block(usize, usize),
}

/// A number of sectors in as many parts as a chain takes at most.
fn cut(sectors: usize, random: &mut Random) -> Vec<usize> {
    let most = sectors.min(MOST_BLOCKS);
    let parts = match random.below(3) {
        0 => most,
        1 => most.min(1 + random.below(3)),
        _ => random.within(most.min(1)..=most),
    };
    let mut lengths = vec![1; parts];
    (parts..sectors).for_each(|_| lengths[random.below(parts)] += 1);
    lengths
}

/// What a volume is changed in.
#[derive(Clone, Copy, Debug, PartialEq, Eq, PartialOrd, Ord)]
pub(super) enum Difference {
    Carried,
    Status,
    Mark,
    Name,
    Sector,
    FileLess,
    FileMore,
    Moved,
    Label,
    DiskName,
    DirectoryName,
    DirectoryPlace,
    DirectoryMore,
}

impl Difference {
    pub(super) const ALL: [Difference; 13] = [
        Difference::Carried,
        Difference::Status,
        Difference::Mark,
        Difference::Name,
        Difference::Sector,
        Difference::FileLess,
        Difference::FileMore,
        Difference::Moved,
        Difference::Label,
        Difference::DiskName,
        Difference::DirectoryName,
        Difference::DirectoryPlace,
        Difference::DirectoryMore,
    ];

    /// Those of directories.
    const SECOND: [Difference; 4] = [
        Difference::Moved,
        Difference::DirectoryName,
        Difference::DirectoryPlace,
        Difference::DirectoryMore,
    ];

    /// One that leaves a volume sound by the layout. Where there are marks, it is often the mark,
    /// and where there are directories often of these.
    pub(super) fn any(layout: Layout, random: &mut Random) -> Self {
        if layout.marks && random.once_in(6) {
            return Difference::Mark;
        }
        if layout.directories && random.once_in(2) {
            return random.pick(&Difference::SECOND);
        }
        loop {
            let difference = random.pick(&Difference::ALL);
            let is_of_marks = difference == Difference::Mark;
            if !is_of_marks && !Difference::SECOND.contains(&difference) {
                return difference;
            }
        }
    }

    pub(super) fn title(self) -> &'static str {
        match self {
            Difference::Carried => "another carried byte of a header: other bytes",
            Difference::Status => "another kind or protection: other bytes",
            Difference::Mark => "another mark: other bytes",
            Difference::Name => "another byte of a file's name: other bytes",
            Difference::Sector => "another byte of a file's sector: other bytes",
            Difference::FileLess => "a file less: other bytes",
            Difference::FileMore => "a file more: other bytes",
            Difference::Moved => "a file in another directory: other bytes",
            Difference::Label => "another carried byte of the label area: other bytes",
            Difference::DiskName => "another byte of the disk name: other bytes",
            Difference::DirectoryName => "another byte of a directory's name: other bytes",
            Difference::DirectoryPlace => "directories at other entries: other bytes",
            Difference::DirectoryMore => "a directory more: other bytes",
        }
    }

    /// The disk with this changed, and still sound; none where there is nothing to change, or no
    /// room.
    pub(super) fn of(self, disk: &Disk, layout: Layout, random: &mut Random) -> Option<Disk> {
        let mut other = disk.clone();
        match self {
            Difference::Carried => change_header(&mut other, any_carried, random)?,
            Difference::Status => change_header(&mut other, any_status, random)?,
            Difference::Mark => change_header(&mut other, other_mark, random)?,
            Difference::Name => change_header(&mut other, any_letter, random)?,
            Difference::Sector => change_sector(&mut other, random)?,
            Difference::FileLess => drop(other.files.remove(some_place(&other, random)?)),
            Difference::FileMore => add_file(&mut other, random)?,
            Difference::Moved => move_file(&mut other, random)?,
            Difference::Label => {
                let carried = if layout.directories { ENTRIES } else { LABEL_AREA };
                let at = random.within(15..=carried - 1);
                other.image[if at == 15 { 12 } else { at }] ^= some_bits(random);
            }
            Difference::DiskName => change_disk_name(&mut other, random)?,
            Difference::DirectoryName => change_directory_name(&mut other, random)?,
            Difference::DirectoryPlace => exchange_directories(&mut other, random)?,
            Difference::DirectoryMore => add_directory(&mut other, random)?,
        }
        other.files.sort_by_key(File::place);
        if layout.directories {
            // An entry that is no longer there.
            other.image[ENTRIES..LABEL_AREA].fill(0);
        }
        other.lay_down();
        Some(other)
    }
}

fn some_place(disk: &Disk, random: &mut Random) -> Option<usize> {
    (!disk.files.is_empty()).then(|| random.below(disk.files.len()))
}

/// Some bits, and never none.
fn some_bits(random: &mut Random) -> u8 {
    random.within(1..=255) as u8
}

/// Gives one byte of a file's header another value that the rules allow.
fn change_header(
    disk: &mut Disk,
    any: fn(&File, &mut Random) -> (usize, u8),
    random: &mut Random,
) -> Option<()> {
    let place = some_place(disk, random)?;
    for _ in 0..TRIES {
        let (at, value) = any(&disk.files[place], random);
        let mut file = disk.files[place].clone();
        file.header[at] = value;
        let name = file.name();
        let is_free = disk.files_in(file.directory).all(|other| other.name() != name);
        let is_new = value != disk.files[place].header[at];
        if is_new && is_name(&name) && (at > 9 || is_free) && file.is_of_a_kind(Layout::MARKS) {
            disk.files[place] = file;
            return Some(());
        }
    }
    None
}

fn any_carried(_: &File, random: &mut Random) -> (usize, u8) {
    let carried: Vec<usize> = [10, 11, 13].into_iter().chain(16..HEADER_BYTES).collect();
    (random.pick(&carried), random.byte())
}

/// With the mark where the file has it.
fn any_status(file: &File, random: &mut Random) -> (usize, u8) {
    let status = random.pick(&[&DATA_STATUS[..], &PROGRAM_STATUS].concat());
    (12, status | file.status() & MARK)
}

fn other_mark(file: &File, _: &mut Random) -> (usize, u8) {
    (12, file.status() ^ MARK)
}

fn any_letter(_: &File, random: &mut Random) -> (usize, u8) {
    letter_of_a_name(random)
}

/// A place in a name, and a byte for it.
fn letter_of_a_name(random: &mut Random) -> (usize, u8) {
    (random.below(10), random.within(32..=126) as u8)
}

fn change_sector(disk: &mut Disk, random: &mut Random) -> Option<()> {
    let sectors: Vec<usize> = disk.files.iter().flat_map(File::sectors).collect();
    let nth = (!sectors.is_empty()).then(|| random.below(sectors.len()))?;
    let at = SECTOR_BYTES * sectors[nth] + random.below(SECTOR_BYTES);
    disk.image[at] ^= some_bits(random);
    Some(())
}

/// A new file in the free sectors, with one sector or none.
fn add_file(disk: &mut Disk, random: &mut Random) -> Option<()> {
    let mut free = disk.free();
    random.shuffle(&mut free);
    let (directory, name) = (random.pick(&disk.numbers()), names(1, random)[0]);
    if !takes(disk, directory, name) {
        return None;
    }
    let descriptor = free.pop()?;
    let start = if random.once_in(2) { free.pop() } else { None };
    let runs = start.into_iter().map(|start| Run { start, length: 1 }).collect();
    disk.files.push(File { directory, ..File::new(name, descriptor, runs, random) });
    Some(())
}

/// Whether a directory has room for a file of a name.
fn takes(disk: &Disk, directory: usize, name: Name) -> bool {
    let is_present = disk.files_in(directory).any(|file| file.name() == name);
    !is_present && disk.files_in(directory).count() < MOST_FILES
}

fn move_file(disk: &mut Disk, random: &mut Random) -> Option<()> {
    for _ in 0..TRIES {
        let (place, directory) = (some_place(disk, random)?, random.pick(&disk.numbers()));
        let (own, name) = disk.files[place].place();
        if own != directory && takes(disk, directory, name) {
            disk.files[place].directory = directory;
            return Some(());
        }
    }
    None
}

fn change_disk_name(disk: &mut Disk, random: &mut Random) -> Option<()> {
    let name = disk.image[..10].try_into().expect("ten bytes");
    disk.image[..10].copy_from_slice(&other_name(name, random)?);
    Some(())
}

/// A name with one byte that is another.
fn other_name(was: Name, random: &mut Random) -> Option<Name> {
    for _ in 0..TRIES {
        let (at, value) = letter_of_a_name(random);
        let mut name = was;
        name[at] = value;
        if name != was && is_name(&name) {
            return Some(name);
        }
    }
    None
}

fn change_directory_name(disk: &mut Disk, random: &mut Random) -> Option<()> {
    let present = &disk.numbers()[1..];
    let place = if present.is_empty() { None } else { Some(random.pick(present) - 1) }?;
    let name = other_name(disk.directories[place]?.name, random)?;
    let is_free = disk.directories.iter().flatten().all(|other| other.name != name);
    let directory = disk.directories[place].as_mut()?;
    is_free.then(|| directory.name = name)
}

/// The directories at two entries, one of which may be absent, with their files.
fn exchange_directories(disk: &mut Disk, random: &mut Random) -> Option<()> {
    let (one, other) = random.pick(&[(0, 1), (0, 2), (1, 2)]);
    disk.directories.swap(one, other);
    for file in &mut disk.files {
        file.directory = match file.directory {
            number if number == one + 1 => other + 1,
            number if number == other + 1 => one + 1,
            number => number,
        };
    }
    disk.directories[one].or(disk.directories[other]).map(drop)
}

/// An empty one in a free sector.
fn add_directory(disk: &mut Disk, random: &mut Random) -> Option<()> {
    let (free, name) = (disk.free(), names(1, random)[0]);
    let is_new = disk.directories.iter().flatten().all(|other| other.name != name);
    let absent = disk.directories.iter_mut().find(|directory| directory.is_none())?;
    if free.is_empty() || !is_new {
        return None;
    }
    *absent = Some(Directory { name, index: random.pick(&free) });
    Some(())
}
