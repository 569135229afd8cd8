//! Disks of the second edition. A disk is planned without directories, for fewer sectors and for as
//! many files as all its indexes can list; then the sectors of the indexes are put between what it
//! has, and each file is dealt to the root or to a directory.

use crate::random::Random;
use crate::volumes::{names, Directory, Disk, File, Name, Shape};
use crate::volumes::{MOST_DIRECTORIES, MOST_FILES};

/// A sound disk of any shape.
pub fn of_any_shape(sectors: usize, is_second: bool, random: &mut Random) -> Disk {
    planned(sectors, is_second, random, |sectors, most_files, random| {
        Shape::any(sectors, most_files, random).build(random)
    })
}

/// A disk of an edition, of a plan for so many sectors and at most so many files.
pub fn planned(
    sectors: usize,
    is_second: bool,
    random: &mut Random,
    plan: impl FnOnce(usize, usize, &mut Random) -> Disk,
) -> Disk {
    if !is_second {
        return plan(sectors, MOST_FILES, random);
    }
    with_entries(sectors, pattern(sectors - 2, random), random, plan)
}

/// A disk of the second edition on which these entries are there.
pub(crate) fn with_entries(
    sectors: usize,
    is_present: [bool; MOST_DIRECTORIES],
    random: &mut Random,
    plan: impl FnOnce(usize, usize, &mut Random) -> Disk,
) -> Disk {
    let count = is_present.iter().filter(|is_present| **is_present).count();
    let rest = sectors - count;
    // The smallest volume has a sector besides those of the system, for an index or for a file.
    let mut files =
        if rest < 3 { Vec::new() } else { plan(rest, MOST_FILES * (1 + count), random).files };
    let indexes = put_between(&mut files, rest, count, random);
    let mut places = indexes.into_iter().zip(directory_names(count, &files, random));
    let directories = is_present.map(|is_present| {
        let (index, name) = if is_present { places.next() } else { None }?;
        Some(Directory { name, index })
    });
    deal(&mut files, &numbers(&directories), random);
    Disk::of_directories(sectors, directories, files, random)
}

/// Which of the entries are there, as far as there is room: each pattern as often as any other.
fn pattern(room: usize, random: &mut Random) -> [bool; MOST_DIRECTORIES] {
    loop {
        let bits = random.below(1 << MOST_DIRECTORIES);
        let pattern = [0, 1, 2].map(|place| bits >> place & 1 == 1);
        if pattern.iter().filter(|is_present| **is_present).count() <= room {
            return pattern;
        }
    }
}

/// The root's and those of the directories that are there.
fn numbers(directories: &[Option<Directory>; MOST_DIRECTORIES]) -> Vec<usize> {
    let present = (1..).zip(directories).filter(|(_, directory)| directory.is_some());
    std::iter::once(0).chain(present.map(|(number, _)| number)).collect()
}

/// Moves all that the files have so far up that so many sectors come in between, anywhere but
/// inside a block; their numbers, in any order.
fn put_between(
    files: &mut [File],
    sectors: usize,
    count: usize,
    random: &mut Random,
) -> Vec<usize> {
    let mut is_inside = vec![false; sectors + 1];
    for run in files.iter().flat_map(|file| &file.runs) {
        is_inside[run.start + 1..run.sectors().end].fill(true);
    }
    let gaps: Vec<usize> = (2..=sectors).filter(|sector| !is_inside[*sector]).collect();
    let at_the_front = random.once_in(4);
    let mut before: Vec<usize> =
        (0..count).map(|_| if at_the_front { 2 } else { random.pick(&gaps) }).collect();
    before.sort_unstable();
    let moved = |sector: usize| sector + before.iter().filter(|gap| **gap <= sector).count();
    for file in files {
        file.descriptor = moved(file.descriptor);
        file.runs.iter_mut().for_each(|run| run.start = moved(run.start));
    }
    let mut indexes: Vec<usize> = (0..).zip(&before).map(|(place, gap)| place + gap).collect();
    if !at_the_front || random.once_in(2) {
        random.shuffle(&mut indexes);
    }
    indexes
}

/// Names that differ from each other; now and then one is a file's too.
fn directory_names(count: usize, files: &[File], random: &mut Random) -> Vec<Name> {
    let mut names = names(count, random);
    random.shuffle(&mut names);
    if !names.is_empty() && !files.is_empty() && random.once_in(3) {
        let name = files[random.below(files.len())].name();
        if !names.contains(&name) {
            names[0] = name;
        }
    }
    names
}

/// Deals the files to directories, of which each takes 127: all to one as far as they go, to some,
/// or to each by chance. Many get the name of a file of another directory.
pub(crate) fn deal(files: &mut [File], numbers: &[usize], random: &mut Random) {
    let to_one = random.once_in(3);
    let first = random.pick(numbers);
    let share = |number: usize, random: &mut Random| match to_one {
        true => usize::from(number == first),
        false => random.pick(&[0, 1, 1, 4]),
    };
    let shares: Vec<usize> = numbers.iter().map(|number| share(*number, random)).collect();
    let mut taken = [0; 1 + MOST_DIRECTORIES];
    for file in files.iter_mut() {
        let dealt: Vec<usize> = numbers
            .iter()
            .zip(&shares)
            .flat_map(|(number, share)| std::iter::repeat(*number).take(*share))
            .filter(|number| taken[*number] < MOST_FILES)
            .collect();
        let open = || numbers.iter().copied().find(|number| taken[*number] < MOST_FILES);
        let directory = if dealt.is_empty() { open() } else { Some(random.pick(&dealt)) };
        file.directory = directory.expect("room for all files");
        taken[file.directory] += 1;
    }
    if numbers.len() > 1 && !random.once_in(3) {
        share_names(files, random);
    }
    files.sort_by_key(File::place);
}

fn share_names(files: &mut [File], random: &mut Random) {
    for place in 0..files.len() {
        let other = files[random.below(files.len())].name();
        let directory = files[place].directory;
        let is_own = |file: &File| file.directory == directory && file.name() == other;
        if !random.once_in(4) && !files.iter().any(is_own) {
            files[place].header[..10].copy_from_slice(&other);
        }
    }
}
