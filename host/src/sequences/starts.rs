//! The disks that sequences begin on, so that a few calls reach what a worn disk shows.

use crate::damage::{Change, Damage};
use crate::directories::planned;
use crate::layout::Layout;
use crate::random::Random;
use crate::reference;
use crate::table::{Mood, APPENDING, FILLING, STORING, WEARING};
use crate::volumes::{names, Disk, File, Order, Run, Shape};
use crate::volumes::{MOST_BLOCKS, MOST_FILES};

const ORDERS: [Order; 3] = [Order::Ascending, Order::Descending, Order::Shuffled];

/// A disk that is sound by a layout, and which calls are to come on it by that.
pub(super) struct Start {
    pub disk: Disk,
    pub layout: Layout,
    pub mood: Mood,
}

pub(super) fn any(sectors: usize, layout: Layout, random: &mut Random) -> Start {
    let mut mood = if random.once_in(2) { FILLING } else { WEARING };
    let plan = |sectors, most_files, random: &mut Random| match random.below(10) {
        0 | 1 => nearly_full(sectors, most_files, random),
        2 | 3 if sectors >= MOST_FILES + 20 => many_files(sectors, most_files, random),
        4 | 5 if sectors >= 4 * MOST_BLOCKS + 8 => {
            mood = APPENDING;
            long_chains(sectors, random)
        }
        6..=8 if sectors >= MOST_FILES + 20 => {
            mood = STORING;
            comb(sectors, random)
        }
        _ => Shape::any(sectors, most_files, random).build(random),
    };
    let mut disk = planned(sectors, layout.directories, random, plan);
    if layout.marks {
        disk.mark_by_chance(random);
    }
    Start { disk, layout, mood }
}

/// The image of a disk of the other edition: with a directory it is 6 by the first one, and with
/// other bytes in the entries' place mostly 3 by the second.
pub(super) fn of_other_edition(sectors: usize, layout: Layout, random: &mut Random) -> Vec<u8> {
    any(sectors, Layout { directories: !layout.directories, ..layout }, random).disk.image
}

/// A full disk less a few blocks of its files.
fn nearly_full(sectors: usize, most_files: usize, random: &mut Random) -> Disk {
    let most_files = ((sectors - 2 + 1) / 2).min(most_files);
    let shape =
        Shape::full(sectors, random.within(1..=most_files), MOST_BLOCKS, random.pick(&ORDERS));
    let mut files = shape.build(random).files;
    for _ in 0..random.below(6) {
        let place = random.below(files.len());
        let file = &mut files[place];
        if file.runs.len() > 1 {
            file.runs.remove(random.below(file.runs.len()));
            file.set_count(file.sectors().count());
        }
    }
    Disk::of_files(sectors, files, random)
}

/// As many files as an index takes, or all of them, or one or two less.
fn many_files(sectors: usize, most_files: usize, random: &mut Random) -> Disk {
    let most_files = if random.once_in(2) { MOST_FILES } else { most_files.min(sectors - 20) };
    let files = most_files - random.below(3);
    let (room, order) = (sectors - 2 - files, random.pick(&ORDERS));
    if random.once_in(3) {
        return Shape::full(sectors, files, 1, order).build(random);
    }
    let runs = random.within(1..=room);
    let (scattered, even) = (random.once_in(2), random.once_in(2));
    Shape { sectors, files, scattered, runs, even, order, blocks: 0..=2 }.build(random)
}

/// Few files that have all 76 blocks, of a sector each.
fn long_chains(sectors: usize, random: &mut Random) -> Disk {
    let files = random.within(1..=4);
    let blocks = MOST_BLOCKS - 2..=MOST_BLOCKS;
    // Ascending, the last file's next sector is the one that is taken next.
    let order = if random.once_in(2) { Order::Ascending } else { random.pick(&ORDERS) };
    let runs = sectors - 2 - files;
    let (scattered, even) = (random.once_in(4), true);
    Shape { sectors, files, scattered, runs, even, order, blocks }.build(random)
}

/// Every second sector of a stretch is held, so that each sector taken there begins a block. What
/// lies behind the stretch is free or held by one file.
fn comb(sectors: usize, random: &mut Random) -> Disk {
    let files = random.pick(&[3, 20, MOST_FILES - 1, MOST_FILES]);
    let first = (2 + files).max(34) + random.below(2);
    let most = (sectors - first) / 2;
    let teeth = random.pick(&[MOST_BLOCKS - 1, MOST_BLOCKS, 120, 150, 150]).min(most);
    let mut runs = vec![Vec::new(); files];
    for tooth in 0..teeth {
        // The first file is left for what lies behind.
        runs[1 + tooth % (files - 1)].push(Run { start: first + 2 * tooth, length: 1 });
    }
    let behind = first + 2 * teeth;
    if random.once_in(3) && behind < sectors {
        runs[0].push(Run { start: behind, length: sectors - behind });
    }
    let named = names(files, random).into_iter().zip(runs).enumerate();
    let file = |(place, (name, runs)): (usize, _)| File::new(name, 2 + place, runs, random);
    let files = named.map(file).collect();
    Disk::of_files(sectors, files, random)
}

/// The image of a disk, most often with marks: of number 4 by the old rule.
pub(super) fn marked(disk: &Disk, random: &mut Random) -> Vec<u8> {
    let mut marked = disk.clone();
    marked.mark_by_chance(random);
    marked.image
}

/// The image of a disk that is sound by the layout, damaged to one of the numbers 1 to 6 or, now
/// and then, by chance. By the old rule it is damage of number 4 that a file gets the mark.
pub(crate) fn damaged(disk: &Disk, layout: Layout, random: &mut Random) -> Result<Vec<u8>, String> {
    if !layout.marks && random.once_in(5) {
        return Ok(marked(disk, random));
    }
    let mut damage = Damage::new(disk);
    damage.of_every_sort(random);
    let wanted = random.within(1..=6) as u32;
    let by_chance = random.once_in(8);
    let mut changes = damage.changes;
    changes.retain(|change| match change.own.judged {
        Some(number) => number == wanted && !by_chance,
        None => by_chance,
    });
    let mut image = disk.image.clone();
    if changes.is_empty() {
        return Ok(image);
    }
    let Change { what, own, edits, length, .. } = &changes[random.below(changes.len())];
    image.resize((*length).max(image.len()), 0);
    for edit in edits {
        image[edit.at..][..edit.bytes.len()].copy_from_slice(&edit.bytes);
    }
    image.truncate(*length);
    let found = reference::number(&image, disk.layout());
    if own.judged.map_or(true, |number| number == found) {
        Ok(image)
    } else {
        Err(format!("the reference gives {} for \"{}\" on a worn disk", found, what))
    }
}
