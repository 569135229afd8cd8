//! What a changed disk is by the edition that it was not planned for, as far as that follows: the
//! first edition sees the root alone, and the second takes for entries what the first carries.

use super::{Edit, Verdict};
use crate::volumes::{are_entries, Disk, File, ENTRIES, ENTRY_BYTES, MAP, SECTOR_BYTES};
use crate::volumes::{MOST_DIRECTORIES, MOST_SECTORS};

/// What of a disk the first edition judges.
pub(super) struct Roles {
    /// Whether a sector is the root's index or one of its descriptors, and whether it is one of a
    /// directory's.
    of_root: Vec<bool>,
    of_others: Vec<bool>,
    /// The map of what the root holds.
    map: [u8; MOST_SECTORS / 8],
}

impl Roles {
    pub(super) fn of(disk: &Disk) -> Self {
        let (mut of_root, mut of_others) = (vec![false; disk.sectors], vec![false; disk.sectors]);
        of_root[1] = true;
        for directory in disk.directories.iter().flatten() {
            of_others[directory.index] = true;
        }
        for File { directory, descriptor, .. } in &disk.files {
            let role = if *directory == 0 { &mut of_root } else { &mut of_others };
            role[*descriptor] = true;
        }
        Roles { of_root, of_others, map: root_of(disk).map() }
    }

    /// What is given by the edition that the disk is not planned for, where it is this by its own. A
    /// 4 is then for the same as by its own.
    pub(super) fn by_other(&self, disk: &Disk, own: Verdict, edits: &[Edit]) -> Verdict {
        // What two hold by the second edition may be held by one by the first.
        let repaired = own.repaired.filter(|number| *number != 5 || !disk.has_directories());
        match self.number_by_other(disk, own.judged, edits) {
            Some(4) => Verdict { judged: Some(4), repaired },
            number => Verdict::of(number),
        }
    }

    fn number_by_other(&self, disk: &Disk, number: Option<u32>, edits: &[Edit]) -> Option<u32> {
        let label = label_after(disk, edits);
        if disk.has_directories() {
            self.by_first(&label, number, edits)
        } else {
            by_second(&label, number?, disk.sectors)
        }
    }

    /// Where no fault is in what the root has, the map has the directories' sectors besides.
    fn by_first(&self, label: &[u8], number: Option<u32>, edits: &[Edit]) -> Option<u32> {
        let by_map = Some(if label[MAP..] == self.map { 0 } else { 6 });
        let is_of_root =
            edits.iter().any(|edit| edit.touches(&(0..ENTRIES)) || self.is_of(&self.of_root, edit));
        let is_of_others = edits
            .iter()
            .any(|edit| edit.touches(&(ENTRIES..MAP)) || self.is_of(&self.of_others, edit));
        match number {
            Some(1 | 2) => number,
            Some(0 | 6) => by_map,
            _ if !is_of_root => by_map,
            Some(3 | 4) if !is_of_others => number,
            _ => None,
        }
    }

    fn is_of(&self, role: &[bool], edit: &Edit) -> bool {
        let last = edit.at + edit.bytes.len() - 1;
        (edit.at / SECTOR_BYTES..=last / SECTOR_BYTES).any(|sector| role[sector])
    }
}

/// The number by the other edition of a disk that is sound by its own.
pub(crate) fn as_built(disk: &Disk) -> Option<u32> {
    Roles::of(disk).number_by_other(disk, Some(0), &[])
}

/// Of two changes at once that do not meet, from what each is.
pub(super) fn of_both(one: Verdict, other: Verdict) -> Option<Verdict> {
    let numbers = [one.judged?, other.judged?];
    let first = numbers.into_iter().filter(|number| (1..=5).contains(number)).min()?;
    // Behind an order of names that is mended, or not, there may be the other fault.
    let is_order = [one, other].contains(&Verdict::DISORDER);
    let verdict = Verdict::of(Some(first));
    Some(if is_order { Verdict { repaired: None, ..verdict } } else { verdict })
}

fn label_after(disk: &Disk, edits: &[Edit]) -> Vec<u8> {
    let mut label = disk.image[..SECTOR_BYTES].to_vec();
    for edit in edits.iter().filter(|edit| edit.at < SECTOR_BYTES) {
        let length = edit.bytes.len().min(SECTOR_BYTES - edit.at);
        label[edit.at..][..length].copy_from_slice(&edit.bytes[..length]);
    }
    label
}

/// Entries that are all absent change nothing, and faults of entries come before all but 1 and 2.
fn by_second(label: &[u8], number: u32, sectors: usize) -> Option<u32> {
    let entries = &label[ENTRIES..MAP];
    let is_same = number == 1 || number == 2 || *entries == [0; MOST_DIRECTORIES * ENTRY_BYTES];
    match are_entries(entries, sectors) {
        _ if is_same => Some(number),
        false => Some(3),
        true => None,
    }
}

/// The same of an image of which no plan is known.
pub(crate) fn of_unplanned(image: &[u8], first: Option<u32>) -> Option<u32> {
    match first {
        Some(number @ 1..=2) => Some(number),
        Some(number) => by_second(image.get(..SECTOR_BYTES)?, number, image.len() / SECTOR_BYTES),
        None => None,
    }
}

/// What the first edition sees of a disk, without its image.
pub(crate) fn root_of(disk: &Disk) -> Disk {
    let (directories, image) = ([None; MOST_DIRECTORIES], Vec::new());
    let files = disk.files_in(0).cloned().collect();
    Disk { sectors: disk.sectors, directories, files, image }
}
