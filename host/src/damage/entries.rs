//! The entries of directories: number 3 where an entry breaks a rule, and else what comes of where
//! it leads. A disk of the first edition whose entries are all absent is one of the second too.

use super::{changed_names, edit, Change, Damage, Edit, Verdict};
use crate::random::Random;
use crate::volumes::{is_name, names, word, Directory, File, Name};
use crate::volumes::{ENTRIES, ENTRY_BYTES, MAP, MOST_DIRECTORIES, MOST_FILES, SECTOR_BYTES};

impl Damage<'_> {
    pub(super) fn entries(&mut self, random: &mut Random) {
        for place in 0..MOST_DIRECTORIES {
            match self.disk.directories[place] {
                Some(directory) => self.present(place, directory, random),
                None => self.absent(place, random),
            }
            self.entry_elsewhere(place, random);
        }
    }

    /// Keeps a change whose number is settled by the second edition. Where the first carries the
    /// entries and they are not absent, there is none.
    pub(super) fn keep_entries(&mut self, what: &'static str, number: u32, edits: Vec<Edit>) {
        let image = &self.disk.image;
        if self.disk.has_directories() {
            self.keep(what, Some(number), edits);
        } else if image[ENTRIES..MAP].iter().all(|byte| *byte == 0) {
            let is_of_map = edits.iter().any(|edit| edit.touches(&(MAP..SECTOR_BYTES)));
            let first = if is_of_map { 6 } else { 0 };
            let [own, other] = [first, number].map(|number| Verdict::of(Some(number)));
            self.changes.push(Change { what, own, other, edits, length: image.len() });
        }
    }

    fn put_entry(&mut self, what: &'static str, number: u32, place: usize, bytes: &[u8]) {
        self.keep_entries(what, number, vec![edit(entry(place), bytes)]);
    }

    fn present(&mut self, place: usize, directory: Directory, random: &mut Random) {
        let Directory { name, index } = directory;
        let others = self.names_but(place);
        for changed in changed_names(name, random) {
            let number = if is_name(&changed) && !others.contains(&changed) { 0 } else { 3 };
            self.put_entry("name of a directory", number, place, &changed);
        }
        let [high, low] = word(index);
        let turned = 256 * usize::from(low) + usize::from(high);
        if turned < 2 || turned >= self.disk.sectors {
            let what = "sector of an index low byte first";
            self.put_entry(what, 3, place, &[&name[..], &[low, high]].concat());
        }
        self.put_entry("entry without its name", 3, place, &[0; 10]);
        self.put_entry("entry taken away", 6, place, &[0; ENTRY_BYTES]);
        // A name as files or the disk have one is as good as any other.
        let disk_name = self.disk.image[..10].try_into().expect("ten bytes");
        let file_name = self.some_file(random).map_or(disk_name, File::name);
        for shared in [disk_name, file_name] {
            let number = if others.contains(&shared) { 3 } else { 0 };
            self.put_entry("name of a directory that is another's", number, place, &shared);
        }
        self.index_elsewhere(place, directory, random);
        for other in (0..MOST_DIRECTORIES).filter(|other| *other != place) {
            match self.disk.directories[other] {
                Some(also) => self.exchanged([place, other], [directory, also]),
                None => {
                    let edits = vec![
                        edit(entry(place), &[0; ENTRY_BYTES]),
                        edit(entry(other), &directory.entry()),
                    ];
                    self.keep_entries("entry at another place", 0, edits);
                }
            }
        }
    }

    /// Two entries: each is the other's, in whole or in part.
    fn exchanged(&mut self, places: [usize; 2], [one, other]: [Directory; 2]) {
        let [at, behind] = places.map(entry);
        let whole = vec![edit(at, &other.entry()), edit(behind, &one.entry())];
        self.keep_entries("entries exchanged", 0, whole);
        let named = vec![edit(at, &other.name), edit(behind, &one.name)];
        self.keep_entries("names of directories exchanged", 0, named);
        let indexes = vec![edit(at + 10, &word(other.index)), edit(behind + 10, &word(one.index))];
        self.keep_entries("indexes exchanged", 0, indexes);
        self.put_entry("name of another directory", 3, places[0], &other.name);
        self.put_entry("entry repeated", 3, places[0], &other.entry());
        self.keep_entries("index of another directory", 5, vec![edit(at + 10, &word(other.index))]);
    }

    /// The index as it is in a free sector, with the map as it was or as it is to be.
    fn index_elsewhere(&mut self, place: usize, directory: Directory, random: &mut Random) {
        let free = self.disk.free();
        if free.is_empty() {
            return;
        }
        let to = random.pick(&free);
        let index = &self.disk.image[SECTOR_BYTES * directory.index..][..SECTOR_BYTES];
        let copied = edit(SECTOR_BYTES * to, index);
        let edits = vec![edit(entry(place) + 10, &word(to)), copied];
        self.keep_entries("index moved to a free sector", 6, edits.clone());
        let map = self.map_with(&[to], &[directory.index]);
        self.keep_entries("index moved, map and all", 0, [edits, vec![map]].concat());
    }

    fn absent(&mut self, place: usize, random: &mut Random) {
        let name = self.unused_name(random);
        let sector = random.within(2..=self.disk.sectors - 1);
        self.put_entry("name without a sector", 3, place, &name);
        let at = entry(place);
        self.keep_entries("sector without a name", 3, vec![edit(at + 10, &word(sector))]);
        let byte = at + random.below(ENTRY_BYTES);
        let value = random.within(1..=255) as u8;
        self.keep_entries("byte of an absent entry", 3, vec![edit(byte, &[value])]);
        for bad in changed_names(name, random).iter().filter(|name| !is_name(name)).take(6) {
            self.put_entry("new entry of a bad name", 3, place, &new_entry(*bad, sector));
        }
        let others = self.names_but(place);
        if !others.is_empty() {
            let again = new_entry(random.pick(&others), sector);
            self.put_entry("new entry of a name that is there", 3, place, &again);
        }
        let free = self.disk.free();
        if !free.is_empty() {
            self.new_directory(place, name, random.pick(&free), random);
        }
    }

    /// A directory that nobody made: what its index holds, and whether the map has it.
    fn new_directory(&mut self, place: usize, name: Name, sector: usize, random: &mut Random) {
        let entered = edit(entry(place), &new_entry(name, sector));
        let map = self.map_with(&[sector], &[]);
        let holding = |numbers: &[usize]| {
            let mut index: Vec<u8> = numbers.iter().copied().flat_map(word).collect();
            index.resize(SECTOR_BYTES, 0);
            edit(SECTOR_BYTES * sector, &index)
        };
        let in_map = |index: Edit| vec![entered.clone(), index, map.clone()];
        let edits = vec![entered.clone(), holding(&[])];
        self.keep_entries("new directory that the map does not have", 6, edits);
        self.keep_entries("new directory", 0, in_map(holding(&[])));
        self.keep_entries("new directory that lists its index", 4, in_map(holding(&[sector])));
        self.keep_entries("new directory that lists sector 1", 3, in_map(holding(&[1])));
        let formatted = edit(SECTOR_BYTES * sector, &[0xE5; SECTOR_BYTES]);
        self.keep_entries("new directory in a formatted sector", 3, in_map(formatted));
        for number in self.disk.numbers() {
            let listed: Vec<usize> =
                self.disk.files_in(number).map(|file| file.descriptor).collect();
            if let Some(first) = listed.first() {
                let what = "new directory that lists what another does";
                self.keep_entries(what, 5, in_map(holding(&listed)));
                self.keep_entries(what, 5, in_map(holding(&[*first])));
            }
            let index = self.disk.index_of(number);
            let what = "new directory that lists an index";
            self.keep_entries(what, if number == 0 { 3 } else { 4 }, in_map(holding(&[index])));
        }
        if let Some(file) = self.some_file(random) {
            let mut moved = file.clone();
            moved.descriptor = sector;
            let described = edit(SECTOR_BYTES * sector, &moved.described());
            self.keep_entries("new directory that is a descriptor", 3, in_map(described));
        }
    }

    /// An entry, new or not, that leads to where no index may be: to no sector, to a system sector,
    /// to a descriptor, to data, or to another's index.
    fn entry_elsewhere(&mut self, place: usize, random: &mut Random) {
        let own = self.disk.directories[place];
        let name = own.map_or_else(|| self.unused_name(random), |directory| directory.name);
        let n = self.disk.sectors;
        for number in [0, 1, n, n + 1, 0x8000 + n - 1, 0xFFFF] {
            self.put_entry("entry out of range", 3, place, &new_entry(name, number));
        }
        if let Some(file) = self.some_file(random) {
            let entered = new_entry(name, file.descriptor);
            self.put_entry("entry of a descriptor", 3, place, &entered);
            if let Some(sector) = file.sectors().last() {
                let edits = vec![
                    edit(entry(place), &new_entry(name, sector)),
                    edit(SECTOR_BYTES * sector, &[0; SECTOR_BYTES]),
                ];
                // A file that is listed no longer holds nothing.
                let number = if file.directory == place + 1 { 6 } else { 5 };
                self.keep_entries("entry of a file's sector", number, edits);
            }
        }
        for (other, directory) in self.disk.directories.into_iter().enumerate() {
            if let Some(directory) = directory.filter(|_| other != place) {
                let entered = new_entry(name, directory.index);
                self.put_entry("two entries with one index", 5, place, &entered);
            }
        }
    }

    /// A file that two directories list, or another one than before.
    pub(super) fn listed_elsewhere(&mut self, random: &mut Random) {
        let numbers = self.disk.numbers();
        let (file, to) = match self.some_file(random) {
            Some(file) if numbers.len() > 1 => (file, random.pick(&numbers)),
            _ => return,
        };
        if to == file.directory {
            return;
        }
        let mut listed: Vec<&File> = self.disk.files_in(to).collect();
        let is_there = listed.iter().any(|other| other.name() == file.name());
        let place = listed.iter().filter(|other| other.name() < file.name()).count();
        listed.insert(place, file);
        let (full, same) = (listed.len() > MOST_FILES, is_there);
        let index = |files: &[&File]| {
            let numbers = files.iter().flat_map(|file| word(file.descriptor));
            let mut index: Vec<u8> = numbers.collect();
            index.resize(SECTOR_BYTES, 0);
            index
        };
        let put = edit(self.index(to), &index(&listed));
        let number = match (full, same) {
            (true, _) => 3,
            (_, true) => 4,
            _ => 5,
        };
        self.keep("file that two directories list", Some(number), vec![put.clone()]);
        let rest = self.disk.files_in(file.directory);
        let rest: Vec<&File> = rest.filter(|other| other.descriptor != file.descriptor).collect();
        let taken = edit(self.index(file.directory), &index(&rest));
        let number = if number == 5 { 0 } else { number };
        self.keep("file in another directory", Some(number), vec![put, taken]);
    }

    /// The names of all directories but the one at a place.
    fn names_but(&self, place: usize) -> Vec<Name> {
        let others = self.disk.directories.iter().enumerate().filter(|(other, _)| *other != place);
        others.filter_map(|(_, directory)| Some((*directory)?.name)).collect()
    }

    fn unused_name(&self, random: &mut Random) -> Name {
        let taken = self.names_but(MOST_DIRECTORIES);
        loop {
            let name = names(1, random)[0];
            if !taken.contains(&name) {
                return name;
            }
        }
    }

    /// The map with some sectors taken and others given back.
    fn map_with(&self, taken: &[usize], given_back: &[usize]) -> Edit {
        let mut map = self.disk.map();
        taken.iter().for_each(|sector| map[sector / 8] |= 1 << (sector % 8));
        given_back.iter().for_each(|sector| map[sector / 8] &= !(1 << (sector % 8)));
        edit(MAP, &map)
    }
}

/// Where an entry begins.
fn entry(place: usize) -> usize {
    ENTRIES + ENTRY_BYTES * place
}

fn new_entry(name: Name, index: usize) -> [u8; ENTRY_BYTES] {
    Directory { name, index }.entry()
}
