//! What a caller knows of a volume: the files by name, each with its header and its bytes, and how
//! many sectors are free. No sector has a number here, so a call that writes over another file, or
//! loses a sector, is found whatever library, reference and plan agree on.

use crate::layout::Layout;
use crate::reference::{self, Descriptor, Directory, Volume};
use crate::table::{Arguments, Writing};
use crate::volumes::{word, Name, HEADER_BYTES, MOST_DIRECTORIES, SECTOR_BYTES};
use std::collections::BTreeMap;

#[derive(Clone)]
pub(crate) struct Shelved {
    pub header: [u8; HEADER_BYTES],
    /// Whole sectors.
    pub bytes: Vec<u8>,
}

#[derive(Clone)]
pub(crate) struct Shelf {
    /// By directory and name.
    files: BTreeMap<(usize, Name), Shelved>,
    /// The numbers and the names of the directories that are there.
    directories: Vec<(usize, Name)>,
    free: usize,
}

impl Shelf {
    /// Of a volume that is sound by the layout's edition and the new rule, as the reference reads
    /// it; of any other, nothing.
    pub(crate) fn of(image: &[u8], layout: Layout) -> Self {
        let mut shelf = Shelf { files: BTreeMap::new(), directories: Vec::new(), free: 0 };
        if let Ok(volume) = reference::judge(image, layout.with_marks()) {
            shelf.free = volume.label().free_sectors();
            shelf.directories = entered(volume);
            for (directory, file) in listed(volume) {
                let sectors = file.chain().places().map(|place| &volume.sector(place)[..]);
                let bytes = sectors.collect::<Vec<_>>().concat();
                let shelved = Shelved { header: *file.header(), bytes };
                shelf.files.insert((directory, *file.name()), shelved);
            }
        }
        shelf
    }

    /// Does a call that is done. What the file held is free, and then what it holds is taken.
    pub(crate) fn change(&mut self, writing: &Writing, arguments: &Arguments) {
        let (directory, name) = (arguments.directory, arguments.name.name());
        let before = self.files.remove(&(directory, name));
        self.free += before.as_ref().map_or(0, Shelved::holds);
        let before = before.unwrap_or_else(|| Shelved::new(&name));
        if let Some(mut file) = (writing.on_shelf)(before, arguments) {
            let sectors = file.sectors();
            self.free -= file.holds();
            file.header[14..16].copy_from_slice(&word(sectors));
            let name = file.header[..10].try_into().expect("ten bytes");
            self.files.insert((directory, name), file);
        }
    }

    /// The sectors of a file, if there is one of that name in the directory.
    pub(crate) fn sectors_of(&self, directory: usize, name: Name) -> Option<Vec<&[u8]>> {
        let file = self.files.get(&(directory, name))?;
        Some(file.bytes.chunks(SECTOR_BYTES).collect())
    }

    /// Whether the reference finds just this on an image, which is sound by the layout.
    pub(crate) fn is_on(&self, image: &[u8], layout: Layout) -> bool {
        let volume = match reference::judge(image, layout) {
            Ok(volume) => volume,
            Err(_) => return false,
        };
        let mut found = listed(volume);
        let all = self.files.iter().all(|(place, file)| match found.next() {
            Some((directory, other)) => {
                let mut places = other.chain().places();
                let mut sectors = file.bytes.chunks(SECTOR_BYTES);
                (directory, *other.name()) == *place
                    && *other.header() == file.header
                    && sectors.all(|own| {
                        places.next().map(|place| &volume.sector(place)[..]) == Some(own)
                    })
                    && places.next().is_none()
            }
            None => false,
        });
        all && found.next().is_none()
            && entered(volume) == self.directories
            && volume.label().free_sectors() == self.free
    }
}

fn entered(volume: Volume) -> Vec<(usize, Name)> {
    let present = (1..).zip(volume.entries()).filter(|(_, entry)| !entry.is_absent());
    present.map(|(number, entry)| (number, *entry.name())).collect()
}

/// The files of a volume, each with the number of its directory.
fn listed(volume: Volume) -> impl Iterator<Item = (usize, Descriptor)> {
    (0..=MOST_DIRECTORIES).flat_map(move |number| {
        let files = volume.directory(number).into_iter().flat_map(Directory::files);
        files.map(move |(_, file)| (number, file))
    })
}

impl Shelved {
    fn new(name: &Name) -> Self {
        let mut header = [0; HEADER_BYTES];
        header[..10].copy_from_slice(name);
        Shelved { header, bytes: Vec::new() }
    }

    /// After a call that makes or changes a file. By the new rule that shows in its status.
    pub(crate) fn changed(mut self, arguments: &Arguments) -> Self {
        if arguments.layout().marks {
            self.header[12] |= 0b1_0000;
        }
        self
    }

    fn sectors(&self) -> usize {
        self.bytes.len() / SECTOR_BYTES
    }

    /// With the descriptor's.
    fn holds(&self) -> usize {
        1 + self.sectors()
    }
}
