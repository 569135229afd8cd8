//! Writes inputs for the two catalogue programs into a folder, each with what they must print:
//! `NAME.dsk`, `NAME.program.txt` and, for the one by the new rule, `NAME.marks.program.txt`. To
//! those made here come the images that are given.
//!
//! `inputs SEED FOLDER [IMAGE...]`

use host::directories::of_any_shape;
use host::layout::Layout;
use host::random::Random;
use host::reference::catalogue;
use host::suites::Batch;
use host::table::lines;
use host::volumes::{Disk, File, Order, Shape, MOST_FILES, MOST_SECTORS, SECTOR_BYTES};
use std::path::{Path, PathBuf};
use std::process::ExitCode;

/// The sectors of an image of 65,536 bytes, the longest that the program takes.
const MOST_TAKEN: usize = 256;
const CHANGES: usize = 200;

/// The programs by the rules that they go by, with the ending of what is expected of them.
const PROGRAMS: [(Layout, &str); 2] =
    [(Layout::OLD, "program.txt"), (Layout::MARKS, "marks.program.txt")];

fn main() -> ExitCode {
    let mut words = std::env::args().skip(1);
    let seed = words.next().and_then(|word| word.parse().ok());
    let folder = words.next().map(PathBuf::from);
    let done = match (seed, folder) {
        (Some(seed), Some(folder)) => write(seed, &folder, words.map(PathBuf::from)),
        _ => Err("a seed and a folder?".to_string()),
    };
    match done {
        Ok(()) => ExitCode::SUCCESS,
        Err(message) => {
            eprintln!("inputs: {}", message);
            ExitCode::FAILURE
        }
    }
}

fn write(
    seed: u64,
    folder: &Path,
    mut images: impl Iterator<Item = PathBuf>,
) -> Result<(), String> {
    inputs(seed)?.iter().try_for_each(|input| input.write(folder))?;
    images.try_for_each(|path| Input::of_file(&path)?.write(folder))
}

struct Input {
    name: String,
    bytes: Vec<u8>,
}

impl Input {
    fn new(name: &str, bytes: &[u8]) -> Self {
        Input { name: name.to_string(), bytes: bytes.to_vec() }
    }

    fn of_file(path: &Path) -> Result<Self, String> {
        let bytes =
            std::fs::read(path).map_err(|error| format!("{}: {}", path.display(), error))?;
        let name = path.file_stem().unwrap_or_default().to_string_lossy();
        Ok(Input::new(&name, &bytes))
    }

    fn write(&self, folder: &Path) -> Result<(), String> {
        let path = folder.join(format!("{}.dsk", self.name));
        let print = |(layout, ending)| {
            std::fs::write(path.with_extension(ending), catalogue(&self.bytes, layout))
        };
        std::fs::write(&path, &self.bytes)
            .and_then(|()| PROGRAMS.into_iter().try_for_each(print))
            .map_err(|error| format!("{}: {}", path.display(), error))
    }
}

fn inputs(seed: u64) -> Result<Vec<Input>, String> {
    let random = &mut Random::new(seed);
    let mut inputs = Vec::new();
    for (name, disk) in sound_disks(random) {
        let is_other = |by| catalogue(&disk.image, by) != printed(&disk, by);
        if Layout::OLD.of_edition().into_iter().any(is_other) {
            return Err(format!("{}: the reference prints other lines than were planned", name));
        }
        inputs.push(Input { name, bytes: disk.image });
    }
    inputs.extend(of_no_volume(random));
    inputs.extend(unsound(random)?);
    Ok(inputs)
}

/// What a program prints for a disk that is sound by the new rule. By the first edition, which both
/// go by, nobody holds what directories hold.
fn printed(disk: &Disk, layout: Layout) -> String {
    let is_marked = disk.files_in(0).any(File::is_marked);
    match (disk.sectors <= MOST_TAKEN, layout.marks || !is_marked) {
        (false, _) => "REFUSED 1\n".to_string(),
        (true, false) => "REFUSED 4\n".to_string(),
        (true, true) if disk.has_directories() => "REFUSED 6\n".to_string(),
        (true, true) => lines(disk, layout, 0),
    }
}

/// Disks of the greatest length that is taken, of the next one, and of other sizes, some with
/// directories, some with marks.
fn sound_disks(random: &mut Random) -> Vec<(String, Disk)> {
    let mut disks = Vec::new();
    let mut add = |name: &str, shape: Shape, random: &mut Random| {
        disks.push((name.to_string(), shape.build(random)));
    };
    let order = Order::Shuffled;
    add("65536-many-files", Shape::full(MOST_TAKEN, MOST_FILES, 1, order), random);
    add("65536-few-files", Shape::full(MOST_TAKEN, 5, 20, order), random);
    add("65792-sound-but-too-long", Shape::full(MOST_TAKEN + 1, 5, 20, order), random);
    add("longest-volume", Shape::full(MOST_SECTORS, MOST_FILES, 8, order), random);
    for sectors in [3, 4, 8, 34, 35, 64, 90, 100, 150, 180, 200, 240, MOST_TAKEN - 1, MOST_TAKEN] {
        let shape = Shape::any(sectors, MOST_FILES, random);
        add(&format!("sound-{}-sectors", sectors), shape, random);
    }
    for sectors in [3, 35, 64, 200, MOST_TAKEN, MOST_TAKEN + 1] {
        let disk = of_any_shape(sectors, true, random);
        disks.push((format!("directories-{}-sectors", sectors), disk));
    }
    let add_marked = |(name, disk): &(String, Disk)| {
        let mut disk = disk.clone();
        disk.mark_by_chance(random);
        (format!("{}-marked", name), disk)
    };
    let marked: Vec<(String, Disk)> = disks.iter().map(add_marked).collect();
    disks.extend(marked);
    disks
}

/// Inputs of a length that no volume has, most of them with a sound volume at the start.
fn of_no_volume(random: &mut Random) -> Vec<Input> {
    let mut bytes = Shape::full(MOST_TAKEN, 20, 4, Order::Ascending).build(random).image;
    bytes.extend(random.bytes(SECTOR_BYTES * (MOST_SECTORS + 1 - MOST_TAKEN)));
    let lengths = [0, 1, 255, 512, 767, 769, 65_535, 65_537, 66_000, bytes.len()];
    lengths.map(|length| Input::new(&format!("{}-bytes", length), &bytes[..length])).into()
}

/// For each of the numbers 2 to 6, by both rules, a damaged disk of the greatest length that is
/// taken.
fn unsound(random: &mut Random) -> Result<Vec<Input>, String> {
    let mut buffer = random.bytes(SECTOR_BYTES * (MOST_SECTORS + 2));
    let mut inputs = Vec::new();
    while inputs.len() < 5 {
        let batch = Batch::of_any_shape(MOST_TAKEN, CHANGES, random);
        batch.each_image(&mut buffer, |image| {
            let wanted = 2 + inputs.len() as u32;
            let rules = Layout::OLD.of_edition();
            let is_wanted = rules.map(|layout| image.number(layout)) == [Some(wanted); 2];
            if is_wanted && image.bytes.len() == SECTOR_BYTES * MOST_TAKEN {
                inputs.push(Input::new(&format!("65536-number-{}", wanted), image.bytes));
            }
            Ok(())
        })?;
    }
    Ok(inputs)
}
