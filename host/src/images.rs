//! The comparison of images: the library's judge with both judges of this folder, and all three
//! with the number that the paper gives where the image was built to have one. Each is judged by
//! both rules and by both editions.

use crate::comparison::Part;
use crate::layout::Layout;
use crate::outside::Outside;
use crate::random::Random;
use crate::reference::{self, Descriptor, Directory, Form, Kind};
use crate::suites::{edges_of_a_block, of_every_value, two_blocks, Batch, Image, Numbers};
use crate::table::JUDGE;
use crate::tally::{hold, Tally};
use crate::volumes::{Disk, File, MARK, MOST_BLOCKS, MOST_FILES, MOST_SECTORS, SECTOR_BYTES};
use crate::{library, tuned};

pub type Comparison = crate::comparison::Comparison<Images>;

/// How many images a number must at least have been given for, by each layout.
const LEAST_OF_EACH: u64 = 1000;
/// How many changes of one disk are tried.
const CHANGES: usize = 80;
const SMALL_DISKS: usize = 10_000;

const KNOWN: &str = "numbers that were known beforehand, of an image by a layout";

/// What the sound disks are meant to show.
const OF_DISKS: [(&str, fn(&Disk) -> bool); 15] = [
    ("sound disks built and read back", |_| true),
    ("  full", |disk| disk.free().is_empty()),
    ("  with 127 files", |disk| disk.files.len() == MOST_FILES),
    ("  with a mark, sound by the new rule alone", Disk::is_marked),
    ("  with directories, sound by the second edition alone", Disk::has_directories),
    ("  sound by both editions", |disk| Numbers::of_sound(disk).is_by_both()),
    ("  with directory 1 alone", |disk| disk.numbers() == [0, 1]),
    ("  with directory 2 alone", |disk| disk.numbers() == [0, 2]),
    ("  with directory 3 alone", |disk| disk.numbers() == [0, 3]),
    ("  with directories 1 and 2", |disk| disk.numbers() == [0, 1, 2]),
    ("  with directories 1 and 3", |disk| disk.numbers() == [0, 1, 3]),
    ("  with directories 2 and 3", |disk| disk.numbers() == [0, 2, 3]),
    ("  with all three", |disk| disk.numbers() == [0, 1, 2, 3]),
    ("  with a directory without files", |disk| has_directory(disk, 0)),
    ("  with a directory of 127 files", |disk| has_directory(disk, MOST_FILES)),
];

fn has_directory(disk: &Disk, files: usize) -> bool {
    disk.numbers()[1..].iter().any(|number| disk.files_in(*number).count() == files)
}

/// The same of each file on them.
const OF_FILES: [(&str, fn(&File) -> bool); 12] = [
    ("files on them", |_| true),
    ("  in directories", |file| file.directory > 0),
    ("  with the mark", File::is_marked),
    ("  with the mark and protected", |file| file.is_marked() && file.status() & 0x08 != 0),
    ("  programs with the mark", |file| file.is_marked() && file.is_program()),
    ("  of 76 blocks", |file| file.runs.len() == MOST_BLOCKS),
    ("  without a sector", |file| file.runs.is_empty()),
    ("  programs", File::is_program),
    ("  programs without a sector", |file| file.is_program() && file.runs.is_empty()),
    ("  programs that end on a full sector", |file| {
        file.is_program() && !file.runs.is_empty() && file.header[16] == 0
    }),
    ("  with blocks that could be one", |file| {
        file.runs.windows(2).any(|pair| pair[0].sectors().end == pair[1].start)
    }),
    ("  with a block before the one it follows", |file| {
        file.runs.windows(2).any(|pair| pair[1].start < pair[0].start)
    }),
];

pub struct Images {
    tally: Tally,
    /// Where the images are laid.
    buffer: Vec<u8>,
}

impl Part for Images {
    const TITLE: &'static str = "images";

    fn new() -> Self {
        let mut tally = Tally::of([&JUDGE].into_iter(), &[]);
        tally.mean([KNOWN]);
        tally.mean(OF_DISKS.map(|(what, _)| what));
        tally.mean(OF_FILES.map(|(what, _)| what));
        Images { tally, buffer: Vec::new() }
    }

    fn begin(&mut self, random: &mut Random) -> Result<(), String> {
        self.buffer = random.bytes(SECTOR_BYTES * (MOST_SECTORS + 2));
        for batch in of_every_value(random) {
            self.batch(&batch)?;
        }
        for (sectors, run) in edges_of_a_block() {
            self.batch(&Batch::of_one_block(sectors, run, random))?;
        }
        for _ in 0..SMALL_DISKS {
            self.batch(&Batch::of_any_plan(random))?;
        }
        for runs in two_blocks() {
            for in_one_file in [false, true] {
                self.batch(&Batch::of_two_blocks(runs, in_one_file, random))?;
            }
        }
        Ok(())
    }

    fn on_volume_of(&mut self, sectors: usize, random: &mut Random) -> Result<(), String> {
        self.batch(&Batch::of_any_shape(sectors, CHANGES, random))
    }

    fn on_outside(&mut self, outside: &Outside, _: &mut Random) -> Result<(), String> {
        self.by_all(&Image::of_outside(outside))
    }

    fn tally(&self) -> &Tally {
        &self.tally
    }

    /// Each image was judged by every layout.
    fn total(&self) -> u64 {
        self.tally.total() / Layout::ALL.len() as u64
    }

    fn report(&self) -> Result<(), String> {
        self.tally.report()?;
        hold(LEAST_OF_EACH, self.tally.numbers())
    }
}

impl Images {
    fn batch(&mut self, batch: &Batch) -> Result<(), String> {
        let mut buffer = std::mem::take(&mut self.buffer);
        batch.each_image(&mut buffer, |image| self.by_all(image))?;
        self.buffer = buffer;
        if batch.number == 0 {
            self.count(&batch.disk);
            reads_back(&batch.disk).ok_or("the reference reads other files than were planned")?;
        }
        Ok(())
    }

    fn count(&mut self, disk: &Disk) {
        self.tally.size(disk.sectors);
        self.tally.meet_all(OF_DISKS.map(|(what, is_met)| (what, is_met(disk))));
        for file in &disk.files {
            self.tally.meet_all(OF_FILES.map(|(what, is_met)| (what, is_met(file))));
        }
    }

    fn by_all(&mut self, image: &Image) -> Result<(), String> {
        Layout::ALL.into_iter().try_for_each(|layout| self.image(image, layout))
    }

    fn image(&mut self, image: &Image, layout: Layout) -> Result<(), String> {
        let (given, paper) = (Given::of(image.bytes, layout), image.number(layout));
        if !given.agree_with(paper) {
            return Err(difference(image, layout, &given));
        }
        self.tally.give(JUDGE.title, layout, given.library);
        if paper.is_some() {
            self.tally.meet(KNOWN);
        }
        Ok(())
    }
}

fn difference(image: &Image, layout: Layout, given: &Given) -> String {
    let Given { library, reference, tuned } = given;
    let paper = image.number(layout).map_or("not settled".to_string(), |number| number.to_string());
    let lines = [
        format!("difference in \"{}\" by {:?}", image.what, layout),
        format!("library {}, reference {}, tuned {}", library, reference, tuned),
        format!("by the paper {}", paper),
        format!("image kept as {}", image.keep()),
    ];
    lines.join("\n  ")
}

/// The numbers that the three judges give for one image.
struct Given {
    library: u32,
    reference: u32,
    tuned: u32,
}

impl Given {
    fn of(image: &[u8], layout: Layout) -> Self {
        Given {
            library: library::number(image, layout),
            reference: reference::number(image, layout),
            tuned: tuned::number(image, layout),
        }
    }

    fn agree_with(&self, paper: Option<u32>) -> bool {
        let one = self.reference;
        self.library == one && self.tuned == one && paper.map_or(true, |number| number == one)
    }
}

/// Whether the reference finds the files of a sound disk as they were planned.
fn reads_back(disk: &Disk) -> Option<()> {
    let volume = reference::judge(&disk.image, disk.layout()).ok()?;
    let directories = (1..).zip(disk.directories).all(|(number, directory)| {
        let found = volume.directory(number).map(Directory::sector);
        found == directory.map(|directory| directory.index)
    });
    let names = volume.entries().map(|entry| *entry.name());
    let planned = disk.directories.map(|directory| directory.map_or([0; 10], |own| own.name));
    let named = !disk.has_directories() || names.eq(planned);
    (directories && named).then_some(())?;
    disk.numbers().into_iter().try_for_each(|number| {
        let found = volume.directory(number)?.files();
        are_planned(found, disk.files_in(number))
    })
}

fn are_planned<'disk>(
    mut found: impl Iterator<Item = (usize, Descriptor<'disk>)>,
    planned: impl Iterator<Item = &'disk File>,
) -> Option<()> {
    for file in planned {
        let (number, descriptor) = found.next()?;
        let same = number == file.descriptor
            && *descriptor.name() == file.name()
            && descriptor.kind() == Some(kind(file))
            && descriptor.has(Descriptor::PROTECTED) == (file.status() & 0x08 != 0)
            && descriptor.has(Descriptor::MARKED) == file.is_marked()
            && descriptor.sectors() == file.count()
            && descriptor.chain().places().eq(file.sectors());
        same.then_some(())?;
    }
    found.next().is_none().then_some(())
}

fn kind(file: &File) -> Kind {
    let record_length = file.header[17];
    match file.status() & !(0x08 | MARK) {
        0x00 => Kind::Fixed { record_length, form: Form::Display },
        0x02 => Kind::Fixed { record_length, form: Form::Internal },
        0x80 => Kind::Variable { record_length, form: Form::Display },
        0x82 => Kind::Variable { record_length, form: Form::Internal },
        _ => Kind::Program { length: file.program_length() },
    }
}
