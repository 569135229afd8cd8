//! The library for a host in Rust: include/pnoelithe.h as safe functions over lent slices. This file
//! stands alone, to be copied beside a program that is linked with libpnoelithe.a:
//!
//! ```text
//! rustc --edition 2021 program.rs -C link-arg=target/staticlib/libpnoelithe.a
//! ```
//!
//! The header says of each call which bytes it reads and writes, and what differs by the layout
//! that it is asked with. A call that is refused has written nothing. Whatever bytes are lent, and
//! however few, no call reads or writes beside them, keeps anything of them, or ends the program.

use std::fmt::{self, Display, Formatter};

/// A disk's or a file's name, with its padding.
pub type Name = [u8; NAME_BYTES];

pub const SECTOR_BYTES: usize = 256;
pub const NAME_BYTES: usize = 10;
/// Bytes of a descriptor that an entry gives.
pub const HEADER_BYTES: usize = 28;
/// The fewest and the most sectors of a volume.
pub const SECTORS_LEAST: usize = 3;
pub const SECTORS_MOST: usize = 1600;
/// The most bytes of a volume's image.
pub const IMAGE_MOST: usize = 409_600;
/// The most files of the root or of a directory.
pub const FILES_MOST: usize = 127;
/// Room for every listing, by any layout.
pub const LISTING_MOST: usize = 4466;
/// The most bytes that a store takes.
pub const PROGRAM_MOST: usize = 32_768;
/// The most bytes that a load gives: 1,597 full sectors.
pub const LOADED_MOST: usize = 408_832;
/// The most sectors that a call writes: 128 of data and three.
pub const WRITES_MOST: usize = 131;

/// By which rules a call reads an image. By the default there is neither backup mark nor directory.
#[derive(Clone, Copy, Debug, Default, PartialEq, Eq)]
pub struct Layout {
    /// Whether status bit 10 hex is the backup mark: allowed, set by the calls that make or change
    /// a file, and shown in listings. Else an image on which a file has that bit is refused.
    pub marks: bool,
    /// Whether sector 0 has entries of directories, by the second edition. Else there is the root
    /// alone, and an image with a directory is refused.
    ///
    /// A call on a file, an entry of the catalogue and a listing take the number of a directory: 0
    /// is the root, 1 to 3 are the entries. What there is no entry for gives `Refusal::NotFound`.
    pub directories: bool,
}

impl Layout {
    /// The old rule, by which no file has a mark, and the first edition.
    pub const OLD: Layout = Layout { marks: false, directories: false };
    /// The new rule, by which any file may have one, and the first edition.
    pub const MARKS: Layout = Layout { marks: true, directories: false };
    /// The old rule and the second edition.
    pub const DIRECTORIES: Layout = Layout { marks: false, directories: true };
    /// The new rule and the second edition.
    pub const MARKS_AND_DIRECTORIES: Layout = Layout { marks: true, directories: true };

    /// As it crosses: the constants of `enum pno_layout`, joined.
    fn bits(self) -> u32 {
        u32::from(self.marks) | u32::from(self.directories) << 1
    }
}

/// Why a call is refused, in the order of the tests; each case stands for its number.
#[derive(Clone, Copy, Debug, PartialEq, Eq)]
pub enum Refusal {
    Length,
    Label,
    Index,
    Descriptor,
    TwoHolders,
    Map,
    /// With the place of the name's first wrong byte, 0 to 9, or `NAME_BYTES` where it was not lent
    /// as ten bytes. After a space every byte but a space is wrong; ten spaces are wrong at 0.
    Name {
        place: usize,
    },
    NotFound,
    Present,
    Protected,
    Kind,
    Argument,
    IndexFull,
    DiskFull,
    ChainFull,
}

impl Refusal {
    /// Each of them, a name's with this place.
    fn all(place: usize) -> [Refusal; 15] {
        [
            Refusal::Length,
            Refusal::Label,
            Refusal::Index,
            Refusal::Descriptor,
            Refusal::TwoHolders,
            Refusal::Map,
            Refusal::Name { place },
            Refusal::NotFound,
            Refusal::Present,
            Refusal::Protected,
            Refusal::Kind,
            Refusal::Argument,
            Refusal::IndexFull,
            Refusal::DiskFull,
            Refusal::ChainFull,
        ]
    }

    pub fn number(self) -> u32 {
        match self {
            Refusal::Length => 1,
            Refusal::Label => 2,
            Refusal::Index => 3,
            Refusal::Descriptor => 4,
            Refusal::TwoHolders => 5,
            Refusal::Map => 6,
            Refusal::Name { .. } => 7,
            Refusal::NotFound => 8,
            Refusal::Present => 9,
            Refusal::Protected => 10,
            Refusal::Kind => 14,
            Refusal::Argument => 15,
            Refusal::IndexFull => 11,
            Refusal::DiskFull => 12,
            Refusal::ChainFull => 13,
        }
    }
}

impl Display for Refusal {
    fn fmt(&self, out: &mut Formatter) -> fmt::Result {
        out.write_str(match self {
            Refusal::Length => "the image's length is not that of a volume",
            Refusal::Label => "sector 0 is no label",
            Refusal::Index => "a directory is no list of files",
            Refusal::Descriptor => "a file's descriptor breaks a rule",
            Refusal::TwoHolders => "a sector has two holders",
            Refusal::Map => "the map is not that of the files",
            Refusal::Name { .. } => "a name breaks its rule",
            Refusal::NotFound => "there is no such file or directory",
            Refusal::Present => "there is a file of that name already",
            Refusal::Protected => "the file is protected",
            Refusal::Kind => "the file is of another kind",
            Refusal::Argument => "a length, an offset or a status does not fit",
            Refusal::IndexFull => "there are 127 files already",
            Refusal::DiskFull => "too few sectors are free",
            Refusal::ChainFull => "the free sectors lie in too many pieces",
        })
    }
}

impl std::error::Error for Refusal {}

/// Why a rename is refused; since it takes two names, also which of them breaks the rule.
#[derive(Clone, Copy, Debug, PartialEq, Eq)]
pub struct RenameRefusal {
    pub refusal: Refusal,
    /// Some with `Refusal::Name`, and only then.
    pub which: Option<Which>,
}

/// A name of a rename. The new one is tested only where nothing is wrong with the old one.
#[derive(Clone, Copy, Debug, PartialEq, Eq)]
pub enum Which {
    Old = 0,
    New = 1,
}

impl Display for RenameRefusal {
    fn fmt(&self, out: &mut Formatter) -> fmt::Result {
        match self.which {
            Some(Which::Old) => out.write_str("the old name breaks its rule"),
            Some(Which::New) => out.write_str("the new name breaks its rule"),
            None => self.refusal.fmt(out),
        }
    }
}

impl std::error::Error for RenameRefusal {}

impl From<RenameRefusal> for Refusal {
    fn from(renaming: RenameRefusal) -> Self {
        renaming.refusal
    }
}

/// What a call has changed of an image: whole sectors, in the order in which a host is to write them
/// through to the medium that the image is of. Where that is cut short after any of them, `repair`
/// of what the medium has gives a sound volume with the files before the call or with those after
/// it; the header says it in full.
///
/// ```text
/// let changes = store(&mut image, layout, directory, &name, &bytes)?;
/// for (sector, bytes) in changes.writes(&image) {
///     medium.write_all_at(bytes, (SECTOR_BYTES * sector) as u64)?;
///     medium.sync_data()?;
/// }
/// ```
#[derive(Clone, Debug)]
#[repr(C)]
pub struct Changes {
    /// Kept for a later version of the library; this one leaves it as it is.
    #[allow(dead_code)]
    differ: u32,
    writes: u32,
    order: [u32; WRITES_MOST],
}

impl Changes {
    const NONE: Changes = Changes { differ: 0, writes: 0, order: [0; WRITES_MOST] };

    /// The numbers of the sectors, none of them twice. One is among them also where its bytes are
    /// as they were.
    pub fn sectors(&self) -> impl ExactSizeIterator<Item = usize> + '_ {
        self.order[..self.writes as usize].iter().map(|sector| *sector as usize)
    }

    /// Each of them with the 256 bytes that it is to hold, of the image as the call has left it.
    pub fn writes<'image>(
        &'image self,
        image: &'image [u8],
    ) -> impl ExactSizeIterator<Item = (usize, &'image [u8])> {
        self.sectors().map(|sector| (sector, &image[SECTOR_BYTES * sector..][..SECTOR_BYTES]))
    }
}

/// What a library's number says, of a call that takes no name.
fn done(number: u32) -> Result<(), Refusal> {
    named(|_| number)
}

/// The same of one that takes a name, and writes where that is wrong behind the pointer.
fn named(call: impl FnOnce(&mut usize) -> u32) -> Result<(), Refusal> {
    let mut place = 0;
    let number = call(&mut place);
    match Refusal::all(place).into_iter().find(|refusal| refusal.number() == number) {
        Some(refusal) => Err(refusal),
        None if number == 0 => Ok(()),
        None => unreachable!("the library gives no number {}", number),
    }
}

/// The same of one that changes an image, and writes what it has changed behind the last pointer.
fn changed(call: impl FnOnce(&mut usize, &mut Changes) -> u32) -> Result<Changes, Refusal> {
    let mut changes = Changes::NONE;
    named(|wrong| call(wrong, &mut changes))?;
    Ok(changes)
}

/// A call that changes an image and is asked with the name of a file alone.
type OnFile = unsafe extern "C" fn(
    *mut u8,
    usize,
    u32,
    usize,
    *const u8,
    usize,
    *mut usize,
    *mut Changes,
) -> u32;

fn on_file(
    call: OnFile,
    image: &mut [u8],
    layout: Layout,
    directory: usize,
    name: &[u8],
) -> Result<Changes, Refusal> {
    changed(|wrong, changes| unsafe {
        call(
            image.as_mut_ptr(),
            image.len(),
            layout.bits(),
            directory,
            name.as_ptr(),
            name.len(),
            wrong,
            changes,
        )
    })
}

/// What sector 0 carries of the drive.
#[derive(Clone, Copy, Debug, PartialEq, Eq)]
pub struct Geometry {
    pub sectors_per_track: u8,
    pub tracks: u8,
    pub sides: u8,
    pub density: u8,
}

/// What a volume is like as a whole.
#[derive(Clone, Copy, Debug, PartialEq, Eq)]
pub struct Summary {
    pub disk_name: Name,
    /// n
    pub sectors: usize,
    pub files: usize,
    pub free_sectors: usize,
}

/// A file of the catalogue; its name is the first ten bytes of the header.
#[derive(Clone, Copy, Debug, PartialEq, Eq)]
pub struct Entry {
    pub kind: Kind,
    /// Without the descriptor's.
    pub sectors: usize,
    pub is_protected: bool,
}

#[derive(Clone, Copy, Debug, PartialEq, Eq)]
pub enum Kind {
    /// With its length in bytes.
    Program {
        length: usize,
    },
    Fixed {
        record_length: usize,
        form: Form,
    },
    Variable {
        record_length: usize,
        form: Form,
    },
}

#[derive(Clone, Copy, Debug, PartialEq, Eq)]
pub enum Form {
    Display,
    Internal,
}

impl Kind {
    fn of(number: usize, length: usize) -> Self {
        let record_length = length;
        match number {
            0 => Kind::Program { length },
            1 => Kind::Fixed { record_length, form: Form::Display },
            2 => Kind::Variable { record_length, form: Form::Display },
            3 => Kind::Fixed { record_length, form: Form::Internal },
            4 => Kind::Variable { record_length, form: Form::Internal },
            _ => unreachable!("the library gives no kind {}", number),
        }
    }

    /// A program's length in bytes, or else the record length.
    pub fn length(self) -> usize {
        match self {
            Kind::Program { length } => length,
            Kind::Fixed { record_length, .. } | Kind::Variable { record_length, .. } => {
                record_length
            }
        }
    }
}

/// As in a listing.
impl Display for Kind {
    fn fmt(&self, out: &mut Formatter) -> fmt::Result {
        out.write_str(match self {
            Kind::Program { .. } => "PROGRAM",
            Kind::Fixed { form: Form::Display, .. } => "DIS/FIX",
            Kind::Variable { form: Form::Display, .. } => "DIS/VAR",
            Kind::Fixed { form: Form::Internal, .. } => "INT/FIX",
            Kind::Variable { form: Form::Internal, .. } => "INT/VAR",
        })
    }
}

/// The ten bytes of a name; one that is too long is left blank, which every call refuses at place 0.
pub fn padded(name: &str) -> Name {
    let mut padded = [b' '; NAME_BYTES];
    if let Some(front) = padded.get_mut(..name.len()) {
        front.copy_from_slice(name.as_bytes());
    }
    padded
}

/// Done where the image is a sound volume.
pub fn judge(image: &[u8], layout: Layout) -> Result<(), Refusal> {
    done(unsafe { imported::pno_judge(image.as_ptr(), image.len(), layout.bits()) })
}

/// Makes an empty volume of n sectors of the image, whatever its bytes were.
pub fn format(image: &mut [u8], n: usize, name: &[u8], geometry: Geometry) -> Result<(), Refusal> {
    let Geometry { sectors_per_track, tracks, sides, density } = geometry;
    named(|wrong| unsafe {
        imported::pno_format(
            image.as_mut_ptr(),
            image.len(),
            n,
            name.as_ptr(),
            name.len(),
            sectors_per_track,
            tracks,
            sides,
            density,
            wrong,
        )
    })
}

/// The number of free sectors.
pub fn free_count(image: &[u8], layout: Layout) -> Result<usize, Refusal> {
    let mut free_sectors = 0;
    done(unsafe {
        imported::pno_free_count(image.as_ptr(), image.len(), layout.bits(), &mut free_sectors)
    })?;
    Ok(free_sectors)
}

/// The volume's name, and its numbers of sectors, of files in all directories and of free sectors.
pub fn summary(image: &[u8], layout: Layout) -> Result<Summary, Refusal> {
    let mut summary = Summary { disk_name: [0; NAME_BYTES], sectors: 0, files: 0, free_sectors: 0 };
    done(unsafe {
        imported::pno_summary(
            image.as_ptr(),
            image.len(),
            layout.bits(),
            summary.disk_name.as_mut_ptr(),
            &mut summary.sectors,
            &mut summary.files,
            &mut summary.free_sectors,
        )
    })?;
    Ok(summary)
}

/// The file at a place of a directory's catalogue, counted from 0; the first 28 bytes of its
/// descriptor go to the front of `header`. With marks bit 10 hex of byte 12 there is the file's.
pub fn entry(
    image: &[u8],
    layout: Layout,
    directory: usize,
    place: usize,
    header: &mut [u8],
) -> Result<Entry, Refusal> {
    let (mut kind, mut length, mut sectors, mut is_protected) = (0, 0, 0, 0);
    done(unsafe {
        imported::pno_entry(
            image.as_ptr(),
            image.len(),
            layout.bits(),
            directory,
            place,
            header.as_mut_ptr(),
            header.len(),
            &mut kind,
            &mut length,
            &mut sectors,
            &mut is_protected,
        )
    })?;
    Ok(Entry { kind: Kind::of(kind, length), sectors, is_protected: is_protected != 0 })
}

/// Reads the sector of a file at an offset, counted from 0, into the front of `out`: 256 bytes,
/// which are given back.
pub fn read<'out>(
    image: &[u8],
    layout: Layout,
    directory: usize,
    name: &[u8],
    offset: usize,
    out: &'out mut [u8],
) -> Result<&'out [u8], Refusal> {
    named(|wrong| unsafe {
        imported::pno_read(
            image.as_ptr(),
            image.len(),
            layout.bits(),
            directory,
            name.as_ptr(),
            name.len(),
            offset,
            out.as_mut_ptr(),
            out.len(),
            wrong,
        )
    })?;
    Ok(&out[..SECTOR_BYTES])
}

/// Loads a program into the front of `out`; its bytes are given back.
pub fn load<'out>(
    image: &[u8],
    layout: Layout,
    directory: usize,
    name: &[u8],
    out: &'out mut [u8],
) -> Result<&'out [u8], Refusal> {
    let mut length = 0;
    named(|wrong| unsafe {
        imported::pno_load(
            image.as_ptr(),
            image.len(),
            layout.bits(),
            directory,
            name.as_ptr(),
            name.len(),
            out.as_mut_ptr(),
            out.len(),
            &mut length,
            wrong,
        )
    })?;
    Ok(&out[..length])
}

/// Writes the catalogue of a directory into the front of `out`, for which `LISTING_MOST` are always
/// enough; the text is given back. With marks a file's line ends in M where it has the mark, else in
/// a hyphen.
pub fn listing<'out>(
    image: &[u8],
    layout: Layout,
    directory: usize,
    out: &'out mut [u8],
) -> Result<&'out str, Refusal> {
    let mut length = 0;
    done(unsafe {
        imported::pno_listing(
            image.as_ptr(),
            image.len(),
            layout.bits(),
            directory,
            out.as_mut_ptr(),
            out.len(),
            &mut length,
        )
    })?;
    Ok(std::str::from_utf8(&out[..length]).expect("names have bytes up to 126"))
}

/// The same text, with no buffer to lend.
pub fn catalogue(image: &[u8], layout: Layout, directory: usize) -> Result<String, Refusal> {
    let mut out = [0; LISTING_MOST];
    listing(image, layout, directory, &mut out).map(str::to_string)
}

/// Creates a data file without sectors. The status is one of 00, 02, 80 and 82 hex by any layout.
pub fn create(
    image: &mut [u8],
    layout: Layout,
    directory: usize,
    name: &[u8],
    status: u8,
    record_length: u8,
    records_per_sector: u8,
) -> Result<Changes, Refusal> {
    changed(|wrong, changes| unsafe {
        imported::pno_create(
            image.as_mut_ptr(),
            image.len(),
            layout.bits(),
            directory,
            name.as_ptr(),
            name.len(),
            status,
            record_length,
            records_per_sector,
            wrong,
            changes,
        )
    })
}

/// Appends a sector of 256 bytes to a data file.
pub fn append(
    image: &mut [u8],
    layout: Layout,
    directory: usize,
    name: &[u8],
    data: &[u8],
) -> Result<Changes, Refusal> {
    changed(|wrong, changes| unsafe {
        imported::pno_append(
            image.as_mut_ptr(),
            image.len(),
            layout.bits(),
            directory,
            name.as_ptr(),
            name.len(),
            data.as_ptr(),
            data.len(),
            wrong,
            changes,
        )
    })
}

/// Overwrites the sector of a data file at an offset, counted from 0, with 256 bytes.
pub fn overwrite(
    image: &mut [u8],
    layout: Layout,
    directory: usize,
    name: &[u8],
    offset: usize,
    data: &[u8],
) -> Result<Changes, Refusal> {
    changed(|wrong, changes| unsafe {
        imported::pno_overwrite(
            image.as_mut_ptr(),
            image.len(),
            layout.bits(),
            directory,
            name.as_ptr(),
            name.len(),
            offset,
            data.as_ptr(),
            data.len(),
            wrong,
            changes,
        )
    })
}

/// Stores a program of at most 32,768 bytes as a new file; one of no bytes takes no sector but the
/// descriptor's.
pub fn store(
    image: &mut [u8],
    layout: Layout,
    directory: usize,
    name: &[u8],
    bytes: &[u8],
) -> Result<Changes, Refusal> {
    changed(|wrong, changes| unsafe {
        imported::pno_store(
            image.as_mut_ptr(),
            image.len(),
            layout.bits(),
            directory,
            name.as_ptr(),
            name.len(),
            bytes.as_ptr(),
            bytes.len(),
            wrong,
            changes,
        )
    })
}

/// Deletes a file.
pub fn delete(
    image: &mut [u8],
    layout: Layout,
    directory: usize,
    name: &[u8],
) -> Result<Changes, Refusal> {
    on_file(imported::pno_delete, image, layout, directory, name)
}

/// Renames a file.
pub fn rename(
    image: &mut [u8],
    layout: Layout,
    directory: usize,
    old: &[u8],
    new: &[u8],
) -> Result<Changes, RenameRefusal> {
    let mut which = 0;
    let renamed = changed(|wrong, changes| unsafe {
        imported::pno_rename(
            image.as_mut_ptr(),
            image.len(),
            layout.bits(),
            directory,
            old.as_ptr(),
            old.len(),
            new.as_ptr(),
            new.len(),
            &mut which,
            wrong,
            changes,
        )
    });
    renamed.map_err(|refusal| {
        let is_of_name = matches!(refusal, Refusal::Name { .. });
        let which = is_of_name.then(|| if which == 0 { Which::Old } else { Which::New });
        RenameRefusal { refusal, which }
    })
}

/// Protects a file, which may be protected already.
pub fn protect(
    image: &mut [u8],
    layout: Layout,
    directory: usize,
    name: &[u8],
) -> Result<Changes, Refusal> {
    on_file(imported::pno_protect, image, layout, directory, name)
}

/// Takes the protection of a file away, which may have none.
pub fn unprotect(
    image: &mut [u8],
    layout: Layout,
    directory: usize,
    name: &[u8],
) -> Result<Changes, Refusal> {
    on_file(imported::pno_unprotect, image, layout, directory, name)
}

/// Clears the backup mark of a file, which may have none and may be protected. The image is read as
/// with marks, whatever the layout says of them, and by its edition.
pub fn clear_mark(
    image: &mut [u8],
    layout: Layout,
    directory: usize,
    name: &[u8],
) -> Result<Changes, Refusal> {
    on_file(imported::pno_clear_mark, image, layout, directory, name)
}

/// Repairs a volume of which the writes of a call were cut short: every index in the order of names,
/// the map as the holders have it, and nothing else. A sound volume stays as it is. It is refused
/// where no order of names and no map would make a sound volume of the image, and never after a cut.
/// The layout is to be that of the volume: without directories the map is made of what the root
/// holds, and all that these have is free then.
pub fn repair(image: &mut [u8], layout: Layout) -> Result<Changes, Refusal> {
    changed(|_, changes| unsafe {
        imported::pno_repair(image.as_mut_ptr(), image.len(), layout.bits(), changes)
    })
}

/// Packs a volume into a target of the same length, whatever bytes that had.
pub fn pack(source: &[u8], layout: Layout, target: &mut [u8]) -> Result<(), Refusal> {
    done(unsafe {
        imported::pno_pack(
            source.as_ptr(),
            source.len(),
            layout.bits(),
            target.as_mut_ptr(),
            target.len(),
        )
    })
}

/// The functions of the archive, as include/pnoelithe.h declares them.
pub(crate) mod imported {
    use super::Changes;

    extern "C" {
        pub fn pno_judge(image: *const u8, image_len: usize, layout: u32) -> u32;
        pub fn pno_format(
            image: *mut u8,
            image_len: usize,
            n: usize,
            name: *const u8,
            name_len: usize,
            sectors_per_track: u8,
            tracks: u8,
            sides: u8,
            density: u8,
            wrong: *mut usize,
        ) -> u32;
        pub fn pno_free_count(
            image: *const u8,
            image_len: usize,
            layout: u32,
            free_sectors: *mut usize,
        ) -> u32;
        pub fn pno_summary(
            image: *const u8,
            image_len: usize,
            layout: u32,
            name: *mut u8,
            n: *mut usize,
            files: *mut usize,
            free_sectors: *mut usize,
        ) -> u32;
        pub fn pno_entry(
            image: *const u8,
            image_len: usize,
            layout: u32,
            directory: usize,
            place: usize,
            header: *mut u8,
            header_len: usize,
            kind: *mut usize,
            length: *mut usize,
            sectors: *mut usize,
            is_protected: *mut usize,
        ) -> u32;
        pub fn pno_read(
            image: *const u8,
            image_len: usize,
            layout: u32,
            directory: usize,
            name: *const u8,
            name_len: usize,
            offset: usize,
            out: *mut u8,
            out_len: usize,
            wrong: *mut usize,
        ) -> u32;
        pub fn pno_load(
            image: *const u8,
            image_len: usize,
            layout: u32,
            directory: usize,
            name: *const u8,
            name_len: usize,
            out: *mut u8,
            out_len: usize,
            length: *mut usize,
            wrong: *mut usize,
        ) -> u32;
        pub fn pno_listing(
            image: *const u8,
            image_len: usize,
            layout: u32,
            directory: usize,
            out: *mut u8,
            out_len: usize,
            length: *mut usize,
        ) -> u32;
        pub fn pno_create(
            image: *mut u8,
            image_len: usize,
            layout: u32,
            directory: usize,
            name: *const u8,
            name_len: usize,
            status: u8,
            record_length: u8,
            records_per_sector: u8,
            wrong: *mut usize,
            changes: *mut Changes,
        ) -> u32;
        pub fn pno_append(
            image: *mut u8,
            image_len: usize,
            layout: u32,
            directory: usize,
            name: *const u8,
            name_len: usize,
            data: *const u8,
            data_len: usize,
            wrong: *mut usize,
            changes: *mut Changes,
        ) -> u32;
        pub fn pno_overwrite(
            image: *mut u8,
            image_len: usize,
            layout: u32,
            directory: usize,
            name: *const u8,
            name_len: usize,
            offset: usize,
            data: *const u8,
            data_len: usize,
            wrong: *mut usize,
            changes: *mut Changes,
        ) -> u32;
        pub fn pno_store(
            image: *mut u8,
            image_len: usize,
            layout: u32,
            directory: usize,
            name: *const u8,
            name_len: usize,
            bytes: *const u8,
            bytes_len: usize,
            wrong: *mut usize,
            changes: *mut Changes,
        ) -> u32;
        pub fn pno_delete(
            image: *mut u8,
            image_len: usize,
            layout: u32,
            directory: usize,
            name: *const u8,
            name_len: usize,
            wrong: *mut usize,
            changes: *mut Changes,
        ) -> u32;
        pub fn pno_protect(
            image: *mut u8,
            image_len: usize,
            layout: u32,
            directory: usize,
            name: *const u8,
            name_len: usize,
            wrong: *mut usize,
            changes: *mut Changes,
        ) -> u32;
        pub fn pno_unprotect(
            image: *mut u8,
            image_len: usize,
            layout: u32,
            directory: usize,
            name: *const u8,
            name_len: usize,
            wrong: *mut usize,
            changes: *mut Changes,
        ) -> u32;
        pub fn pno_clear_mark(
            image: *mut u8,
            image_len: usize,
            layout: u32,
            directory: usize,
            name: *const u8,
            name_len: usize,
            wrong: *mut usize,
            changes: *mut Changes,
        ) -> u32;
        pub fn pno_rename(
            image: *mut u8,
            image_len: usize,
            layout: u32,
            directory: usize,
            old: *const u8,
            old_len: usize,
            new_name: *const u8,
            new_len: usize,
            which: *mut usize,
            wrong: *mut usize,
            changes: *mut Changes,
        ) -> u32;
        pub fn pno_repair(
            image: *mut u8,
            image_len: usize,
            layout: u32,
            changes: *mut Changes,
        ) -> u32;
        pub fn pno_pack(
            source: *const u8,
            source_len: usize,
            layout: u32,
            target: *mut u8,
            target_len: usize,
        ) -> u32;
    }
}
