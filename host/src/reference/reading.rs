//! The reading calls. Each judges the image before it looks at its arguments; `room` is the length
//! of the buffer that the answer is to fill.

use super::judge::judge;
use super::name::given_name;
use super::refusal::{holds, Refusal};
use super::volume::{Descriptor, Directory, Kind, Name, Sector, Volume};
use super::volume::{HEADER_BYTES, SECTOR_BYTES};
use crate::layout::Layout;

/// What a volume is like as a whole.
#[derive(Clone, Copy, Debug, PartialEq, Eq)]
pub struct Summary {
    pub disk_name: Name,
    pub sectors: usize,
    pub files: usize,
    pub free_sectors: usize,
}

impl Summary {
    /// Meant for a sound volume.
    pub(super) fn of(volume: Volume) -> Self {
        let label = volume.label();
        Summary {
            disk_name: *label.disk_name(),
            sectors: volume.sectors(),
            files: volume.files().count(),
            free_sectors: label.free_sectors(),
        }
    }
}

/// A file in the catalogue.
#[derive(Clone, Copy, Debug, PartialEq, Eq)]
pub struct Row {
    pub name: Name,
    pub kind: Kind,
    pub sectors: usize,
    pub protected: bool,
    pub marked: bool,
}

impl Row {
    /// Meant for a descriptor of a sound volume.
    pub(super) fn of(descriptor: Descriptor) -> Self {
        Row {
            name: *descriptor.name(),
            kind: descriptor.kind().expect("a file of a sound volume has a kind"),
            sectors: descriptor.sectors(),
            protected: descriptor.has(Descriptor::PROTECTED),
            marked: descriptor.has(Descriptor::MARKED),
        }
    }
}

#[derive(Clone, Copy, Debug, PartialEq, Eq)]
pub struct Entry {
    pub header: [u8; HEADER_BYTES],
    pub row: Row,
}

pub fn free_count(image: &[u8], layout: Layout) -> Result<usize, Refusal> {
    Ok(judge(image, layout)?.label().free_sectors())
}

pub fn summary(image: &[u8], layout: Layout) -> Result<Summary, Refusal> {
    Ok(Summary::of(judge(image, layout)?))
}

/// The catalogue entry at a place, counted from 0 in name order.
pub fn entry(
    image: &[u8],
    layout: Layout,
    directory: usize,
    place: usize,
    room: usize,
) -> Result<Entry, Refusal> {
    let directory = opened(judge(image, layout)?, directory)?;
    let (_, descriptor) = directory.files().nth(place).ok_or(Refusal::Absent)?;
    holds(room >= HEADER_BYTES, Refusal::Argument)?;
    Ok(Entry { header: *descriptor.header(), row: Row::of(descriptor) })
}

/// The sector of a file at an offset; programs and protected files may be read too.
pub fn read<'image>(
    image: &'image [u8],
    layout: Layout,
    directory: usize,
    name: &[u8],
    offset: usize,
    room: usize,
) -> Result<&'image Sector, Refusal> {
    let volume = judge(image, layout)?;
    let (_, descriptor) = find(volume, directory, name)?;
    let mut places = descriptor.chain().places();
    let place = places.nth(offset).ok_or(Refusal::Argument)?;
    holds(room >= SECTOR_BYTES, Refusal::Argument)?;
    Ok(volume.sector(place))
}

/// The bytes of a program.
pub fn load(
    image: &[u8],
    layout: Layout,
    directory: usize,
    name: &[u8],
    room: usize,
) -> Result<Vec<u8>, Refusal> {
    let volume = judge(image, layout)?;
    let (_, descriptor) = find(volume, directory, name)?;
    let length = match descriptor.kind() {
        Some(Kind::Program { length }) => length,
        _ => return Err(Refusal::Kind),
    };
    holds(room >= length, Refusal::Argument)?;
    let bytes = descriptor.chain().places().flat_map(|place| volume.sector(place));
    Ok(bytes.copied().take(length).collect())
}

/// The descriptor of a file of a directory, and the sector it lies in.
pub(super) fn find<'image>(
    volume: Volume<'image>,
    directory: usize,
    name: &[u8],
) -> Result<(usize, Descriptor<'image>), Refusal> {
    let name = given_name(name)?;
    named(opened(volume, directory)?, name).ok_or(Refusal::Absent)
}

/// The directory of a number, if there is one.
pub(super) fn opened(volume: Volume, number: usize) -> Result<Directory, Refusal> {
    volume.directory(number).ok_or(Refusal::Absent)
}

pub(super) fn named<'image>(
    directory: Directory<'image>,
    name: &Name,
) -> Option<(usize, Descriptor<'image>)> {
    directory.files().find(|(_, descriptor)| descriptor.name() == name)
}
