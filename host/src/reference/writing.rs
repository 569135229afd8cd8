//! The calls that change an image. Each finds out first whether it is refused, in the order of the
//! paper's table, and only then touches a byte: sector by sector, in the order of writing, which it
//! gives.

use super::choice::{grow, Free};
use super::draft::{set_chain, Draft, Writes};
use super::judge::judge;
use super::name::{given_name, lent_name};
use super::reading::{find, named, opened};
use super::refusal::{holds, Refusal};
use super::volume::{Block, Descriptor, Directory, Name, Sector, Volume};
use super::volume::{MOST_BLOCKS, MOST_FILES, SECTOR_BYTES};
use crate::layout::Layout;

const MOST_PROGRAM_BYTES: usize = 32_768;

/// An empty data file.
pub fn create(
    image: &mut [u8],
    layout: Layout,
    directory: usize,
    name: &[u8],
    status: u8,
    record_length: u8,
    records_per_sector: u8,
) -> Result<Writes, Refusal> {
    let volume = judge(image, layout)?;
    let (directory, name) = new_name(volume, directory, name)?;
    holds([0x00, 0x02, 0x80, 0x82].contains(&status), Refusal::Argument)?;
    has_a_place(directory)?;
    let index = directory.sector();
    let number = Free::of(volume).take_for_descriptor().ok_or(Refusal::DiskFull)?;

    let mut descriptor = described(name, status | mark(layout));
    descriptor[13] = records_per_sector;
    descriptor[17] = record_length;
    let mut draft = Draft::new(image);
    *draft.sector(number) = descriptor;
    draft.take(number);
    draft.list(index, number);
    Ok(draft.writes())
}

/// A program of the given bytes, the rest of its last sector zero.
pub fn store(
    image: &mut [u8],
    layout: Layout,
    directory: usize,
    name: &[u8],
    bytes: &[u8],
) -> Result<Writes, Refusal> {
    let volume = judge(image, layout)?;
    let (directory, name) = new_name(volume, directory, name)?;
    holds(bytes.len() <= MOST_PROGRAM_BYTES, Refusal::Argument)?;
    has_a_place(directory)?;
    let index = directory.sector();
    let sectors = bytes.chunks(SECTOR_BYTES).len();
    let mut free = Free::of(volume);
    holds(free.count() > sectors, Refusal::DiskFull)?;
    let number = free.take_for_descriptor().ok_or(Refusal::DiskFull)?;
    let mut blocks = Vec::new();
    for _ in 0..sectors {
        grow(&mut blocks, free.take_for_data().ok_or(Refusal::DiskFull)?);
    }
    holds(blocks.len() <= MOST_BLOCKS, Refusal::ChainFull)?;

    let mut descriptor = described(name, Descriptor::PROGRAM | mark(layout));
    descriptor[16] = (bytes.len() % SECTOR_BYTES) as u8;
    set_chain(&mut descriptor, &blocks);
    let mut draft = Draft::new(image);
    let places = || blocks.iter().copied().flat_map(Block::places);
    let mut content = bytes.iter().copied().chain(std::iter::repeat(0));
    for place in places() {
        draft.sector(place).fill_with(|| content.next().unwrap_or(0));
    }
    *draft.sector(number) = descriptor;
    places().chain([number]).for_each(|taken| draft.take(taken));
    draft.list(index, number);
    Ok(draft.writes())
}

/// One sector more for a data file.
pub fn append(
    image: &mut [u8],
    layout: Layout,
    directory: usize,
    name: &[u8],
    data: &[u8],
) -> Result<Writes, Refusal> {
    let volume = judge(image, layout)?;
    let (number, descriptor) = find(volume, directory, name)?;
    is_writable_data(descriptor)?;
    let data = one_sector(data)?;
    let place = Free::of(volume).take_for_data().ok_or(Refusal::DiskFull)?;
    let mut blocks = descriptor.chain().blocks().collect();
    grow(&mut blocks, place);
    holds(blocks.len() <= MOST_BLOCKS, Refusal::ChainFull)?;

    let mut draft = Draft::new(image);
    *draft.sector(place) = *data;
    draft.take(place);
    set_chain(draft.sector(number), &blocks);
    draft.sector(number)[12] |= mark(layout);
    Ok(draft.writes())
}

/// Other bytes for one sector of a data file.
pub fn overwrite(
    image: &mut [u8],
    layout: Layout,
    directory: usize,
    name: &[u8],
    offset: usize,
    data: &[u8],
) -> Result<Writes, Refusal> {
    let volume = judge(image, layout)?;
    let (number, descriptor) = find(volume, directory, name)?;
    is_writable_data(descriptor)?;
    let place = descriptor.chain().places().nth(offset).ok_or(Refusal::Argument)?;
    let data = one_sector(data)?;

    let mut draft = Draft::new(image);
    if layout.marks {
        draft.sector(number)[12] |= Descriptor::MARKED;
    }
    *draft.sector(place) = *data;
    Ok(draft.writes())
}

/// The sectors of a deleted file keep their bytes.
pub fn delete(
    image: &mut [u8],
    layout: Layout,
    directory: usize,
    name: &[u8],
) -> Result<Writes, Refusal> {
    let volume = judge(image, layout)?;
    let name = given_name(name)?;
    let directory = opened(volume, directory)?;
    let (number, descriptor) = named(directory, name).ok_or(Refusal::Absent)?;
    is_unprotected(descriptor)?;
    let places: Vec<usize> = descriptor.chain().places().collect();
    let index = directory.sector();

    let mut draft = Draft::new(image);
    draft.unlist(index, number);
    draft.give_back(number);
    places.into_iter().for_each(|place| draft.give_back(place));
    Ok(draft.writes())
}

pub fn rename(
    image: &mut [u8],
    layout: Layout,
    directory: usize,
    old: &[u8],
    new: &[u8],
) -> Result<Writes, Refusal> {
    let volume = judge(image, layout)?;
    let old = lent_name(old).map_err(|place| Refusal::OldName { place })?;
    let new = lent_name(new).map_err(|place| Refusal::NewName { place })?;
    let directory = opened(volume, directory)?;
    let (number, descriptor) = named(directory, old).ok_or(Refusal::Absent)?;
    holds(named(directory, new).is_none(), Refusal::Present)?;
    is_unprotected(descriptor)?;
    let index = directory.sector();

    let mut draft = Draft::new(image);
    draft.sector(number)[..10].copy_from_slice(new);
    draft.sector(number)[12] |= mark(layout);
    draft.list_anew(index, number);
    Ok(draft.writes())
}

pub fn protect(
    image: &mut [u8],
    layout: Layout,
    directory: usize,
    name: &[u8],
) -> Result<Writes, Refusal> {
    let (number, _) = find(judge(image, layout)?, directory, name)?;
    let mut draft = Draft::new(image);
    draft.sector(number)[12] |= Descriptor::PROTECTED;
    Ok(draft.writes())
}

pub fn unprotect(
    image: &mut [u8],
    layout: Layout,
    directory: usize,
    name: &[u8],
) -> Result<Writes, Refusal> {
    let (number, _) = find(judge(image, layout)?, directory, name)?;
    let mut draft = Draft::new(image);
    draft.sector(number)[12] &= !Descriptor::PROTECTED;
    Ok(draft.writes())
}

/// There is a mark to clear by the new rule alone, so that is gone by, in the edition asked for.
pub fn clear_mark(
    image: &mut [u8],
    layout: Layout,
    directory: usize,
    name: &[u8],
) -> Result<Writes, Refusal> {
    let (number, _) = find(judge(image, layout.with_marks())?, directory, name)?;
    let mut draft = Draft::new(image);
    draft.sector(number)[12] &= !Descriptor::MARKED;
    Ok(draft.writes())
}

/// The bit that says of a file that was made or changed just now that it was, where one does.
fn mark(layout: Layout) -> u8 {
    if layout.marks {
        Descriptor::MARKED
    } else {
        0
    }
}

/// A name for a file that is to be made, and the directory that it is made in.
fn new_name<'image, 'name>(
    volume: Volume<'image>,
    directory: usize,
    name: &'name [u8],
) -> Result<(Directory<'image>, &'name Name), Refusal> {
    let name = given_name(name)?;
    let directory = opened(volume, directory)?;
    holds(named(directory, name).is_none(), Refusal::Present)?;
    Ok((directory, name))
}

fn has_a_place(directory: Directory) -> Result<(), Refusal> {
    holds(directory.files().count() < MOST_FILES, Refusal::IndexFull)
}

fn is_unprotected(descriptor: Descriptor) -> Result<(), Refusal> {
    holds(!descriptor.has(Descriptor::PROTECTED), Refusal::Protected)
}

fn is_writable_data(descriptor: Descriptor) -> Result<(), Refusal> {
    is_unprotected(descriptor)?;
    holds(!descriptor.has(Descriptor::PROGRAM), Refusal::Kind)
}

fn one_sector(data: &[u8]) -> Result<&Sector, Refusal> {
    data.try_into().map_err(|_| Refusal::Argument)
}

/// The descriptor of a file without sectors.
fn described(name: &Name, status: u8) -> Sector {
    let mut descriptor = [0; SECTOR_BYTES];
    descriptor[..10].copy_from_slice(name);
    descriptor[12] = status;
    descriptor
}
