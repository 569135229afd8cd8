//! Images from outside: what there is to read on them, and the texts that came with them.

use crate::layout::Layout;
use crate::outside::Outside;
use crate::pnoelithe::{self, Refusal};
use crate::reference;
use crate::table::{Call, Listed};
use crate::volumes::MOST_DIRECTORIES;

/// The files of a directory, by the reference: names and numbers of sectors. Of an image that is
/// sound by neither rule, and of a directory that is not there, none.
pub(super) fn files(image: &[u8], layout: Layout, directory: usize) -> Vec<Listed> {
    let file = |(_, file): (usize, reference::Descriptor)| (*file.name(), file.sectors());
    let volume = reference::judge(image, layout.with_marks()).ok();
    let directory = volume.and_then(|volume| volume.directory(directory));
    directory.map_or(Vec::new(), |directory| directory.files().map(file).collect())
}

/// The directories in which a call looks: the root, and one further than the last that is there.
pub(super) fn directories(image: &[u8], call: &Call, layout: Layout) -> Vec<usize> {
    let volume = reference::judge(image, layout.with_marks()).ok();
    let is_there =
        |number: &usize| volume.map_or(false, |volume| volume.directory(*number).is_some());
    let last = (0..=MOST_DIRECTORIES).filter(is_there).last().unwrap_or(0);
    if call.in_directory {
        (0..=last + 1).collect()
    } else {
        vec![0]
    }
}

/// Holds what the library and the reference make of an image to the texts beside it.
pub(super) fn texts(outside: &Outside) -> Result<(), String> {
    Layout::ALL.into_iter().try_for_each(|layout| texts_by(layout, outside))
}

fn texts_by(layout: Layout, outside: &Outside) -> Result<(), String> {
    let Outside { name, image, rows, programs, .. } = outside;
    // The programs go by the first edition.
    let program = programs.by(layout).filter(|_| !layout.directories);
    let rows = rows.by(layout);
    let printed = reference::catalogue(image, layout);
    let texts = [
        ("listing by the library", rows, text(pnoelithe::catalogue(image, layout.for_host(), 0))),
        (
            "summary and entries by the library",
            rows,
            text(summary_and_entries(image, layout.for_host())),
        ),
        ("text of the catalogue program by the reference", program, printed),
    ];
    for (what, expected, found) in texts {
        if expected.map_or(false, |expected| expected != found) {
            let what = format!("{}, by {:?}", what, layout);
            return Err(format!("{}: other than is expected, {}:\n{}", name, what, found));
        }
    }
    Ok(())
}

fn text(lines: Result<String, Refusal>) -> String {
    lines.unwrap_or_else(|refusal| format!("REFUSED {}\n", refusal.number()))
}

/// The same lines, put together from the calls that give their parts.
fn summary_and_entries(image: &[u8], layout: pnoelithe::Layout) -> Result<String, Refusal> {
    let pnoelithe::Summary { disk_name, sectors, files, .. } = pnoelithe::summary(image, layout)?;
    let free_sectors = pnoelithe::free_count(image, layout)?;
    let mut lines = format!("{} {} {}\n", unpadded(&disk_name), sectors, free_sectors);
    for place in 0..files {
        let mut header = [0; pnoelithe::HEADER_BYTES];
        let pnoelithe::Entry { kind, sectors, is_protected } =
            pnoelithe::entry(image, layout, 0, place, &mut header)?;
        let (name, length) = (unpadded(&header[..10]), kind.length());
        let protection = if is_protected { 'P' } else { 'U' };
        let mark = match (layout.marks, header[12] & 0x10) {
            (false, _) => "",
            (true, 0) => " -",
            (true, _) => " M",
        };
        lines += &format!("{} {} {} {} {}{}\n", name, kind, length, sectors, protection, mark);
    }
    Ok(lines)
}

fn unpadded(name: &[u8]) -> String {
    String::from_utf8_lossy(name).trim_end().to_string()
}
