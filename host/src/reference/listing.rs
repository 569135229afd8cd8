//! The catalogue as text, a line for the volume and one for each file.

use super::judge::judge;
use super::reading::{opened, Row, Summary};
use super::refusal::{holds, Refusal};
use super::volume::{Directory, Form, Kind, Name, Volume};
use crate::layout::Layout;
use std::fmt::{self, Display, Formatter};

/// What the catalogue program takes as an image; anything longer is refused unread.
const MOST_INPUT: usize = 65_536;

/// The lines of a directory of a sound volume, for a buffer that has room for them.
pub fn listing(
    image: &[u8],
    layout: Layout,
    directory: usize,
    room: usize,
) -> Result<String, Refusal> {
    let volume = judge(image, layout)?;
    let text = lines(volume, opened(volume, directory)?, layout);
    holds(room >= text.len(), Refusal::Argument)?;
    Ok(text)
}

/// All that the catalogue program prints, by the old rule, or the second one, by the new rule. Both
/// go by the first edition, by which there is the root alone.
pub fn catalogue(input: &[u8], layout: Layout) -> String {
    let is_taken = holds(input.len() <= MOST_INPUT, Refusal::Length);
    match is_taken.and_then(|()| judge(input, layout)) {
        Ok(volume) => lines(volume, volume.root(), layout),
        Err(refusal) => format!("REFUSED {}\n", refusal.number()),
    }
}

fn lines(volume: Volume, directory: Directory, layout: Layout) -> String {
    let first = Summary::of(volume).to_string();
    let files = directory.files().map(|(_, descriptor)| line(Row::of(descriptor), layout));
    std::iter::once(first).chain(files).map(|line| line + "\n").collect()
}

/// A file's fields; whether it has the mark comes last where there are marks.
fn line(row: Row, layout: Layout) -> String {
    match (layout.marks, row.marked) {
        (false, _) => row.to_string(),
        (true, true) => format!("{} M", row),
        (true, false) => format!("{} -", row),
    }
}

impl Display for Summary {
    fn fmt(&self, out: &mut Formatter) -> fmt::Result {
        write!(out, "{} {} {}", unpadded(&self.disk_name), self.sectors, self.free_sectors)
    }
}

/// By the old rule.
impl Display for Row {
    fn fmt(&self, out: &mut Formatter) -> fmt::Result {
        let Row { name, kind, sectors, protected, .. } = self;
        let protection = if *protected { 'P' } else { 'U' };
        write!(out, "{} {} {} {} {}", unpadded(name), kind, kind.length(), sectors, protection)
    }
}

impl Display for Kind {
    fn fmt(&self, out: &mut Formatter) -> fmt::Result {
        out.write_str(match self {
            Kind::Program { .. } => "PROGRAM",
            Kind::Fixed { form: Form::Display, .. } => "DIS/FIX",
            Kind::Variable { form: Form::Display, .. } => "DIS/VAR",
            Kind::Fixed { form: Form::Internal, .. } => "INT/FIX",
            Kind::Variable { form: Form::Internal, .. } => "INT/VAR",
        })
    }
}

fn unpadded(name: &Name) -> String {
    String::from_utf8_lossy(name).trim_end_matches(' ').to_string()
}
