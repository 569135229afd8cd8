//! What a call gives where it is done, and what it says of a name where that is wrong.

use super::Call;
use crate::reference::{Entry, Refusal, Row, Sector, Summary, Writes};
use std::fmt::Display;

/// What goes into the lent memory beside the image: bytes from the start of the buffer on, and the
/// numbers behind the pointers in the order of the C interface.
#[derive(Debug, Default, PartialEq, Eq)]
pub(crate) struct Written {
    pub bytes: Vec<u8>,
    pub numbers: Vec<usize>,
    /// With number 7 the place where a name is wrong, and of a call that takes two which it is.
    pub which: Option<usize>,
    pub wrong: Option<usize>,
    /// Of a call that says which sectors it writes: their numbers, none where it is refused.
    pub writes: Option<Writes>,
}

impl Written {
    pub(super) fn new(bytes: &[u8], numbers: &[usize]) -> Self {
        Written { bytes: bytes.to_vec(), numbers: numbers.to_vec(), ..Written::default() }
    }

    /// Bytes and how many there are.
    pub(super) fn counted(bytes: &[u8]) -> Self {
        Written::new(bytes, &[bytes.len()])
    }

    /// What a call that is done says of the sectors that it writes.
    pub(super) fn changed(writes: Writes) -> Self {
        Written { writes: Some(writes), ..Written::default() }
    }

    /// What a call that is refused has written, beside what it says of a name.
    pub(super) fn nothing(call: &Call) -> Self {
        Written { writes: call.is_changing().then(Writes::new), ..Written::default() }
    }

    /// What a call has written that the reference refuses.
    pub(super) fn refused(call: &Call, refusal: Refusal) -> Self {
        let (which, wrong) = match refusal {
            Refusal::Name { place } => (None, Some(place)),
            Refusal::OldName { place } => (Some(0), Some(place)),
            Refusal::NewName { place } => (Some(1), Some(place)),
            _ => (None, None),
        };
        Written { which, wrong, ..Written::nothing(call) }
    }
}

/// The answer of the reference in the form in which it gives it, so that the benchmark counts no
/// copying of it.
pub(crate) enum Answer<'asked> {
    Done,
    /// With the sectors that are written.
    Changed(Writes),
    Number(usize),
    Summary(Summary),
    Entry(Entry),
    Sector(&'asked Sector),
    Bytes(Vec<u8>),
    /// With their number behind a pointer.
    Counted(Vec<u8>),
    Text(String),
}

impl Answer<'_> {
    pub(crate) fn written(&self) -> Written {
        match self {
            Answer::Done => Written::default(),
            Answer::Changed(writes) => Written::changed(writes.clone()),
            Answer::Number(number) => Written::new(&[], &[*number]),
            Answer::Summary(Summary { disk_name, sectors, files, free_sectors }) => {
                Written::new(disk_name, &[*sectors, *files, *free_sectors])
            }
            Answer::Entry(Entry { header, row }) => {
                let Row { kind, sectors, protected, .. } = row;
                let numbers = [number_of_kind(kind), kind.length(), *sectors, (*protected).into()];
                Written::new(header, &numbers)
            }
            Answer::Sector(sector) => Written::new(*sector, &[]),
            Answer::Bytes(bytes) => Written::new(bytes, &[]),
            Answer::Counted(bytes) => Written::counted(bytes),
            Answer::Text(text) => Written::counted(text.as_bytes()),
        }
    }
}

/// How a kind crosses the C interface: the place of its word among these.
pub(super) fn number_of_kind(kind: impl Display) -> usize {
    const WORDS: [&str; 5] = ["PROGRAM", "DIS/FIX", "DIS/VAR", "INT/FIX", "INT/VAR"];
    let word = kind.to_string();
    WORDS.iter().position(|other| *other == word).expect("a word for each kind")
}
