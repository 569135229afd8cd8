//! Why a call is refused, in the order of the tests.

/// Each case stands for one of the paper's numbers.
#[derive(Clone, Copy, Debug, PartialEq, Eq)]
pub enum Refusal {
    /// The image's length, or in formatting that the n asked for is another.
    Length,
    Label,
    Index,
    Descriptor,
    TwoHolders,
    Map,
    /// A given name is wrong from this place on: the first byte that breaks the name rule, or 10
    /// where the name is not lent as ten bytes.
    Name {
        place: usize,
    },
    /// The same of the old and of the new name of a rename.
    OldName {
        place: usize,
    },
    NewName {
        place: usize,
    },
    /// No such file, no such place in the catalogue, or no such directory.
    Absent,
    /// The new name is that of a file of the directory, be it the one that is to be renamed.
    Present,
    Protected,
    /// A program is asked for and the file is not one, or data is and it is a program.
    Kind,
    /// An offset not below c, a status that cannot be created, bytes to write that are too many or
    /// not a sector's, a buffer too short for what it is to be filled with, or a target that is not
    /// of the source's length.
    Argument,
    /// 127 files are present in the directory.
    IndexFull,
    /// The call takes more sectors than are free.
    DiskFull,
    /// A 77th block would be needed.
    ChainFull,
}

impl Refusal {
    pub fn number(self) -> u32 {
        match self {
            Refusal::Length => 1,
            Refusal::Label => 2,
            Refusal::Index => 3,
            Refusal::Descriptor => 4,
            Refusal::TwoHolders => 5,
            Refusal::Map => 6,
            Refusal::Name { .. } | Refusal::OldName { .. } | Refusal::NewName { .. } => 7,
            Refusal::Absent => 8,
            Refusal::Present => 9,
            Refusal::Protected => 10,
            Refusal::Kind => 14,
            Refusal::Argument => 15,
            Refusal::IndexFull => 11,
            Refusal::DiskFull => 12,
            Refusal::ChainFull => 13,
        }
    }
}

pub(super) fn holds(rule: bool, refusal: Refusal) -> Result<(), Refusal> {
    if rule {
        Ok(())
    } else {
        Err(refusal)
    }
}
