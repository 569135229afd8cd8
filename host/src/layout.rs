//! By which rules an image is read. The caller of the library chooses.

use crate::pnoelithe;

/// Document 01's own rules, and what comes to them where it is chosen.
#[derive(Clone, Copy, Debug, PartialEq, Eq, PartialOrd, Ord)]
pub struct Layout {
    /// Status bit 10 hex is the backup mark.
    pub marks: bool,
    /// Bytes 20 to 55 of sector 0 are three directory entries: the second edition.
    pub directories: bool,
}

impl Layout {
    /// The old rule, by which that bit is none of a status, and the new one; both by the first
    /// edition.
    pub const OLD: Layout = Layout { marks: false, directories: false };
    pub const MARKS: Layout = Layout { marks: true, directories: false };
    /// The same by the second edition.
    pub const DIRECTORIES: Layout = Layout { marks: false, directories: true };
    pub const MARKS_AND_DIRECTORIES: Layout = Layout { marks: true, directories: true };
    pub const ALL: [Layout; 4] =
        [Layout::OLD, Layout::MARKS, Layout::DIRECTORIES, Layout::MARKS_AND_DIRECTORIES];

    /// Both rules of the mark by this one's edition.
    pub fn of_edition(self) -> [Layout; 2] {
        [false, true].map(|marks| Layout { marks, ..self })
    }

    /// The same rule by the other edition.
    pub fn other_edition(self) -> Self {
        Layout { directories: !self.directories, ..self }
    }

    /// The same edition with marks, by which all is sound that is so without.
    pub fn with_marks(self) -> Self {
        Layout { marks: true, ..self }
    }

    /// As it crosses the C interface, whatever the other bits are.
    pub(crate) fn of_bits(bits: u32) -> Self {
        Layout { marks: bits % 2 == 1, directories: bits / 2 % 2 == 1 }
    }

    /// The same of a caller who sets no other bit.
    pub(crate) fn bits(self) -> u32 {
        u32::from(self.marks) + 2 * u32::from(self.directories)
    }

    /// As a host in Rust has it.
    pub(crate) fn for_host(self) -> pnoelithe::Layout {
        let Layout { marks, directories } = self;
        pnoelithe::Layout { marks, directories }
    }
}
