//! Document 01 in safe Rust, written from the paper alone and for the reader: what the library is
//! compared with and measured against. `volume` reads bytes by the paper's places and refuses
//! nothing; `judge` holds what was read to the rules, in the order of the paper's numbers; `name`
//! has the rule of names. Which rule of the backup mark holds, and which edition, every call but
//! formatting is told.
//! The calls stand on these: an answer is a value, and what it has to fit into comes as a length.
//! The calls that write take sectors by the rules of `choice` and lay bytes down through a `draft`;
//! packing lays all of a volume down anew. What a call that was cut short has left, repair mends.

mod choice;
mod draft;
mod format;
mod judge;
mod listing;
mod name;
mod packing;
mod reading;
mod refusal;
mod repairing;
mod volume;
mod writing;

pub use draft::Writes;
pub use format::*;
pub use judge::*;
pub use listing::*;
pub use packing::*;
pub use reading::*;
pub use refusal::Refusal;
pub use repairing::*;
pub use volume::{Block, Chain, Descriptor, Directory, DirectoryEntry, Form, Index, Kind, Label};
pub use volume::{Name, Sector, Volume};
pub use writing::*;
