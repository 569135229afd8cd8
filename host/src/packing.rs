//! Packing, which is lent two images. Each pack is answered by the library, by the reference and by
//! the plan of the disk; what was packed is read back and packed again. Then a volume with the same
//! catalogue laid out otherwise, or with one that differs in little, is packed beside it.

mod comparison;
mod pack;
mod paper;
mod tally;
mod twins;

pub use comparison::{Comparison, Packs};
pub(crate) use twins::moved;
