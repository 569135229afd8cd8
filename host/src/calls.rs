//! Calls that read or format, each by itself on an image, with arguments by chance: what each must
//! give by the reference, which reads the image, and by the plan of the disk, which knows what was
//! laid where.

mod comparison;
mod outside;
mod paper;

pub use comparison::{Calls, Comparison};
