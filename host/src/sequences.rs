//! Sequences of calls on one image, the calls that write above all. Each is answered by the
//! library, by the reference, and by a plan of the disk that is kept beside; what the files hold is
//! followed once more without any sector numbers.

mod comparison;
mod paper;
mod sequence;
mod shelf;
mod starts;

pub(crate) use comparison::{built, left_by_calls};
pub use comparison::{Comparison, Sequences};
pub(crate) use shelf::{Shelf, Shelved};
pub(crate) use starts::damaged;
