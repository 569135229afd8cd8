//! What the programs of this folder share: three judges of document 01, its calls twice, and the
//! images that all of them are held to.

pub mod calls;
pub mod comparison;
pub mod cuts;
pub mod damage;
pub mod directories;
pub mod frames;
pub mod images;
pub mod layout;
pub mod lengths;
pub mod library;
pub mod names;
pub mod outside;
pub mod packing;
mod paper;
pub mod pnoelithe;
pub mod random;
pub mod reference;
pub mod sequences;
pub mod speed;
pub mod suites;
pub mod table;
pub mod tally;
pub mod tuned;
pub mod volumes;
