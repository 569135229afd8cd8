//! The library's functions as the table asks them, by the C interface itself. Hosts have
//! `pnoelithe`.

use crate::layout::Layout;
use crate::pnoelithe::{imported, Changes};
use crate::table::lent::CHANGES;

/// The number that the library gives for an image.
pub fn number(image: &[u8], layout: Layout) -> u32 {
    unsafe { imported::pno_judge(image.as_ptr(), image.len(), layout.bits()) }
}

/// The words of what a call changes, as they go over.
pub(crate) fn as_changes(words: &mut [u32; CHANGES]) -> *mut Changes {
    words.as_mut_ptr().cast()
}

/// `ask!(function, arguments...)`: the function's number. What is lent stands in brackets, and goes
/// over as a pointer and its length.
macro_rules! ask {
    (@ $function:ident [$($laid:tt)*]) => {
        unsafe { $crate::pnoelithe::imported::$function($($laid)*) }
    };
    (@ $function:ident [$($laid:tt)*] [$lent:expr], $($rest:tt)*) => {
        ask!(@ $function [$($laid)* $lent.as_mut_ptr(), $lent.len(),] $($rest)*)
    };
    (@ $function:ident [$($laid:tt)*] $value:expr, $($rest:tt)*) => {
        ask!(@ $function [$($laid)* $value,] $($rest)*)
    };
    ($function:ident, $($argument:tt)*) => {
        ask!(@ $function [] $($argument)*,)
    };
}
pub(crate) use ask;
