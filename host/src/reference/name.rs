//! The name rule: one to ten printable bytes that are no dot, then spaces up to the tenth.

use super::refusal::Refusal;
use super::volume::Name;

/// Where a name that is not lent as ten bytes is wrong.
const NOT_TEN_BYTES: usize = 10;

/// Whether a name keeps the rule, which is all that the judge asks.
pub(super) fn is_name(name: &Name) -> bool {
    let (used, padding) = parts(name);
    !used.is_empty()
        && used.iter().all(|byte| (33..=126).contains(byte) && *byte != b'.')
        && padding.iter().all(|byte| *byte == b' ')
}

/// What stands in front of the first space, and the rest.
fn parts(name: &Name) -> (&[u8], &[u8]) {
    name.split_at(name.iter().take_while(|byte| **byte != b' ').count())
}

/// The place of the first byte that breaks the rule. In front of the first space that is one that no
/// name has, behind it one that is no space; a name that has nothing in front and nothing behind is
/// wrong where it should begin.
fn first_wrong(name: &Name) -> Option<usize> {
    let (used, padding) = parts(name);
    let in_front = used.iter().position(|byte| !(33..=126).contains(byte) || *byte == b'.');
    let behind = || padding.iter().position(|byte| *byte != b' ').map(|place| used.len() + place);
    in_front.or_else(behind).or_else(|| used.is_empty().then_some(0))
}

/// A name as it was lent, if it is one, or the place where it is wrong.
pub(super) fn lent_name(bytes: &[u8]) -> Result<&Name, usize> {
    let name = bytes.try_into().map_err(|_| NOT_TEN_BYTES)?;
    first_wrong(name).map_or(Ok(name), Err)
}

/// The same for a call that takes one name.
pub(super) fn given_name(bytes: &[u8]) -> Result<&Name, Refusal> {
    lent_name(bytes).map_err(|place| Refusal::Name { place })
}
