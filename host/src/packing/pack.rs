//! One pack, and what must be found afterwards.

use crate::layout::Layout;
use crate::random::Random;
use crate::sequences::Shelf;
use crate::suites::Image;
use crate::table::lent::Memory;
use crate::table::{self, Arguments, Case, NONE, PACK};
use crate::{pnoelithe, reference};

/// The bytes of the target, or the number of a refusal.
pub(super) type Answer = Result<Vec<u8>, u32>;

pub(super) fn into_target(bytes: usize) -> Arguments {
    Arguments { room: bytes, ..NONE }
}

pub(super) fn answer(case: Case) -> Answer {
    match case.number {
        0 => Ok(case.written.bytes),
        number => Err(number),
    }
}

/// A pack, if library, reference and plan agree on what it gives and it is what packing is for;
/// else what is wrong.
pub(super) fn compared<'case>(
    source: &'case Image,
    arguments: &'case Arguments,
    random: &mut Random,
) -> Result<Case<'case>, String> {
    let case = table::compared(&PACK, arguments, source, random)?;
    if !case.is_done() {
        return Ok(case);
    }
    let kept = not_kept(source.bytes, &case.written.bytes, case.asked.by, random);
    kept.map_or(Ok(case), |wrong| {
        let what = format!("\"{}\": the volume that was packed {}", source.what, wrong);
        Err([what, format!("source kept as {}", source.keep())].join("\n  "))
    })
}

/// What packing must keep and has not, as far as the volume can be read.
fn not_kept(
    source: &[u8],
    packed: &[u8],
    layout: Layout,
    random: &mut Random,
) -> Option<&'static str> {
    let number = reference::number(packed, layout);
    let listed = |image| {
        let host = layout.for_host();
        [0, 1, 2, 3, 4].map(|directory| pnoelithe::catalogue(image, host, directory))
    };
    let label = |image: &[u8]| {
        let mut label = image[..56].to_vec();
        if layout.directories {
            // The label area is read without the three sector numbers.
            [30, 42, 54].into_iter().for_each(|number| label[number..number + 2].fill(0));
        }
        label
    };
    let rules = [
        (number == 0, "is not sound"),
        (label(source) == label(packed), "has another label area"),
        (Shelf::of(source, layout).is_on(packed, layout), "has another catalogue"),
        (listed(source) == listed(packed), "is listed otherwise"),
        (
            number != 0 || is_left_by_packing(packed, layout, random),
            "is packed to other bytes again",
        ),
    ];
    let broken = rules.into_iter().find(|(kept, _)| !kept);
    broken.map(|(_, what)| what)
}

fn is_left_by_packing(packed: &[u8], layout: Layout, random: &mut Random) -> bool {
    let arguments = into_target(packed.len()).by(layout, random);
    let mut expected = Memory::of(&arguments, packed, random);
    let mut lent = expected.clone();
    expected.lent().buffer.copy_from_slice(packed);
    (PACK.by_library)(lent.lent(), &arguments) == 0 && lent == expected
}
