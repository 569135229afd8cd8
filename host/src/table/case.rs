//! One call that is made and compared: the answers that it is held to, byte for byte.

use super::lent::Memory;
use super::plan::{faults, planned, takes, Planned};
use super::{Arguments, Asked, Call, Written};
use crate::layout::Layout;
use crate::pnoelithe::Refusal;
use crate::random::Random;
use crate::suites::Image;
use crate::volumes::Disk;

/// A call that was compared.
pub(crate) struct Case<'case> {
    pub call: &'static Call,
    pub asked: Asked<'case>,
    pub number: u32,
    /// The numbers that are known to have been due as well.
    pub due: Vec<u32>,
    pub written: Written,
    /// The disk by the plan, where the call has made or changed it.
    pub disk: Option<Disk>,
}

impl Case<'_> {
    /// Whether it gave one of the numbers of the image.
    pub(crate) fn is_unsound(&self) -> bool {
        self.call.is_judging() && (1..=6).contains(&self.number)
    }

    /// The layout that it was asked with, of a call that takes one.
    pub(crate) fn asked_by(&self) -> Layout {
        if self.call.is_judging() {
            self.asked.arguments.layout()
        } else {
            Layout::OLD
        }
    }

    pub(crate) fn is_done(&self) -> bool {
        self.number == 0
    }

    /// How many bytes a buffer of any length has more than the answer takes: by the plan where that is
    /// refused.
    pub(crate) fn spare(&self) -> Option<isize> {
        let takes = match self.number {
            0 => self.written.bytes.len(),
            15 => takes(self.call, &self.asked)?,
            _ => return None,
        };
        let is_of_any_length = self.call.tests.iter().any(|(number, _)| *number == 15);
        is_of_any_length.then_some(self.asked.room as isize - takes as isize)
    }
}

/// A call, if library, reference and plan agree on what it gives, and else how they do not.
pub(crate) fn compared<'case>(
    call: &'static Call,
    arguments: &'case Arguments,
    image: &'case Image<'case>,
    random: &mut Random,
) -> Result<Case<'case>, String> {
    let asked = Asked { arguments, image, by: call.layout(arguments) };
    let faults = faults(call, &asked);
    let planned = planned(call, &asked, &faults);
    let mut lent = Memory::of(arguments, image.bytes, random);
    let (mut of_host, mut expected) = (lent.clone(), lent.clone());
    let (number, written) = match (call.by_reference)(expected.image.lent(), arguments) {
        Ok(answer) => (0, answer.written()),
        Err(refusal) => (refusal.number(), Written::refused(call, refusal)),
    };
    expected.write(&written);
    let agreed = planned.as_ref().map_or(true, |planned| {
        let image = planned.disk.as_ref().map_or(image.bytes, |disk| &disk.image);
        (planned.number, &planned.written, image) == (number, &written, expected.image.seen())
    });
    let by_library = (call.by_library)(lent.lent(), arguments);
    let is_right = agreed && by_library == number && lent == expected;
    // What a host calls takes the library at its word.
    let by_host = is_right.then(|| match (call.by_host)(of_host.lent(), arguments) {
        Ok(()) => 0,
        Err(refusal) => {
            if let Refusal::Name { place } = refusal {
                *of_host.lent().wrong = place;
            }
            of_host.write(&Written::nothing(call));
            refusal.number()
        }
    });
    if by_host == Some(number) && of_host == expected {
        let due = faults.into_iter().filter(|due| *due != number).collect();
        let disk = planned.and_then(|planned| planned.disk);
        return Ok(Case { call, asked, number, due, written, disk });
    }
    let by_host = by_host.map_or(String::new(), |number| format!(", by pnoelithe.rs {}", number));
    let memory = if is_right { of_host } else { lent }.difference(&expected);
    let lines = [
        format!("difference in {} on \"{}\": {:?}", call.title, image.what, arguments),
        format!("library {}{}", by_library, by_host),
        format!("reference {}", describe(number, &written)),
        planned.map_or("plan not known".to_string(), |planned| told(&planned, agreed)),
        memory.unwrap_or_else(|| "memory as the reference has it".to_string()),
        format!("image before the call kept as {}", image.keep()),
    ];
    Err(lines.join("\n  "))
}

fn told(planned: &Planned, agreed: bool) -> String {
    let otherwise = if agreed { "" } else { ", otherwise than the reference in number or bytes" };
    format!("plan {}{}", describe(planned.number, &planned.written), otherwise)
}

fn describe(number: u32, written: &Written) -> String {
    let Written { bytes, numbers, which, wrong, writes } = written;
    let first = &bytes[..bytes.len().min(8)];
    match (number, writes) {
        (0, Some(writes)) => format!("0 with writes of {:?}", writes),
        (0, None) => {
            format!("0 with {} bytes {:?}.. and numbers {:?}", bytes.len(), first, numbers)
        }
        (7, _) => format!("7 with which {:?} and wrong {:?}", which, wrong),
        _ => number.to_string(),
    }
}
