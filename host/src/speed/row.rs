//! A call on a volume, by the library or by the reference.

use super::volume::Volume;
use super::{by, NOBODY, TIMES};
use crate::layout::Layout;
use crate::random::Random;
use crate::reference;
use crate::table::lent::{Lent, Memory};
use crate::table::{Arguments, Call};

pub(super) struct Row {
    pub call: &'static Call,
    /// What stands behind the call's title.
    pub what: &'static str,
    pub layout: Layout,
    pub volume: Volume,
}

/// What the call is asked with, and the memory before it.
struct Prepared {
    arguments: Arguments,
    memory: Memory,
}

impl Row {
    pub(super) fn call_title(&self) -> String {
        [self.call.title, self.what, by(self.layout)].concat()
    }

    pub(super) fn title(&self) -> String {
        let Volume { what, sectors, .. } = self.volume;
        format!("{} on {} sectors, {}", self.call_title(), sectors, what)
    }

    fn prepared(&self) -> Prepared {
        let mut full = self.volume.build();
        if self.layout.marks {
            full.mark_others();
        }
        let layout_bits = self.layout.bits();
        let arguments = Arguments { layout_bits, ..(self.call.measured.arguments)(&full) };
        let memory = Memory::of(&arguments, &full.disk.image, &mut Random::new(3));
        Prepared { arguments, memory }
    }

    /// Makes the call again and again, each time on a fresh copy of the image.
    pub(super) fn repeat(&self, side: &str) -> Result<(), String> {
        let call = match side {
            NOBODY => |_: &Call, _: Lent, _: &Arguments| {},
            "library" => |call: &Call, lent: Lent, arguments: &Arguments| {
                (call.by_library)(lent, arguments);
            },
            "reference" => |call: &Call, lent: Lent, arguments: &Arguments| {
                drop((call.by_reference)(lent.image, arguments));
            },
            _ => return Err(format!("no such side: {}", side)),
        };
        let before = self.prepared();
        self.check_with(&before)?;
        let mut memory = before.memory.clone();
        for _ in 0..TIMES {
            memory.image.lent().copy_from_slice(before.memory.image.seen());
            call(self.call, memory.lent(), &before.arguments);
        }
        Ok(())
    }

    /// That both are done with the call and leave the same bytes, on a volume that is full before
    /// the call or after it.
    pub(super) fn check(&self) -> Result<(), String> {
        self.check_with(&self.prepared())
    }

    fn check_with(&self, prepared: &Prepared) -> Result<(), String> {
        let Prepared { arguments, memory: before } = prepared;
        let wrong = |what: &str| Err(format!("{}: {}", self.title(), what));
        let (mut lent, mut expected) = (before.clone(), before.clone());
        let written = match (self.call.by_reference)(expected.image.lent(), arguments) {
            Ok(answer) => answer.written(),
            Err(_) => return wrong("refused by the reference"),
        };
        expected.write(&written);
        if (self.call.by_library)(lent.lent(), arguments) != 0 {
            return wrong("refused by the library");
        }
        if lent != expected {
            return wrong("the library leaves other bytes than the reference");
        }
        let is_full = |image: &[u8]| reference::free_count(image, self.layout) == Ok(0);
        if is_full(before.image.seen()) || is_full(lent.image.seen()) {
            Ok(())
        } else {
            wrong("the volume is not full")
        }
    }
}

/// A row by its number.
pub(super) fn repeat(rows: &[Row], row: usize, side: &str) -> Result<(), String> {
    rows.get(row).ok_or("no such row")?.repeat(side)
}
