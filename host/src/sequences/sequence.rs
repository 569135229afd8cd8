//! One image and what is known of it, from call to call.

use super::shelf::Shelf;
use crate::layout::Layout;
use crate::random::Random;
use crate::reference;
use crate::suites::{Image, Numbers};
use crate::table::plan::{numbers_of, of_image};
use crate::table::{compared, Arguments, Call};
use crate::tally::Tally;
use crate::volumes::Disk;

/// The row of all calls that read.
pub(super) const READING: &str = "reading calls";

pub(super) struct Sequence {
    /// The plan, with the image as it must be.
    pub disk: Disk,
    shelf: Shelf,
    /// An image that is sound by no layout, and stands in for the plan's until it is formatted.
    unsound: Option<Vec<u8>>,
    /// The image's own.
    numbers: Numbers,
}

impl Sequence {
    pub(super) fn on(disk: Disk) -> Self {
        let (shelf, numbers) = (Shelf::of(&disk.image, disk.layout()), numbers_of(&disk.image));
        Sequence { disk, shelf, unsound: None, numbers }
    }

    /// Goes on with other bytes, and with the files that they hold where they are sound.
    pub(super) fn goes_on_with(&mut self, image: &[u8]) {
        if let Some(disk) = of_image(image) {
            *self = Sequence::on(disk);
        } else {
            self.unsound = Some(image.to_vec());
            self.numbers = numbers_of(image);
        }
    }

    /// The image's own by a layout: 0 as long as it is sound by that.
    pub(super) fn number(&self, layout: Layout) -> Option<u32> {
        self.numbers.by(layout)
    }

    /// What a repair gives for it.
    pub(super) fn repaired(&self, layout: Layout) -> Option<u32> {
        self.numbers.repaired(layout)
    }

    /// The image as it must be.
    pub(super) fn image(&self) -> &[u8] {
        self.unsound.as_ref().unwrap_or(&self.disk.image)
    }

    /// The number of a call, if all agree on what it does. One that is refused has left the image as
    /// it was, so the shelf is looked at where it is done.
    pub(super) fn call(
        &mut self,
        call: &'static Call,
        arguments: &Arguments,
        random: &mut Random,
        tally: &mut Tally,
    ) -> Result<u32, String> {
        let planned = (self.number(self.disk.layout()) == Some(0)).then_some(&self.disk);
        let (bytes, numbers) = (self.image(), self.numbers);
        let image = Image { what: "the image of a sequence", bytes, numbers, planned };
        let case = compared(call, arguments, &image, random)?;
        let (number, asked_by, by) = (case.number, case.asked_by(), case.asked.by);
        match call.reading() {
            Some(_) => tally.give(READING, asked_by, number),
            None if call.is_changing() => tally.count(&case),
            None => tally.give(call.title, asked_by, number),
        }
        match (case.disk, call.writing()) {
            (Some(disk), Some(writing)) => {
                self.shelf.change(writing, arguments);
                if !self.shelf.is_on(&disk.image, by) {
                    let kept = Image::as_planned("", &self.disk).keep();
                    let now = reference::number(&disk.image, by);
                    return Err(format!(
                        "{} {:?}: number {} now, or other files than there should be\n  \
                         image before the call kept as {}",
                        call.title, arguments, now, kept
                    ));
                }
                self.numbers = Numbers::of_sound(&disk);
                self.disk = disk;
            }
            (Some(disk), None) => *self = Sequence::on(disk),
            (None, _) => {}
        }
        Ok(number)
    }
}
