//! The frame of every part of the comparison: a seed and what comes of it, a volume of every size,
//! others by chance, images from outside, and a report.

use crate::outside::Outside;
use crate::random::Random;
use crate::tally::Tally;
use crate::volumes::MOST_SECTORS;

/// What a part of the comparison compares.
pub trait Part {
    /// What it counts.
    const TITLE: &'static str;

    fn new() -> Self;

    /// What the paper prints, and all else that comes once and first.
    fn begin(&mut self, random: &mut Random) -> Result<(), String>;

    /// Some of what is counted, on a volume of so many sectors and on what is made of it.
    fn on_volume_of(&mut self, sectors: usize, random: &mut Random) -> Result<(), String>;

    /// The size of a volume, once there was one of every size.
    fn any_size(random: &mut Random) -> usize {
        random.within(3..=MOST_SECTORS)
    }

    /// The same on an image from outside.
    fn on_outside(&mut self, outside: &Outside, random: &mut Random) -> Result<(), String>;

    fn tally(&self) -> &Tally;

    /// How much was compared.
    fn total(&self) -> u64 {
        self.tally().total()
    }

    /// Writes what came up, and fails where something did too rarely.
    fn report(&self) -> Result<(), String> {
        self.tally().report()
    }
}

pub struct Comparison<P> {
    seed: u64,
    random: Random,
    part: P,
}

impl<P: Part> Comparison<P> {
    pub fn new(seed: u64) -> Self {
        Comparison { seed, random: Random::new(seed), part: P::new() }
    }

    /// What comes first, then a volume of every size, then others until so much was compared.
    pub fn run(&mut self, least: u64) -> Result<(), String> {
        println!("{}, seed {}", P::TITLE, self.seed);
        self.placed(|part, random| part.begin(random))?;
        let mut sizes: Vec<usize> = (3..=MOST_SECTORS).collect();
        self.random.shuffle(&mut sizes);
        for sectors in sizes {
            self.placed(|part, random| part.on_volume_of(sectors, random))?;
        }
        while self.total() < least {
            let sectors = P::any_size(&mut self.random);
            self.placed(|part, random| part.on_volume_of(sectors, random))?;
        }
        Ok(())
    }

    pub fn outside(&mut self, outside: &Outside) -> Result<(), String> {
        self.placed(|part, random| part.on_outside(outside, random))
    }

    /// Does a step; where it goes wrong, says where in the run.
    fn placed(
        &mut self,
        step: impl FnOnce(&mut P, &mut Random) -> Result<(), String>,
    ) -> Result<(), String> {
        step(&mut self.part, &mut self.random).map_err(|wrong| {
            format!("{}\n  seed {}, after {} {}", wrong, self.seed, self.total(), P::TITLE)
        })
    }

    pub fn total(&self) -> u64 {
        self.part.total()
    }

    pub fn report(&self) -> Result<(), String> {
        self.part.report()?;
        println!("compared {} {}, seed {}: no difference", self.total(), P::TITLE, self.seed);
        Ok(())
    }
}
