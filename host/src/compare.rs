//! Compares the library with what this folder has beside it: its judge on many thousand images,
//! then its other calls, then sequences of calls that write, then such calls cut short and repaired,
//! then programs length by length, then names byte by byte, then packing. All of it is done for a
//! seed, and then for as many more as are asked for.
//!
//! `compare [--images N] [--calls N] [--sequences N] [--cuts N] [--packs N] [--seed S] [--seeds N]
//! [IMAGE...]`

use host::calls::Calls;
use host::comparison::{Comparison, Part};
use host::cuts::Cuts;
use host::images::Images;
use host::layout::Layout;
use host::outside::Outside;
use host::packing::Packs;
use host::sequences::Sequences;
use host::{lengths, library, names, table};
use std::path::PathBuf;
use std::process::ExitCode;

fn main() -> ExitCode {
    match Arguments::read().and_then(|arguments| run(&arguments)) {
        Ok(()) => ExitCode::SUCCESS,
        Err(message) => {
            eprintln!("compare: {}", message);
            ExitCode::FAILURE
        }
    }
}

struct Arguments {
    images: u64,
    calls: u64,
    /// How many calls the sequences have together.
    sequences: u64,
    cuts: u64,
    packs: u64,
    /// The first seed, and how many there are from it on.
    seed: u64,
    seeds: u64,
    files: Vec<PathBuf>,
}

impl Arguments {
    fn read() -> Result<Self, String> {
        let (images, calls, sequences) = (200_000, 200_000, 480_000);
        let (cuts, packs, seed, seeds, files) = (40_000, 14_000, 1, 1, Vec::new());
        let mut arguments = Arguments { images, calls, sequences, cuts, packs, seed, seeds, files };
        let mut words = std::env::args().skip(1);
        while let Some(word) = words.next() {
            match word.as_str() {
                "--images" => arguments.images = number_after(&word, words.next())?,
                "--calls" => arguments.calls = number_after(&word, words.next())?,
                "--sequences" => arguments.sequences = number_after(&word, words.next())?,
                "--cuts" => arguments.cuts = number_after(&word, words.next())?,
                "--packs" => arguments.packs = number_after(&word, words.next())?,
                "--seed" => arguments.seed = number_after(&word, words.next())?,
                "--seeds" => arguments.seeds = number_after(&word, words.next())?,
                _ => arguments.files.push(PathBuf::from(word)),
            }
        }
        Ok(arguments)
    }

    fn last_seed(&self) -> u64 {
        self.seed + self.seeds - 1
    }
}

fn number_after(word: &str, next: Option<String>) -> Result<u64, String> {
    let number = next.and_then(|next| next.parse().ok());
    number.ok_or_else(|| format!("{} wants a number", word))
}

fn run(arguments: &Arguments) -> Result<(), String> {
    table::check()?;
    let outside = arguments.files.iter().map(|path| Outside::read(path));
    let outside = outside.collect::<Result<Vec<_>, _>>()?;
    list(&outside);
    let (mut images, mut calls, mut cuts, mut packs) = (0, 0, 0, 0);
    for seed in arguments.seed..=arguments.last_seed() {
        images += compared::<Images>(seed, arguments.images, &outside)?;
        calls += compared::<Calls>(seed, arguments.calls, &outside)?;
        calls += compared::<Sequences>(seed, arguments.sequences, &outside)?;
        cuts += compared::<Cuts>(seed, arguments.cuts, &outside)?;
        calls += lengths::compared(seed)?;
        calls += names::compared(seed)?;
        packs += compared::<Packs>(seed, arguments.packs, &outside)?;
    }
    let seeds = match arguments.seeds {
        1 => format!("seed {}", arguments.seed),
        seeds => format!("{} seeds, {} to {}", seeds, arguments.seed, arguments.last_seed()),
    };
    println!(
        "compared {} images, {} calls, {} cuts and {} packs, {}: no difference",
        images, calls, cuts, packs, seeds
    );
    Ok(())
}

/// The images from outside: the library's number for each by every layout, and what came with it.
fn list(outside: &[Outside]) {
    for Outside { name, image, numbers, .. } in outside {
        let by_layout = Layout::ALL.map(|layout| {
            let expected = numbers.by(layout);
            let expected =
                expected.map_or(String::new(), |number| format!(", expected {}", number));
            format!("{}{}", library::number(image, layout), expected)
        });
        let [old, marks, directories, both] = by_layout;
        println!(
            "{}: {}; with marks {}; with directories {}; with both {}",
            name, old, marks, directories, both
        );
    }
    println!("{} images from outside\n", outside.len());
}

/// A part of the comparison from end to end; how much was compared.
fn compared<P: Part>(seed: u64, least: u64, outside: &[Outside]) -> Result<u64, String> {
    let mut comparison = Comparison::<P>::new(seed);
    comparison.run(least)?;
    outside.iter().try_for_each(|outside| comparison.outside(outside))?;
    comparison.report()?;
    println!();
    Ok(comparison.total())
}
