//! How often each call gave each number by each layout, alone or with another one due as well, and
//! how often a part of the comparison met what it is meant to meet. What came up too rarely ends
//! the run: it would be compared in name only.

use crate::layout::Layout;
use crate::table::{Call, Case, Meeting, NUMBERS};
use crate::volumes::MOST_SECTORS;
use std::collections::{BTreeMap, BTreeSet};

/// How often everything that can be reached must at least have come up, each number by each edition
/// too, and each number by each layout.
pub(crate) const LEAST: u64 = 100;
const LEAST_BY_LAYOUT: u64 = 50;

/// Rows of the report: what they are called, the layouts that have one, and the numbers that can be
/// given in each.
pub(crate) type Reachable = (&'static str, &'static [Layout], Vec<u32>);

#[derive(Default)]
pub struct Tally {
    reachable: Vec<Reachable>,
    /// The calls' numbers that can be due at once.
    together: Vec<(&'static str, &'static [(u32, &'static [u32])])>,
    /// What any call may meet.
    meetings: Vec<Meeting>,
    /// What is to be met besides the numbers, in the order of the report.
    meant: Vec<&'static str>,
    given: BTreeMap<(&'static str, Layout, u32), u64>,
    pairs: BTreeMap<(&'static str, u32, u32), u64>,
    met: BTreeMap<&'static str, u64>,
    /// The sizes of sound volumes.
    sizes: BTreeSet<usize>,
}

impl Tally {
    /// Rows for each of these calls; they are meant to meet what all calls may, and what their own
    /// rows of the table say.
    pub(crate) fn of(calls: impl Iterator<Item = &'static Call>, meetings: &[&[Meeting]]) -> Self {
        let mut tally = Tally { meetings: meetings.concat(), ..Tally::default() };
        tally.mean(meetings.concat().iter().map(|(what, _)| *what));
        for call in calls {
            tally.reach((call.title, call.layouts(), call.numbers()));
            tally.mean(call.met.iter().map(|(what, _)| *what));
            if !call.together.is_empty() {
                tally.together.push((call.title, call.together));
            }
        }
        tally
    }

    /// More rows.
    pub(crate) fn reach(&mut self, rows: Reachable) {
        self.reachable.push(rows);
    }

    /// More that is to be met.
    pub(crate) fn mean(&mut self, whats: impl IntoIterator<Item = &'static str>) {
        for what in whats {
            if !self.meant.contains(&what) {
                self.meant.push(what);
            }
        }
    }

    /// Counts a case in the row of its call.
    pub(crate) fn count(&mut self, case: &Case) {
        let row = case.call.title;
        self.give(row, case.asked_by(), case.number);
        for due in &case.due {
            *self.pairs.entry((row, case.number, *due)).or_default() += 1;
        }
        let meetings = self.meetings.iter().chain(case.call.met);
        let met: Vec<(&str, bool)> = meetings.map(|(what, is_met)| (*what, is_met(case))).collect();
        self.meet_all(met);
        if let Some(disk) = case.asked.disk() {
            self.size(disk.sectors);
        }
    }

    pub(crate) fn give(&mut self, row: &'static str, layout: Layout, number: u32) {
        *self.given.entry((row, layout, number)).or_default() += 1;
    }

    pub(crate) fn meet(&mut self, what: &'static str) {
        *self.met.entry(what).or_default() += 1;
    }

    /// Counts those that are met.
    pub(crate) fn meet_all(&mut self, whats: impl IntoIterator<Item = (&'static str, bool)>) {
        let met = whats.into_iter().filter(|(_, is_met)| *is_met);
        met.for_each(|(what, _)| self.meet(what));
    }

    /// Counts the size of a sound volume.
    pub(crate) fn size(&mut self, sectors: usize) {
        self.sizes.insert(sectors);
    }

    /// How many numbers were given.
    pub(crate) fn total(&self) -> u64 {
        self.given.values().sum()
    }

    /// Writes what came up, and fails where something did too rarely.
    pub(crate) fn report(&self) -> Result<(), String> {
        self.write_numbers();
        for (what, count) in self.lines() {
            println!("{:>8} {}", count, what);
        }
        println!("{:>8} sizes of sound volumes", self.sizes.len());
        if self.sizes.len() < MOST_SECTORS - 2 {
            return Err("not every size of volume came up".to_string());
        }
        if self.numbers().iter().map(|(_, count)| count).sum::<u64>() < self.total() {
            return Err("a call gave a number that it cannot give".to_string());
        }
        hold(LEAST_BY_LAYOUT, self.numbers())?;
        hold(LEAST, self.numbers_by_edition())?;
        hold(LEAST, self.lines())?;
        self.report_pairs()
    }

    fn write_numbers(&self) {
        let is_given = |number: &u32| self.reachable.iter().any(|(_, _, own)| own.contains(number));
        let columns: Vec<u32> = NUMBERS.into_iter().filter(is_given).collect();
        write_row("calls that gave", columns.iter().map(|number| number.to_string()));
        for (row, layout, reachable) in self.rows() {
            let cell = |number: &u32| match reachable.contains(number) {
                true => self.given(row, layout, *number).to_string(),
                false => "-".to_string(),
            };
            write_row(&title(row, layout), columns.iter().map(cell));
        }
    }

    /// Each row with its layout.
    fn rows(&self) -> impl Iterator<Item = (&'static str, Layout, &[u32])> {
        let rows = self.reachable.iter();
        rows.flat_map(|(row, layouts, reachable)| {
            layouts.iter().map(move |layout| (*row, *layout, &reachable[..]))
        })
    }

    fn given(&self, row: &'static str, layout: Layout, number: u32) -> u64 {
        self.given.get(&(row, layout, number)).copied().unwrap_or(0)
    }

    /// Every number that can be given in a row, and how often it was.
    pub(crate) fn numbers(&self) -> Vec<(String, u64)> {
        let mut numbers = Vec::new();
        for (row, layout, reachable) in self.rows() {
            let what = |number| format!("{} {}", title(row, layout), number);
            let given = |number: &u32| (what(*number), self.given(row, layout, *number));
            numbers.extend(reachable.iter().map(given));
        }
        numbers
    }

    /// The same, whatever the rule.
    fn numbers_by_edition(&self) -> Vec<(String, u64)> {
        let mut numbers = Vec::new();
        for (row, layout, reachable) in self.rows().filter(|(_, layout, _)| !layout.marks) {
            let rules = layout.of_edition();
            let given = |number| rules.iter().map(|by| self.given(row, *by, number)).sum();
            let what = |number| format!("{} {}, whatever the rule", title(row, layout), number);
            numbers.extend(reachable.iter().map(|each| (what(*each), given(*each))));
        }
        numbers
    }

    /// All else that is to be met, and how often it was.
    fn lines(&self) -> Vec<(String, u64)> {
        let line = |what: &&str| (what.to_string(), self.met.get(what).copied().unwrap_or(0));
        self.meant.iter().map(line).collect()
    }

    fn report_pairs(&self) -> Result<(), String> {
        if !self.together.is_empty() {
            println!("number given, and another one due as well");
        }
        for (row, together) in &self.together {
            let pairs =
                together.iter().flat_map(|(given, due)| due.iter().map(|due| (*given, *due)));
            let count = |(given, due): (u32, u32)| {
                let count = self.pairs.get(&(*row, given, due)).copied().unwrap_or(0);
                (format!("{}+{}", given, due), count)
            };
            let counts: Vec<(String, u64)> = pairs.map(count).collect();
            let cells: Vec<String> =
                counts.iter().map(|(pair, count)| format!("{}: {}", pair, count)).collect();
            println!("{:<34}  {}", row, cells.join("  "));
            hold(LEAST, counts).map_err(|rare| format!("{}: {}", row, rare))?;
        }
        Ok(())
    }
}

/// A row as it is written: by the new rule and by the second edition it says so.
fn title(row: &str, layout: Layout) -> String {
    let marks = if layout.marks { ", marks" } else { "" };
    [row, marks, if layout.directories { ", directories" } else { "" }].concat()
}

pub(crate) fn write_row(title: &str, cells: impl Iterator<Item = String>) {
    let cells: String = cells.map(|cell| format!("{:>7}", cell)).collect();
    println!("{:<34}{}", title, cells);
}

/// Fails where one of these came up fewer times than so many.
pub(crate) fn hold(least: u64, counts: Vec<(String, u64)>) -> Result<(), String> {
    let rare = counts.into_iter().filter(|(_, count)| *count < least);
    let rare: Vec<String> = rare.map(|(what, count)| format!("{} ({})", what, count)).collect();
    if rare.is_empty() {
        Ok(())
    } else {
        Err(format!("came up fewer than {} times: {}", least, rare.join("; ")))
    }
}
