//! Measures the library beside the reference, in tables of rows and sides (`host::speed`).
//!
//! `bench check` makes every call once and compares the answers. `bench runs` names the runs whose
//! instructions are to be counted, a table, row and side to a line; `bench repeat TABLE ROW SIDE` is
//! such a run. `bench tables` reads those lines, each with its count, writes the tables and holds
//! the library to its bounds; `bench time` writes the judges' table in nanoseconds.

use host::speed::{write_times, Table, NOBODY, TABLES, TIMES};
use host::table;
use std::collections::HashMap;
use std::io::Read;
use std::process::ExitCode;

fn main() -> ExitCode {
    let words: Vec<String> = std::env::args().skip(1).collect();
    let words: Vec<&str> = words.iter().map(String::as_str).collect();
    let done = match words[..] {
        ["check"] => check(),
        ["runs"] => name_runs(),
        ["repeat", table, row, side] => repeat(table, row, side),
        ["tables"] => write_tables(),
        ["time"] => write_times(),
        _ => Err("check, runs, repeat TABLE ROW SIDE, tables or time?".to_string()),
    };
    match done {
        Ok(()) => ExitCode::SUCCESS,
        Err(message) => {
            eprintln!("bench: {}", message);
            ExitCode::FAILURE
        }
    }
}

fn check() -> Result<(), String> {
    table::check()?;
    TABLES.iter().try_for_each(|table| (table.check)())
}

fn name_runs() -> Result<(), String> {
    for table in &TABLES {
        for row in 0..(table.rows)() {
            let sides = table.sides.iter().chain([&NOBODY]);
            sides.for_each(|side| println!("{}", run(table, row, side)));
        }
    }
    Ok(())
}

fn run(table: &Table, row: usize, side: &str) -> String {
    format!("{} {} {}", table.name, row, side)
}

fn repeat(table: &str, row: &str, side: &str) -> Result<(), String> {
    let table = TABLES.iter().find(|known| known.name == table).ok_or("no such table")?;
    let row = row.parse().map_err(|error| format!("{}: {}", row, error))?;
    (table.repeat)(row, side)
}

fn write_tables() -> Result<(), String> {
    let counts = read_counts()?;
    let mut missed = Vec::new();
    for table in &TABLES {
        let rows = 0..(table.rows)();
        let figures: Result<Vec<Vec<f64>>, String> =
            rows.map(|row| instructions_of_a_call(table, row, &counts)).collect();
        missed.extend((table.write)(&figures?));
        println!();
    }
    if missed.is_empty() {
        Ok(())
    } else {
        Err(format!("the bound is missed: {}", missed.join("; ")))
    }
}

/// The count of each run.
type Counts = HashMap<String, f64>;

fn read_counts() -> Result<Counts, String> {
    let mut input = String::new();
    std::io::stdin().read_to_string(&mut input).map_err(|error| error.to_string())?;
    let counts = input.lines().map(|line| {
        let (run, count) = line.rsplit_once(' ')?;
        Some((run.to_string(), count.parse().ok()?))
    });
    counts.collect::<Option<Counts>>().ok_or("a run without its count".to_string())
}

/// For each side. What a run does beside the calls falls out.
fn instructions_of_a_call(table: &Table, row: usize, counts: &Counts) -> Result<Vec<f64>, String> {
    let count = |side| {
        let run = run(table, row, side);
        counts.get(&run).copied().ok_or(format!("{}: not counted", run))
    };
    let beside = count(NOBODY)?;
    table.sides.iter().map(|side| Ok((count(side)? - beside) / TIMES as f64)).collect()
}
