//! How much stack the archive's code can take, from its disassembly by `objdump -dr -M intel
//! --no-show-raw-insn`, with what `objdump -r` says of its tables behind it. An instruction that may
//! move the stack pointer otherwise than it is counted here is an error, and so is a call whose
//! target is not known.

use std::collections::{BTreeMap, BTreeSet};

/// A return address, or a register that is saved.
const WORD: usize = 8;

/// What the archive takes from the host's C library. Of these only the return address counts.
const OUTSIDE: [&str; 4] = ["memcpy", "memmove", "memset", "memcmp"];

/// The functions of the archive, by their names.
pub struct Frames {
    frames: BTreeMap<String, Frame>,
}

impl Frames {
    pub fn of(listing: &str) -> Result<Self, String> {
        let mut frames: BTreeMap<String, Frame> = BTreeMap::new();
        let mut name = "";
        let (code, records) = listing.split_once(RECORDS).unwrap_or((listing, ""));
        let tables = tables(records);
        let lines: Vec<&str> = code.lines().collect();
        for (place, line) in lines.iter().enumerate() {
            if let Some(begun) = function(line) {
                name = begun;
                frames.insert(name.to_string(), Frame::default());
            } else if is_by_table(&lines[..=place]) && leads_only_into(name, &tables) {
                // It stays in the function, and the stack pointer stays where it is.
            } else if let (Some(frame), None) = (frames.get_mut(name), relocation(line)) {
                let relocation = lines.get(place + 1).and_then(|next| relocation(next));
                let read = frame.read(line, relocation.or_else(|| leads_to(line)), name);
                read.map_err(|wrong| format!("{}, {}: {}", name, wrong, line))?;
            }
        }
        Ok(Frames { frames })
    }

    /// The bytes from where the stack pointer was before a call of the function on, so its return
    /// address is among them.
    pub fn depth(&self, name: &str) -> Result<usize, String> {
        self.depth_after(name, &[])
    }

    /// The same where the functions of a path have not returned yet.
    fn depth_after(&self, name: &str, path: &[&str]) -> Result<usize, String> {
        if OUTSIDE.contains(&name) {
            return Ok(WORD);
        }
        if path.contains(&name) {
            return Err(format!("{} calls itself", name));
        }
        let frame = self.frames.get(name).ok_or_else(|| format!("no code for {}", name))?;
        let path = [path, &[name]].concat();
        let mut below = frame.below;
        for called in &frame.called {
            below = below.max(self.depth_after(called, &path)?);
        }
        Ok(WORD + frame.taken + below)
    }
}

/// What stands before each section's part of what `objdump -r` says.
const RECORDS: &str = "RELOCATION RECORDS FOR [";

/// The functions that the words of each section lead into.
fn tables(records: &str) -> BTreeMap<&str, BTreeSet<&str>> {
    let table = |part| -> Option<(&str, BTreeSet<&str>)> {
        let (section, words) = str::split_once(part, "]:")?;
        let symbols =
            words.lines().filter_map(|word| word.split_once("R_X86_64_")?.1.split_once(' '));
        Some((section, symbols.map(|(_, symbol)| place_in(symbol.trim())).collect()))
    };
    records.split(RECORDS).filter_map(table).collect()
}

/// Whether a function's own table has nothing but places of the function.
fn leads_only_into(name: &str, tables: &BTreeMap<&str, BTreeSet<&str>>) -> bool {
    let table = tables.get([".rodata.", name].concat().as_str());
    table.map_or(false, |functions| functions.iter().eq([&name]))
}

/// Whether the last of these instructions jumps to a table's start plus what was just read from that
/// table.
fn is_by_table(lines: &[&str]) -> bool {
    let words = |line: &&str| line.split_whitespace().skip(1).collect::<Vec<_>>().join(" ");
    let last: Vec<String> = lines.iter().rev().take(3).map(words).collect();
    let by_table = || {
        let to = last.first()?.strip_prefix("jmp ")?;
        let start = last.get(1)?.strip_prefix("add ")?.strip_prefix(to)?.strip_prefix(',')?;
        let read = format!("movsxd {},DWORD PTR [{}+", to, start);
        Some(last.get(2)?.starts_with(&read))
    };
    by_table().unwrap_or(false)
}

/// The function in which a symbol lies, by its name or by that of its section.
fn place_in(symbol: &str) -> &str {
    let offset = symbol.rfind("+0x").or_else(|| symbol.rfind("-0x"));
    let name = &symbol[..offset.unwrap_or(symbol.len())];
    name.strip_prefix(".text.").unwrap_or(name)
}

/// The name where a function begins.
fn function(line: &str) -> Option<&str> {
    line.strip_suffix(">:")?.split_once(" <").map(|(_, name)| name)
}

/// The function that the linker is to put into the instruction before, where the line says that.
fn relocation(line: &str) -> Option<&str> {
    let (_, symbol) = line.split_once("R_X86_64_")?.1.split_once('\t')?;
    Some(place_in(symbol))
}

/// The function that a jump or a call leads into as it stands.
fn leads_to(line: &str) -> Option<&str> {
    let (_, place) = line.strip_suffix('>')?.rsplit_once(" <")?;
    Some(place.rsplit_once("+0x").map_or(place, |(name, _)| name))
}

/// What a function does to the stack.
#[derive(Default)]
struct Frame {
    /// All that it takes, wherever in its code. The stack pointer is as deep at an instruction
    /// whichever way led there, so no way takes more than each of these once.
    taken: usize,
    /// How far it reaches below the stack pointer.
    below: usize,
    called: BTreeSet<String>,
}

impl Frame {
    /// An instruction of the function with that name, with the function that it leads to.
    fn read(&mut self, line: &str, target: Option<&str>, name: &str) -> Result<(), &'static str> {
        let words: Vec<&str> = line.split_whitespace().skip(1).collect();
        match words[..] {
            ["push", ..] => self.taken += WORD,
            ["sub" | "add", operands] if operands.starts_with("rsp,") => {
                let number = hexadecimal(&operands[4..]).ok_or("not a number")?;
                let taken = if words[0] == "sub" { number } else { -number };
                self.taken += taken.max(0) as usize;
            }
            ["call", to, ..] => {
                let called = target.filter(|_| is_known(to)).ok_or("target not known")?;
                self.called.insert(called.to_string());
            }
            [jump, to, ..] if jump.starts_with('j') => {
                let other = target.filter(|_| is_known(to)).ok_or("target not known")?;
                if other != name {
                    self.called.insert(other.to_string());
                }
            }
            ["enter" | "leave" | "bnd" | "notrack", ..] => return Err("not counted"),
            [_, operands, ..] if operands.starts_with("rsp,") => return Err("not counted"),
            _ => {}
        }
        self.below = self.below.max(reach(line)?);
        Ok(())
    }
}

/// Whether a jump or a call has its target in it; others take it from a register or from memory.
fn is_known(to: &str) -> bool {
    to.chars().all(|letter| letter.is_ascii_hexdigit())
}

/// How far below the stack pointer an instruction reads or writes.
fn reach(line: &str) -> Result<usize, &'static str> {
    let address = line.split_once("[rsp").and_then(|(_, rest)| rest.split_once(']'));
    match address.and_then(|(address, _)| address.rsplit_once('-')) {
        Some((_, number)) => Ok(hexadecimal(number).ok_or("not a number")? as usize),
        None => Ok(0),
    }
}

/// A number of 64 bits, which may be a negative one.
fn hexadecimal(number: &str) -> Option<i64> {
    u64::from_str_radix(number.strip_prefix("0x")?, 16).map(|number| number as i64).ok()
}
