//! Measures how much stack each call of the library takes at most, beside what its code can take,
//! and holds both to what the header says.
//!
//! `stack HEADER <LISTING`, with the listing that `frames` reads. The calls are those of the
//! comparison. The program is linked so that each goes to `measured` in place of the library
//! (`--wrap`). There it is made anew on memory that was filled with a pattern; afterwards the lowest
//! byte that is not the pattern's is sought.

use host::frames::Frames;
use host::{calls, packing, sequences, table};
use std::arch::global_asm;
use std::cell::RefCell;
use std::collections::BTreeMap;
use std::ffi::CStr;
use std::io::Read;
use std::os::raw::c_char;
use std::process::ExitCode;
use std::ptr::addr_of_mut;

const SEED: u64 = 1;
const CALLS: u64 = 200_000;
const CALLS_IN_SEQUENCES: u64 = 480_000;
const PACKS: u64 = 14_000;
/// How often each function must at least have been called.
const LEAST_CALLS: usize = 1000;

fn main() -> ExitCode {
    let header = std::env::args().nth(1).ok_or_else(|| "HEADER?".to_string());
    match header.and_then(|path| run(&path)) {
        Ok(()) => ExitCode::SUCCESS,
        Err(message) => {
            eprintln!("stack: {}", message);
            ExitCode::FAILURE
        }
    }
}

fn run(path: &str) -> Result<(), String> {
    table::check()?;
    let header = std::fs::read_to_string(path).map_err(|error| format!("{}: {}", path, error))?;
    let mut listing = String::new();
    std::io::stdin().read_to_string(&mut listing).map_err(|error| error.to_string())?;
    let frames = Frames::of(&listing)?;
    let rows: Result<Vec<Row>, String> =
        said(&header).into_iter().map(|(call, said)| Row::of(call, said, &frames)).collect();
    let rows = rows?;
    make_calls()?;
    println!();
    println!("| Call | Calls | Bytes measured | By its code | By the header |");
    println!("|---|---:|---:|---:|---:|");
    rows.iter().for_each(Row::write);
    rows.iter().try_for_each(Row::hold)
}

/// The calls of the header, each with the bytes that the comment before it says.
fn said(header: &str) -> Vec<(&str, Option<usize>)> {
    let mut bytes = None;
    let mut said = Vec::new();
    for line in header.lines() {
        if line.starts_with("/*") {
            bytes = None;
        }
        if let Some((_, rest)) = line.split_once("Stack: at most ") {
            bytes = rest.split(' ').next().and_then(|number| number.replace(',', "").parse().ok());
        }
        if let Some((call, _)) =
            line.strip_prefix("uint32_t ").and_then(|line| line.split_once('('))
        {
            said.push((call, bytes));
        }
    }
    said
}

/// Both comparisons of calls and that of packs: each ends where a call gives something wrong, and
/// where a number came up too rarely.
fn make_calls() -> Result<(), String> {
    let mut single = calls::Comparison::new(SEED);
    single.run(CALLS)?;
    single.report()?;
    println!();
    let mut in_sequences = sequences::Comparison::new(SEED);
    in_sequences.run(CALLS_IN_SEQUENCES)?;
    in_sequences.report()?;
    println!();
    let mut packs = packing::Comparison::new(SEED);
    packs.run(PACKS)?;
    packs.report()
}

/// A call, and the bytes from where the stack pointer was before it.
struct Row<'header> {
    call: &'header str,
    by_code: usize,
    by_header: Option<usize>,
}

impl<'header> Row<'header> {
    fn of(call: &'header str, by_header: Option<usize>, frames: &Frames) -> Result<Self, String> {
        Ok(Row { call, by_code: frames.depth(call)?, by_header })
    }

    fn measured(&self) -> Measured {
        MEASURED.with(|measured| measured.borrow().get(self.call).copied().unwrap_or_default())
    }

    fn write(&self) {
        let Row { call, by_code, by_header } = self;
        let Measured { calls, deepest: [first, second] } = self.measured();
        let most = first.max(second);
        let by_header = by_header.map_or("none".to_string(), |bytes| bytes.to_string());
        println!("| `{}` | {} | {} | {} | {} |", call, calls, most, by_code, by_header);
    }

    fn hold(&self) -> Result<(), String> {
        let Measured { calls, deepest: [first, second] } = self.measured();
        let rules = [
            (calls >= LEAST_CALLS, "was called too rarely"),
            (first == second, "was measured otherwise with the other pattern"),
            (first <= self.by_code, "takes more than its code can take"),
            (Some(self.by_code) <= self.by_header, "can take more than the header says"),
        ];
        let broken = rules.into_iter().find(|(kept, _)| !kept);
        broken.map_or(Ok(()), |(_, what)| Err(format!("{} {}", self.call, what)))
    }
}

/// How often a function was called, and the most bytes with each pattern.
#[derive(Clone, Copy, Default)]
struct Measured {
    calls: usize,
    deepest: [usize; 2],
}

impl Measured {
    /// Which pattern is next: the calls of a function take one and the other in turn.
    fn turn(&self) -> usize {
        self.calls % 2
    }
}

thread_local! {
    static MEASURED: RefCell<BTreeMap<&'static str, Measured>> = RefCell::default();
}

/// They differ in every bit, so that a byte written as one of them has it is found with the other.
const PATTERNS: [u64; 2] = [0x5A5A_5A5A_5A5A_5A5A, 0xA5A5_A5A5_A5A5_A5A5];

const WORDS: usize = 4096;
/// How many of them `measured` writes before the call.
const LAID: usize = 8;

#[repr(C, align(16))]
struct Memory([u64; WORDS]);

/// What the calls have as their stack.
static mut MEMORY: Memory = Memory([0; WORDS]);

/// Fills the memory for a call of the function, and gives its end.
#[no_mangle]
extern "C" fn fill_memory(call: *const c_char) -> *mut u64 {
    let pattern = with_measured(call, |measured| PATTERNS[measured.turn()]);
    unsafe {
        let words = addr_of_mut!(MEMORY).cast::<u64>();
        (0..WORDS).for_each(|word| words.add(word).write(pattern));
        words.add(WORDS)
    }
}

/// Looks how deep the call came.
#[no_mangle]
extern "C" fn read_memory(call: *const c_char) {
    with_measured(call, |measured| {
        let turn = measured.turn();
        let deepest = &mut measured.deepest[turn];
        *deepest = (*deepest).max(8 * (WORDS - LAID) - untouched(PATTERNS[turn]));
        measured.calls += 1;
    });
}

/// How many bytes at the low end of the memory are the pattern's.
fn untouched(pattern: u64) -> usize {
    let bits = |word| unsafe { addr_of_mut!(MEMORY).cast::<u64>().add(word).read() } ^ pattern;
    let word = (0..WORDS).find(|word| bits(*word) != 0).expect("a return address");
    8 * word + bits(word).trailing_zeros() as usize / 8
}

fn with_measured<T>(call: *const c_char, job: impl FnOnce(&mut Measured) -> T) -> T {
    let name = unsafe { CStr::from_ptr(call) }.to_str().expect("a name");
    MEASURED.with(|measured| job(measured.borrow_mut().entry(name).or_default()))
}

// A call comes with its arguments in registers and up to seven on the stack. They are put by, and
// laid anew for the call on the other stack: the seven, and above them a word that aligns them. The
// lines of `PNO_MEASURED` have the macro for each call of the header.
global_asm!(
    r#"
    .macro measure call
    .globl __wrap_\call
__wrap_\call:
    lea rax, [rip + __real_\call]
    lea r11, [rip + 2f]
    jmp measured
2:
    .asciz "\call"
    .endm
    "#,
    include_str!(env!("PNO_MEASURED")),
    r#"
measured:
    push rbp
    mov rbp, rsp
    push rdi
    push rsi
    push rdx
    push rcx
    push r8
    push r9
    push rax
    push r11
    mov rdi, r11
    call fill_memory
    mov rsp, rax
    push rax
    push qword ptr [rbp + 64]
    push qword ptr [rbp + 56]
    push qword ptr [rbp + 48]
    push qword ptr [rbp + 40]
    push qword ptr [rbp + 32]
    push qword ptr [rbp + 24]
    push qword ptr [rbp + 16]
    mov rdi, [rbp - 8]
    mov rsi, [rbp - 16]
    mov rdx, [rbp - 24]
    mov rcx, [rbp - 32]
    mov r8, [rbp - 40]
    mov r9, [rbp - 48]
    call qword ptr [rbp - 56]
    lea rsp, [rbp - 64]
    push rax
    push rax
    mov rdi, [rbp - 64]
    call read_memory
    mov rax, [rbp - 72]
    leave
    ret
    "#
);
