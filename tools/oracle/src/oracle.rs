//! The Rust of docs/src, unchanged, put to questions: the listing of an input in the frames of the scope document ("01"), and its
//! normalised text. Built with overflow checks and debug assertions this is the "debug build" of 01's domain.

// The files under docs/src hold more than an EPL file uses.
#![allow(dead_code, deprecated)]

mod elements;
mod epl;
pub mod fields;
mod frames;
pub mod index;
pub mod masked;
pub mod panics;
mod standins;

// What font_face.rs imports from the root of its crate.
use standins::{assets, tuning};

use std::cell::Cell;
use std::panic::{catch_unwind, set_hook, take_hook};
use std::sync::Once;

/// The longest input; a longer one is refused 14.
pub const LIMIT: usize = 16_777_216;

/// The frames of an accepted input, without the fields that the Rust has not (`fields`): hexadecimal, one a line, each line ended by LF.
#[derive(Clone, Debug, Default, PartialEq, Eq)]
pub struct Labels {
    /// Of all labels.
    pub printed: String,
    /// Of the elements that the end of the input finds pending. The Rust, asked as it is, has none: it prints them.
    pub pending: String,
}

/// What the Rust makes of an input.
#[derive(Clone, Debug, PartialEq, Eq)]
pub enum Answer {
    Labels(Labels),
    /// 01's number, and the place of the refused unit's first byte, its blanks included.
    Refused(u8, usize),
    /// A panic. 01's domain leaves these inputs out; `panics` says what 01 answers there, and `masked` what it answers to any input.
    Panic,
}

impl Answer {
    /// The answer as the listing program prints it: frames, behind those of labels frame fe where elements are pending; the one frame ff; or `panic`.
    pub fn lines(&self) -> String {
        match self {
            Answer::Labels(labels) if labels.pending.is_empty() => labels.printed.clone(),
            Answer::Labels(labels) => format!("{}fe{:08x}\n", labels.printed, labels.pending.lines().count()),
            Answer::Refused(number, place) => format!("ff{number:02x}{place:08x}\n"),
            Answer::Panic => "panic\n".to_string(),
        }
    }
}

/// The listing of an input of any length, as the Rust has it: what is pending at the end is its last label.
pub fn listing(input: &[u8]) -> Answer {
    if input.len() > LIMIT {
        return Answer::Refused(14, 0);
    }
    unlimited(input)
}

/// The same of inputs over the limit too.
fn unlimited(input: &[u8]) -> Answer {
    match quietly(|| epl::parse(input)) {
        None => Answer::Panic,
        Some(Ok(labels)) => Answer::Labels(Labels { printed: frames::listing(&labels), pending: String::new() }),
        Some(Err(text)) => Answer::Refused(number(&text), refused_place(input)),
    }
}

/// What a host that wants labels calls, for benchmarks: how many there are.
pub fn parse(input: &[u8]) -> Result<usize, String> {
    epl::parse(input).map(|labels| labels.len())
}

/// The text that the normaliser writes for an input. It refuses nothing and decodes nothing.
pub fn normalised(input: &[u8]) -> Vec<u8> {
    epl::format_epl(input)
}

/// 01's number for an error text of the Rust.
fn number(text: &str) -> u8 {
    const TEXTS: [(&str, u8); 13] = [
        ("EPL A command requires", 1),
        ("EPL B command requires", 2),
        ("EPL b command requires", 3),
        ("EPL LO command requires", 4),
        ("EPL LW command requires", 4),
        ("EPL LS command requires", 5),
        ("EPL X command requires", 6),
        ("EPL B command: unsupported", 7),
        ("EPL b command: unsupported", 8),
        ("EPL b QR command data exceeds 9999 bytes", 9),
        ("EPL GW command requires 4 parameters: x", 10),
        ("EPL GW command parameters must not be negative", 11),
        ("EPL GW graphic data truncated", 12),
    ];
    let known = TEXTS.iter().find(|(start, _)| text.starts_with(start));
    known.unwrap_or_else(|| panic!("no number for: {text}")).1
}

/// The place of the first unit that the Rust refuses when it reads it alone. The reference does not matter for 1 to 12.
fn refused_place(input: &[u8]) -> usize {
    let mut place = 0;
    while place < input.len() {
        let end = unit_end(input, place);
        if matches!(quietly(|| epl::parse(&input[place..end])), Some(Err(_))) {
            return place;
        }
        place = end;
    }
    panic!("refused as a whole but not unit by unit");
}

/// Where the unit that stands at a place ends: past a block's payload, or past a line's LF. A malformed `GW` line ends as a line.
fn unit_end(input: &[u8], place: usize) -> usize {
    block_end(input, place).unwrap_or(input.len().min(line_end(input, place) + 1))
}

/// Past the payload of the block that stands at a place, where there is a well-formed one.
fn block_end(input: &[u8], place: usize) -> Option<usize> {
    epl::block_end(input, place, line_end(input, place))
}

/// Where the line that a place is on has its LF, or the end of the input.
fn line_end(input: &[u8], place: usize) -> usize {
    let line = input[place..].iter().position(|&b| b == b'\n');
    line.map_or(input.len(), |n| place + n)
}

thread_local! {
    static QUIET: Cell<bool> = const { Cell::new(false) };
}

/// The value of f, or None where it panics; the panic prints nothing. Panics elsewhere are reported as always.
fn quietly<T>(f: impl FnOnce() -> T + std::panic::UnwindSafe) -> Option<T> {
    static HOOK: Once = Once::new();
    HOOK.call_once(|| {
        let usual = take_hook();
        set_hook(Box::new(move |info| {
            if !QUIET.get() {
                usual(info);
            }
        }));
    });
    let before = QUIET.replace(true);
    let value = catch_unwind(f).ok();
    QUIET.set(before);
    value
}
