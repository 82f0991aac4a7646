//! The benchmark: the static library beside the Rust of docs/src, both built for release, on the same inputs in one run.
//!
//!     bench times                      tables of nanoseconds, and the targets
//!     bench write                      writing, and what is done with one label, alone
//!     bench instructions               tables of instructions by valgrind, and the targets
//!     bench file FUNCTION KIND SIZE    one call of a function over a file, for valgrind
//!     bench label CALL SIZE            one call with the middle label of a file
//!     bench whole CALL SIZE            one call with a file that is one label

mod function;
mod inputs;
mod instructions;
mod label;
mod library;
mod memory;
mod page;
#[allow(dead_code)]
#[path = "../../bindings/rust/src/raw.rs"]
mod raw;
mod targets;
mod times;

use label::Opened;
use memory::Memory;
use std::hint::black_box;
use std::process::exit;

/// Room for any answer: a listing has up to 16 bytes for each of its file.
fn room(size: usize) -> Memory {
    Memory::new(16 * size)
}

fn file(function: &str, kind: &str, size: usize) -> usize {
    let function = function::FUNCTIONS.iter().find(|f| f.name == function).unwrap_or_else(usage);
    let kind = inputs::KINDS.iter().find(|k| k.name == kind).unwrap_or_else(usage);
    function::measured(&function.call, &function::made(kind, size), &mut room(size))
}

fn label(call: &str, opened: Opened) -> usize {
    let (_, call) = *label::CALLS.iter().find(|(name, _)| *name == call).unwrap_or_else(usage);
    opened.call(call, &mut room(opened.len()))
}

fn usage<T>() -> T {
    eprintln!("usage: bench times | write | instructions | file FUNCTION KIND SIZE | label CALL SIZE | whole CALL SIZE");
    exit(2)
}

fn main() {
    let words: Vec<String> = std::env::args().skip(1).collect();
    let size = |word: &str| word.parse().unwrap_or_else(|_| usage());
    match words.iter().map(String::as_str).collect::<Vec<_>>()[..] {
        ["times"] => times::times(),
        ["write"] => times::write(),
        ["instructions"] => instructions::instructions(),
        ["file", function, kind, bytes] => drop(black_box(file(function, kind, size(bytes)))),
        ["label", call, bytes] => drop(black_box(label(call, Opened::in_the_middle(size(bytes))))),
        ["whole", call, bytes] => drop(black_box(label(call, Opened::whole(size(bytes))))),
        _ => usage(),
    }
}
