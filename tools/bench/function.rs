//! What is measured: functions over a file, the library's and the Rust's.

use crate::inputs::Kind;
use crate::memory::Memory;
use crate::{label, library};
use std::hint::black_box;

/// A function over a file, and room for an answer; what it gives back only keeps it from being left out.
pub struct Function {
    pub name: &'static str,
    pub call: fn(&[u8], &mut [u8]) -> usize,
    /// It goes from label to label, and is nothing where a file has none.
    pub by_labels: bool,
}

const fn over_a_file(name: &'static str, call: fn(&[u8], &mut [u8]) -> usize) -> Function {
    Function { name, call, by_labels: false }
}

const fn over_labels(name: &'static str, call: fn(&[u8], &mut [u8]) -> usize) -> Function {
    Function { name, call, by_labels: true }
}

pub const WALK: Function = over_a_file("walk", |input, _| library::walk(input));
pub const PARSE: Function = over_a_file("parse", |input, _| oracle::parse(input).unwrap_or(0));
pub const NORMALISE: Function = over_a_file("normalise", library::normalise);
pub const FORMAT: Function = over_a_file("format_epl", |input, _| oracle::normalised(input).len());
pub const CHECK: Function = over_a_file("check", |input, _| library::check(input));
pub const LIST: Function = over_a_file("list", library::list);
pub const STRICT_LIST: Function = over_a_file("strict_list", library::strict_list);
pub const INDEX: Function = over_a_file("index", library::index);
pub const JOIN: Function = over_a_file("join", library::join);
pub const PARTS: Function = over_a_file("parts", library::parts);
pub const WRITE: Function = over_a_file("write", library::write);
pub const REWRITE: Function = over_labels("rewrite", library::rewrite);
pub const OPEN: Function = over_labels("open", |input, out| label::every(label::open, input, out));
pub const INSIDE: Function = over_labels("inside", |input, out| label::every(label::inside, input, out));
pub const NEAREST: Function = over_labels("nearest", |input, out| label::every(label::nearest, input, out));
pub const TO_300: Function = over_labels("to_300", |input, out| label::every(label::to_300, input, out));
pub const COPY: Function = over_a_file("copy", copy);

/// All but the copy, which is only timed.
pub const FUNCTIONS: [Function; 16] =
    [WALK, PARSE, NORMALISE, FORMAT, CHECK, LIST, STRICT_LIST, INDEX, JOIN, PARTS, WRITE, REWRITE, OPEN, INSIDE, NEAREST, TO_300];

/// The calls of the library whose instructions are to grow with the file and with nothing else.
pub const LINEAR: [Function; 13] = [WALK, NORMALISE, CHECK, LIST, STRICT_LIST, INDEX, JOIN, WRITE, REWRITE, OPEN, INSIDE, NEAREST, TO_300];

fn copy(input: &[u8], out: &mut [u8]) -> usize {
    out[..input.len()].copy_from_slice(input);
    input.len()
}

/// One call, under a name that valgrind is told to count.
#[inline(never)]
#[no_mangle]
pub fn measured(call: &dyn Fn(&[u8], &mut [u8]) -> usize, input: &[u8], out: &mut [u8]) -> usize {
    call(black_box(input), black_box(out))
}

pub fn made(kind: &Kind, size: usize) -> Memory {
    Memory::holding(&(kind.make)(size))
}
