//! The label index of an accepted input, told from its units by the scope document. The Rust has none; this shares nothing with the library.

use crate::fields::{says, Says};
use crate::unit_end;

/// "An entry holds first and last place, element count, and the reference point at its start".
#[derive(Clone, Copy, Debug, Default, PartialEq, Eq)]
pub struct Entry {
    pub first: usize,
    pub last: usize,
    pub count: usize,
    pub x: i32,
    pub y: i32,
}

/// "one entry a label in print order". "An entry starts just after the print line before it, one that printed nothing included, or at 0; its last place is just past its
/// own print line".
pub fn entries(input: &[u8]) -> Vec<Entry> {
    let (mut entries, mut entry, mut reference, mut place) = (Vec::new(), Entry::default(), (0, 0), 0);
    while place < input.len() {
        let end = unit_end(input, place);
        match says(input, place, end) {
            Says::Clear => (entry.count, reference) = (0, (0, 0)),
            Says::Reference(x, y) => reference = (x, y.unwrap_or(reference.1)),
            Says::Element(_) => entry.count += 1,
            Says::Print(_) => {
                if entry.count > 0 {
                    entries.push(Entry { last: end, ..entry });
                }
                entry = Entry { first: end, x: reference.0, y: reference.1, ..Entry::default() };
            }
            Says::Nothing => {}
        }
        place = end;
    }
    entries
}
