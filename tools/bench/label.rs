//! What is done with one label of a file, by its entry.

use crate::function::measured;
use crate::memory::Memory;
use crate::{inputs, library, raw};

/// One label of a file, and all that a call with it is lent.
pub struct Label<'a> {
    file: &'a [u8],
    entries: &'a [raw::Entry],
    number: usize,
    elements: &'a [raw::Element],
    sets: i32,
    copies: i32,
}

/// A call with one label, and room for bytes, numbers or elements.
pub type Call = fn(&Label, &mut [u8]) -> usize;

pub const CALLS: [(&str, Call); 6] =
    [("open", open), ("inside", inside), ("touching", touching), ("nearest", nearest), ("to_300", to_300), ("write_label", write_label)];

/// Where it is looked for: a corner of the printer's paper, in which about half of the labels' elements lie.
const CORNER: raw::Rectangle = raw::Rectangle { x1: 0, y1: 0, x2: 350, y2: 600 };

pub fn open(label: &Label, out: &mut [u8]) -> usize {
    library::written(raw::open(label.file, label.entries, label.number, out))
}

pub fn inside(label: &Label, out: &mut [u8]) -> usize {
    library::written(raw::inside(label.file, label.entries, label.number, CORNER, library::room_for(out)))
}

pub fn touching(label: &Label, out: &mut [u8]) -> usize {
    library::written(raw::touching(label.file, label.entries, label.number, CORNER, library::room_for(out)))
}

pub fn nearest(label: &Label, _: &mut [u8]) -> usize {
    library::written(raw::nearest(label.file, label.entries, label.number, 300, 100))
}

/// A label with a graphic is refused.
pub fn to_300(label: &Label, out: &mut [u8]) -> usize {
    let said = raw::to_300(label.file, label.entries, label.number, library::room_for(out));
    assert!(said.number == 0 || said.number == 24);
    said.place
}

pub fn write_label(label: &Label, out: &mut [u8]) -> usize {
    library::written(raw::write_label(label.file, label.elements, label.sets, label.copies, out))
}

/// The index of a file, and then a call with each of its labels.
pub fn every(call: Call, file: &[u8], out: &mut [u8]) -> usize {
    let entries = &library::entries(file)[..];
    (0..entries.len()).map(|number| call(&Label { file, entries, number, elements: &[], sets: 0, copies: 0 }, out)).sum()
}

/// A file, its entries, and the elements of one of its labels.
pub struct Opened {
    file: Memory,
    entries: Vec<raw::Entry>,
    number: usize,
    elements: (Vec<raw::Element>, i32, i32),
}

impl Opened {
    /// The label in the middle of a file of one label again and again: whatever the length, the same bytes stand around it.
    pub fn in_the_middle(size: usize) -> Opened {
        Opened::of(&inputs::same_label(size))
    }

    /// A file that is one label.
    pub fn whole(size: usize) -> Opened {
        Opened::of(&inputs::one_label(size))
    }

    fn of(file: &[u8]) -> Opened {
        let entries = library::entries(file);
        let number = entries.len() / 2;
        Opened { file: Memory::holding(file), elements: library::elements(file, entries[number]), entries, number }
    }

    /// How many bytes the label has.
    pub fn len(&self) -> usize {
        self.entries[self.number].last - self.entries[self.number].first
    }

    pub fn call(&self, call: Call, out: &mut [u8]) -> usize {
        let (elements, sets, copies) = (&self.elements.0, self.elements.1, self.elements.2);
        let label = Label { file: &self.file, entries: &self.entries, number: self.number, elements, sets, copies };
        measured(&|_, out| call(&label, out), &self.file, out)
    }
}
