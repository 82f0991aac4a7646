//! Cases made from fixed seeds.

use inputs::{Maker, PROSE};

/// Labels of a core store, one or two a file; files of every command, plain and odd.
pub fn labels() -> crate::Inputs {
    let mut maker = Maker::new(1, 0);
    let mut cases: crate::Inputs = (0..50).map(|_| maker.label()).collect();
    cases.extend((0..10).map(|_| [maker.label(), maker.label()].concat()));
    cases.extend((0..20).map(|_| maker.file(10)));
    for odd in [60, 20, 8] {
        let mut maker = Maker::new(10 + odd as u64, odd);
        cases.extend((0..20).map(|_| maker.file(8)));
    }
    cases
}

/// Files with a few bytes deleted, changed or inserted.
pub fn damaged() -> crate::Inputs {
    let mut maker = Maker::new(2, 0);
    let mut cases = Vec::new();
    for i in 0..140 {
        let file = match i % 4 {
            0 => maker.label(),
            1 => maker.graphics(40),
            _ => maker.file(5),
        };
        cases.push(maker.damaged(&file));
    }
    cases
}

pub fn prose() -> crate::Inputs {
    let line = |line: &&[u8]| [b"LO1,2,3,4\n", *line, b"\nLO5,6,7,8\n"].concat();
    let mut cases: crate::Inputs = PROSE.iter().map(line).collect();
    let text = b"Samples from the second descent.\nBox 12 was wet; jars 30 to 34 were packed again, by hand.\n\n\
        Never mind the \"old\" tags, they are void.\nPacked by R. Moe\nP\nAll is well.\n";
    cases.push(text.to_vec());
    cases.push([&text[..], b"Look below.\nLOT 7\n"].concat());
    cases.push([&text[..], b"A \"dry\" jar\n"].concat());
    cases.push([&text[..], b"GWR 12\n"].concat());
    cases
}

/// Strings of tokens and of single bytes.
pub fn tokens() -> crate::Inputs {
    let mut maker = Maker::new(4, 2);
    let mut cases: crate::Inputs = (0..60).map(|_| maker.tokens(14)).collect();
    cases.extend((0..40).map(|_| maker.bytes(24)));
    cases
}
