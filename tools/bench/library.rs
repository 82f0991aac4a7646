//! The static library, as a host calls it (include/laddertick.h).

use crate::raw;

/// A whole walk, to the end or to the refusal of the last line. Gives a sum over the kinds, positions and lengths of data that were answered.
pub fn walk(input: &[u8]) -> usize {
    let (mut walk, mut sum) = (raw::start(), 0_usize);
    loop {
        let answer = raw::step(input, walk);
        let (kind, element) = (answer.kind, answer.element);
        sum = sum.wrapping_add(kind as usize).wrapping_add(element.x as usize).wrapping_add(element.data_len);
        if kind == 18 || kind == 255 {
            // A walk that is refused early would look fast.
            assert!(kind == 18 || answer.place + 8 > input.len());
            return sum;
        }
        walk = answer.next;
    }
}

/// How much was written; no call of the benchmark is refused but for the last line of a file that is refused there.
pub fn written(said: raw::Written) -> usize {
    assert_eq!(said.number, 0);
    said.place
}

/// The same of a call that reads the file as the walk does.
fn read(input: &[u8], said: raw::Written) -> usize {
    assert!(said.number == 0 || said.place + 8 > input.len());
    said.place
}

/// The room for an answer as a list, whose fields may hold any bytes.
pub fn room_for<T: Copy>(out: &mut [u8]) -> &mut [T] {
    unsafe { out.align_to_mut().1 }
}

pub fn normalise(input: &[u8], out: &mut [u8]) -> usize {
    written(raw::normalise(input, out))
}

pub fn list(input: &[u8], out: &mut [u8]) -> usize {
    read(input, raw::list(input, out))
}

/// Blocks without numbers are refused by the profile at once.
pub fn strict_list(input: &[u8], out: &mut [u8]) -> usize {
    raw::strict_list(input, out).place
}

/// The well-site profile's verdict, a number and a place.
pub fn check(input: &[u8]) -> usize {
    let checked = raw::check(input);
    checked.number as usize + checked.place
}

/// The label index, its entries in the room for an answer. Gives how many there are.
pub fn index(input: &[u8], out: &mut [u8]) -> usize {
    read(input, raw::index(input, room_for(out)))
}

/// Whether a file is accepted and has labels: 20 says that no entry is lent for them.
pub fn has_labels(input: &[u8]) -> bool {
    raw::index(input, &mut []).number == 20
}

/// The entries of a file, as a host gets them: the first call tells how many there are.
pub fn entries(input: &[u8]) -> Vec<raw::Entry> {
    let mut entries = vec![raw::Entry::default(); raw::index(input, &mut []).place];
    written(raw::index(input, &mut entries));
    entries
}

/// The elements of the label with this number, with its sets and copies, as a host walks them from its entry.
pub fn elements(input: &[u8], entry: raw::Entry) -> (Vec<raw::Element>, i32, i32) {
    let (mut walk, mut elements) = (raw::Walk { x: entry.x, y: entry.y, pending: 0, place: entry.first }, Vec::new());
    loop {
        let answer = raw::step(&input[..entry.last], walk);
        match answer.kind {
            1..=16 => elements.push(answer.element),
            17 => elements.clear(),
            kind => {
                assert_eq!(kind, 0);
                return (elements, answer.sets, answer.copies);
            }
        }
        walk = answer.next;
    }
}

/// Every element that the walk answers, written by itself, one behind the other. Gives how many bytes.
pub fn write(input: &[u8], out: &mut [u8]) -> usize {
    let (mut walk, mut at) = (raw::start(), 0);
    loop {
        let answer = raw::step(input, walk);
        match answer.kind {
            1..=16 => at += written(raw::write(input, answer.element, &mut out[at..])),
            18 | 255 => return at,
            _ => {}
        }
        walk = answer.next;
    }
}

/// A file written anew, as examples/c/rewrite.c does it: all labels are measured before the first is written. Gives how many bytes.
pub fn rewrite(input: &[u8], out: &mut [u8]) -> usize {
    let entries = entries(input);
    let needed = entries.iter().map(|&entry| anew(input, entry, &mut []).place).sum();
    let mut at = 0;
    for &entry in &entries {
        at += written(anew(input, entry, &mut out[at..needed]));
    }
    at
}

/// A label from its elements, as they are walked from its entry.
fn anew(input: &[u8], entry: raw::Entry, out: &mut [u8]) -> raw::Written {
    let (elements, sets, copies) = elements(input, entry);
    raw::write_label(input, &elements, sets, copies, out)
}

/// A file joined with itself; one that is refused at its end is walked once, and no more.
pub fn join(input: &[u8], out: &mut [u8]) -> usize {
    let joined = raw::join(input, input, out);
    assert!(joined.number == 0 || (joined.file == 1 && joined.place + 8 > input.len()));
    joined.place
}

/// What a file joined with itself is made of: the walks and the normalisings.
pub fn parts(input: &[u8], out: &mut [u8]) -> usize {
    walk(input) + walk(input) + normalise(input, out) + normalise(input, out)
}
