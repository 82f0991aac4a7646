//! The fields of frames that the Rust has not: the sets and copies of a label (00), the font's number and the multipliers of a text (01), the wide bar of 2 of 5
//! (09) and Code 39 (0a).
//!
//! A run against the Rust leaves exactly their bytes out of our frames (`without`). What they hold is told from the input (`told`), by a reading of its lines
//! that is written from the scope document and shares nothing with the library: font "1 by default", multipliers "1 by default, least value 1", wide bar
//! "2 by default", "A count that is absent or too large for signed 32 bits is 1".

use crate::{block_end, unit_end, Answer, Labels};

/// Where they stand in a frame's line and how many numbers they are, in digits: behind kind and count; behind kind, x, y, rotation and reverse flag; behind kind, x,
/// y, rotation, narrow, height, line and check.
fn place(line: &str) -> Option<(usize, usize)> {
    match line.get(..2) {
        Some("00") => Some((10, 2)),
        Some("01") => Some((22, 3)),
        Some("09" | "0a") => Some((40, 1)),
        _ => None,
    }
}

/// A frame has such fields.
pub fn are_in(labels: &Labels) -> bool {
    labels.printed.lines().chain(labels.pending.lines()).any(|line| place(line).is_some())
}

/// A listing as the Rust has it.
pub fn without(listing: &str) -> String {
    let lines = listing.lines().map(|line| match place(line) {
        Some((at, n)) if at + 8 * n <= line.len() => format!("{}{}\n", &line[..at], &line[at + 8 * n..]),
        _ => format!("{line}\n"),
    });
    lines.collect()
}

/// The Rust's answer to an input with these fields in it.
pub fn told(input: &[u8], answer: &Answer) -> Answer {
    match answer {
        Answer::Labels(labels) if are_in(labels) => {
            let (printed, pending) = frames(input);
            Answer::Labels(Labels { printed: with(&labels.printed, printed), pending: with(&labels.pending, pending) })
        }
        other => other.clone(),
    }
}

/// The numbers of each label and element in the order of the listing, put into their frames.
fn with(listing: &str, frames: Vec<Vec<i32>>) -> String {
    let mut frames = frames.into_iter();
    let lines = listing.lines().map(|line| {
        let numbers = frames.next().expect("a frame for each label and element");
        match place(line) {
            Some((at, n)) => {
                assert_eq!(numbers.len(), n, "the line behind {line}");
                let digits: String = numbers.iter().map(|number| format!("{number:08x}")).collect();
                format!("{}{digits}{}\n", &line[..at], &line[at..])
            }
            None => format!("{line}\n"),
        }
    });
    lines.collect()
}

/// What a unit does: `N`, a reference line with its x and, where it has a comma, its y, a print line with its counts, an element with its numbers, or nothing that a label shows.
pub(crate) enum Says {
    Clear,
    Reference(i32, Option<i32>),
    Print(Vec<i32>),
    Element(Vec<i32>),
    Nothing,
}

/// The unit from a place to its end, in an accepted input.
pub(crate) fn says(input: &[u8], place: usize, end: usize) -> Says {
    match block_end(input, place) {
        Some(_) => Says::Element(Vec::new()),
        None => line_says(String::from_utf8_lossy(&input[place..end]).trim()),
    }
}

/// The labels of an accepted input, each with its elements behind it, and the elements that are pending at its end.
fn frames(input: &[u8]) -> (Vec<Vec<i32>>, Vec<Vec<i32>>) {
    let (mut printed, mut pending, mut place) = (Vec::new(), Vec::new(), 0);
    while place < input.len() {
        let end = unit_end(input, place);
        match says(input, place, end) {
            Says::Clear => pending.clear(),
            Says::Print(_) if pending.is_empty() => {}
            Says::Print(counts) => {
                printed.push(counts);
                printed.append(&mut pending);
            }
            Says::Element(numbers) => pending.push(numbers),
            Says::Reference(..) | Says::Nothing => {}
        }
        place = end;
    }
    (printed, pending)
}

/// 01, "Grammar", in its order.
fn line_says(line: &str) -> Says {
    let behind = |letter: char| line.strip_prefix(letter);
    if line == "N" {
        return Says::Clear;
    }
    if let Some(rest) = behind('R').filter(|rest| rest.starts_with(|c: char| c.is_ascii_digit())) {
        let number = |field: &str| field.trim().parse().unwrap_or(0);
        return match rest.split_once(',') {
            Some((x, y)) => Says::Reference(number(x), Some(number(y))),
            None => Says::Reference(number(rest), None),
        };
    }
    if line.starts_with(['A', 'B', 'b']) {
        return match (line.find('"'), line.rfind('"')) {
            (Some(first), Some(last)) if first + 1 < last => Says::Element(numbers(&line[..1], &line[1..first])),
            _ => Says::Nothing,
        };
    }
    if ["LO", "LW", "LE", "LS", "X"].iter().any(|letters| line.starts_with(letters)) {
        return Says::Element(Vec::new());
    }
    match behind('P').and_then(counts) {
        Some((sets, copies)) => Says::Print(vec![sets.parse().unwrap_or(1), copies.parse().unwrap_or(1)]),
        None => Says::Nothing,
    }
}

/// What stands behind the `P` of a print line: nothing, digits, or "at least one digit, comma, at least one digit"; as digits of sets and of copies.
pub(crate) fn counts(text: &str) -> Option<(&str, &str)> {
    let digits = |text: &str| text.bytes().all(|b| b.is_ascii_digit());
    match text.split_once(',') {
        None => digits(text).then_some((text, "")),
        Some((sets, copies)) => (digits(sets) && digits(copies) && !sets.is_empty() && !copies.is_empty()).then_some((sets, copies)),
    }
}

/// The numbers of a command with data, by its letter and the fields before the data.
fn numbers(letter: &str, params: &str) -> Vec<i32> {
    let field = |k: usize| params.split(',').nth(k).unwrap_or("").trim();
    let number = |k: usize, default: i32| field(k).parse().unwrap_or(default);
    match letter {
        "A" => vec![number(3, 1), number(4, 1).max(1), number(5, 1).max(1)],
        "B" if ["2", "2C", "2D", "3", "3C"].contains(&field(3)) => vec![number(5, 2)],
        _ => Vec::new(),
    }
}
