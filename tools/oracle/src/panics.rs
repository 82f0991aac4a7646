//! What 01 answers where the debug build panics, found by asking the Rust about parts of the input and a changed copy:
//! - the unit alone is refused 7, 8 or 9: the Rust adds the reference before it looks at the type or the size, 01 does not;
//! - a MaxiCode line whose byte 6 is inside a character: mode 3, as the line with `m3` before its data gives;
//! - anything else is a number outside 32 bits: 13 where the unit's position panics alone, as that of a line `LO` in its place, else 19.

use crate::{unit_end, unlimited, Answer};

#[derive(Clone, Copy, Debug, PartialEq, Eq)]
pub enum Cause {
    Position,
    Size,
    TypeOrSize,
    Maxicode,
}

/// 01's answer to any input, the limit of its length and the end of the input apart, and why the Rust panics where it does (the first cause in the file). Never `Answer::Panic`.
pub fn answer(input: &[u8]) -> (Answer, Option<Cause>) {
    let first = unlimited(input);
    if first != Answer::Panic {
        return (first, None);
    }
    let (place, end) = panicking_unit(input);
    let unit = &input[place..end];
    match unlimited(unit) {
        Answer::Refused(number, _) => (Answer::Refused(number, place), Some(Cause::TypeOrSize)),
        Answer::Panic if is_2d_barcode(unit) => (as_mode_3(input, place), Some(Cause::Maxicode)),
        _ if position_panics(input, place, unit) => (Answer::Refused(13, place), Some(Cause::Position)),
        _ => (Answer::Refused(19, place), Some(Cause::Size)),
    }
}

/// Whether the position of the unit at a place is outside 32 bits: a line `LO` there, at its x and y, panics too. `LS` and `X` stand at the smaller ones of their corners.
fn position_panics(input: &[u8], place: usize, unit: &[u8]) -> bool {
    let text = String::from_utf8_lossy(unit);
    let line = text.trim();
    let field = |params: &str, k: usize| params.split(',').nth(k).and_then(|f| f.trim().parse::<i32>().ok()).unwrap_or(0);
    let (x, y) = match (line.strip_prefix("LS").or(line.strip_prefix('X')), line.strip_prefix('A')) {
        (Some(p), _) => (field(p, 0).min(field(p, 3)), field(p, 1).min(field(p, 4))),
        (_, Some(p)) => (field(p, 0), field(p, 1)),
        // All others have no sizes that could be outside.
        _ => return true,
    };
    let alone = [&input[..place], format!("LO{x},{y},1,1").as_bytes()].concat();
    unlimited(&alone) == Answer::Panic
}

/// The answer with `,m3` before the first quote of the line at a place; places behind it are told without the three bytes.
fn as_mode_3(input: &[u8], place: usize) -> Answer {
    const MODE: &[u8] = b",m3";
    let quote = input[place..].iter().position(|&b| b == b'"');
    let quote = place + quote.expect("a MaxiCode line has data");
    let changed = [&input[..quote], MODE, &input[quote..]].concat();
    match answer(&changed).0 {
        Answer::Refused(number, at) if at > place => Answer::Refused(number, at - MODE.len()),
        other => other,
    }
}

/// `b` lines that panic alone, at reference 0,0, are MaxiCode lines: their sums stay in range.
fn is_2d_barcode(unit: &[u8]) -> bool {
    String::from_utf8_lossy(unit).trim().starts_with('b')
}

/// First and last place of the unit at which the Rust panics: the shortest run of units from the start that panics ends with it.
fn panicking_unit(input: &[u8]) -> (usize, usize) {
    let mut ends = vec![0];
    while *ends.last().unwrap() < input.len() {
        ends.push(unit_end(input, *ends.last().unwrap()));
    }
    let calm = ends.partition_point(|&end| unlimited(&input[..end]) != Answer::Panic);
    (ends[calm - 1], ends[calm])
}
