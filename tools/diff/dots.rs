//! A label from 203 to 300 dots, from what the steps answer: the numbers, the places of the refused lines and the order of the checks are told anew, apart from the library.

use crate::compare::{Lent, Seen};
use crate::lists::{list_filled, unchanged};
use crate::measured::measured;
use crate::raw::{self, Dots300, Element, Element300, Entry, Label300, Walk};
use crate::writing;

/// Holds the conversion of an entry's label against what it should answer, with exactly enough room, with more and with less. `opened` is what opening the entry is refused by. An
/// error says in words what is wrong. A label that converts is written as EPL too.
pub fn converted(lent: &mut Lent, input: &[u8], entries: &[Entry], number: usize, opened: Result<(), (u8, usize)>, seen: &mut Seen) -> Result<(), String> {
    let due = opened.and_then(|()| {
        let e = &entries[number];
        label(&input[..e.last], Walk { x: e.x, y: e.y, pending: 0, place: e.first })
    });
    match &due {
        Ok((sets, copies, elements)) => {
            let n = elements.len();
            let done = Label300 { number: 0, place: n, sets: *sets, copies: *copies };
            for room in [n, n + 2] {
                fills(lent, input, entries, number, room, done, elements)?;
            }
            fills(lent, input, entries, number, n - 1, Label300 { number: 15, place: n, ..Label300::default() }, &[])?;
            let is_written = writing::label_300(lent, input, *sets, *copies, elements).map_err(|wrong| format!("writing at 300 dots, {wrong}"))?;
            seen.texts_300[!is_written as usize] += 1;
        }
        Err((k, place)) => fills(lent, input, entries, number, 2, Label300 { number: *k as u32, place: *place, ..Label300::default() }, &[])?,
    }
    seen.convert(due.err().map_or(0, |(k, _)| k as u32));
    Ok(())
}

fn fills(lent: &mut Lent, input: &[u8], entries: &[Entry], number: usize, room: usize, expected: Label300, elements: &[Element300]) -> Result<(), String> {
    let mark = Element300 { kind: 99, x: Dots300(room as i32), data_len: usize::MAX, ..Element300::default() };
    let lent_input = lent.place(input);
    list_filled(mark, room, expected, elements, |list| raw::to_300(lent_input, entries, number, list))
        .and_then(|()| unchanged(lent_input, input))
        .map_err(|wrong| format!("to 300 dots, {wrong}"))
}

/// The first label that the steps from a state print, which opening has answered: its sets, copies and new elements; or its refusal.
fn label(input: &[u8], mut walk: Walk) -> Result<(i32, i32, Vec<Element300>), (u8, usize)> {
    let mut drawn: Vec<(usize, Element)> = Vec::new();
    loop {
        let answer = raw::step(input, walk);
        match answer.kind {
            0 => {
                if let Some((place, _)) = drawn.iter().find(|(_, e)| e.kind == 4) {
                    return Err((24, *place));
                }
                let elements: Result<_, _> = drawn.iter().map(|(place, e)| turned(e).map_err(|k| (k, *place))).collect();
                return Ok((answer.sets, answer.copies, elements?));
            }
            17 => drawn.clear(),
            18 | 255 => unreachable!("a label that was opened"),
            _ => drawn.push((first_byte(input, walk.place, &answer), answer.element)),
        }
        walk = answer.next;
    }
}

/// The first byte of the line or block that a step answered: behind the last LF before it. A block has none before its payload; a line ends with its own.
fn first_byte(input: &[u8], from: usize, answer: &raw::Answer) -> usize {
    let to = if answer.element.kind == 4 { answer.element.data_start } else { answer.next.place - 1 };
    input[from..to].iter().rposition(|&b| b == b'\n').map_or(from, |at| from + at + 1)
}

/// Whole 203rds of 300 n, and one more where the rest is more than half.
fn nearest(n: i32) -> Option<Dots300> {
    let m = 300 * n as i64;
    let more = (2 * m.rem_euclid(203) > 203) as i64;
    i32::try_from(m.div_euclid(203) + more).ok().map(Dots300)
}

fn turned(e: &Element) -> Result<Element300, u8> {
    let (x, y) = nearest(e.x).zip(nearest(e.y)).ok_or(13)?;
    let same = |n: i32| Some(Dots300(n));
    let [width, height, thickness] = match e.kind {
        2 | 3 => [nearest(e.width), nearest(e.height), nearest(e.thickness)],
        5..=10 | 16 => [same(e.width), nearest(e.height), same(0)],
        _ => [same(e.width), same(e.height), same(0)],
    };
    let [width, height, thickness] = [width.ok_or(19)?, height.ok_or(19)?, thickness.ok_or(19)?];
    Ok(Element300 { x, y, width, height, thickness, ..measured(e, Dots300) })
}
