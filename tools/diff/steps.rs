//! The walk of an input by `laddertick_step`: the frames rebuilt from the fields of its answers alone, and the states
//! that it hands on.

use crate::raw::{self, Element, Walk};
use oracle::{Answer, Labels};
use std::mem::take;

/// Holds the steps from the start against what the input should answer. Each moves on as its kind says; the last one is
/// answered again from the state that it hands on; the end's has the count of what is pending; and a field that an
/// answer's kind does not name is 0. An error says in words what is wrong.
pub fn walked(input: &[u8], expected: &Answer) -> Result<(), String> {
    let (mut walk, mut pending, mut listing) = (raw::start(), Vec::new(), String::new());
    if walk != Walk::default() {
        return Err(format!("the start is {walk:?}"));
    }
    loop {
        let answer = raw::step(input, walk);
        let next = answer.next;
        let further = walk.place < next.place && next.place <= input.len();
        // What the kind names is taken out of the rest.
        let mut rest = raw::Answer { next: Walk::default(), ..answer };
        let (moves, last) = match take(&mut rest.kind) {
            0 => {
                let count = take(&mut rest.count);
                let whole = count > 0 && count == walk.pending && count == pending.len();
                let mut label = [&[0][..], &number(count as i32)].concat();
                numbers(&mut label, [&mut rest.sets, &mut rest.copies]);
                put_line(&mut listing, &label);
                pending.drain(..).for_each(|frame: Vec<u8>| put_line(&mut listing, &frame));
                (whole && next.pending == 0 && further, None)
            }
            17 => {
                pending.clear();
                (further && next == Walk { place: next.place, ..Walk::default() }, None)
            }
            18 => {
                let ends = next.place == input.len() && next.pending == walk.pending && next.pending == pending.len();
                let mut labels = Labels { printed: take(&mut listing), pending: String::new() };
                pending.drain(..).for_each(|frame: Vec<u8>| put_line(&mut labels.pending, &frame));
                (ends, Some(Answer::Labels(labels)))
            }
            255 => (next == walk, Some(Answer::Refused(take(&mut rest.number), take(&mut rest.place)))),
            kind => {
                let frame = frame(input, &mut rest.element);
                let of_its_kind = frame[0] == kind;
                pending.push(frame);
                (of_its_kind && further && next.pending == walk.pending + 1, None)
            }
        };
        let wrong = |what: &str| Err(format!("{what}: from {walk:?} {answer:?}"));
        if !moves {
            return wrong("a step that does not move on as its kind says");
        }
        if rest != raw::Answer::default() {
            return wrong("a field that its kind does not name");
        }
        if let Some(last) = last {
            if raw::step(input, next) != answer {
                return wrong("the last answer is not given again");
            }
            return if last == *expected { Ok(()) } else { Err(format!("the steps give\n{last:?}")) };
        }
        walk = next;
    }
}

/// The lines of the first label that the steps from a state print; or the refusal that they reach, or nothing at the end.
pub fn first_label(input: &[u8], mut walk: Walk) -> Result<String, Option<(u8, usize)>> {
    let mut pending = Vec::new();
    loop {
        let answer = raw::step(input, walk);
        match answer.kind {
            0 => {
                let mut listing = String::new();
                put_line(&mut listing, &[&[0][..], &number(answer.count as i32), &number(answer.sets), &number(answer.copies)].concat());
                pending.iter().for_each(|frame: &Vec<u8>| put_line(&mut listing, frame));
                return Ok(listing);
            }
            17 => pending.clear(),
            18 => return Err(None),
            255 => return Err(Some((answer.number, answer.place))),
            _ => pending.push(frame(input, &mut { answer.element })),
        }
        walk = answer.next;
    }
}

/// The frame of an element (docs/FRAMES.md). The fields that it has are taken out of e, so that those of other kinds
/// stay behind; a kind that is none takes nothing but its head.
pub fn frame(input: &[u8], e: &mut Element) -> Vec<u8> {
    let kind = take(&mut e.kind);
    let mut f = vec![kind];
    numbers(&mut f, [&mut e.x, &mut e.y]);
    match kind {
        1 => {
            flags(&mut f, [&mut e.rotation, &mut e.reverse]);
            numbers(&mut f, [&mut e.font, &mut e.horizontal, &mut e.vertical]);
            sizes(&mut f, [&mut e.text_height, &mut e.text_width]);
        }
        2 | 3 => {
            numbers(&mut f, [&mut e.width, &mut e.height, &mut e.thickness]);
            flags(&mut f, [if kind == 2 { &mut e.colour } else { &mut e.direction }]);
            return f;
        }
        4 => {
            numbers(&mut f, [&mut e.row_bytes]);
            f.extend(number(e.data_len as i32));
        }
        5..=10 | 16 => {
            flags(&mut f, [&mut e.rotation]);
            numbers(&mut f, [&mut e.width, &mut e.height]);
            flags(&mut f, [&mut e.line]);
            match kind {
                5 => f.push(take(&mut e.mode) as u8),
                9 | 10 => {
                    flags(&mut f, [&mut e.check]);
                    numbers(&mut f, [&mut e.wide]);
                    sizes(&mut f, [&mut e.ratio]);
                }
                _ => {}
            }
        }
        11 => {
            flags(&mut f, [&mut e.rotation]);
            numbers(&mut f, [&mut e.height, &mut e.security, &mut e.columns, &mut e.rows]);
            flags(&mut f, [&mut e.truncate]);
            numbers(&mut f, [&mut e.width]);
        }
        12 => numbers(&mut f, [&mut e.magnification, &mut e.size]),
        13 => numbers(&mut f, [&mut e.height, &mut e.columns, &mut e.rows]),
        14 => {
            numbers(&mut f, [&mut e.magnification]);
            flags(&mut f, [&mut e.level]);
        }
        15 => numbers(&mut f, [&mut e.mode]),
        _ => return f,
    }
    let bytes = data(input, kind, take(&mut e.data_start), take(&mut e.data_len));
    f.extend(number(bytes.len() as i32));
    f.extend(bytes);
    f
}

/// The data of an element: a graphic's as it stands, all other as the library decodes it. Empty where it does not lie
/// inside the input, which the frame then shows.
fn data(input: &[u8], kind: u8, start: usize, len: usize) -> Vec<u8> {
    let Some(part) = input.get(start..).and_then(|from| from.get(..len)) else {
        return Vec::new();
    };
    if kind == 4 {
        return part.to_vec();
    }
    let mut out = vec![0; 3 * len];
    let written = raw::data(input, start, len, &mut out);
    out.truncate(if written.number == 0 { written.place } else { 0 });
    out
}

fn flags<const N: usize>(f: &mut Vec<u8>, fields: [&mut u8; N]) {
    f.extend(fields.map(take));
}

fn numbers<const N: usize>(f: &mut Vec<u8>, fields: [&mut i32; N]) {
    fields.into_iter().for_each(|field| f.extend(number(take(field))));
}

fn sizes<const N: usize>(f: &mut Vec<u8>, fields: [&mut f64; N]) {
    fields.into_iter().for_each(|field| f.extend(take(field).to_bits().to_be_bytes()));
}

fn number(value: i32) -> [u8; 4] {
    value.to_be_bytes()
}

/// A frame as a line of a listing.
pub fn put_line(listing: &mut String, frame: &[u8]) {
    const DIGITS: &[u8; 16] = b"0123456789abcdef";
    listing.extend(frame.iter().flat_map(|b| [b >> 4, b & 15]).map(|digit| DIGITS[digit as usize] as char));
    listing.push('\n');
}
