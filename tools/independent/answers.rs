//! What each entry point should answer, from the reading and the sentences of 02.

use crate::measured::measured;
use crate::raw::{Dots300, Element, Element300, Entry, Rectangle};
use crate::reading::{first_label, normalised, refusal, whole, File, Label, Refusal, LIMIT};

/// The labels of a file as frames, one a line (docs/FRAMES.md), and frame fe where elements are pending at the end (K12).
pub fn listing(input: &[u8], file: &File) -> Vec<u8> {
    let mut out = Vec::new();
    file.labels.iter().for_each(|label| label_lines(&mut out, input, label));
    if file.pending > 0 {
        line(&mut out, &[&[0xfe][..], &number(file.pending as i32)].concat());
    }
    out
}

/// Frame 00 of a label and those of its elements.
pub fn label_lines(out: &mut Vec<u8>, input: &[u8], label: &Label) {
    line(out, &[&[0][..], &number(label.elements.len() as i32), &number(label.sets), &number(label.copies)].concat());
    label.elements.iter().for_each(|(_, e)| line(out, &frame(input, e)));
}

fn number(n: i32) -> [u8; 4] {
    n.to_be_bytes()
}

fn line(out: &mut Vec<u8>, frame: &[u8]) {
    const DIGITS: &[u8; 16] = b"0123456789abcdef";
    out.extend(frame.iter().flat_map(|b| [DIGITS[(b >> 4) as usize], DIGITS[(b & 15) as usize]]));
    out.push(b'\n');
}

/// The frame of an element of this input.
pub fn frame(input: &[u8], e: &Element) -> Vec<u8> {
    let mut f = vec![e.kind];
    let numbers = |f: &mut Vec<u8>, ns: &[i32]| ns.iter().for_each(|&n| f.extend(number(n)));
    let sizes = |f: &mut Vec<u8>, ns: &[f64]| ns.iter().for_each(|n| f.extend(n.to_bits().to_be_bytes()));
    numbers(&mut f, &[e.x, e.y]);
    match e.kind {
        1 => {
            f.extend([e.rotation, e.reverse]);
            numbers(&mut f, &[e.font, e.horizontal, e.vertical]);
            sizes(&mut f, &[e.text_height, e.text_width]);
        }
        2 | 3 => {
            numbers(&mut f, &[e.width, e.height, e.thickness]);
            f.push(if e.kind == 2 { e.colour } else { e.direction });
            return f;
        }
        4 => numbers(&mut f, &[e.row_bytes, e.data_len as i32]),
        11 => {
            f.push(e.rotation);
            numbers(&mut f, &[e.height, e.security, e.columns, e.rows]);
            f.push(e.truncate);
            numbers(&mut f, &[e.width]);
        }
        12 => numbers(&mut f, &[e.magnification, e.size]),
        13 => numbers(&mut f, &[e.height, e.columns, e.rows]),
        14 => {
            numbers(&mut f, &[e.magnification]);
            f.push(e.level);
        }
        15 => numbers(&mut f, &[e.mode]),
        _ => {
            f.push(e.rotation);
            numbers(&mut f, &[e.width, e.height]);
            f.push(e.line);
            match e.kind {
                5 => f.push(e.mode as u8),
                9 | 10 => {
                    f.push(e.check);
                    numbers(&mut f, &[e.wide]);
                    sizes(&mut f, &[e.ratio]);
                }
                _ => {}
            }
        }
    }
    let raw = &input[e.data_start..][..e.data_len];
    let decoded = String::from_utf8_lossy(raw);
    let data = if e.kind == 4 { raw } else { decoded.as_bytes() };
    numbers(&mut f, &[data.len() as i32]);
    f.extend(data);
    f
}

/// K8: an entry for each label.
pub fn index(file: &File) -> Vec<Entry> {
    let entry = |l: &Label| Entry { first: l.first, last: l.last, count: l.elements.len(), x: l.reference.0, y: l.reference.1 };
    file.labels.iter().map(entry).collect()
}

/// K8: the label that is opened by a number, and whether 21 was given for an entry that yields none.
pub fn open(input: &[u8], entries: &[Entry], number: usize) -> Result<Label, Refusal> {
    if input.len() > LIMIT {
        return Err(refusal(14, 0));
    }
    let Some(e) = entries.get(number) else {
        return Err(refusal(21, number));
    };
    if e.last > input.len() || e.last < e.first {
        return Err(refusal(16, e.last));
    }
    first_label(&input[..e.last], e.first, (e.x, e.y))?.ok_or(refusal(21, number))
}

/// "directly after 14 and before 21"
fn turned(input: &[u8], r: &Rectangle) -> Result<(), Refusal> {
    match r {
        _ if input.len() > LIMIT => Err(refusal(14, 0)),
        r if r.x2 < r.x1 || r.y2 < r.y1 => Err(refusal(22, 0)),
        _ => Ok(()),
    }
}

fn numbers_of(label: &Label, test: impl Fn(&Element) -> bool) -> Vec<usize> {
    (0..label.elements.len()).filter(|&i| test(&label.elements[i].1)).collect()
}

/// K9: the elements whose position lies in the closed rectangle.
pub fn inside(input: &[u8], entries: &[Entry], number: usize, r: Rectangle) -> Result<Vec<usize>, Refusal> {
    turned(input, &r)?;
    let label = open(input, entries, number)?;
    Ok(numbers_of(&label, |e| r.x1 <= e.x && e.x <= r.x2 && r.y1 <= e.y && e.y <= r.y2))
}

/// K9: the boxes and diagonals whose own closed rectangle shares a point with it. Two closed intervals share one unless one ends before the other begins.
pub fn touching(input: &[u8], entries: &[Entry], number: usize, r: Rectangle) -> Result<Vec<usize>, Refusal> {
    turned(input, &r)?;
    let label = open(input, entries, number)?;
    let apart = |near: i32, size: i32, low: i32, high: i32| near as i64 + (size as i64) < low as i64 || high < near;
    Ok(numbers_of(&label, |e| matches!(e.kind, 2 | 3) && !apart(e.x, e.width, r.x1, r.x2) && !apart(e.y, e.height, r.y1, r.y2)))
}

/// K9: the nearest, "the earlier one if equal".
pub fn nearest(input: &[u8], entries: &[Entry], number: usize, x: i32, y: i32) -> Result<usize, Refusal> {
    let label = open(input, entries, number)?;
    let far = |e: &Element| (e.x as i128 - x as i128).abs().max((e.y as i128 - y as i128).abs());
    let mut best = 0;
    for i in 1..label.elements.len() {
        if far(&label.elements[i].1) < far(&label.elements[best].1) {
            best = i;
        }
    }
    Ok(best)
}

/// "203 times the new value differs from 300 times the old by at most 101": the one number with that, tried around the quotient.
pub fn at_300(old: i32) -> i128 {
    let due = 300 * old as i128;
    let about = due / 203;
    let mut near = (about - 2..=about + 2).filter(|new| (203 * new - due).abs() <= 101);
    let new = near.next().expect("a number is nearest");
    assert!(near.next().is_none(), "one number is nearest");
    new
}

/// K11: the label for 300 dots an inch; the flag tells of a refusal whether a result caused it.
pub fn to_300(input: &[u8], entries: &[Entry], number: usize) -> Result<(Label, Vec<Element300>), (bool, Refusal)> {
    let label = open(input, entries, number).map_err(|refused| (false, refused))?;
    if let Some((place, _)) = label.elements.iter().find(|(_, e)| e.kind == 4) {
        return Err((true, refusal(24, *place)));
    }
    let mut list = Vec::new();
    for (place, e) in &label.elements {
        let new = |old: i32, number: u32| i32::try_from(at_300(old)).map(Dots300).map_err(|_| (true, refusal(number, *place)));
        let (x, y) = (new(e.x, 13)?, new(e.y, 13)?);
        let [width, height, thickness] = match e.kind {
            2 | 3 => [new(e.width, 19)?, new(e.height, 19)?, new(e.thickness, 19)?],
            5..=10 | 16 => [Dots300(e.width), new(e.height, 19)?, Dots300(0)],
            _ => [Dots300(e.width), Dots300(e.height), Dots300(0)],
        };
        list.push(Element300 { x, y, width, height, thickness, ..measured(e, Dots300) });
    }
    Ok((label, list))
}

/// K13: the joined text, or the refusal and the file that has it, 0 for neither.
pub fn join(first: &[u8], second: &[u8]) -> Result<Vec<u8>, (u32, Refusal)> {
    whole(first, false).map_err(|refused| (1, refused))?;
    whole(second, false).map_err(|refused| (2, refused))?;
    let text = [&*normalised(first), b"N\n", &*normalised(second)].concat();
    if text.len() > LIMIT {
        return Err((0, refusal(25, text.len())));
    }
    Ok(text)
}

/// K13, of the joined text itself: it is listed as the labels of the first and then as the second.
pub fn joined_listing(first: &[u8], second: &[u8]) -> Vec<u8> {
    let [one, two] = [first, second].map(|input| whole(input, false).expect("accepted files were joined"));
    [listing(first, &File { pending: 0, ..one }), listing(second, &two)].concat()
}
