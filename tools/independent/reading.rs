//! The reading of a file, written from the scope document and the change requests ("01" and "02") and not from the code: units, lines, fields, elements, labels. Slow and plain; positions
//! and sizes are numbers of 64 bits until they are asked whether they fit 32.

use crate::raw::Element;

/// "inputs up to 16,777,216 bytes"
pub const LIMIT: usize = 16_777_216;

/// A refusal: its number and place; of 17 and 18 the field, from 1, and what it held. Else these are 0.
#[derive(Clone, Copy, Debug, Default, PartialEq, Eq)]
pub struct Refusal {
    pub number: u32,
    pub place: usize,
    pub field: u32,
    pub held: u32,
}

pub fn refusal(number: u32, place: usize) -> Refusal {
    Refusal { number, place, field: 0, held: 0 }
}

/// A label: the bytes from just behind the print line before it to just past its own, the reference where it starts, and its elements with the first byte of their lines.
#[derive(Clone, Debug)]
pub struct Label {
    pub first: usize,
    pub last: usize,
    pub reference: (i32, i32),
    pub elements: Vec<(usize, Element)>,
    pub sets: i32,
    pub copies: i32,
}

/// The labels of an accepted file, and how many elements are pending at its end.
#[derive(Clone, Debug)]
pub struct File {
    pub labels: Vec<Label>,
    pub pending: usize,
}

/// The whole file, plainly or by the well-site profile.
pub fn whole(input: &[u8], strict: bool) -> Result<File, Refusal> {
    if input.len() > LIMIT {
        return Err(refusal(14, 0));
    }
    let mut labels = Vec::new();
    let pending = walk(input, 0, (0, 0), strict, |label| {
        labels.push(label);
        true
    })?;
    Ok(File { labels, pending })
}

/// The first label from a place on, nothing behind its print being read.
pub fn first_label(input: &[u8], place: usize, reference: (i32, i32)) -> Result<Option<Label>, Refusal> {
    let mut found = None;
    walk(input, place, reference, false, |label| {
        found = Some(label);
        false
    })?;
    Ok(found)
}

/// Unit by unit from a place; each label is handed to `printed`, which says whether to go on. The elements pending where it ends.
fn walk(input: &[u8], place: usize, reference: (i32, i32), strict: bool, mut printed: impl FnMut(Label) -> bool) -> Result<usize, Refusal> {
    let (mut place, mut reference) = (place, reference);
    let mut start = (place, reference);
    let mut pending = Vec::new();
    while place < input.len() {
        let unit = unit(input, place);
        // "both come after the field count (for GW after 12) and before the type"
        if let (true, Some((field, held))) = (strict, unit.objection) {
            return Err(Refusal { number: if held == OUTSIDE { 18 } else { 17 }, place, field, held });
        }
        match unit.says.map_err(|number| refusal(number, place))? {
            Says::Nothing => {}
            Says::Clear => {
                pending.clear();
                reference = (0, 0);
            }
            Says::Reference(x, y) => reference = (x, y.unwrap_or(reference.1)),
            Says::Draws(drawn) => pending.push((place, drawn.at(reference).map_err(|number| refusal(number, place))?)),
            Says::Print(sets, copies) => {
                if !pending.is_empty() {
                    let elements = std::mem::take(&mut pending);
                    if !printed(Label { first: start.0, last: unit.next, reference: start.1, elements, sets, copies }) {
                        return Ok(0);
                    }
                }
                start = (unit.next, reference);
            }
        }
        place = unit.next;
    }
    Ok(pending.len())
}

/// One unit: where the next one begins, what the profile has against its fields (the field from 1, and what it held), and what it says or the number it is refused with.
pub struct Unit {
    pub next: usize,
    pub objection: Option<(u32, u32)>,
    pub says: Result<Says, u32>,
}

pub enum Says {
    Nothing,
    Clear,
    /// x, and y where there is a comma.
    Reference(i32, Option<i32>),
    Draws(Drawn),
    /// Sets and copies.
    Print(i32, i32),
}

/// An element before the reference is added: its position, and whether its sizes fit 32 bits.
pub struct Drawn {
    element: Element,
    x: i64,
    y: i64,
    fits: bool,
}

impl Drawn {
    /// With the reference added: "13 a sum with the reference", then "19 a size".
    pub fn at(self, reference: (i32, i32)) -> Result<Element, u32> {
        let (Ok(x), Ok(y)) = (i32::try_from(self.x + reference.0 as i64), i32::try_from(self.y + reference.1 as i64)) else {
            return Err(13);
        };
        if self.fits {
            Ok(Element { x, y, ..self.element })
        } else {
            Err(19)
        }
    }
}

fn is_ascii_blank(b: u8) -> bool {
    matches!(b, 0x20 | 0x09 | 0x0a | 0x0c | 0x0d)
}

/// The line without the ASCII blanks at its ends.
fn without_ascii_blanks(line: &[u8]) -> &[u8] {
    let from = line.iter().position(|&b| !is_ascii_blank(b)).unwrap_or(line.len());
    let to = line.iter().rposition(|&b| !is_ascii_blank(b)).map_or(from, |at| at + 1);
    &line[from..to]
}

/// The unit that begins at a place before the end.
pub fn unit(input: &[u8], place: usize) -> Unit {
    let rest = &input[place..];
    let line = &rest[..rest.iter().position(|&b| b == b'\n').unwrap_or(rest.len())];
    let blanks = line.iter().take_while(|&&b| is_ascii_blank(b)).count();
    if line[blanks..].starts_with(b"GW") {
        return block(input, place, place + blanks + 2, line);
    }
    let next = input.len().min(place + line.len() + 1);
    let (objection, says) = command(line, place);
    Unit { next, objection, says }
}

/// A graphic block whose fields begin at `from`; `line` is all up to the first LF.
fn block(input: &[u8], place: usize, from: usize, line: &[u8]) -> Unit {
    let refused = |number| Unit { next: input.len(), objection: None, says: Err(number) };
    let parts: Vec<&[u8]> = line[from - place..].splitn(5, |&b| b == b',').collect();
    if parts.len() < 5 {
        return refused(10);
    }
    let fields = &parts[..4];
    let [x, y, width, lines] = [0, 1, 2, 3].map(|k| number(fields[k], 0) as i64);
    if width < 0 || lines < 0 {
        return refused(11);
    }
    let data = from + fields.iter().map(|f| f.len() + 1).sum::<usize>();
    if width * lines > (input.len() - data) as i64 {
        return refused(12);
    }
    let total = (width * lines) as usize;
    let element = Element { kind: 4, row_bytes: width as i32, data_start: data, data_len: total, ..Element::default() };
    let objection = objection(fields, &[(0, ANY), (1, ANY), (2, (1, i32::MAX)), (3, ANY)]);
    Unit { next: data + total, objection, says: Ok(Says::Draws(Drawn { element, x, y, fits: true })) }
}

/// "White_Space: 9 to d, 20, 85, a0, 1680, 2000 to 200a, 2028, 2029, 202f, 205f, 3000, hexadecimal"
fn is_blank(c: char) -> bool {
    matches!(c as u32, 0x9..=0xd | 0x20 | 0x85 | 0xa0 | 0x1680 | 0x2000..=0x200a | 0x2028 | 0x2029 | 0x202f | 0x205f | 0x3000)
}

/// Whether the bytes are one Unicode blank.
fn are_blank(bytes: &[u8]) -> bool {
    std::str::from_utf8(bytes).is_ok_and(|s| s.chars().count() == 1 && s.chars().all(is_blank))
}

/// Without the Unicode blanks at the ends; how many bytes are taken off the front.
fn trimmed(t: &[u8]) -> (usize, &[u8]) {
    let (mut from, mut to) = (0, t.len());
    while let Some(n) = (1..=3.min(to - from)).find(|&n| are_blank(&t[from..from + n])) {
        from += n;
    }
    while let Some(n) = (1..=3.min(to - from)).find(|&n| are_blank(&t[to - n..to])) {
        to -= n;
    }
    (from, &t[from..to])
}

fn trim(t: &[u8]) -> &[u8] {
    trimmed(t).1
}

/// What a number field holds (02, K5).
enum Held {
    Value(i32),
    Empty,
    NoNumber,
    Beyond,
}

const OUTSIDE: u32 = 4;

fn held(field: &[u8]) -> Held {
    let t = trim(field);
    let Some(&sign) = t.first() else {
        return Held::Empty;
    };
    let digits = if sign == b'-' || sign == b'+' { &t[1..] } else { t };
    if digits.is_empty() || !digits.iter().all(u8::is_ascii_digit) {
        return Held::NoNumber;
    }
    let value = magnitude(digits).map(|n| if sign == b'-' { -n } else { n });
    value.and_then(|n| i32::try_from(n).ok()).map_or(Held::Beyond, Held::Value)
}

/// The number that digits write, if it has at most ten digits behind its zeros.
fn magnitude(digits: &[u8]) -> Option<i64> {
    let zeros = digits.iter().take_while(|&&b| b == b'0').count();
    (digits.len() - zeros <= 10).then(|| digits[zeros..].iter().fold(0, |n, b| 10 * n + (b - b'0') as i64))
}

fn number(field: &[u8], default: i32) -> i32 {
    match held(field) {
        Held::Value(n) => n,
        _ => default,
    }
}

/// The values that the profile allows.
type Range = (i32, i32);
const ANY: Range = (i32::MIN, i32::MAX);
/// "horizontal multiplier 1 to 6 or 8": told by its own name.
const HORIZONTAL: Range = (1, -8);

/// The first of these fields that does not hold what it must.
fn objection(fields: &[&[u8]], asked: &[(usize, Range)]) -> Option<(u32, u32)> {
    asked.iter().find_map(|&(k, range)| {
        let wrong = match held(fields[k]) {
            Held::Empty => 1,
            Held::NoNumber => 2,
            Held::Beyond => 3,
            Held::Value(n) if range == HORIZONTAL && ((1..=6).contains(&n) || n == 8) => return None,
            Held::Value(n) if range != HORIZONTAL && (range.0..=range.1).contains(&n) => return None,
            Held::Value(_) => OUTSIDE,
        };
        Some((k as u32 + 1, wrong))
    })
}

type Line = (Option<(u32, u32)>, Result<Says, u32>);

/// A command line that stands at a place.
fn command(line: &[u8], place: usize) -> Line {
    let (blanks, t) = trimmed(line);
    let place = place + blanks;
    match t {
        b"N" => (None, Ok(Says::Clear)),
        [b'R', d, ..] if d.is_ascii_digit() => reference(&t[1..]),
        [b'A' | b'B' | b'b', ..] => quoted(t, place),
        [b'L', b'O' | b'W' | b'E', ..] => sides(t),
        [b'L', b'S', ..] => corners(&t[2..], 3),
        [b'X', ..] => corners(&t[1..], 2),
        _ => (None, Ok(print(t).map_or(Says::Nothing, |(sets, copies)| Says::Print(sets, copies)))),
    }
}

/// "x, then everything after the first comma as y; without a comma y stays"
fn reference(t: &[u8]) -> Line {
    let fields: Vec<&[u8]> = t.splitn(2, |&b| b == b',').collect();
    let asked = [(0, ANY), (1, ANY)];
    (objection(&fields, &asked[..fields.len()]), Ok(Says::Reference(number(fields[0], 0), fields.get(1).map(|y| number(y, 0)))))
}

/// Sets and copies of a print line, if it is one. "A count that is absent or too large for signed 32 bits is 1."
fn print(t: &[u8]) -> Option<(i32, i32)> {
    let counts: Vec<&[u8]> = t.strip_prefix(b"P")?.split(|&b| b == b',').collect();
    let count = |digits: &[u8]| magnitude(digits).and_then(|n| i32::try_from(n).ok()).filter(|_| !digits.is_empty()).unwrap_or(1);
    if !counts.iter().all(|digits| digits.iter().all(u8::is_ascii_digit)) {
        return None;
    }
    match counts[..] {
        [sets] => Some((count(sets), 1)),
        [sets, copies] if !sets.is_empty() && !copies.is_empty() => Some((count(sets), count(copies))),
        _ => None,
    }
}

/// `LO`, `LW`, `LE`.
fn sides(t: &[u8]) -> Line {
    let fields: Vec<&[u8]> = t[2..].split(|&b| b == b',').collect();
    if fields.len() < 4 {
        return (None, Err(4));
    }
    let (width, height) = (number(fields[2], 1).max(1), number(fields[3], 1).max(1));
    let colour = match t[1] {
        b'O' => 0,
        b'W' => 1,
        _ => 2,
    };
    let element = Element { kind: 2, width, height, thickness: width.min(height), colour, ..Element::default() };
    let drawn = Drawn { element, x: number(fields[0], 0) as i64, y: number(fields[1], 0) as i64, fits: true };
    (objection(&fields, &[(0, ANY), (1, ANY), (2, ANY), (3, ANY)]), Ok(Says::Draws(drawn)))
}

/// `LS` (kind 3) and `X` (kind 2): two corners.
fn corners(t: &[u8], kind: u8) -> Line {
    let fields: Vec<&[u8]> = t.split(|&b| b == b',').collect();
    if fields.len() < 5 {
        return (None, Err(if kind == 3 { 5 } else { 6 }));
    }
    let [x1, y1, x2, y2] = [0, 1, 3, 4].map(|k| number(fields[k], 0) as i64);
    let (dx, dy) = (x2 - x1, y2 - y1);
    let mut element = Element { kind, thickness: number(fields[2], 1).max(1), ..Element::default() };
    let sizes = i32::try_from(dx.abs()).ok().zip(i32::try_from(dy.abs()).ok());
    (element.width, element.height) = sizes.unwrap_or_default();
    if kind == 3 {
        element.direction = (dx.signum() == dy.signum()) as u8;
    }
    let drawn = Drawn { element, x: x1.min(x2), y: y1.min(y2), fits: sizes.is_some() };
    (objection(&fields, &[(0, ANY), (1, ANY), (2, ANY), (3, ANY), (4, ANY)]), Ok(Says::Draws(drawn)))
}

/// `A`, `B`, `b`: "data lies between the first and last quote".
fn quoted(t: &[u8], place: usize) -> Line {
    let nothing = (None, Ok(Says::Nothing));
    let (Some(open), Some(close)) = (t.iter().position(|&b| b == b'"'), t.iter().rposition(|&b| b == b'"')) else {
        return nothing;
    };
    if close <= open + 1 {
        return nothing;
    }
    let mut before = &t[1..open];
    while let Some(shorter) = before.strip_suffix(b",") {
        before = shorter;
    }
    let fields: Vec<&[u8]> = before.split(|&b| b == b',').collect();
    let (least, number_if_fewer) = match t[0] {
        b'A' => (7, 1),
        b'B' => (8, 2),
        _ => (3, 3),
    };
    if fields.len() < least {
        return (None, Err(number_if_fewer));
    }
    let data = String::from_utf8_lossy(&t[open + 1..close]);
    let mut element = Element { data_start: place + open + 1, data_len: close - open - 1, ..Element::default() };
    let rotation: Range = (0, 3);
    let asked: &[(usize, Range)] = match t[0] {
        b'A' => &[(0, ANY), (1, ANY), (2, rotation), (3, (1, 5)), (4, HORIZONTAL), (5, (1, 9))],
        b'B' => &[(0, ANY), (1, ANY), (2, rotation), (4, ANY), (5, ANY), (6, ANY)],
        _ => &[(0, ANY), (1, ANY)],
    };
    let read = match t[0] {
        b'A' => Ok(text(&mut element, &fields)),
        b'B' => bars(&mut element, &fields).map(|()| true),
        _ => symbol(&mut element, &fields, &data).map(|()| true),
    };
    let (x, y) = (number(fields[0], 0) as i64, number(fields[1], 0) as i64);
    (objection(&fields, asked), read.map(|fits| Says::Draws(Drawn { element, x, y, fits })))
}

/// "Rotations 1, 2, 3 are quarter turns, others 0."
fn turns(rotation: i32) -> u8 {
    if (1..=3).contains(&rotation) {
        rotation as u8
    } else {
        0
    }
}

/// Height and width of a text, where the products fit 32 bits.
pub fn text_sizes(font: i32, horizontal: i32, vertical: i32) -> Option<(f64, f64)> {
    let (cell_width, cell_height) = match font {
        2 => (10, 16),
        3 => (12, 20),
        4 => (14, 24),
        5 => (32, 48),
        _ => (8i64, 12i64),
    };
    let height = i32::try_from(cell_height * vertical as i64).ok()? as f64;
    let across = i32::try_from(cell_width * horizontal as i64).ok()? as f64;
    Some((height, if horizontal == vertical { height } else { height * across / height }))
}

/// "one f64 division, at least 2.0"
pub fn ratio(wide: i32, narrow: i32) -> f64 {
    let ratio = wide as f64 / narrow as f64;
    if ratio < 2.0 {
        2.0
    } else {
        ratio
    }
}

/// Whether the sizes fit.
fn text(e: &mut Element, fields: &[&[u8]]) -> bool {
    e.kind = 1;
    e.rotation = turns(number(fields[2], 0));
    e.font = number(fields[3], 1);
    e.horizontal = number(fields[4], 1).max(1);
    e.vertical = number(fields[5], 1).max(1);
    e.reverse = (trim(fields[6]) == b"R") as u8;
    let sizes = text_sizes(e.font, e.horizontal, e.vertical);
    (e.text_height, e.text_width) = sizes.unwrap_or_default();
    sizes.is_some()
}

fn bars(e: &mut Element, fields: &[&[u8]]) -> Result<(), u32> {
    e.rotation = turns(number(fields[2], 0));
    e.width = number(fields[4], 1).max(1);
    e.height = number(fields[6], 10).max(1);
    e.line = (trim(fields[7]) == b"B") as u8;
    let (kind, mode, check) = match trim(fields[3]) {
        b"0" => (5, 1, 0),
        b"1" | b"1A" | b"1B" | b"1C" => (5, 2, 0),
        b"1E" => (5, 3, 0),
        b"2" => (9, 0, 0),
        b"2C" | b"2D" => (9, 0, 1),
        b"3" => (10, 0, 0),
        b"3C" => (10, 0, 1),
        b"E30" => (6, 0, 0),
        b"E80" => (7, 0, 0),
        b"UA0" => (8, 0, 0),
        b"UE0" => (16, 0, 0),
        _ => return Err(7),
    };
    (e.kind, e.mode, e.check) = (kind, mode, check);
    if kind == 9 || kind == 10 {
        e.wide = number(fields[5], 2);
        e.ratio = ratio(e.wide, e.width);
    }
    Ok(())
}

/// The parameters of `b` "never refuse; their meaning is that of `parse_epl_2d_barcode`" (docs/src).
fn symbol(e: &mut Element, fields: &[&[u8]], data: &str) -> Result<(), u32> {
    let options = options(&fields[3..]);
    // The last value of a letter that is a number of 32 bits.
    let last = |letter: u8| options.iter().filter(|o| o.0 == letter).filter_map(|o| value(o.1)).last();
    // The value of the last one with the letter, whatever it is.
    let of_last = |letter: u8| options.iter().filter(|o| o.0 == letter).last().map(|o| o.1);
    let whole = |letter: u8| of_last(letter).and_then(value).unwrap_or(0);
    match trim(fields[2]) {
        b"A" => {
            e.kind = 12;
            e.magnification = last(b'd').map_or(3, |n| n.clamp(1, 55));
            e.size = last(b'e').filter(|n| matches!(n, 1..=99 | 101..=104 | 201..=232 | 300)).unwrap_or(0);
        }
        b"D" => {
            e.kind = 13;
            e.height = last(b'h').map_or(5, |n| n.clamp(1, 40));
            (e.columns, e.rows) = (whole(b'c'), whole(b'r'));
        }
        b"M" => {
            e.kind = 15;
            e.mode = of_last(b'm').and_then(value).filter(|m| matches!(m, 2 | 3 | 4 | 6)).unwrap_or_else(|| mode_of(data.as_bytes()));
        }
        b"P" => {
            e.kind = 11;
            e.security = last(b's').map_or(-1, |n| n.clamp(1, 8));
            e.width = last(b'x').map_or(6, |n| n.clamp(2, 9));
            e.height = last(b'y').map_or(4 * e.width, |n| n.clamp(4, 99));
            (e.columns, e.rows) = (whole(b'l'), whole(b'r'));
            e.truncate = (of_last(b't') == Some(b"1")) as u8;
            e.rotation = turns(last(b'o').unwrap_or(0));
        }
        b"Q" => {
            e.kind = 14;
            e.magnification = last(b's').map_or(3, |n| n.clamp(1, 100));
            e.level = options.iter().filter(|o| o.0 == b'e').filter_map(|o| o.1.first()).rfind(|b| b"LMQH".contains(b)).map_or(b'M', |&b| b);
            if data.len() > 9_999 {
                return Err(9);
            }
        }
        _ => return Err(8),
    }
    Ok(())
}

/// The value of an option, where it is a number of 32 bits.
fn value(digits: &[u8]) -> Option<i32> {
    if digits.is_empty() || !digits.iter().all(u8::is_ascii_digit) {
        return None;
    }
    magnitude(digits).and_then(|n| i32::try_from(n).ok())
}

/// A letter, and the digits that follow at once, or one letter, or nothing; all else is passed over.
fn options<'a>(fields: &[&'a [u8]]) -> Vec<(u8, &'a [u8])> {
    let mut found = Vec::new();
    for field in fields {
        let mut rest: &'a [u8] = field;
        while let Some((&letter, behind)) = rest.split_first() {
            let length = match behind.first() {
                _ if !letter.is_ascii_alphabetic() => 0,
                Some(b) if b.is_ascii_alphabetic() => 1,
                _ => behind.iter().take_while(|b| b.is_ascii_digit()).count(),
            };
            if letter.is_ascii_alphabetic() {
                found.push((letter, &behind[..length]));
            }
            rest = &behind[length..];
        }
    }
    found
}

/// MaxiCode's mode by its decoded data: 01, "parser.rs, lines".
fn mode_of(data: &[u8]) -> i32 {
    const HEADER: &[u8] = &[0x5b, 0x29, 0x3e, 0x1e, 0x30, 0x31, 0x1d];
    match data.windows(HEADER.len()).position(|part| part == HEADER) {
        Some(at) if at > 6 && data[6..at].iter().all(u8::is_ascii_digit) => 2,
        Some(at) if at >= 6 => 3,
        _ => 4,
    }
}

/// Normalised text (01, "format.rs"): of any input, a malformed `GW` line as text.
pub fn normalised(input: &[u8]) -> Vec<u8> {
    let mut out = Vec::new();
    let mut place = 0;
    while place < input.len() {
        let rest = &input[place..];
        let line = &rest[..rest.iter().position(|&b| b == b'\n').unwrap_or(rest.len())];
        let is_graphic = without_ascii_blanks(line).starts_with(b"GW");
        let whole = if is_graphic { Some(unit(input, place)).filter(|unit| unit.says.is_ok()) } else { None };
        let (text, next) = match whole {
            Some(block) => (&input[place..block.next], block.next),
            None => (without_ascii_blanks(line), input.len().min(place + line.len() + 1)),
        };
        if !text.is_empty() {
            out.extend(text);
            out.push(b'\n');
        }
        place = next;
    }
    out
}
