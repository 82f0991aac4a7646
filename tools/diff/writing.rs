//! The elements and labels of an input written as EPL (01, "Writing EPL"). What is written, and for which structs 23 is given, is told anew from 01, apart from the library;
//! then the Rust reads the text, and so do the steps.

use crate::compare::{answers, refused, written, Lent, Seen};
use crate::index::Rng;
use crate::measured::measured;
use crate::raw::{self, Dots300, Element, Element300, Walk, Written};
use crate::steps::{self, frame, put_line};
use oracle::{fields, masked, Answer, Labels, LIMIT};

/// A label as the steps answer it.
struct Label {
    sets: i32,
    copies: i32,
    elements: Vec<Element>,
}

/// Holds what is written of an input against what it should be; `expected` is the answer of the whole listing. An error says in words what is wrong.
pub fn held(lent: &mut Lent, input: &[u8], expected: &Answer, seen: &mut Seen) -> Result<(), String> {
    if input.len() > LIMIT {
        let short = Element { kind: 2, width: 1, height: 1, thickness: 1, ..Element::default() };
        refused(lent, &|input: &[u8], out: &mut [u8]| raw::write(input, short, out), input, 14, 0)?;
        // 14 comes before 23.
        return refused(lent, &|input: &[u8], out: &mut [u8]| raw::write_label(input, &[], -1, 1, out), input, 14, 0);
    }
    let Answer::Labels(_) = expected else {
        return Ok(());
    };
    let mut rng = Rng::of(input);
    let (labels, pending, drawn) = walked(input);
    if drawn.is_empty() {
        return Ok(());
    }
    elements(lent, input, &drawn, &mut rng, seen)?;
    let e = altered(drawn[rng.below(drawn.len())], input.len(), &mut rng);
    let Some(label) = labels.first() else {
        // Of half the inputs, for the time that it takes.
        return if rng.below(2) == 0 { made(lent, input, e, seen) } else { Ok(()) };
    };
    made(lent, input, e, seen)?;
    file(lent, input, &labels, &pending, seen)?;
    no_label(lent, input, label, &mut rng)?;
    with_another(lent, input, label, e, &mut rng, seen)
}

/// The labels of an accepted input, what is pending at its end, and everything that was drawn, dropped elements too.
fn walked(input: &[u8]) -> (Vec<Label>, Vec<Element>, Vec<Element>) {
    let (mut labels, mut pending, mut drawn, mut walk) = (Vec::new(), Vec::new(), Vec::new(), Walk::default());
    loop {
        let answer = raw::step(input, walk);
        match answer.kind {
            0 => labels.push(Label { sets: answer.sets, copies: answer.copies, elements: std::mem::take(&mut pending) }),
            17 => pending.clear(),
            18 | 255 => return (labels, pending, drawn),
            _ => {
                pending.push(answer.element);
                drawn.push(answer.element);
            }
        }
        walk = answer.next;
    }
}

/// Every element: one of them by itself; all others that are written are read together, each from its own line or block, by the Rust and by the steps.
fn elements(lent: &mut Lent, input: &[u8], drawn: &[Element], rng: &mut Rng, seen: &mut Seen) -> Result<(), String> {
    let (mut text, mut frames) = (Vec::new(), String::new());
    let one = rng.below(drawn.len());
    for (number, e) in drawn.iter().enumerate() {
        let fits = is_fine(input, e);
        seen.elements[!fits as usize] += 1;
        if !fits {
            far_corner(e)?;
        }
        if !fits || number == one {
            alone(lent, input, e).map_err(|wrong| format!("{e:?}, {wrong}"))?;
            continue;
        }
        let due = spelled(input, e);
        let write = |input: &[u8], out: &mut [u8]| raw::write(input, *e, out);
        answers(lent, &write, input, due.len(), Written { number: 0, place: due.len() }, &due).map_err(|wrong| format!("{e:?}, {wrong}"))?;
        text.extend(due);
        put_line(&mut frames, &frame(input, &mut { *e }));
    }
    // QR data around its limit: one byte more, the quote that closes it.
    for e in drawn.iter().filter(|e| e.kind == 14 && e.data_len > 3_000) {
        made(lent, input, Element { data_len: e.data_len + 1, ..*e }, seen)?;
    }
    if text.is_empty() {
        return Ok(());
    }
    read_back(&text, String::new(), frames).map_err(|wrong| format!("the elements, {wrong}"))
}

/// Of what a step answers 23 is given for these alone: boxes that are no `LO`, and diagonals, whose far corner the reference has moved past 32 bits.
fn far_corner(e: &Element) -> Result<(), String> {
    let past = |at: i32, by: i32| at.checked_add(by).is_none();
    if matches!(e.kind, 2 | 3) && !is_line(e) && (past(e.x, e.width) || past(e.y, e.height)) {
        return Ok(());
    }
    Err(format!("a step gives {e:?}, which is told as one that no line yields"))
}

/// One struct, however made, by itself, with room to spare, exactly enough, too little and none; what is written is read back. Whether it is.
fn alone(lent: &mut Lent, input: &[u8], e: &Element) -> Result<bool, String> {
    let write = |input: &[u8], out: &mut [u8]| raw::write(input, *e, out);
    if !is_fine(input, e) {
        return refused(lent, &write, input, 23, 0).map(|()| false);
    }
    let due = spelled(input, e);
    written(lent, &write, input, &due)?;
    let mut line = String::new();
    put_line(&mut line, &frame(input, &mut { *e }));
    read_back(&due, String::new(), line)?;
    if due.len() > LIMIT {
        return Ok(true);
    }
    let got = raw::step(&due, raw::start()).element;
    let data = |text: &[u8], e: &Element| text[e.data_start..][..e.data_len].to_vec();
    if data(&due, &got) != data(input, e) || !same(Element { data_start: e.data_start, ..got }, *e) {
        return Err(format!("read back it is {got:?}"));
    }
    Ok(true)
}

/// One struct that a host made.
fn made(lent: &mut Lent, input: &[u8], e: Element, seen: &mut Seen) -> Result<(), String> {
    let fits = alone(lent, input, &e).map_err(|wrong| format!("{e:?}, {wrong}"))?;
    seen.structs[!fits as usize] += 1;
    Ok(())
}

/// Every label of a file, and the elements pending at its end, each written anew. The labels that can be written, one behind the other, and the pending elements are read
/// as the file is.
fn file(lent: &mut Lent, input: &[u8], labels: &[Label], pending: &[Element], seen: &mut Seen) -> Result<(), String> {
    let (mut text, mut frames) = (Vec::new(), String::new());
    for (number, label) in labels.iter().enumerate() {
        let write = |input: &[u8], out: &mut [u8]| raw::write_label(input, &label.elements, label.sets, label.copies, out);
        match spelled_label(input, label) {
            Ok(due) => {
                let held = match number {
                    0 => written(lent, &write, input, &due),
                    _ => answers(lent, &write, input, due.len(), Written { number: 0, place: due.len() }, &due),
                };
                held.map_err(|wrong| format!("label {number}, {wrong}"))?;
                put_label(&mut frames, input, label);
                text.extend(due);
                seen.texts[0] += 1;
            }
            Err(place) => {
                refused(lent, &write, input, 23, place).map_err(|wrong| format!("label {number}, {wrong}"))?;
                seen.texts[1] += 1;
            }
        }
    }
    let mut behind = String::new();
    text.extend(b"N\n");
    for e in pending.iter().filter(|e| is_fine(input, e)) {
        text.extend(spelled(input, e));
        put_line(&mut behind, &frame(input, &mut { *e }));
    }
    read_back(&text, frames, behind).map_err(|wrong| format!("the labels, {wrong}"))
}

/// A label for 300 dots an inch, as the conversion gives it. Whether it is written.
pub fn label_300(lent: &mut Lent, input: &[u8], sets: i32, copies: i32, list: &[Element300]) -> Result<bool, String> {
    let label = Label { sets, copies, elements: list.iter().map(|e| measured(e, |n| n.0)).collect() };
    let write = |input: &[u8], out: &mut [u8]| raw::write_label_300(input, list, sets, copies, out);
    match spelled_label(input, &label) {
        Ok(due) => {
            written(lent, &write, input, &due)?;
            let mut frames = String::new();
            put_label(&mut frames, input, &label);
            read_back(&due, frames, String::new()).map(|()| true)
        }
        Err(place) => refused(lent, &write, input, 23, place).map(|()| false),
    }
}

/// "A label with no element .. or a negative count", after 23 of its elements.
fn no_label(lent: &mut Lent, input: &[u8], label: &Label, rng: &mut Rng) -> Result<(), String> {
    let (sets, copies) = [(-1, label.copies), (label.sets, i32::MIN), (label.sets, label.copies)][rng.below(3)];
    let list = if sets < 0 || copies < 0 { &label.elements[..] } else { &[] };
    let place = list.iter().position(|e| !is_fine(input, e)).unwrap_or(list.len());
    let write = |input: &[u8], out: &mut [u8]| raw::write_label(input, list, sets, copies, out);
    refused(lent, &write, input, 23, place).map_err(|wrong| format!("{sets} sets, {copies} copies, {wrong}"))
}

/// A label, and one at 300 dots, in which a struct that a host made stands at some place.
fn with_another(lent: &mut Lent, input: &[u8], label: &Label, e: Element, rng: &mut Rng, seen: &mut Seen) -> Result<(), String> {
    let mut elements = label.elements.clone();
    let number = rng.below(elements.len());
    elements[number] = e;
    let label = Label { elements, ..*label };
    let write = |input: &[u8], out: &mut [u8]| raw::write_label(input, &label.elements, label.sets, label.copies, out);
    match spelled_label(input, &label) {
        Ok(due) => written(lent, &write, input, &due),
        Err(place) => refused(lent, &write, input, 23, place),
    }
    .map_err(|wrong| format!("with {e:?} as element {number}, {wrong}"))?;
    let list: Vec<Element300> = label.elements.iter().map(|e| measured(e, Dots300)).collect();
    let fits = label_300(lent, input, label.sets, label.copies, &list).map_err(|wrong| format!("with {e:?} as element {number} at 300 dots, {wrong}"))?;
    seen.structs[2 + !fits as usize] += 1;
    Ok(())
}

/// The frames of a label.
fn put_label(frames: &mut String, input: &[u8], label: &Label) {
    let counts = [label.elements.len() as i32, label.sets, label.copies];
    put_line(frames, &[&[0][..], &counts.map(i32::to_be_bytes).concat()].concat());
    label.elements.iter().for_each(|e| put_line(frames, &frame(input, &mut { *e })));
}

/// The Rust reads the text, within the limit, as these frames, the fields that it has not put in from the text; and so do the steps.
fn read_back(text: &[u8], printed: String, pending: String) -> Result<(), String> {
    if text.len() > LIMIT {
        return Ok(());
    }
    let due = Answer::Labels(Labels { printed, pending });
    let rust = fields::told(text, &masked::answer(text).0);
    if rust != due {
        return Err(format!("written as\n{}\nthe Rust reads\n{rust:?}\nand not\n{due:?}", text.escape_ascii()));
    }
    steps::walked(text, &due).map_err(|wrong| format!("written as\n{}\n{wrong}", text.escape_ascii()))
}

// ---- what is written

/// `N`, the elements, the print line; or the number of the first element that no line yields.
fn spelled_label(input: &[u8], label: &Label) -> Result<Vec<u8>, usize> {
    match label.elements.iter().position(|e| !is_fine(input, e)) {
        Some(number) => Err(number),
        None => {
            let mut text = b"N\n".to_vec();
            label.elements.iter().for_each(|e| text.extend(spelled(input, e)));
            text.extend(format!("P{},{}\n", label.sets, label.copies).as_bytes());
            Ok(text)
        }
    }
}

/// The one spelling of an element that some line or block yields, with its LF; of any other struct no matter what.
fn spelled(input: &[u8], e: &Element) -> Vec<u8> {
    let (x, y, turn) = (e.x, e.y, e.rotation);
    let (far_x, far_y) = (x.wrapping_add(e.width), y.wrapping_add(e.height));
    let flag = |flag: u8, letters: [&'static str; 2]| letters[(flag != 0) as usize];
    let bars = |kind: &str, wide: i32| format!("B{x},{y},{turn},{kind},{},{wide},{},{},", e.width, e.height, flag(e.line, ["N", "B"]));
    let head = match e.kind {
        1 => format!("A{x},{y},{turn},{},{},{},{},", e.font, e.horizontal, e.vertical, flag(e.reverse, ["N", "R"])),
        2 if is_line(e) => format!("L{}{x},{y},{},{}", ["O", "W", "E"][e.colour.min(2) as usize], e.width, e.height),
        2 => format!("X{x},{y},{},{far_x},{far_y}", e.thickness),
        3 if e.direction == 1 => format!("LS{x},{y},{},{far_x},{far_y}", e.thickness),
        3 => format!("LS{x},{far_y},{},{far_x},{y}", e.thickness),
        4 => format!("GW{x},{y},{},{},", e.row_bytes, e.data_len.checked_div(e.row_bytes.unsigned_abs() as usize).unwrap_or(0)),
        5 => bars(["0", "1", "1E"][(e.mode - 1).clamp(0, 2) as usize], 2),
        6 => bars("E30", 2),
        7 => bars("E80", 2),
        8 => bars("UA0", 2),
        9 => bars(flag(e.check, ["2", "2C"]), e.wide),
        10 => bars(flag(e.check, ["3", "3C"]), e.wide),
        11 => {
            let level = if e.security == -1 { String::new() } else { format!("s{},", e.security) };
            format!("b{x},{y},P,o{turn},x{},y{},l{},r{},t{},{level}", e.width, e.height, e.columns, e.rows, e.truncate)
        }
        12 => format!("b{x},{y},A,d{},e{},", e.magnification, e.size),
        13 => format!("b{x},{y},D,h{},c{},r{},", e.height, e.columns, e.rows),
        14 => format!("b{x},{y},Q,s{},e{},", e.magnification, e.level as char),
        15 => format!("b{x},{y},M,m{},", e.mode),
        _ => bars("UE0", 2),
    };
    let data = data_of(input, e).unwrap_or(&[]);
    let quote: &[u8] = if matches!(e.kind, 2..=4) { b"" } else { b"\"" };
    [head.as_bytes(), quote, data, quote, b"\n"].concat()
}

/// "where its thickness is the smaller side and both sides are at least 1"
fn is_line(e: &Element) -> bool {
    e.kind == 2 && e.width >= 1 && e.height >= 1 && e.thickness == e.width.min(e.height)
}

fn data_of<'a>(input: &'a [u8], e: &Element) -> Option<&'a [u8]> {
    input.get(e.data_start..e.data_start.checked_add(e.data_len)?)
}

// ---- which structs a line or a block yields at reference 0,0

fn is_fine(input: &[u8], e: &Element) -> bool {
    let mut rest = *e;
    frame(input, &mut rest);
    // What is no field of its kind is 0, bit by bit; a box and a diagonal have no data.
    let stray = !same(rest, Element::default());
    let flags = [e.reverse, e.direction, e.line, e.check, e.truncate].iter().all(|&flag| flag <= 1) && e.rotation <= 3 && e.colour <= 2;
    let data = match e.kind {
        2 | 3 => true,
        4 => data_of(input, e).is_some(),
        _ => data_of(input, e).is_some_and(|data| !data.is_empty() && !data.contains(&b'\n')),
    };
    !stray && flags && data && has_fine_numbers(input, e)
}

fn has_fine_numbers(input: &[u8], e: &Element) -> bool {
    let bars = e.width >= 1 && e.height >= 1;
    let cornered = e.width >= 0 && e.height >= 0 && e.thickness >= 1 && e.x.checked_add(e.width).is_some() && e.y.checked_add(e.height).is_some();
    match e.kind {
        1 => sizes(e).is_some_and(|(height, width)| e.text_height.to_bits() == height.to_bits() && e.text_width.to_bits() == width.to_bits()),
        2 => is_line(e) || (e.colour == 0 && cornered),
        3 if e.direction == 1 => cornered && (e.width > 0) == (e.height > 0),
        3 => cornered && (e.width > 0 || e.height > 0),
        4 => e.data_len == 0 && e.row_bytes >= 0 || e.row_bytes > 0 && e.data_len % e.row_bytes as usize == 0,
        5 => bars && (1..=3).contains(&e.mode),
        6..=8 | 16 => bars,
        9 | 10 => bars && e.ratio.to_bits() == f64::max(e.wide as f64 / e.width as f64, 2.0).to_bits(),
        11 => {
            let level = e.security == -1 || (1..=8).contains(&e.security);
            level && (2..=9).contains(&e.width) && (4..=99).contains(&e.height) && e.columns >= 0 && e.rows >= 0
        }
        12 => (1..=55).contains(&e.magnification) && matches!(e.size, 0..=99 | 101..=104 | 201..=232 | 300),
        13 => (1..=40).contains(&e.height) && e.columns >= 0 && e.rows >= 0,
        14 => {
            let decoded = || data_of(input, e).map_or(0, |data| String::from_utf8_lossy(data).len());
            (1..=100).contains(&e.magnification) && b"HQML".contains(&e.level) && decoded() <= 9_999
        }
        15 => matches!(e.mode, 2 | 3 | 4 | 6),
        _ => false,
    }
}

/// The height and width that a font and its multipliers give; products are within 32 bits.
fn sizes(e: &Element) -> Option<(f64, f64)> {
    let (wide, high) = match e.font {
        2 => (10, 16),
        3 => (12, 20),
        4 => (14, 24),
        5 => (32, 48),
        _ => (8, 12),
    };
    if e.horizontal < 1 || e.vertical < 1 {
        return None;
    }
    let height = i32::checked_mul(high, e.vertical)? as f64;
    if e.horizontal == e.vertical {
        return Some((height, height));
    }
    Some((height, height * i32::checked_mul(wide, e.horizontal)? as f64 / height))
}

/// Two structs, sizes and ratio by their bits.
fn same(a: Element, b: Element) -> bool {
    let bits = |e: Element| [e.text_height, e.text_width, e.ratio].map(f64::to_bits);
    let rest = |e: Element| Element { text_height: 0.0, text_width: 0.0, ratio: 0.0, ..e };
    bits(a) == bits(b) && rest(a) == rest(b)
}

/// Numbers at the ends of ranges.
const FEW: &[i32] = &[
    0, 1, 2, 3, 4, 5, 6, 8, 9, 10, 40, 41, 55, 56, 99, 100, 101, 104, 105, 200, 201, 232, 233, 300, -1, -2, i32::MAX, i32::MAX - 1, i32::MIN, 178_956_970, 268_435_456,
];

/// A struct that a host may hand over: one field of an element is another, mostly one that lies near, or one that is none of its kind's.
fn altered(mut e: Element, len: usize, rng: &mut Rng) -> Element {
    let number = [FEW[rng.below(FEW.len())], rng.next() as i32, rng.below(400) as i32][[0, 0, 1, 2][rng.below(4)]];
    let size = [0.0, -0.0, 2.0, 2.5, 12.0, f64::NAN, f64::INFINITY, e.text_height, e.wide as f64, rng.below(99) as f64][rng.below(10)];
    let flag = [0, 1, 2, 3, 4, 255, b'H', b'Q', b'M', b'L', b'm'][rng.below(11)];
    let place = [0, 1, e.data_len + 1, len, len + 1, len / 2, usize::MAX, usize::MAX - e.data_len, e.data_start][rng.below(9)];
    // Half of them a field that the kind has, where numbers mean something.
    let own: &[usize] = match e.kind {
        1 => &[0, 1, 18, 19, 20, 22, 23, 25, 26],
        2 | 3 => &[2, 3, 8, 9, 10, 11, 12],
        4 => &[13, 25, 26],
        5..=10 | 16 => &[0, 4, 5, 10, 11, 17, 21, 24, 25, 26],
        11 => &[0, 6, 10, 11, 14, 15, 16],
        12..=15 => &[7, 11, 15, 16, 17, 27, 28, 25, 26],
        _ => &[0],
    };
    let field = if rng.below(2) == 0 { own[rng.below(own.len())] } else { rng.below(30) };
    match field {
        0 => e.rotation = flag,
        1 => e.reverse = flag,
        2 => e.colour = flag,
        3 => e.direction = flag,
        4 => e.line = flag,
        5 => e.check = flag,
        6 => e.truncate = flag,
        7 => e.level = flag,
        8 => e.x = number,
        9 => e.y = number,
        10 => e.width = number,
        11 => e.height = number,
        12 => e.thickness = number,
        13 => e.row_bytes = number,
        14 => e.security = number,
        15 => e.columns = number,
        16 => e.rows = number,
        17 => e.mode = number,
        18 => e.font = number,
        19 => e.horizontal = number,
        20 => e.vertical = number,
        21 => e.wide = number,
        22 => e.text_height = size,
        23 => e.text_width = size,
        24 => e.ratio = size,
        25 => e.data_start = place,
        26 => e.data_len = place,
        27 => e.magnification = number,
        28 => e.size = number,
        _ => e.kind = [0, 1, 2, 3, 4, 9, 10, 11, 15, 16, 17, 255][rng.below(12)],
    }
    // Half of those with a new font or bar have the sizes that go with it.
    if rng.below(2) == 0 {
        match e.kind {
            1 => (e.text_height, e.text_width) = sizes(&e).unwrap_or((e.text_height, e.text_width)),
            9 | 10 => e.ratio = f64::max(e.wide as f64 / e.width as f64, 2.0),
            _ => {}
        }
    }
    e
}
