//! K10, writing EPL: which elements a line or a block yields, told from 01's forms, and the spelling that the team chose for each.

use crate::held::{Case, Held, Same, OVER};
use crate::made;
use crate::measured::measured;
use crate::raw::{self, Dots300, Element, Element300, Written};
use crate::reading::{ratio, refusal, text_sizes, unit, whole, Refusal, Says, LIMIT};
use crate::several;
use inputs::{Maker, Rng};
use std::borrow::Cow;

extern "C" {
    fn laddertick_write(input: *const u8, input_len: usize, element: Element, out: *mut u8, out_len: usize) -> Written;
    fn laddertick_write_label(input: *const u8, input_len: usize, elements: *const Element, elements_len: usize, sets: i32, copies: i32, out: *mut u8, out_len: usize) -> Written;
    fn laddertick_write_label_300(input: *const u8, input_len: usize, elements: *const Element300, elements_len: usize, sets: i32, copies: i32, out: *mut u8, out_len: usize) -> Written;
}

// Safe, all of them, as those of raw.rs.

fn write(input: &[u8], element: Element, out: &mut [u8]) -> Written {
    unsafe { laddertick_write(input.as_ptr(), input.len(), element, out.as_mut_ptr(), out.len()) }
}

pub fn write_label(input: &[u8], elements: &[Element], counts: (i32, i32), out: &mut [u8]) -> Written {
    unsafe { laddertick_write_label(input.as_ptr(), input.len(), elements.as_ptr(), elements.len(), counts.0, counts.1, out.as_mut_ptr(), out.len()) }
}

fn write_label_300(input: &[u8], elements: &[Element300], counts: (i32, i32), out: &mut [u8]) -> Written {
    unsafe { laddertick_write_label_300(input.as_ptr(), input.len(), elements.as_ptr(), elements.len(), counts.0, counts.1, out.as_mut_ptr(), out.len()) }
}

/// The names of the kinds, from 1.
pub const KINDS: &[&str] = &[
    "text", "box", "diagonal", "graphic", "Code 128", "EAN-13", "EAN-8", "UPC-A", "2 of 5", "Code 39", "PDF417", "Aztec", "Data Matrix", "QR", "MaxiCode", "UPC-E",
];

/// Its data, where it lies in the input.
fn data_of<'a>(input: &'a [u8], e: &Element) -> Option<&'a [u8]> {
    input.get(e.data_start..)?.get(..e.data_len)
}

/// The fields that its kind names; all others are 0.
fn named(e: &Element) -> Element {
    let Element { kind, x, y, .. } = *e;
    let some = Element { kind, x, y, ..Element::default() };
    let data = Element { data_start: e.data_start, data_len: e.data_len, ..some };
    let bars = Element { rotation: e.rotation, width: e.width, height: e.height, line: e.line, ..data };
    match kind {
        1 => {
            let sizes = Element { text_height: e.text_height, text_width: e.text_width, ..data };
            Element { rotation: e.rotation, reverse: e.reverse, font: e.font, horizontal: e.horizontal, vertical: e.vertical, ..sizes }
        }
        2 => Element { width: e.width, height: e.height, thickness: e.thickness, colour: e.colour, ..some },
        3 => Element { width: e.width, height: e.height, thickness: e.thickness, direction: e.direction, ..some },
        4 => Element { row_bytes: e.row_bytes, ..data },
        5 => Element { mode: e.mode, ..bars },
        6 | 7 | 8 | 16 => bars,
        9 | 10 => Element { check: e.check, wide: e.wide, ratio: e.ratio, ..bars },
        11 => {
            let sizes = Element { height: e.height, width: e.width, columns: e.columns, rows: e.rows, ..data };
            Element { rotation: e.rotation, security: e.security, truncate: e.truncate, ..sizes }
        }
        12 => Element { magnification: e.magnification, size: e.size, ..data },
        13 => Element { height: e.height, columns: e.columns, rows: e.rows, ..data },
        14 => Element { magnification: e.magnification, level: e.level, ..data },
        15 => Element { mode: e.mode, ..data },
        _ => some,
    }
}

/// Whether a line or a block of any length, read at reference 0,0, yields it.
fn is_yielded(input: &[u8], e: &Element) -> bool {
    let data = match e.kind {
        2 | 3 => b"",
        _ => match data_of(input, e) {
            Some(data) => data,
            None => return false,
        },
    };
    let fits = |near: i32, size: i32| near as i64 + size as i64 <= i32::MAX as i64;
    let far_corner_fits = fits(e.x, e.width) && fits(e.y, e.height);
    let smaller = e.width.min(e.height);
    let bars = e.rotation <= 3 && e.width >= 1 && e.height >= 1 && e.line <= 1;
    let of_its_kind = match e.kind {
        1 => {
            let sizes = if e.horizontal >= 1 && e.vertical >= 1 { text_sizes(e.font, e.horizontal, e.vertical) } else { None };
            let bits = |n: (f64, f64)| (n.0.to_bits(), n.1.to_bits());
            e.rotation <= 3 && e.reverse <= 1 && sizes.map(bits) == Some(bits((e.text_height, e.text_width)))
        }
        2 => e.colour <= 2 && smaller >= 1 && e.thickness == smaller || e.colour == 0 && smaller >= 0 && e.thickness >= 1 && far_corner_fits,
        // The direction is 1 where the differences have one sign: both sides are 0, or neither is and the corners are taken so. It is 0 unless both are 0.
        3 if e.direction == 1 => smaller >= 0 && e.thickness >= 1 && far_corner_fits && (e.width == 0) == (e.height == 0),
        3 if e.direction == 0 => smaller >= 0 && e.thickness >= 1 && far_corner_fits && (e.width, e.height) != (0, 0),
        4 if e.row_bytes == 0 => data.is_empty(),
        4 => e.row_bytes > 0 && data.len() % e.row_bytes as usize == 0,
        5 => bars && (1..=3).contains(&e.mode),
        6 | 7 | 8 | 16 => bars,
        9 | 10 => bars && e.check <= 1 && e.ratio.to_bits() == ratio(e.wide, e.width).to_bits(),
        11 => {
            let sizes = (4..=99).contains(&e.height) && (2..=9).contains(&e.width) && e.columns >= 0 && e.rows >= 0;
            sizes && e.rotation <= 3 && e.truncate <= 1 && (e.security == -1 || (1..=8).contains(&e.security))
        }
        12 => (1..=55).contains(&e.magnification) && matches!(e.size, 0..=99 | 101..=104 | 201..=232 | 300),
        13 => (1..=40).contains(&e.height) && e.columns >= 0 && e.rows >= 0,
        14 => (1..=100).contains(&e.magnification) && b"LMQH".contains(&e.level) && String::from_utf8_lossy(data).len() <= 9_999,
        15 => matches!(e.mode, 2 | 3 | 4 | 6),
        _ => false,
    };
    let of_a_line = matches!(e.kind, 2..=4) || !data.is_empty() && !data.contains(&b'\n');
    of_its_kind && of_a_line && e.is(&named(e))
}

/// The one spelling of an element with this data, right or not: no blanks, LF behind it.
fn spelling(e: &Element, data: &[u8]) -> Vec<u8> {
    let Element { x, y, width, height, thickness, .. } = *e;
    let (far_x, far_y) = (x as i64 + width as i64, y as i64 + height as i64);
    let quoted = |head: String| [head.as_bytes(), b",\"", data, b"\"\n"].concat();
    let bars = |kind: &str, wide: i32| {
        let line = if e.line == 1 { "B" } else { "N" };
        quoted(format!("B{x},{y},{},{kind},{width},{wide},{height},{line}", e.rotation))
    };
    match e.kind {
        1 => quoted(format!("A{x},{y},{},{},{},{},{}", e.rotation, e.font, e.horizontal, e.vertical, if e.reverse == 1 { "R" } else { "N" })),
        2 if e.colour == 1 => format!("LW{x},{y},{width},{height}\n").into_bytes(),
        2 if e.colour == 2 => format!("LE{x},{y},{width},{height}\n").into_bytes(),
        2 if thickness == width.min(height) && thickness >= 1 => format!("LO{x},{y},{width},{height}\n").into_bytes(),
        2 => format!("X{x},{y},{thickness},{far_x},{far_y}\n").into_bytes(),
        3 if e.direction == 1 => format!("LS{x},{y},{thickness},{far_x},{far_y}\n").into_bytes(),
        3 => format!("LS{x},{far_y},{thickness},{far_x},{y}\n").into_bytes(),
        4 => {
            let lines = if e.row_bytes > 0 { data.len() / e.row_bytes as usize } else { 0 };
            [format!("GW{x},{y},{},{lines},", e.row_bytes).as_bytes(), data, b"\n"].concat()
        }
        5 => bars(["1", "0", "1", "1E"][e.mode.clamp(0, 3) as usize], 2),
        6 => bars("E30", 2),
        7 => bars("E80", 2),
        8 => bars("UA0", 2),
        16 => bars("UE0", 2),
        9 => bars(if e.check == 1 { "2C" } else { "2" }, e.wide),
        10 => bars(if e.check == 1 { "3C" } else { "3" }, e.wide),
        11 => {
            let head = format!("b{x},{y},P,o{},x{width},y{height},l{},r{},t{}", e.rotation, e.columns, e.rows, e.truncate);
            quoted(if e.security == -1 { head } else { format!("{head},s{}", e.security) })
        }
        12 => quoted(format!("b{x},{y},A,d{},e{}", e.magnification, e.size)),
        13 => quoted(format!("b{x},{y},D,h{height},c{},r{}", e.columns, e.rows)),
        14 => quoted(format!("b{x},{y},Q,s{},e{}", e.magnification, e.level as char)),
        15 => quoted(format!("b{x},{y},M,m{}", e.mode)),
        _ => Vec::new(),
    }
}

/// Equal, data compared by bytes. Boxes and diagonals have none.
fn equal(input: &[u8], e: &Element, other_input: &[u8], other: &Element) -> bool {
    if matches!(e.kind, 2 | 3) {
        return e.is(other);
    }
    let at_0 = |e: &Element| Element { data_start: 0, ..*e };
    at_0(e).is(&at_0(other)) && data_of(input, e) == data_of(other_input, other)
}

/// The spelling where a line or a block yields the element. The forms and the spelling are held beside one another by the reading: what is yielded is read back from its spelling, and what is
/// not yielded is not.
fn spelled(input: &[u8], e: &Element) -> Result<Option<Vec<u8>>, String> {
    let yielded = is_yielded(input, e);
    if let Some(data) = data_of(input, e) {
        let text = spelling(e, data);
        let read = (!text.is_empty()).then(|| unit(&text, 0)).and_then(|unit| match unit.says {
            Ok(Says::Draws(drawn)) => drawn.at((0, 0)).ok(),
            _ => None,
        });
        let back = read.is_some_and(|read| equal(input, e, &text, &read));
        if back != yielded {
            return Err(format!("the papers: {e:?} is yielded: {yielded}, read back from \"{}\": {back}", text.escape_ascii()));
        }
        return Ok(yielded.then_some(text));
    }
    Ok(None)
}

/// "from a label, `N`, its elements and its print line"
fn spelled_label(input: &[u8], elements: &[Element], counts: (i32, i32)) -> Result<Result<Vec<u8>, Refusal>, String> {
    if input.len() > LIMIT {
        return Ok(Err(refusal(14, 0)));
    }
    let mut text = b"N\n".to_vec();
    for (number, e) in elements.iter().enumerate() {
        match spelled(input, e)? {
            Some(line) => text.extend(line),
            None => return Ok(Err(refusal(23, number))),
        }
    }
    if elements.is_empty() || elements.len() > LIMIT || counts.0 < 0 || counts.1 < 0 {
        return Ok(Err(refusal(23, elements.len())));
    }
    text.extend(format!("P{},{}\n", counts.0, counts.1).bytes());
    Ok(Ok(text))
}

/// What the library's own steps answer of a written text.
struct Steps {
    elements: Vec<Element>,
    kinds: Vec<u8>,
    counts: (i32, i32),
}

fn steps(text: &[u8]) -> Steps {
    let mut found = Steps { elements: Vec::new(), kinds: Vec::new(), counts: (0, 0) };
    let mut walk = raw::start();
    loop {
        let answer = raw::step(text, walk);
        match answer.kind {
            0 => found.counts = (answer.sets, answer.copies),
            1..=16 => {
                found.elements.push(answer.element);
                walk = answer.next;
                continue;
            }
            _ => {}
        }
        found.kinds.push(answer.kind);
        if answer.kind >= 18 {
            return found;
        }
        walk = answer.next;
    }
}

fn all_equal(input: &[u8], elements: &[Element], text: &[u8], read: &[Element]) -> bool {
    elements.len() == read.len() && elements.iter().zip(read).all(|(e, r)| equal(input, e, text, r))
}

impl Case {
    /// The input that the elements lie in.
    fn lying_in(&mut self) -> Cow<'static, [u8]> {
        let input = match self.long {
            Some(which) => made::long_file(&mut self.maker.rng, which),
            None => Cow::Owned(made::file(&mut self.maker)),
        };
        self.watched.add(&input);
        input
    }

    /// One element.
    pub fn write(&mut self) -> Held {
        let input = self.lying_in();
        let own = yielded(&input);
        let e = element(&mut self.maker, &input, &own);
        let text = if input.len() > LIMIT { None } else { spelled(&input, &e)? };
        let due = match &text {
            _ if input.len() > LIMIT => Err(refusal(14, 0)),
            Some(text) => Ok(text.clone()),
            None => Err(refusal(23, 0)),
        };
        if let Some(unspelled) = own.iter().find(|own| due.is_err() && input.len() <= LIMIT && own.is(&e)) {
            return Err(format!("the papers: {unspelled:?} is of a line and has no spelling"));
        }
        self.tell(&input, &e, text.as_deref());
        self.writes(&input, &due, 15, |input, out| write(input, e, out)).map_err(|wrong| format!("{e:?}: {wrong}"))?;
        match text.filter(|text| text.len() <= LIMIT) {
            Some(text) => {
                let read = steps(&text);
                if all_equal(&input, &[e], &text, &read.elements) && read.kinds == [18] {
                    return Ok(());
                }
                Err(format!("{e:?}: the steps read \"{}\" as {:?}", text.escape_ascii(), read.elements))
            }
            None => Ok(()),
        }
    }

    fn tell(&mut self, input: &[u8], e: &Element, text: Option<&[u8]>) {
        let tally = &mut self.tally;
        if let (1..=16, Some(text)) = (e.kind, text) {
            tally.branch_if(true, KINDS[e.kind as usize - 1]);
            for (letters, name) in [(&b"LO"[..], "LO"), (b"LW", "LW"), (b"LE", "LE"), (b"X", "X")] {
                tally.branch_if(text.starts_with(letters), name);
            }
            tally.branch_if(e.kind == 3 && e.direction == 0, "direction 0");
            tally.branch_if(e.kind == 3 && e.direction == 1, "direction 1");
            tally.branch_if(e.kind == 2 && e.x as i64 + e.width as i64 > i32::MAX as i64, "LO, LW or LE whose far corner passes 32 bits");
        }
        if text.is_none() && input.len() <= LIMIT {
            let lined = e.kind == 1 || (5..=16).contains(&e.kind);
            let data = data_of(input, e);
            tally.branch_if(lined && data.is_none(), "23, data outside the input");
            tally.branch_if(lined && data.is_some_and(|d| d.is_empty()), "23, no data");
            tally.branch_if(lined && data.is_some_and(|d| d.contains(&b'\n')), "23, LF in data");
            tally.branch_if(e.kind == 14 && e.is(&named(e)) && data.is_some_and(|d| !d.contains(&b'\n') && String::from_utf8_lossy(d).len() > 9_999), "23, long QR data");
            tally.branch_if(e.kind == 0 || e.kind > 16, "23, a kind that is none");
            tally.branch_if(!e.is(&named(e)), "23, a field of another kind");
            tally.branch_if(e.kind == 2 && e.width >= 0 && e.height >= 0 && e.x as i64 + e.width as i64 > i32::MAX as i64, "23, X whose far corner passes 32 bits");
            tally.branch_if(matches!(e.kind, 2 | 3) && e.width.min(e.height) < 0, "23, a negative size");
            tally.branch_if(matches!(e.kind, 1 | 9 | 10) && e.is(&named(e)) && data.is_some_and(|d| !d.is_empty() && !d.contains(&b'\n')), "23, a size, flag or ratio that is none");
        }
    }

    /// A label.
    pub fn write_label(&mut self) -> Held {
        // It takes seconds, and is enough once.
        if self.long.is_some_and(|which| which >= OVER) && !self.tally.has("16,777,216 elements") {
            return several::held(self);
        }
        let (input, elements, counts) = self.label();
        let due = spelled_label(&input, &elements, counts)?;
        self.tell_label(&elements, counts, &due);
        self.writes(&input, &due, 15, |input, out| write_label(input, &elements, counts, out)).map_err(|wrong| format!("{counts:?}, {elements:?}: {wrong}"))?;
        read_back(&input, &elements, counts, &due)
    }

    /// A label for 300 dots: the same spelling of other lengths.
    pub fn write_label_300(&mut self) -> Held {
        let (input, elements, counts) = self.label();
        let due = spelled_label(&input, &elements, counts)?;
        self.tell_label(&elements, counts, &due);
        let list: Vec<Element300> = elements.iter().map(|e| measured(e, Dots300)).collect();
        self.writes(&input, &due, 15, |input, out| write_label_300(input, &list, counts, out)).map_err(|wrong| format!("{counts:?}, {elements:?}: {wrong}"))?;
        read_back(&input, &elements, counts, &due)
    }

    fn tell_label(&mut self, elements: &[Element], counts: (i32, i32), due: &Result<Vec<u8>, Refusal>) {
        let refused = due.as_ref().err().filter(|r| r.number == 23).map(|r| r.place);
        self.tally.branch_if(refused == Some(0) && elements.is_empty(), "23, no element");
        self.tally.branch_if(refused.is_some_and(|at| at == elements.len() && at > 0), "23, a negative count");
        self.tally.branch_if(refused.is_some_and(|at| at > 0 && at < elements.len()), "23, not the first element");
        self.tally.branch_if(refused.is_some_and(|at| at < elements.len()) && counts.0 < 0, "23 of an element before a negative count");
        self.tally.branch_if(due.is_ok() && elements.len() > 1, "several elements");
    }

    fn label(&mut self) -> (Cow<'static, [u8]>, Vec<Element>, (i32, i32)) {
        let input = self.lying_in();
        let own = yielded(&input);
        let spoilt = self.maker.rng.one_in(3);
        let n = [0, 1, 2, 3, 5, 8][self.maker.rng.below(6)];
        let mut elements = Vec::new();
        while elements.len() < n {
            let e = element(&mut self.maker, &input, &own);
            if spoilt || input.len() > LIMIT || is_yielded(&input, &e) {
                elements.push(e);
            }
        }
        let count = |rng: &mut Rng| [0, 1, 2, 12, i32::MAX, rng.below(1 << 31) as i32, if rng.one_in(3) { [-1, i32::MIN][rng.below(2)] } else { 7 }][rng.below(7)];
        let counts = (count(&mut self.maker.rng), count(&mut self.maker.rng));
        (input, elements, counts)
    }
}

/// The written label is read by the small reading and by the library's steps as what it was.
fn read_back(input: &[u8], elements: &[Element], counts: (i32, i32), due: &Result<Vec<u8>, Refusal>) -> Held {
    let Some(text) = due.as_ref().ok().filter(|text| text.len() <= LIMIT) else {
        return Ok(());
    };
    let file = whole(text, false).map_err(|refused| format!("the papers: a written label is refused, {refused:?}"))?;
    let read: Vec<Element> = file.labels.iter().flat_map(|label| label.elements.iter().map(|(_, e)| *e)).collect();
    if file.labels.len() != 1 || file.pending != 0 || (file.labels[0].sets, file.labels[0].copies) != counts || !all_equal(input, elements, text, &read) {
        return Err("the papers: a written label is read as another".to_string());
    }
    let read = steps(text);
    if !all_equal(input, elements, text, &read.elements) || read.kinds != [17, 0, 18] || read.counts != counts {
        return Err(format!("the steps read \"{}\" as another label", text.escape_ascii()));
    }
    Ok(())
}

/// The elements of an input's lines and blocks, each read at reference 0,0.
fn yielded(input: &[u8]) -> Vec<Element> {
    let mut found = Vec::new();
    let mut place = 0;
    while input.len() <= LIMIT && place < input.len() {
        let unit = unit(input, place);
        if let Ok(Says::Draws(drawn)) = unit.says {
            found.extend(drawn.at((0, 0)).ok());
        }
        place = unit.next;
    }
    found
}

/// An element: of the input, or made field by field; one in three is then spoilt in a field.
fn element(maker: &mut Maker, input: &[u8], own: &[Element]) -> Element {
    let rng = &mut maker.rng;
    let mut e = if own.is_empty() || rng.one_in(2) { fields(rng, input.len()) } else { own[rng.below(own.len())] };
    if rng.one_in(3) {
        spoil(rng, &mut e, input.len());
    }
    e
}

/// A number of a range: an end of it, one within, seldom one just outside.
fn within(rng: &mut Rng, low: i32, high: i32) -> i32 {
    match rng.below(24) {
        0 => low.saturating_sub(1),
        1 => high.saturating_add(1),
        2..=4 => low,
        5..=7 => high,
        _ => (low as i64 + (rng.next() % (high as i64 - low as i64 + 1) as u64) as i64) as i32,
    }
}

/// An element of some kind, its fields mostly of the values that a line may give.
fn fields(rng: &mut Rng, len: usize) -> Element {
    // The inputs with QR data of about the limit have ten bytes before it and two behind it.
    let long = (3_000..20_000).contains(&len);
    let wide = rng.below(4);
    let (x, y) = (made::length(rng, wide) as i32, made::length(rng, wide) as i32);
    let kind = if long && rng.one_in(2) { 14 } else { 1 + rng.below(16) as u8 };
    let mut e = Element { kind, x, y, ..Element::default() };
    if kind == 14 && long {
        e.data_start = 10 + rng.below(3);
        e.data_len = len - 2 - e.data_start - rng.below(3);
    } else if !matches!(kind, 2 | 3) {
        e.data_start = rng.below(len + 1);
        e.data_len = rng.below((len - e.data_start).min(12) + 1);
    }
    let flag = |rng: &mut Rng, high: u8| if rng.one_in(30) { high + 1 } else { rng.below(high as usize + 1) as u8 };
    match kind {
        1 => {
            (e.rotation, e.reverse, e.font) = (flag(rng, 3), flag(rng, 1), if rng.one_in(4) { rng.next() as i32 } else { within(rng, 1, 5) });
            let most = [9, 200_000_000, i32::MAX][rng.below(3)];
            (e.horizontal, e.vertical) = (within(rng, 1, most), within(rng, 1, most));
            if let Some(sizes) = text_sizes(e.font, e.horizontal, e.vertical) {
                (e.text_height, e.text_width) = sizes;
            }
        }
        2 | 3 => {
            (e.width, e.height) = (made::length(rng, wide) as i32, made::length(rng, wide) as i32);
            if rng.one_in(3) {
                [&mut e.width, &mut e.height][rng.below(2)].clone_from(&0);
            }
            e.thickness = if rng.one_in(2) { e.width.min(e.height) } else { within(rng, 1, 800) };
            *(if kind == 2 { &mut e.colour } else { &mut e.direction }) = flag(rng, if kind == 2 { 2 } else { 1 });
        }
        4 => {
            e.row_bytes = within(rng, 0, 6);
            if e.row_bytes > 0 && !rng.one_in(6) {
                e.data_len -= e.data_len % e.row_bytes as usize;
            }
        }
        11 => {
            (e.rotation, e.truncate) = (flag(rng, 3), flag(rng, 1));
            (e.height, e.width) = (within(rng, 4, 99), within(rng, 2, 9));
            e.security = if rng.one_in(3) { -1 } else { within(rng, 1, 8) };
            (e.columns, e.rows) = (within(rng, 0, i32::MAX), within(rng, 0, i32::MAX));
        }
        12 => {
            let (low, high) = [(0, 99), (101, 104), (201, 232), (300, 300)][rng.below(4)];
            (e.magnification, e.size) = (within(rng, 1, 55), within(rng, low, high));
        }
        13 => (e.height, e.columns, e.rows) = (within(rng, 1, 40), within(rng, 0, i32::MAX), within(rng, 0, 50)),
        14 => (e.magnification, e.level) = (within(rng, 1, 100), b"LMQHLMQHA"[rng.below(9)]),
        15 => e.mode = within(rng, 2, 6),
        5..=10 | 16 => {
            (e.rotation, e.line) = (flag(rng, 3), flag(rng, 1));
            (e.width, e.height) = (within(rng, 1, i32::MAX), within(rng, 1, 300));
            if kind == 5 {
                e.mode = within(rng, 1, 3);
            }
            if matches!(kind, 9 | 10) {
                e.width = within(rng, 1, 9);
                (e.check, e.wide) = (flag(rng, 1), if rng.one_in(4) { rng.next() as i32 } else { within(rng, 0, 30) });
                e.ratio = ratio(e.wide, e.width.max(1));
            }
        }
        _ => {}
    }
    // A kind that is none, with the fields of one that is.
    if rng.one_in(40) {
        e.kind = [0, 17, 18, 254, 255][rng.below(5)];
    }
    e
}

/// Another value in one field, whether it is of the kind's or not.
fn spoil(rng: &mut Rng, e: &mut Element, len: usize) {
    let byte = [0, 1, 2, 3, 4, 255, b'L', b'Z'][rng.below(8)];
    let number = [0, 1, -1, 2, i32::MIN, i32::MAX, made::length(rng, 2) as i32][rng.below(7)];
    let size = |n: f64, rng: &mut Rng| [f64::from_bits(n.to_bits() ^ 1), f64::NAN, -n, 2.0, f64::INFINITY, -0.0][rng.below(6)];
    match rng.below(34) {
        0 => e.kind = [byte, 1 + rng.below(16) as u8][rng.below(2)],
        1 => e.rotation = byte,
        2 => e.reverse = byte,
        3 => e.colour = byte,
        4 => e.direction = byte,
        5 => e.line = byte,
        6 => e.check = byte,
        7 => e.truncate = byte,
        8 => e.level = byte,
        9 => e.x = number,
        10 => e.y = number,
        11 => e.width = number,
        12 => e.height = number,
        13 => e.thickness = number,
        14 => e.row_bytes = number,
        15 => e.security = number,
        16 => e.columns = number,
        17 => e.rows = number,
        18 => e.magnification = number,
        19 => e.size = number,
        20 => e.mode = number,
        21 => e.font = number,
        22 => e.horizontal = number,
        23 => e.vertical = number,
        24 => e.wide = number,
        25 => e.text_height = size(e.text_height, rng),
        26 => e.text_width = size(e.text_width, rng),
        27 => e.ratio = size(e.ratio, rng),
        28..=29 => e.data_start = [0, len, len + 1, usize::MAX, 1 << 63, rng.below(len + 1)][rng.below(6)],
        30 => e.data_len = [0, len, len + 1, usize::MAX, 1 << 63, rng.below(len + 1)][rng.below(6)],
        31 => (e.data_start, e.data_len) = (0, len),
        32 => (e.data_start, e.data_len) = (usize::MAX, 1 + rng.below(3)),
        _ => (e.width, e.height) = (e.height, e.width),
    }
}
