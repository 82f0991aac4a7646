//! What is made for a case beside the inputs of tools/diff: files with labels whose numbers reach the ends of 32 bits, entries with any numbers, rectangles and points.

use crate::answers::index;
use crate::mixture;
use crate::raw::{Entry, Rectangle};
use crate::reading::{File, Label, LIMIT};
use inputs::{Maker, Rng, MULTIPLIERS, SYMBOLS};
use std::borrow::Cow;
use std::sync::OnceLock;

/// The last number that converted to 300 dots is within 32 bits, above zero and below.
const LAST_203: [i64; 2] = [1_453_130_601, -1_453_130_602];

/// The shortest lines that are refused, and some that the profile alone refuses.
const SHORT: &[&[u8]] = &[b"X", b"LO", b"LS", b"GW", b"A\"x\"", b"b\"x\"", b"R1,", b"R1x", b"LO,,,", b"GW,,,,"];

/// More bytes than a file may have; a slice of it is a file that is one line passed over.
pub fn long() -> &'static [u8] {
    static LONG: OnceLock<Vec<u8>> = OnceLock::new();
    LONG.get_or_init(|| vec![b';'; LIMIT + 64])
}

/// A file of exactly the limit, or one byte less: a long line, then a label.
fn at_the_limit(rng: &mut Rng) -> Vec<u8> {
    let label = b"\nR7,-9\nLO1,2,3,4\nLS5,6,7,8,9\nP3,4";
    [&long()[..LIMIT - rng.below(2) - label.len()], label].concat()
}

/// One of the long files: 0 and 1 are over the limit, the others at it.
pub fn long_file(rng: &mut Rng, which: usize) -> Cow<'static, [u8]> {
    match which {
        0 => Cow::Borrowed(&long()[..LIMIT + 1]),
        1 => Cow::Borrowed(long()),
        _ => Cow::Owned(at_the_limit(rng)),
    }
}

/// A file: of those of tools/diff, with labels of the kinds below, or QR data of about the limit.
pub fn file(maker: &mut Maker) -> Vec<u8> {
    match maker.rng.below(200) {
        0 => mixture::qr_sizes(maker),
        1..=40 => mixture::made(maker),
        41..=46 => {
            let file = labels(maker);
            maker.damaged(&file)
        }
        _ => labels(maker),
    }
}

/// Labels with numbers of all lengths, most of them accepted.
pub fn labels(maker: &mut Maker) -> Vec<u8> {
    maker.odd = [0, 0, 400, 60, 15][maker.rng.below(5)];
    let wide = maker.rng.below(4);
    let mut file = Vec::new();
    let mut again = Vec::new();
    for _ in 0..2 + maker.rng.below(12) {
        // At times the line before once more: an element on the same spot.
        if again.is_empty() || !maker.rng.one_in(8) {
            again = line(maker, wide);
        }
        file.extend(&again);
        file.extend([&b"\n"[..], b"\n", b"\n", b"\r\n", b" \n\n"][maker.rng.below(5)]);
    }
    if maker.rng.one_in(2) {
        file.extend(b"P1\n");
    }
    if maker.rng.one_in(3) {
        file.pop();
    } else if maker.rng.one_in(40) {
        file.extend(maker.rng.pick(SHORT));
    }
    file
}

/// A unit without its line's end. Numbers of widths 1 to 3 reach further than 0's.
fn line(maker: &mut Maker, wide: usize) -> Vec<u8> {
    let fields = |maker: &mut Maker, n: usize| (0..n).map(|_| length(&mut maker.rng, wide).to_string()).collect::<Vec<_>>().join(",");
    match maker.rng.below(24) {
        0..=3 => format!("{}{}", ["LO", "LW", "LE", "LO"][maker.rng.below(4)], fields(maker, 4)).into_bytes(),
        4..=7 => format!("{}{}", ["LS", "X"][maker.rng.below(2)], fields(maker, 5)).into_bytes(),
        8..=9 => {
            let multipliers = [0, 1].map(|_| if maker.rng.one_in(12) { String::from_utf8_lossy(maker.rng.pick(MULTIPLIERS)).into_owned() } else { (maker.rng.below(10)).to_string() });
            let (rotation, font) = (maker.rng.below(4), maker.rng.below(6));
            format!("A{},{rotation},{font},{},{},{},\"{}\"", fields(maker, 2), multipliers[0], multipliers[1], ["N", "R"][maker.rng.below(2)], word(maker)).into_bytes()
        }
        10..=11 => {
            let kind = String::from_utf8_lossy(maker.rng.pick(inputs::BARS)).into_owned();
            let (rotation, narrow, broad) = (maker.rng.below(4), maker.rng.below(6), maker.rng.below(12));
            let height = fields(maker, 1);
            format!("B{},{rotation},{kind},{narrow},{broad},{height},{},\"{}\"", fields(maker, 2), ["N", "B"][maker.rng.below(2)], word(maker)).into_bytes()
        }
        12 => {
            let kind = String::from_utf8_lossy(maker.rng.pick(SYMBOLS)).into_owned();
            format!("b{},{kind},{}{},\"{}\"", fields(maker, 2), ["s", "d", "h", "x", "m", "y"][maker.rng.below(6)], maker.rng.below(120), word(maker)).into_bytes()
        }
        13 if wide == 0 || maker.rng.one_in(4) => maker.reference(),
        13 => format!("R{}", maker.rng.below(50)).into_bytes(),
        14 if maker.rng.one_in(2) => b"N".to_vec(),
        14 if maker.rng.one_in(4) => maker.rng.pick(SHORT).to_vec(),
        14 => maker.rng.pick(inputs::PROSE).to_vec(),
        15..=18 => [&b"P"[..], maker.rng.pick(inputs::PRINTS)].concat(),
        19 => graphic(maker),
        _ => maker.unit(),
    }
}

/// A graphic, at times of negative size or with another payload than it says.
fn graphic(maker: &mut Maker) -> Vec<u8> {
    if maker.rng.one_in(2) {
        return maker.graphic(12);
    }
    let [width, lines] = [0, 1].map(|_| maker.rng.below(40) as i64 % 5 - maker.rng.one_in(16) as i64);
    let total = (width * lines).max(0) as usize;
    let payload = maker.payload(total);
    let short = if maker.rng.one_in(12) { maker.rng.below(total + 1) } else { total };
    [format!("GW{},{},{width},{lines},", maker.rng.below(800), maker.rng.below(800)).as_bytes(), &payload[..short]].concat()
}

fn word(maker: &mut Maker) -> String {
    String::from_utf8_lossy(maker.rng.pick(inputs::WORDS)).into_owned()
}

/// A position or size: small; below zero; around the last that converts; at the ends of 32 bits; any.
pub fn length(rng: &mut Rng, wide: usize) -> i64 {
    let near = |rng: &mut Rng, to: [i64; 2]| (to[rng.below(2)] + rng.below(7) as i64 - 3).clamp(i32::MIN as i64, i32::MAX as i64);
    match rng.below(if wide == 0 { 12 } else { 24 / wide }) {
        0..=1 if wide > 0 => near(rng, LAST_203),
        2 if wide > 0 => near(rng, [i32::MIN as i64, i32::MAX as i64]),
        3 if wide > 0 => rng.next() as i32 as i64,
        4..=5 => -(rng.below(400) as i64),
        6 => rng.below(3) as i64,
        _ => rng.below(800) as i64,
    }
}

/// A list of entries and a number: the file's own index, with changed fields, or entries with any numbers; where there is no index, mostly one of the whole file. The flag tells whether the entry is the index's own.
pub fn entries(rng: &mut Rng, input: &[u8], file: Option<&File>) -> (Vec<Entry>, usize, bool) {
    let own = file.map_or(Vec::new(), index);
    let mut list = own.clone();
    if list.is_empty() || rng.one_in(12) {
        let whole = Entry { last: input.len(), ..Entry::default() };
        let mut any = |_| if rng.one_in(6) { Entry { first: place(rng, input.len(), &own), last: place(rng, input.len(), &own), ..whole } } else { whole };
        list = (0..3).map(&mut any).collect();
        list.truncate(rng.below(12));
    }
    let number = match rng.below(24) {
        0 => list.len(),
        1 => [usize::MAX, list.len() + 1, 1 << 63, rng.next() as usize][rng.below(4)],
        _ => rng.below(list.len().max(1)),
    };
    if let (Some(e), 0) = (list.get_mut(number), rng.below(4)) {
        for _ in 0..=rng.below(2) {
            match rng.below(8) {
                0..=1 => e.first = place(rng, input.len(), &own),
                2..=3 => e.last = place(rng, input.len(), &own),
                4 => (e.first, e.last) = (e.last, e.first),
                5 => e.count = [0, usize::MAX, rng.next() as usize][rng.below(3)],
                6 => e.x = length(rng, 3) as i32,
                _ => e.y = length(rng, 3) as i32,
            }
        }
    }
    let is_own = number < own.len() && list.get(number) == own.get(number);
    (list, number, is_own)
}

/// A place in the input, mostly where a label begins or ends, or outside it.
fn place(rng: &mut Rng, len: usize, own: &[Entry]) -> usize {
    match rng.below(10) {
        0 => [usize::MAX, usize::MAX - 1, 1 << 63, 1 << 32, rng.next() as usize][rng.below(5)],
        1 => len + 1 + rng.below(2),
        2..=3 => [0, len][rng.below(2)],
        4..=6 if !own.is_empty() => {
            let e = own[rng.below(own.len())];
            [e.first, e.last][rng.below(2)]
        }
        _ => rng.below(len + 1),
    }
}

/// A rectangle whose edges run through the positions and far edges of a label's elements, or beside them, or anywhere; one in twelve is turned.
pub fn rectangle(rng: &mut Rng, label: Option<&Label>) -> Rectangle {
    let mut x = [0, 1].map(|_| edge(rng, label, false));
    let mut y = [0, 1].map(|_| edge(rng, label, true));
    if !rng.one_in(12) {
        x.sort();
        y.sort();
    }
    Rectangle { x1: x[0], y1: y[0], x2: x[1], y2: y[1] }
}

/// A coordinate on or beside an element's edge, at an end of 32 bits, or anywhere.
pub fn edge(rng: &mut Rng, label: Option<&Label>, along_y: bool) -> i32 {
    let any = length(rng, 3);
    let Some(label) = label else {
        return any as i32;
    };
    let (_, e) = &label.elements[rng.below(label.elements.len())];
    let (near, size) = if along_y { (e.y as i64, e.height as i64) } else { (e.x as i64, e.width as i64) };
    let n = match rng.below(12) {
        0..=1 => near,
        2..=3 => near + size,
        4 => near - 1,
        5 => near + 1,
        6 => near + size + 1,
        7 => near + size - 1,
        8 => [i32::MIN, i32::MAX][rng.below(2)] as i64,
        9 => near + size / 2,
        _ => any,
    };
    n.clamp(i32::MIN as i64, i32::MAX as i64) as i32
}
