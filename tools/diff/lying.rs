//! What lies where on the labels of one input (01, "What lies where"), told anew from the frames that 01 gives for them, apart from the library.

use crate::lists::list_filled;
use crate::raw::{self, Entry, Rectangle, Written};

/// What is told of an element: its position, and the width and height of a box or a diagonal. From a line of the listing.
struct Spot {
    x: i64,
    y: i64,
    size: Option<(i64, i64)>,
}

fn spot(line: &str) -> Spot {
    let byte = |i: usize| u8::from_str_radix(&line[2 * i..2 * i + 2], 16).expect("hexadecimal digits");
    let number = |i: usize| i32::from_be_bytes(std::array::from_fn(|k| byte(i + k))) as i64;
    Spot { x: number(1), y: number(5), size: matches!(byte(0), 2 | 3).then(|| (number(9), number(13))) }
}

/// One label, opened by its number, by a rectangle and a point that hang on `choice`. `lines` are those of the listing.
pub fn held(input: &[u8], entries: &[Entry], number: usize, lines: &str, mut choice: impl FnMut(usize) -> usize) -> Result<(), String> {
    let spots: Vec<Spot> = lines.lines().skip(1).map(spot).collect();
    let at = &spots[choice(spots.len())];
    // Edges that run through positions and far edges, or just beside them, or anywhere.
    let mut edge = |near: i64, far: i64| match choice(6) {
        0 => near,
        1 => far,
        2 => near - 1,
        3 => far + 1,
        4 => choice(400) as i64,
        _ => choice(usize::MAX) as i32 as i64,
    };
    let (w, h) = at.size.unwrap_or((0, 0));
    let (a, b) = (edge(at.x, at.x + w), edge(at.x, at.x + w));
    let (c, d) = (edge(at.y, at.y + h), edge(at.y, at.y + h));
    let fit = |n: i64| n.clamp(i32::MIN as i64, i32::MAX as i64);
    let (x1, x2, y1, y2) = (fit(a.min(b)), fit(a.max(b)), fit(c.min(d)), fit(c.max(d)));
    let r = Rectangle { x1: x1 as i32, y1: y1 as i32, x2: x2 as i32, y2: y2 as i32 };
    let numbers = |test: &dyn Fn(&Spot) -> bool| spots.iter().enumerate().filter(|(_, s)| test(s)).map(|(i, _)| i).collect::<Vec<usize>>();
    let inside = numbers(&|s| (x1..=x2).contains(&s.x) && (y1..=y2).contains(&s.y));
    let touching = numbers(&|s| s.size.is_some_and(|(w, h)| s.x.max(x1) <= (s.x + w).min(x2) && s.y.max(y1) <= (s.y + h).min(y2)));
    fills(&inside, |list| raw::inside(input, entries, number, r, list)).map_err(|wrong| format!("inside {r:?}: {wrong}"))?;
    fills(&touching, |list| raw::touching(input, entries, number, r, list)).map_err(|wrong| format!("touching {r:?}: {wrong}"))?;
    if x1 < x2 {
        let turned = Rectangle { x1: r.x2, x2: r.x1, ..r };
        let got = raw::touching(input, entries, usize::MAX, turned, &mut []);
        if got != (Written { number: 22, place: 0 }) {
            return Err(format!("{got:?} for {turned:?}"));
        }
    }
    let far = |s: &Spot| (s.x - x1).abs().max((s.y - y2).abs());
    let due = (0..spots.len()).min_by_key(|&i| far(&spots[i])).expect("a label has an element");
    let got = raw::nearest(input, entries, number, r.x1, r.y2);
    if got != (Written { number: 0, place: due }) {
        return Err(format!("nearest to {x1},{y2}: {got:?} given, {due} expected"));
    }
    Ok(())
}

/// Room to spare, exactly enough, and one number too few: the list holds the numbers from its start and nothing else is changed.
fn fills(due: &[usize], of: impl Fn(&mut [usize]) -> Written) -> Result<(), String> {
    let n = due.len();
    for room in [n + 2, n, n.saturating_sub(1)] {
        let expected = if room < n { Written { number: 15, place: n } } else { Written { number: 0, place: n } };
        list_filled(usize::MAX - 7, room, expected, if room < n { &[] } else { due }, &of)?;
    }
    Ok(())
}
