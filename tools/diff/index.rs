//! The label index of one input, and its labels opened: what 01 says of them ("The label index"). The entries are told anew from the units of the input, apart from the
//! library; a label's lines are those of the full listing. Entries that no index made are held beside the steps from their first place.

use crate::compare::{answers, refused, written, Lent, Seen};
use crate::dots;
use crate::lists::{list_filled, unchanged};
use crate::lying;
use crate::raw::{self, Entry, Walk, Written};
use crate::steps;
use oracle::{Answer, LIMIT};

/// Entries of each list that no index made.
const MADE: usize = 3;

/// Holds the index of an input, and opening, against what they should answer; `expected` is the answer of the whole listing. An error says in words what is wrong.
pub fn indexed(lent: &mut Lent, input: &[u8], expected: &Answer, seen: &mut Seen) -> Result<(), String> {
    let mut rng = Rng::of(input);
    let mut places = vec![0, input.len()];
    match expected {
        Answer::Labels(labels) => {
            let entries: Vec<Entry> = oracle::index::entries(input).iter().map(|e| Entry { first: e.first, last: e.last, count: e.count, x: e.x, y: e.y }).collect();
            filled(lent, input, &entries)?;
            opened(lent, input, &entries, &labels.printed, &mut rng, seen).map_err(|wrong| format!("opening, {wrong}"))?;
            seen.labels += entries.len();
            places.extend(entries.iter().flat_map(|e| [e.first, e.last]));
        }
        Answer::Refused(number, place) => fills(lent, input, 2, Written { number: *number as u32, place: *place }, &[])?,
        Answer::Panic => unreachable!("01 answers every input"),
    }
    made(lent, input, &places, &mut rng, seen).map_err(|wrong| format!("opening, {wrong}"))
}

/// A list with room to spare, with exactly enough, and with one entry too few.
fn filled(lent: &mut Lent, input: &[u8], entries: &[Entry]) -> Result<(), String> {
    let n = entries.len();
    for room in [n + 2, n] {
        fills(lent, input, room, Written { number: 0, place: n }, entries)?;
    }
    if n > 0 {
        fills(lent, input, n - 1, Written { number: 20, place: n }, &[])?;
    }
    Ok(())
}

fn fills(lent: &mut Lent, input: &[u8], room: usize, expected: Written, entries: &[Entry]) -> Result<(), String> {
    let mark = Entry { first: usize::MAX, last: room, count: 77, x: -7, y: i32::MIN };
    let lent_input = lent.place(input);
    list_filled(mark, room, expected, entries, |list| raw::index(lent_input, list)).and_then(|()| unchanged(lent_input, input))
}

/// Each label by its number, with exactly enough room. One of them with other room too, and in a copy in which all bytes but its own are others and which ends where it ends. Then
/// the numbers past the list.
fn opened(lent: &mut Lent, input: &[u8], entries: &[Entry], listing: &str, rng: &mut Rng, seen: &mut Seen) -> Result<(), String> {
    let labels = labels_of(listing);
    if labels.len() != entries.len() {
        return Err(format!("{} labels are listed, and the units have {}", labels.len(), entries.len()));
    }
    for (number, label) in labels.iter().enumerate() {
        let open = |input: &[u8], out: &mut [u8]| raw::open(input, entries, number, out);
        answers(lent, &open, input, label.len(), Written { number: 0, place: label.len() }, label.as_bytes()).map_err(|wrong| format!("label {number}, {wrong}"))?;
        lying::held(input, entries, number, label, |n| rng.below(n)).map_err(|wrong| format!("label {number}, {wrong}"))?;
    }
    if !labels.is_empty() {
        let number = rng.below(labels.len());
        let open = |input: &[u8], out: &mut [u8]| raw::open(input, entries, number, out);
        written(lent, &open, input, labels[number].as_bytes()).map_err(|wrong| format!("label {number}, {wrong}"))?;
        let mut copy = vec![b'X'; entries[number].last];
        copy[entries[number].first..].copy_from_slice(&input[entries[number].first..entries[number].last]);
        written(lent, &open, &copy, labels[number].as_bytes()).map_err(|wrong| format!("label {number} with other bytes around it, {wrong}"))?;
    }
    for number in 0..entries.len() {
        dots::converted(lent, input, entries, number, Ok(()), seen)?;
    }
    for number in [entries.len(), usize::MAX] {
        refused(lent, &|input: &[u8], out: &mut [u8]| raw::open(input, entries, number, out), input, 21, number)?;
    }
    Ok(())
}

/// The lines of each label of a listing, from its frame 00.
fn labels_of(listing: &str) -> Vec<&str> {
    let mut starts: Vec<usize> = Vec::new();
    let mut at = 0;
    for line in listing.split_inclusive('\n') {
        if line.starts_with("00") {
            starts.push(at);
        }
        at += line.len();
    }
    starts.push(at);
    starts.windows(2).map(|pair| &listing[pair[0]..pair[1]]).collect()
}

/// A list of entries that no index made, and a number in it or past it: 14, 21, 16, then what the steps answer from the first place, the input cut at the last one.
fn made(lent: &mut Lent, input: &[u8], places: &[usize], rng: &mut Rng, seen: &mut Seen) -> Result<(), String> {
    let entries: [Entry; MADE] = std::array::from_fn(|_| entry(input.len(), places, rng));
    let number = rng.below(MADE + 1);
    let open = |input: &[u8], out: &mut [u8]| raw::open(input, &entries, number, out);
    let due = match entries.get(number) {
        _ if input.len() > LIMIT => Err((14, 0)),
        None => Err((21, number)),
        Some(e) if e.last > input.len() || e.last < e.first => Err((16, e.last)),
        Some(e) => steps::first_label(&input[..e.last], Walk { x: e.x, y: e.y, pending: 0, place: e.first }).map_err(|found| found.unwrap_or((21, number))),
    };
    let held = match &due {
        Ok(label) => written(lent, &open, input, label.as_bytes()),
        Err((k, place)) => refused(lent, &open, input, *k, *place),
    };
    seen.made[match due {
        Ok(_) => 0,
        Err((16, _)) => 1,
        Err((21, _)) => 2,
        Err(_) => 3,
    }] += 1;
    held.and_then(|()| dots::converted(lent, input, &entries, number, due.map(|_| ()), seen))
        .map_err(|wrong| format!("number {number} of {entries:?}, {wrong}"))
}

/// Places of the input, mostly where a label begins or ends, and sometimes far outside or in the wrong order.
fn entry(len: usize, places: &[usize], rng: &mut Rng) -> Entry {
    let mut place = || match rng.below(8) {
        0 => usize::MAX - rng.below(2),
        1 => len + 1,
        2..=4 => places[rng.below(places.len())],
        _ => rng.below(len + 1),
    };
    let (a, b) = (place(), place());
    let (first, last) = if rng.below(8) == 0 { (a.max(b), a.min(b)) } else { (a.min(b), a.max(b)) };
    let (x, y) = if rng.below(4) == 0 { (rng.next() as i32, rng.next() as i32) } else { (rng.below(100) as i32 - 50, rng.below(100) as i32) };
    Entry { first, last, count: rng.below(3), x, y }
}

/// Choices that hang on the input alone, so that an input cut down is held in the same way whenever it comes.
pub struct Rng(u64);

impl Rng {
    pub fn of(input: &[u8]) -> Rng {
        let few = input.iter().take(64).chain(input.iter().rev().take(64));
        Rng(few.fold(0xcbf2_9ce4_8422_2325 ^ input.len() as u64, |hash, &b| (hash ^ b as u64).wrapping_mul(0x100_0000_01b3)))
    }

    pub fn next(&mut self) -> u64 {
        self.0 = self.0.wrapping_mul(6_364_136_223_846_793_005).wrapping_add(1_442_695_040_888_963_407);
        self.0 >> 32
    }

    pub fn below(&mut self, n: usize) -> usize {
        self.next() as usize % n
    }
}
