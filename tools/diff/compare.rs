//! One input put to the library, with room to spare for the answer and with none, and held against what it should answer.

use crate::index;
use crate::join;
use crate::raw::{self, Joined, Written};
use crate::steps;
use crate::strict;
use crate::writing;
use oracle::{fields, Answer};

/// A function that writes.
type Function<'a> = &'a dyn Fn(&[u8], &mut [u8]) -> Written;

/// What a comparison that found no difference has seen.
#[derive(Default)]
pub struct Seen {
    /// The number of the profile's verdict.
    pub verdict: u32,
    /// Labels that were indexed, and opened from their entries.
    pub labels: usize,
    /// Entries that no index made, by what opening answered: a label, 16, 21, another refusal.
    pub made: [usize; 4],
    /// Labels to 300 dots, by the answer: converted, 24, 13, 19, another refusal.
    pub turned: [usize; 5],
    /// Elements, each by itself, by the answer: written, 23.
    pub elements: [usize; 2],
    /// Structs that a host made, likewise; and labels with one in them, at either resolution.
    pub structs: [usize; 4],
    /// Labels, likewise; and at 300 dots.
    pub texts: [usize; 2],
    pub texts_300: [usize; 2],
}

impl Seen {
    /// One conversion more, with this number.
    pub fn convert(&mut self, number: u32) {
        self.turned[match number {
            0 => 0,
            24 => 1,
            13 => 2,
            19 => 3,
            _ => 4,
        }] += 1;
    }
}

/// Bytes on either side of what is lent.
pub const MARGIN: usize = 32;

/// What lies around an input changes from call to call, and must not matter.
const AROUND: &[u8] = b"9,\"\n GWNP\x80";

/// The buffers that are lent to the library. Before each call `out` is marked all over with a byte that no listing has.
#[derive(Default)]
pub struct Lent {
    pub input: Vec<u8>,
    out: Vec<u8>,
    calls: usize,
}

impl Lent {
    fn call(&mut self, function: Function, input: &[u8], room: usize) -> Written {
        self.marked(input, room);
        function(&self.input[MARGIN..][..input.len()], &mut self.out[MARGIN..][..room])
    }

    /// Two files joined; the second is lent as it stands.
    pub fn joining(&mut self, first: &[u8], second: &[u8], room: usize) -> Joined {
        self.marked(first, room);
        raw::join(&self.input[MARGIN..][..first.len()], second, &mut self.out[MARGIN..][..room])
    }

    fn marked(&mut self, input: &[u8], room: usize) {
        self.place(input);
        self.out.clear();
        self.out.resize(room + 2 * MARGIN, self.mark());
    }

    /// The input where it is lent, and other bytes around it than at the last call.
    pub fn place(&mut self, input: &[u8]) -> &[u8] {
        self.calls += 1;
        let around = AROUND[self.calls % AROUND.len()];
        self.input.clear();
        self.input.resize(input.len() + 2 * MARGIN, around);
        self.input[MARGIN..][..input.len()].copy_from_slice(input);
        &self.input[MARGIN..][..input.len()]
    }

    fn mark(&self) -> u8 {
        0x80 | self.calls as u8
    }

    /// The first n bytes of the room.
    pub fn written(&self, n: usize) -> &[u8] {
        &self.out[MARGIN..][..n]
    }

    /// All bytes but the first n of the room still hold the mark.
    pub fn kept_but(&self, n: usize) -> bool {
        let holds_mark = |part: &[u8]| part.iter().fold(0, |other, b| other | (b ^ self.mark())) == 0;
        holds_mark(&self.out[..MARGIN]) && holds_mark(&self.out[MARGIN + n..])
    }
}

/// Holds the library's answers against the Rust's: the listing's, the walk's and the normalised text's. The fields of frames that the Rust has not are left
/// out before its listing is compared, and are then held to the definition. The normalised text of an accepted input is listed alike, and normalising it
/// again changes nothing. The strict reading is held beside the plain one, the index of labels beside the units and the listing, the input is joined to others, and
/// its elements and labels are written anew and read again. An error says in words what is wrong.
pub fn compare(lent: &mut Lent, input: &[u8], rust: &Answer) -> Result<Seen, String> {
    as_the_rust(lent, input, rust)?;
    let expected = &fields::told(input, rust);
    listed(lent, &raw::list, input, expected)?;
    let mut seen = Seen::default();
    index::indexed(lent, input, expected, &mut seen).map_err(|wrong| format!("indexing, {wrong}"))?;
    let checked = strict::checked(lent.place(input), expected).map_err(|wrong| format!("checking, {wrong}"))?;
    seen.verdict = checked.number;
    if matches!(checked.number, 17 | 18) {
        refused(lent, &raw::strict_list, input, checked.number as u8, checked.place).map_err(|wrong| format!("listing strictly, {wrong}"))?;
    } else {
        listed(lent, &raw::strict_list, input, expected).map_err(|wrong| format!("listing strictly, {wrong}"))?;
    }
    steps::walked(lent.place(input), expected).map_err(|wrong| format!("walking, {wrong}"))?;
    writing::held(lent, input, expected, &mut seen).map_err(|wrong| format!("writing, {wrong}"))?;
    let joined = |lent: &mut Lent, text: &[u8]| join::joined(lent, input, expected, text).map_err(|wrong| format!("joining, {wrong}"));
    if input.len() > oracle::LIMIT {
        joined(lent, b"")?;
        refused(lent, &raw::normalise, input, 14, 0)?;
        return Ok(seen);
    }
    let text = oracle::normalised(input);
    written(lent, &raw::normalise, input, &text).map_err(|wrong| format!("normalising, {wrong}"))?;
    joined(lent, &text)?;
    if text.len() <= oracle::LIMIT && matches!(expected, Answer::Labels(_)) {
        listed(lent, &raw::list, &text, expected).map_err(|wrong| format!("the normalised text, {wrong}"))?;
        written(lent, &raw::normalise, &text, &text).map_err(|wrong| format!("normalising again, {wrong}"))?;
    }
    Ok(seen)
}

/// The listing is the Rust's but for the fields that the Rust has not.
fn as_the_rust(lent: &mut Lent, input: &[u8], rust: &Answer) -> Result<(), String> {
    let Answer::Labels(_) = rust else {
        return Ok(());
    };
    let listing = rust.lines();
    let got = lent.call(&raw::list, input, 2 * listing.len());
    let ours = String::from_utf8_lossy(lent.written(got.place.min(2 * listing.len())));
    if got.number == 0 && fields::without(&ours) == listing {
        return Ok(());
    }
    Err(format!("{got:?}, and not as the Rust:\n{ours}"))
}

fn listed(lent: &mut Lent, function: Function, input: &[u8], expected: &Answer) -> Result<(), String> {
    match expected {
        Answer::Labels(_) => written(lent, function, input, expected.lines().as_bytes()),
        Answer::Refused(number, place) => refused(lent, function, input, *number, *place),
        Answer::Panic => unreachable!("01 answers every input"),
    }
}

/// A text: with room to spare, with exactly enough, one byte less and none.
pub fn written(lent: &mut Lent, function: Function, input: &[u8], text: &[u8]) -> Result<(), String> {
    let n = text.len();
    for room in [n + 40, n] {
        answers(lent, function, input, room, Written { number: 0, place: n }, text)?;
    }
    if n > 0 {
        for room in [n - 1, 0] {
            answers(lent, function, input, room, Written { number: 15, place: n }, b"")?;
        }
    }
    Ok(())
}

/// A refusal: with more room than any answer to a short input needs, and with none.
pub fn refused(lent: &mut Lent, function: Function, input: &[u8], number: u8, place: usize) -> Result<(), String> {
    for room in [16 * input.len().min(65_536) + 40, 0] {
        answers(lent, function, input, room, Written { number: number as u32, place }, b"")?;
    }
    Ok(())
}

/// The library answers as expected, writes the text, and changes nothing else.
pub fn answers(lent: &mut Lent, function: Function, input: &[u8], room: usize, expected: Written, text: &[u8]) -> Result<(), String> {
    let got = lent.call(function, input, room);
    held(lent, input, room, got, expected, text)
}

/// What was answered is what is expected, the text is written, and nothing else is changed.
pub fn held<T: PartialEq + std::fmt::Debug>(lent: &Lent, input: &[u8], room: usize, got: T, expected: T, text: &[u8]) -> Result<(), String> {
    let n = text.len();
    let wrong = if got != expected {
        format!("{got:?} given, {expected:?} expected")
    } else if lent.written(n) != text {
        format!("other bytes written:\n{}", lent.written(n).escape_ascii().to_string().replace("\\n", "\n"))
    } else if !lent.kept_but(n) {
        format!("bytes changed outside the first {n} of the buffer")
    } else if &lent.input[MARGIN..][..input.len()] != input {
        "the input is changed".to_string()
    } else {
        return Ok(());
    };
    Err(format!("room {room}: {wrong}"))
}
