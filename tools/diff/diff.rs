//! The differential run: the Rust of docs/src and the static library get the same inputs and must give 01's answers. Short strings
//! come first, all of them, then a few inputs around the length limit, then as many millions of made ones as asked for.

mod compare;
mod dots;
mod index;
mod join;
mod lists;
mod lying;
mod made;
mod measured;
#[path = "../../bindings/rust/src/raw.rs"]
mod raw;
mod short;
mod steps;
mod strict;
mod writing;

use compare::{compare, Lent};
use inputs::Maker;
use made::made;
use oracle::{fields, masked};
use oracle::panics::Cause;
use oracle::{Answer, LIMIT};
use std::sync::atomic::{AtomicUsize, Ordering::Relaxed};
use std::time::{Duration, Instant};

const THREADS: usize = 2;
/// Tokens of the longest short string, where no number is given.
const TOKENS: usize = 6;
/// Cases of one piece of work; its inputs hang on its number and the seed, not on the thread.
const PIECE: usize = 10_000;
/// Differences that are printed, the time to make one short, and the bytes of one.
const SHOWN: usize = 20;
const PATIENCE: Duration = Duration::from_secs(5);
const LONGEST_REPORT: usize = 10_000;

fn main() {
    let mut words = std::env::args().skip(1);
    let millions: f64 = words.next().and_then(|word| word.parse().ok()).expect("how many millions");
    let seed = words.next().map_or(1, |word| word.parse().expect("a number"));
    let tokens = words.next().map_or(TOKENS, |word| word.parse().expect("a number"));
    let run = Run { seed, tokens, ..Run::default() };
    let pieces = short::SETTINGS.len() + 1 + (millions * 1e6) as usize / PIECE;
    std::thread::scope(|scope| {
        let threads: Vec<_> = (0..THREADS).map(|_| scope.spawn(|| run.work(pieces))).collect();
        while !threads.iter().all(|t| t.is_finished()) {
            std::thread::sleep(Duration::from_secs(1));
            eprintln!("{} cases, {} differences", run.cases.load(Relaxed), run.differences.load(Relaxed));
        }
    });
    let count = |counter: &AtomicUsize| counter.load(Relaxed);
    let by_number: Vec<_> = (1..=14).chain([19]).map(|n| format!("{n}: {}", count(&run.refused[n]))).collect();
    eprintln!("refused by number: {}", by_number.join(", "));
    eprintln!("with LE lines: {}", count(&run.exclusive_or));
    eprintln!("with print lines of two counts: {}", count(&run.two_counts));
    eprintln!("with fields that the Rust has not: {}", count(&run.fields));
    eprintln!("with elements pending at the end: {}; of these with labels before them: {}", count(&run.pending[0]), count(&run.pending[1]));
    let by_profile = [0, 17, 18].map(|n| count(&run.checked[n]));
    eprintln!("by the well-site profile: accepted {}, refused 17 {}, 18 {}, the others as plainly", by_profile[0], by_profile[1], by_profile[2]);
    let opened = [0, 1, 2, 3].map(|i| count(&run.made[i]));
    eprintln!("labels indexed and opened: {}; entries that no index made: {} opened, 16 {}, 21 {}, other refusals {}", count(&run.labels), opened[0], opened[1], opened[2], opened[3]);
    let turned = [0, 1, 2, 3, 4].map(|i| count(&run.turned[i]));
    eprintln!("labels to 300 dots: {} converted, 24 {}, 13 {}, 19 {}, other refusals {}", turned[0], turned[1], turned[2], turned[3], turned[4]);
    let answered = |pair: &[AtomicUsize]| format!("{} written, 23 {}", count(&pair[0]), count(&pair[1]));
    eprintln!("as EPL, read again by the Rust and by the steps: elements {}; labels {}; at 300 dots {}", answered(&run.elements), answered(&run.texts), answered(&run.texts_300));
    eprintln!("structs that a host made: {}; labels with one in them {}", answered(&run.structs[..2]), answered(&run.structs[2..]));
    let (cases, differences, accepted) = (count(&run.cases), count(&run.differences), count(&run.accepted));
    let refused: usize = run.refused.iter().map(count).sum();
    let [position, size, kind, maxicode] = [0, 1, 2, 3].map(|i| count(&run.panics[i]));
    let panics = position + size + kind + maxicode;
    println!(
        "{cases} cases, {differences} differences, \
         {panics} panics of the Rust (13: {position}, 19: {size}, 7/8/9: {kind}, MaxiCode: {maxicode}), accepted {accepted}, refused {refused}"
    );
    std::process::exit((differences > 0) as i32);
}

/// What the threads share: the next piece of work, and counts.
#[derive(Default)]
struct Run {
    seed: u64,
    tokens: usize,
    next: AtomicUsize,
    cases: AtomicUsize,
    differences: AtomicUsize,
    accepted: AtomicUsize,
    /// With `LE` lines, which the Rust was asked about under other letters.
    exclusive_or: AtomicUsize,
    /// With print lines of two counts, the second of which was cut from the Rust's copy.
    two_counts: AtomicUsize,
    /// With fields that the Rust has not, which were left out of the frames and held to the definition.
    fields: AtomicUsize,
    /// With elements pending at the end; of these with labels that were printed.
    pending: [AtomicUsize; 2],
    /// By 01's number.
    refused: [AtomicUsize; 20],
    /// By the number of the profile's verdict, 0 where it accepts.
    checked: [AtomicUsize; 20],
    /// Labels that were indexed and opened.
    labels: AtomicUsize,
    /// Entries that no index made, by what opening answered: a label, 16, 21, another refusal.
    made: [AtomicUsize; 4],
    /// Labels to 300 dots, by the answer: converted, 24, 13, 19, another refusal.
    turned: [AtomicUsize; 5],
    /// Elements that were written each by itself, structs that a host made and labels with one in them, labels, labels at 300 dots; each by the answer: written, 23.
    elements: [AtomicUsize; 2],
    structs: [AtomicUsize; 4],
    texts: [AtomicUsize; 2],
    texts_300: [AtomicUsize; 2],
    /// By cause: 13; 19; 7, 8 or 9; MaxiCode.
    panics: [AtomicUsize; 4],
}

impl Run {
    fn work(&self, pieces: usize) {
        let mut lent = Lent::default();
        loop {
            let piece = self.next.fetch_add(1, Relaxed);
            if piece >= pieces {
                return;
            }
            match short::SETTINGS.get(piece) {
                Some(setting) => setting.each(self.tokens, |input| self.case(&mut lent, input)),
                None if piece == short::SETTINGS.len() => long_inputs().iter().for_each(|input| self.case(&mut lent, input)),
                None => {
                    let mut maker = Maker::new(self.seed << 32 | piece as u64, 0);
                    (0..PIECE).for_each(|_| self.case(&mut lent, &made(&mut maker)));
                }
            }
        }
    }

    fn case(&self, lent: &mut Lent, input: &[u8]) {
        let (expected, cause) = masked::answer(input);
        if !masked::exclusive_or(input).is_empty() {
            self.exclusive_or.fetch_add(1, Relaxed);
        }
        if !masked::copies(input).is_empty() {
            self.two_counts.fetch_add(1, Relaxed);
        }
        match &expected {
            Answer::Refused(number, _) => self.refused[*number as usize].fetch_add(1, Relaxed),
            _ => self.accepted.fetch_add(1, Relaxed),
        };
        if let Answer::Labels(labels) = &expected {
            let pending = !labels.pending.is_empty();
            self.pending[0].fetch_add(pending as usize, Relaxed);
            self.pending[1].fetch_add((pending && !labels.printed.is_empty()) as usize, Relaxed);
            self.fields.fetch_add(fields::are_in(labels) as usize, Relaxed);
        }
        if let Some(cause) = cause {
            let kind = [Cause::Position, Cause::Size, Cause::TypeOrSize, Cause::Maxicode].iter().position(|&c| c == cause);
            self.panics[kind.unwrap()].fetch_add(1, Relaxed);
        }
        self.cases.fetch_add(1, Relaxed);
        let compared = compare(lent, input, &expected);
        if let Ok(seen) = &compared {
            self.checked[seen.verdict as usize].fetch_add(1, Relaxed);
            self.labels.fetch_add(seen.labels, Relaxed);
            let counts: [(&[AtomicUsize], &[usize]); 6] = [
                (&self.made, &seen.made),
                (&self.turned, &seen.turned),
                (&self.elements, &seen.elements),
                (&self.structs, &seen.structs),
                (&self.texts, &seen.texts),
                (&self.texts_300, &seen.texts_300),
            ];
            counts.iter().flat_map(|(counters, counts)| counters.iter().zip(*counts)).for_each(|(counter, n)| {
                counter.fetch_add(*n, Relaxed);
            });
        }
        if let Err(wrong) = compared {
            if self.differences.fetch_add(1, Relaxed) < SHOWN {
                let (input, wrong) = cut_down(lent, input, wrong);
                let expected = fields::told(&input, &masked::answer(&input).0).lines();
                let text = format!("input: \"{}\"\nexpected:\n{expected}ours, {wrong}\n", input.escape_ascii());
                println!("{}", text.get(..LONGEST_REPORT).unwrap_or(&text));
            }
        }
    }
}

/// Takes parts out of an input for as long as a difference stays, for some seconds. The shorter input, and what is wrong there.
fn cut_down(lent: &mut Lent, input: &[u8], wrong: String) -> (Vec<u8>, String) {
    let start = Instant::now();
    let (mut input, mut wrong) = (input.to_vec(), wrong);
    let mut part = input.len() / 2;
    while part > 0 {
        let mut at = 0;
        while at + part <= input.len() && start.elapsed() < PATIENCE {
            let shorter = [&input[..at], &input[at + part..]].concat();
            match compare(lent, &shorter, &masked::answer(&shorter).0) {
                Err(now) => (input, wrong) = (shorter, now),
                Ok(_) => at += part,
            }
        }
        part /= 2;
    }
    (input, wrong)
}

/// Inputs around the limit of 16,777,216 bytes.
fn long_inputs() -> Vec<Vec<u8>> {
    let text = [b"A1,2,0,1,1,1,N,\"", &*vec![b'x'; LIMIT - 18], b"\"\n"].concat();
    let block = [b"GW1,2,1024,16383,", &*vec![b'\n'; 1024 * 16_383]].concat();
    vec![
        vec![b'\n'; LIMIT],
        vec![b'\n'; LIMIT + 1],
        [b"LO1\n", &*vec![b' '; LIMIT]].concat(),
        [&*vec![b' '; LIMIT - 3], b"LO1"].concat(),
        text,
        block,
    ]
}
