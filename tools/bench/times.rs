//! Times: the best of many calls, which take turns with those that they are held against.

use crate::function::{made, measured, Function, CHECK, COPY, FORMAT, INDEX, JOIN, NORMALISE, PARSE, PARTS, REWRITE, WALK, WRITE};
use crate::inputs::{Kind, KINDS};
use crate::label::{Call, Opened, CALLS};
use crate::library;
use crate::memory::Memory;
use crate::page::{row, size_name, table, KIB, MIB, SIZES};
use crate::targets::{self, at_least, at_most, least, most};
use std::hint::black_box;
use std::time::{Duration, Instant};

/// A function over a file.
struct Job<'a> {
    function: &'a Function,
    file: &'a Memory,
    out: Memory,
    best: Duration,
}

impl<'a> Job<'a> {
    fn new(function: &'a Function, file: &'a Memory) -> Job<'a> {
        // Room for any normalised text, also of a file joined with itself, and for the files of the benchmark written anew.
        let out = Memory::new(2 * (file.len() + file.len() / 6 + 1) + 2);
        Job { function, file, out, best: Duration::MAX }
    }

    fn call(&mut self) {
        let start = Instant::now();
        black_box(measured(&self.function.call, self.file, &mut self.out));
        self.best = self.best.min(start.elapsed());
    }
}

/// Nanoseconds a byte of each function. They take turns, so that whatever else the machine does meets all of them; each is called twice in its turn, so that
/// its second call finds in the caches what they can hold.
fn times_of<const N: usize>(functions: [&Function; N], file: &Memory) -> [f64; N] {
    let mut jobs = functions.map(|function| Job::new(function, file));
    let (begun, mut turns) = (Instant::now(), 0);
    while turns < 3 || (begun.elapsed() < Duration::from_secs(1) && turns < 500) {
        for job in &mut jobs {
            job.call();
            job.call();
        }
        turns += 1;
        if begun.elapsed() > Duration::from_secs(10) {
            break;
        }
    }
    jobs.map(|job| job.best.as_nanos() as f64 / file.len() as f64)
}

/// An input by its name, and a figure, for every kind and size that was timed.
type Figures = Vec<(&'static str, f64)>;

fn on(figures: &Figures, name: &str) -> Vec<f64> {
    figures.iter().filter(|(kind, _)| *kind == name).map(|(_, figure)| *figure).collect()
}

fn all(figures: Figures) -> Vec<f64> {
    figures.into_iter().map(|(_, figure)| figure).collect()
}

/// The Rust takes minutes to hours on hostile blocks of more than this.
const HOSTILE_LIMIT: usize = 256 * KIB;

/// How many times as fast as the Rust's a function of ours is.
fn beside_the_rust(ours: &Function, rust: &Function) -> Figures {
    let head = ["input", "size", ours.name, rust.name, "times as fast"];
    table(&format!("{} beside {}, nanoseconds a byte", ours.name, rust.name), &head);
    let mut figures = Vec::new();
    for (kind, size) in KINDS.iter().flat_map(|kind| SIZES.map(|size| (kind, size))) {
        let file = made(kind, size);
        let name = [kind.name.to_string(), size_name(size)];
        if kind.hostile && size > HOSTILE_LIMIT {
            let [mine] = times_of([ours], &file);
            row(name.into_iter().chain([format!("{mine:.3}"), "not run".to_string(), String::new()]));
        } else {
            let [mine, theirs] = times_of([ours, rust], &file);
            row(name.into_iter().chain([format!("{mine:.3}"), format!("{theirs:.3}"), format!("{:.1}", theirs / mine)]));
            figures.push((kind.name, theirs / mine));
        }
    }
    figures
}

/// How the Rust grows on hostile blocks, where it looks for the LF of every block.
fn hostile() {
    table("GW blocks without LF, nanoseconds a byte", &["size", "walk", "parse", "normalise", "format_epl"]);
    let kind = KINDS.iter().find(|kind| kind.hostile).unwrap();
    for size in [32 * KIB, 64 * KIB, 128 * KIB, HOSTILE_LIMIT] {
        let times = times_of([&WALK, &PARSE, &NORMALISE, &FORMAT], &made(kind, size));
        row([size_name(size)].into_iter().chain(times.map(|time| format!("{time:.2}"))));
    }
}

/// How many times the time of another function one takes.
fn beside<'a>(words: &str, one: &Function, other: &Function, kinds: impl Iterator<Item = &'a Kind>, sizes: &[usize]) -> Figures {
    let times = format!("times the {}", other.name);
    table(&format!("{words}, nanoseconds a byte"), &["input", "size", one.name, other.name, &times]);
    let mut figures = Vec::new();
    for kind in kinds {
        for &size in sizes {
            let [mine, its] = times_of([one, other], &made(kind, size));
            row([kind.name.to_string(), size_name(size), format!("{mine:.3}"), format!("{its:.3}"), format!("{:.2}", mine / its)]);
            figures.push((kind.name, mine / its));
        }
    }
    figures
}

fn accepted() -> impl Iterator<Item = &'static Kind> {
    KINDS.iter().filter(|kind| !kind.name.starts_with("refused"))
}

fn with_labels() -> impl Iterator<Item = &'static Kind> {
    KINDS.iter().filter(|kind| library::has_labels(&made(kind, SIZES[0])))
}

/// Nanoseconds of a call with each label, the best of many runs of many calls; the labels take turns.
fn with_one<const N: usize>(labels: &[Opened; N], call: Call, out: &mut [u8]) -> [f64; N] {
    let (begun, mut best) = (Instant::now(), [f64::INFINITY; N]);
    for run in 0..200 {
        for (label, best) in labels.iter().zip(&mut best) {
            // A run has as many calls as make half a mebibyte, one at least.
            let calls = (MIB / 2 / label.len()).max(1);
            let start = Instant::now();
            for _ in 0..calls {
                black_box(label.call(call, out));
            }
            *best = best.min(start.elapsed().as_nanos() as f64 / calls as f64);
        }
        if run >= 4 && begun.elapsed() > Duration::from_secs(4) {
            break;
        }
    }
    best
}

/// A row for each size and a column for each call.
fn calls(words: &str, labels: [Opened; SIZES.len()], cell: impl Fn(f64, usize) -> String) -> [[f64; CALLS.len()]; SIZES.len()] {
    table(words, &["size"].into_iter().chain(CALLS.map(|(name, _)| name)).collect::<Vec<_>>());
    // A listing has more bytes than its file.
    let mut out = Memory::new(16 * most(labels.iter().map(|label| label.len() as f64)) as usize);
    let columns = CALLS.map(|(_, call)| with_one(&labels, call, &mut out));
    std::array::from_fn(|i| {
        let times = columns.map(|column| column[i]);
        row([size_name(SIZES[i])].into_iter().chain(times.map(|time| cell(time, SIZES[i]))));
        times
    })
}

fn one_label() -> [[f64; CALLS.len()]; SIZES.len()] {
    let words = "One label, the middle one of a file of one label again and again, nanoseconds a call";
    let one = calls(words, SIZES.map(Opened::in_the_middle), |time, _| format!("{time:.0}"));
    calls("A file that is one label, nanoseconds a byte", SIZES.map(Opened::whole), |time, size| format!("{:.3}", time / size as f64));
    one
}

/// Writing, which has a walk inside.
fn writing() {
    beside("Each element written by itself, beside the walk", &WRITE, &WALK, accepted(), &SIZES);
    beside("Each label written anew, as examples/c/rewrite.c does it, beside the walk", &REWRITE, &WALK, with_labels(), &SIZES);
}

/// Writing and what is done with one label, alone.
pub fn write() {
    let one = one_label();
    writing();
    targets::begin();
    targets::one_label(1.1, &one);
}

pub fn times() {
    let walks = beside_the_rust(&WALK, &PARSE);
    let texts = beside_the_rust(&NORMALISE, &FORMAT);
    hostile();
    let graphics = KINDS.iter().filter(|kind| kind.name == "graphics");
    let copies = beside("Normalise beside a plain memory copy", &NORMALISE, &COPY, graphics, &SIZES);
    let checks = beside("The well-site profile's check beside the walk", &CHECK, &WALK, KINDS.iter(), &SIZES[..1]);
    let indexes = beside("The label index beside the walk", &INDEX, &WALK, accepted(), &SIZES);
    let joins = beside("A file joined with itself beside both walks and both normalisings", &JOIN, &PARTS, KINDS.iter(), &SIZES[..1]);
    let one = one_label();
    writing();
    targets::begin();
    at_least(5.0, "the walk on labels, every size, times as fast as parse", least(on(&walks, "labels")));
    at_least(4.0, "the walk on bar codes, every size, times as fast as parse", least(on(&walks, "bar codes")));
    at_least(2.0, "normalise on every input, times as fast as format_epl", least(all(texts)));
    at_most(2.5, "normalise on graphics, every size, times the time of a copy", most(all(copies)));
    targets::index(|kind| most(on(&indexes, kind)));
    targets::one_label(1.1, &one);
    at_most(2.5, "check on every input, times the time of the walk", most(all(checks)));
    at_most(2.2, "join on every input, times the time of its parts", most(all(joins)));
}
