//! The library beside a small reading of EPL files that is written from the scope document and the change requests alone: the strict reading, the index, opening, what lies where, the
//! conversion to 300 dots, two files joined, one line changed, writing; the listing and the normalised text too. As many millions of made inputs for each entry point as asked for.

mod answers;
mod change;
mod held;
mod lent;
mod made;
#[path = "../diff/measured.rs"]
mod measured;
#[path = "../diff/made.rs"]
mod mixture;
#[allow(dead_code)] // not every entry point has a case
#[path = "../../bindings/rust/src/raw.rs"]
mod raw;
mod reading;
mod several;
mod tally;
mod writing;

use held::{Case, Held, Watched};
use inputs::Maker;
use std::panic::{catch_unwind, AssertUnwindSafe};
use std::sync::atomic::{AtomicUsize, Ordering::Relaxed};
use std::sync::{Arc, Mutex};
use std::time::{Duration, Instant};
use tally::{Tally, ASKED};

const THREADS: usize = 2;
/// Cases of one piece of work; its inputs hang on its number, its entry point and the seed, not on the thread.
const PIECE: usize = 1_000;
/// The first cases of each entry point have long inputs; later one in so many is over the limit, and one in so many at it.
const OFTEN: usize = 1_000;
const SELDOM: usize = 20_000;
/// Differences that are printed, and the bytes of an input that are.
const SHOWN: usize = 20;
const LONGEST_REPORT: usize = 20_000;
/// A call that has not returned after this time is told, and ends the run.
const PATIENCE: Duration = Duration::from_secs(300);

/// A case of each entry point, in the order of `ASKED`.
const ENTRY_POINTS: &[fn(&mut Case) -> Held] = &[
    Case::list,
    Case::normalise,
    Case::check,
    Case::strict_list,
    Case::index,
    Case::open,
    Case::inside,
    Case::touching,
    Case::nearest,
    Case::to_300,
    Case::join,
    Case::change,
    Case::write,
    Case::write_label,
    Case::write_label_300,
];

fn main() {
    let mut words = std::env::args().skip(1);
    let millions: f64 = words.next().and_then(|word| word.parse().ok()).expect("how many millions");
    let seed: u64 = words.next().map_or(1, |word| word.parse().expect("a number"));
    let pieces = ((millions * 1e6) as usize).div_ceil(PIECE);
    let names: Vec<String> = words.collect();
    let chosen: Vec<usize> = (0..ASKED.len()).filter(|&k| names.is_empty() || names.iter().any(|name| name == ASKED[k].name)).collect();
    if let Some(name) = names.iter().find(|name| ASKED.iter().all(|asked| asked.name != **name)) {
        eprintln!("no entry point is held under the name {name}; there are: {}", ASKED.iter().map(|asked| asked.name).collect::<Vec<_>>().join(", "));
        std::process::exit(2);
    }
    let all = pieces * chosen.len();
    let run = Run { seed, chosen, pieces: all, ..Run::default() };
    let watched: [Arc<Watched>; THREADS] = Default::default();
    std::thread::scope(|scope| {
        let threads: Vec<_> = watched.iter().map(|watched| scope.spawn(|| run.work(watched.clone()))).collect();
        let mut moved = [(0, Instant::now()); THREADS];
        while !threads.iter().all(|t| t.is_finished()) {
            std::thread::sleep(Duration::from_millis(500));
            eprint!("\r{} of {} pieces, {} differences ", run.next.load(Relaxed).min(all), all, run.differences.load(Relaxed));
            for k in (0..THREADS).filter(|&k| !threads[k].is_finished()) {
                let done = watched[k].done.load(Relaxed);
                if done != moved[k].0 {
                    moved[k] = (done, Instant::now());
                } else if moved[k].1.elapsed() > PATIENCE {
                    println!("a call does not return\n{}", told(&watched[k]));
                    std::process::exit(1);
                }
            }
        }
    });
    eprintln!();
    let tally = run.tally.into_inner().expect("no thread has failed");
    println!("{}", tally.table(&run.chosen));
    let missing = tally.missing(&run.chosen);
    missing.iter().for_each(|text| println!("{text}"));
    let differences = run.differences.load(Relaxed);
    println!("{} made inputs, {differences} differences", tally.all_cases());
    std::process::exit((differences > 0 || !missing.is_empty()) as i32);
}

/// What the threads share.
#[derive(Default)]
struct Run {
    seed: u64,
    /// The entry points, and the pieces of all of them.
    chosen: Vec<usize>,
    pieces: usize,
    next: AtomicUsize,
    differences: AtomicUsize,
    tally: Mutex<Tally>,
}

impl Run {
    fn work(&self, watched: Arc<Watched>) {
        let mut case = Case { maker: Maker::new(0, 0), lent: Default::default(), tally: Tally::default(), watched, long: None };
        loop {
            let next = self.next.fetch_add(1, Relaxed);
            if next >= self.pieces {
                break;
            }
            let (piece, entry) = (next / self.chosen.len(), self.chosen[next % self.chosen.len()]);
            case.tally.entry = entry;
            case.maker = Maker::new(self.seed << 40 | (entry as u64) << 32 | piece as u64, 0);
            for number in 0..PIECE {
                case.long = match piece * PIECE + number {
                    n if n < held::LONG => Some(n),
                    _ if case.maker.rng.one_in(OFTEN) => Some(case.maker.rng.below(held::OVER)),
                    _ => case.maker.rng.one_in(SELDOM).then(|| held::OVER + case.maker.rng.below(held::LONG - held::OVER)),
                };
                self.case(&mut case, entry);
            }
        }
        self.tally.lock().expect("no thread has failed").add(&case.tally);
    }

    fn case(&self, case: &mut Case, entry: usize) {
        case.watched.inputs.lock().expect("no thread fails with it").clear();
        case.tally.case();
        // Where the reading itself fails, that is told with its input too.
        let held = catch_unwind(AssertUnwindSafe(|| ENTRY_POINTS[entry](case))).unwrap_or_else(|_| Err("the reading failed".to_string()));
        if let Err(wrong) = held {
            if self.differences.fetch_add(1, Relaxed) < SHOWN {
                let text = format!("{}: {wrong}", ASKED[entry].name);
                println!("{}\n{}", text.get(..LONGEST_REPORT).unwrap_or(&text), told(&case.watched));
            }
        }
        case.watched.done.fetch_add(1, Relaxed);
    }
}

/// The inputs of the case at work.
fn told(watched: &Watched) -> String {
    let inputs = watched.inputs.lock().expect("no thread fails with it");
    let inputs: Vec<String> = inputs.iter().map(|input| hex(input)).collect();
    format!("input, {}", inputs.join("\nand "))
}

/// An input as hexadecimal digits, and as text; of a long one its ends.
fn hex(input: &[u8]) -> String {
    let digits = |part: &[u8]| part.iter().map(|b| format!("{b:02x}")).collect::<String>();
    if input.len() <= LONGEST_REPORT {
        return format!("{} bytes: {}\n  \"{}\"", input.len(), digits(input), input.escape_ascii());
    }
    format!("{} bytes: {} .. {}", input.len(), digits(&input[..64]), digits(&input[input.len() - 64..]))
}
