//! Writes the cases of crates/replay: a fixed list of inputs, kind by kind, with the oracle's answers.
//! - stdin: for each case its length, 4 bytes, most significant first, and its bytes.
//! - stdout: for each case the lines of its answer (frames, or the one frame ff), then a line with a full stop.
//! Where the debug build panics, 01's domain ends and the answer is 01's, as `panics.rs` finds it; `LE` lines, and elements that are pending at the end, are asked about as `masked.rs` says. The fields
//! that the Rust has not (font, multipliers, wide bar) are the definition's, as `fields.rs` reads them. An input at whose end elements are pending is put with a print line behind it too, so that the
//! answer has their frames; in some kinds with that alone. An input that an earlier kind has already is left out.

mod blanks;
mod corners;
mod graphics;
mod made;
mod numbers;
mod refusals;
mod sizes;
mod symbols;

use oracle::Answer;
use std::collections::BTreeSet;
use std::path::Path;

/// A list of inputs.
type Inputs = Vec<Vec<u8>>;

const LONGEST_CASE: usize = 65_536;
const LONGEST_STDIN: usize = 450_000;
const LONGEST_STDOUT: usize = 2_000_000;

fn main() -> std::io::Result<()> {
    let folder = std::env::args().nth(1).expect("usage: cases FOLDER");
    let kinds: [(&str, Inputs); 14] = [
        ("corners", and_printed(corners::cases())),
        ("lines", and_printed(corners::lines())),
        ("labels", and_printed(made::labels())),
        ("refusals", and_printed(refusals::cases())),
        ("blanks", printed(blanks::cases())),
        ("numbers", printed(numbers::cases())),
        ("bar codes", printed(symbols::bars())),
        ("2D bar codes", printed(symbols::symbols())),
        ("MaxiCode", printed(symbols::maxicode())),
        ("graphics", and_printed(graphics::cases())),
        ("sizes", printed(sizes::cases())),
        ("damaged", and_printed(made::damaged())),
        ("prose", and_printed(made::prose())),
        ("tokens", and_printed(made::tokens())),
    ];
    let (mut stdin, mut stdout) = (Vec::new(), String::new());
    let mut seen = BTreeSet::new();
    for (kind, inputs) in kinds {
        let (mut accepted, mut refused, mut panics, mut pending) = (0, 0, 0, 0);
        for input in inputs {
            assert!(input.len() <= LONGEST_CASE);
            if !seen.insert(input.clone()) {
                continue;
            }
            let (answer, cause) = oracle::masked::answer(&input);
            pending += is_pending(&answer) as usize;
            match answer {
                _ if cause.is_some() => panics += 1,
                Answer::Labels(_) => accepted += 1,
                _ => refused += 1,
            }
            stdin.extend((input.len() as u32).to_be_bytes());
            stdin.extend(&input);
            stdout += &oracle::fields::told(&input, &answer).lines();
            stdout += ".\n";
        }
        eprintln!("{kind}: {accepted} accepted, {refused} refused, {panics} answered by 01 where the Rust panics; elements pending at the end of {pending}");
    }
    eprintln!("{} cases, stdin {} bytes, stdout {} bytes", seen.len(), stdin.len(), stdout.len());
    assert!(stdin.len() <= LONGEST_STDIN && stdout.len() <= LONGEST_STDOUT);
    let folder = Path::new(&folder);
    std::fs::create_dir_all(folder)?;
    std::fs::write(folder.join("stdin"), stdin)?;
    std::fs::write(folder.join("stdout"), stdout)
}

fn is_pending(answer: &Answer) -> bool {
    matches!(answer, Answer::Labels(labels) if !labels.pending.is_empty())
}

/// Each input, with a print line behind it where elements are pending at its end.
fn printed(inputs: Inputs) -> Inputs {
    inputs.into_iter().map(|input| with_print_line(&input).unwrap_or(input)).collect()
}

/// Each input, and then that.
fn and_printed(inputs: Inputs) -> Inputs {
    inputs.into_iter().flat_map(|input| [Some(input.clone()), with_print_line(&input)]).flatten().collect()
}

fn with_print_line(input: &[u8]) -> Option<Vec<u8>> {
    let line: &[u8] = if input.ends_with(b"\n") { b"P\n" } else { b"\nP\n" };
    is_pending(&oracle::masked::answer(input).0).then(|| [input, line].concat())
}
