//! Instructions, in which no cache and no neighbour has a part: valgrind runs this program once for each figure, and counts one call.

use crate::function::{made, Function, FUNCTIONS, JOIN, LINEAR};
use crate::inputs::{Kind, KINDS};
use crate::label::CALLS;
use crate::page::{row, size_name, table, SIZES};
use crate::{library, targets};
use std::collections::HashMap;
use std::process::Command;

const FLAGS: [&str; 3] = ["--tool=callgrind", "--toggle-collect=measured", "--callgrind-out-file=/dev/null"];

/// The instructions of the one call that this program makes when it is told these words and a size.
fn counted(words: &[&str], size: usize) -> f64 {
    let this = std::env::current_exe().unwrap();
    let said = Command::new("valgrind").args(FLAGS).arg(this).args(words).arg(size.to_string()).output().expect("valgrind");
    let said = String::from_utf8_lossy(&said.stderr);
    let (_, count) = said.split_once("Collected : ").unwrap_or_else(|| panic!("{said}"));
    count.split_whitespace().next().unwrap().parse().unwrap()
}

fn of_a_file(function: &Function, kind: &Kind, size: usize) -> f64 {
    counted(&["file", function.name, kind.name], size)
}

/// Sixteen times the bytes. Of two files that are joined each has three eighths of them, so that the joined text of every input is within the limit.
fn growth(function: &Function, kind: &Kind) -> f64 {
    let [small, large] = [SIZES[1], SIZES[2]].map(|size| if function.name == JOIN.name { size / 8 * 3 } else { size });
    of_a_file(function, kind, large) / of_a_file(function, kind, small)
}

/// Figures by the names of function and input.
type Figures = HashMap<(&'static str, &'static str), f64>;

/// A row for each input and a column for each function; what goes by labels has no figure where there are none.
fn files(words: &str, functions: &[Function], figure: impl Fn(&Function, &Kind) -> f64) -> Figures {
    table(words, &["input"].into_iter().chain(functions.iter().map(|function| function.name)).collect::<Vec<_>>());
    let mut figures = HashMap::new();
    for kind in KINDS {
        let labels = library::has_labels(&made(kind, SIZES[0]));
        let cells = functions.iter().map(|function| {
            if function.by_labels && !labels {
                return "no label".to_string();
            }
            let figure = figure(function, kind);
            figures.insert((function.name, kind.name), figure);
            format!("{figure:.2}")
        });
        row([kind.name.to_string()].into_iter().chain(cells));
    }
    figures
}

/// A row for each size and a column for each call with one label.
fn calls<const N: usize>(words: &str, which: &str, sizes: [usize; N], cell: impl Fn(f64, usize) -> String) -> [[f64; CALLS.len()]; N] {
    table(words, &["size"].into_iter().chain(CALLS.map(|(name, _)| name)).collect::<Vec<_>>());
    sizes.map(|size| {
        let counts = CALLS.map(|(name, _)| counted(&[which, name], size));
        row([size_name(size)].into_iter().chain(counts.map(|count| cell(count, size))));
        counts
    })
}

pub fn instructions() {
    let [small, middle, _] = SIZES;
    let a_byte = files("Instructions a byte, 64 KiB", &FUNCTIONS, |function, kind| of_a_file(function, kind, small) / small as f64);
    let grown = files("Instructions of 16 MiB, times those of 1 MiB; of two files of 6 MiB joined, times those of two of 384 KiB", &LINEAR, growth);
    let words = "Instructions of a call with one label, the middle one of a file of one label again and again";
    let one = calls(words, "label", SIZES, |count, _| count.to_string());
    calls("Instructions a byte of a file that is one label", "whole", [small, middle], |count, size| format!("{:.2}", count / size as f64));
    targets::begin();
    targets::index(|kind| a_byte[&("index", kind)] / a_byte[&("walk", kind)]);
    targets::one_label(1.05, &one);
    for Function { name, .. } in LINEAR {
        let most = targets::most(KINDS.iter().filter_map(|kind| grown.get(&(name, kind.name)).copied()));
        targets::at_most(16.5, &format!("{name} on every input, sixteen times the bytes"), most);
    }
}
