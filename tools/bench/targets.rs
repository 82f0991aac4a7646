//! Targets, and whether the figures meet them.

use crate::label::CALLS;

/// The line above the list.
pub fn begin() {
    println!("\nTargets\n");
}

pub fn at_least(limit: f64, words: &str, figure: f64) {
    println!("- {words}, at least {limit}: {figure:.2}, {}", verdict(figure >= limit));
}

pub fn at_most(limit: f64, words: &str, figure: f64) {
    println!("- {words}, at most {limit}: {figure:.2}, {}", verdict(figure <= limit));
}

fn verdict(met: bool) -> &'static str {
    if met { "met" } else { "missed" }
}

/// The index in walks, of an input by its name: the target is on labels, and others are told beside it.
pub fn index(walks: impl Fn(&str) -> f64) {
    at_most(1.3, "index on labels, walks", walks("labels"));
    for kind in ["bar codes", "graphics"] {
        println!("- index on {kind}, walks: {:.2}", walks(kind));
    }
}

/// Calls with the same label in files of several lengths, a row for each file: a length has no part in them.
pub fn one_label(limit: f64, files: &[[f64; CALLS.len()]]) {
    for (i, (name, _)) in CALLS.iter().enumerate() {
        let figures = files.iter().map(|calls| calls[i]);
        at_most(limit, &format!("{name}, one label in files of every size, the most, times the least"), most(figures.clone()) / least(figures));
    }
}

pub fn least(figures: impl IntoIterator<Item = f64>) -> f64 {
    figures.into_iter().fold(f64::INFINITY, f64::min)
}

pub fn most(figures: impl IntoIterator<Item = f64>) -> f64 {
    figures.into_iter().fold(0.0, f64::max)
}
