//! Which edits are tried, and in what order. It hangs on the crates, the options and the seed, and on nothing else.

use crate::body::Body;
use crate::edits::{edits, Edit, KINDS};
use crate::source::{Function, Sources};
use std::collections::BTreeMap;

/// A function with its edits: first those that are wanted, then spare ones for those that turn out to be no program.
pub struct Subject<'a> {
    pub function: &'a Function,
    pub crate_name: &'a str,
    pub wanted: usize,
    pub edits: Vec<Edit>,
    left: Vec<Edit>,
}

pub struct Plan<'a> {
    pub subjects: Vec<Subject<'a>>,
    /// Subjects by number, one for each edit that is wanted.
    pub order: Vec<usize>,
}

/// Every function gets an edit before any gets a second. Where that is too much, crates share by the square root of their lines:
/// one with four times as many has half as many of its functions edited. With no number, every function gets one.
pub fn plan<'a>(sources: &'a Sources, crates: &[String], lines: &BTreeMap<String, u64>, most: Option<usize>, seed: u64) -> Plan<'a> {
    let mut subjects = subjects(sources, crates, seed);
    let mut used = [0; KINDS.len()];
    let mut order = Vec::new();
    while most.is_none_or(|most| order.len() < most) {
        let Some(next) = next_subject(&subjects, lines) else { break };
        if most.is_none() && subjects[next].wanted > 0 {
            break;
        }
        subjects[next].want(&mut used);
        order.push(next);
    }
    for subject in &mut subjects {
        subject.edits.append(&mut subject.left);
    }
    Plan { subjects, order }
}

/// The functions of the crates in a shuffled order, each with its edits shuffled.
fn subjects<'a>(sources: &'a Sources, crates: &[String], seed: u64) -> Vec<Subject<'a>> {
    let mut found = Vec::new();
    for function in &sources.functions {
        let crate_name = sources.files[function.file].crate_name.as_str();
        if crates.iter().any(|name| name == crate_name) {
            let mut chance = Chance::new(seed, &format!("{crate_name}::{}", function.full_name()));
            let mut left = edits(&Body::new(sources, function));
            chance.shuffle(&mut left);
            found.push((chance.next(), Subject { function, crate_name, wanted: 0, edits: vec![], left }));
        }
    }
    found.sort_by_key(|(chance, _)| *chance);
    found.into_iter().map(|(_, subject)| subject).collect()
}

/// The function that is to get the next edit.
fn next_subject(subjects: &[Subject], lines: &BTreeMap<String, u64>) -> Option<usize> {
    let round = subjects.iter().filter(|s| !s.left.is_empty()).map(|s| s.wanted).min()?;
    let open = |s: &Subject| s.wanted == round && !s.left.is_empty();
    let share = |name: &str| {
        let of_crate = || subjects.iter().filter(|s| s.crate_name == name);
        let had = of_crate().filter(|s| !open(s)).count();
        had as f64 / of_crate().count() as f64 * (lines[name] as f64).sqrt()
    };
    let mut crates: Vec<&str> = subjects.iter().filter(|s| open(s)).map(|s| s.crate_name).collect();
    crates.sort();
    crates.dedup();
    let next = crates.into_iter().min_by(|a, b| share(a).total_cmp(&share(b)))?;
    subjects.iter().position(|s| s.crate_name == next && open(s))
}

impl Subject<'_> {
    /// Moves one edit to the wanted ones, of the kind that was used least.
    fn want(&mut self, used: &mut [usize]) {
        let number = |edit: &Edit| KINDS.iter().position(|(kind, _)| *kind == edit.kind).expect("a kind");
        let least = (0..self.left.len()).min_by_key(|&i| used[number(&self.left[i])]).expect("an edit that is left");
        used[number(&self.left[least])] += 1;
        self.edits.push(self.left.remove(least));
        self.wanted += 1;
    }
}

/// Numbers that look like chance: splitmix64 from a seed and a name.
struct Chance(u64);

impl Chance {
    fn new(seed: u64, name: &str) -> Chance {
        let fold = |sum: u64, b: u8| (sum ^ b as u64).wrapping_mul(0x0000_0100_0000_01b3);
        Chance(name.bytes().fold(seed ^ 0xcbf2_9ce4_8422_2325, fold))
    }

    fn next(&mut self) -> u64 {
        self.0 = self.0.wrapping_add(0x9e37_79b9_7f4a_7c15);
        let a = (self.0 ^ (self.0 >> 30)).wrapping_mul(0xbf58_476d_1ce4_e5b9);
        let b = (a ^ (a >> 27)).wrapping_mul(0x94d0_49bb_1331_11eb);
        b ^ (b >> 31)
    }

    fn shuffle<T>(&mut self, all: &mut [T]) {
        for i in (1..all.len()).rev() {
            all.swap(i, (self.next() % (i as u64 + 1)) as usize);
        }
    }
}
