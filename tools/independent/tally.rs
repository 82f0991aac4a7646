//! What was seen: cases, answers by their number and branches, for each entry point; and what a run must have seen.

use std::collections::BTreeMap;

/// What a run must have seen of an entry point: each of its numbers, and each of its branches.
pub struct Asked {
    pub name: &'static str,
    pub numbers: &'static [&'static [u32]],
    pub branches: &'static [&'static [&'static str]],
}

/// The refusals of a file's lines.
const LINES: &[u32] = &[1, 2, 3, 4, 5, 6, 7, 8, 9, 10, 11, 12, 13, 19];
/// What becomes of an entry that is opened.
const OPENED: &[&str] = &["an entry of the index", "another entry that yields a label", "a label of a refused file", "21 past the list", "21 without a label"];
/// What becomes of a label that is written.
const WRITTEN: &[&str] = &["several elements", "23, no element", "23, a negative count", "23, not the first element", "23 of an element before a negative count"];

pub const ASKED: &[Asked] = &[
    Asked { name: "list", numbers: &[&[0, 14, 15], LINES], branches: &[&["labels, then frame fe", "frame fe alone"]] },
    Asked { name: "normalise", numbers: &[&[0, 14, 15]], branches: &[] },
    Asked {
        name: "check",
        numbers: &[&[0, 14, 17, 18], LINES],
        branches: &[&["17, an empty field", "17, no number", "17, beyond 32 bits", "18", "17 or 18, accepted plainly", "17 or 18, the line refused plainly"]],
    },
    Asked { name: "strict_list", numbers: &[&[0, 14, 15, 17, 18], LINES], branches: &[] },
    Asked {
        name: "index",
        numbers: &[&[0, 14, 20], LINES],
        branches: &[&["no labels", "several labels", "behind a print line that printed nothing", "a reference at the start", "a label to the end of input"]],
    },
    Asked { name: "open", numbers: &[&[0, 14, 15, 16, 21], LINES], branches: &[OPENED] },
    Asked { name: "inside", numbers: &[&[0, 14, 15, 16, 21, 22], LINES], branches: &[OPENED, &["none", "some, not all", "on an edge", "22 before 21"]] },
    Asked {
        name: "touching",
        numbers: &[&[0, 14, 15, 16, 21, 22], LINES],
        branches: &[OPENED, &["none", "a far edge past 32 bits", "by an edge", "no box and no diagonal", "22 before 21"]],
    },
    Asked { name: "nearest", numbers: &[&[0, 14, 16, 21], LINES], branches: &[OPENED, &["not the first", "the earlier of equals", "further than 32 bits"]] },
    Asked {
        name: "to_300",
        numbers: &[&[0, 14, 15, 16, 21, 24], LINES],
        branches: &[OPENED, &["13 of a result", "19 of a result", "13 before 19 of a line", "a position below zero", "a position next to the end of 32 bits"]],
    },
    Asked {
        name: "join",
        numbers: &[&[0, 14, 15, 25], LINES],
        branches: &[
            &["the first refused", "the second refused", "both refused", "14 of the first", "14 of the second", "a line of the first before 14 of the second"],
            &["exactly 16,777,216 bytes", "one byte more"],
        ],
    },
    Asked {
        name: "change",
        numbers: &[&[0]],
        branches: &[&[
            "an N behind the line",
            "both yield",
            "neither yields",
            "one element more",
            "one element less",
            "a label gains its first element",
            "a label loses its last element",
            "pending at the end, one more or less",
        ]],
    },
    Asked {
        name: "write",
        numbers: &[&[0, 14, 15, 23]],
        branches: &[
            crate::writing::KINDS,
            &["LO", "LW", "LE", "X", "direction 0", "direction 1", "LO, LW or LE whose far corner passes 32 bits"],
            &["23, data outside the input", "23, no data", "23, LF in data", "23, long QR data", "23, a kind that is none", "23, a field of another kind"],
            &["23, X whose far corner passes 32 bits", "23, a negative size", "23, a size, flag or ratio that is none"],
        ],
    },
    Asked { name: "write_label", numbers: &[&[0, 14, 15, 23]], branches: &[WRITTEN, &["23, 16,777,217 elements", "16,777,216 elements"]] },
    Asked { name: "write_label_300", numbers: &[&[0, 14, 15, 23]], branches: &[WRITTEN] },
];

/// Counts by entry point, which is its place in `ASKED`.
#[derive(Default)]
pub struct Tally {
    /// The one that is counted now.
    pub entry: usize,
    cases: BTreeMap<usize, u64>,
    answers: BTreeMap<(usize, u32), u64>,
    branches: BTreeMap<(usize, &'static str), u64>,
}

impl Tally {
    pub fn case(&mut self) {
        *self.cases.entry(self.entry).or_default() += 1;
    }

    pub fn answer(&mut self, number: u32) {
        *self.answers.entry((self.entry, number)).or_default() += 1;
    }

    pub fn branch_if(&mut self, taken: bool, name: &'static str) {
        if taken {
            *self.branches.entry((self.entry, name)).or_default() += 1;
        }
    }

    /// Whether it has been taken already.
    pub fn has(&self, name: &'static str) -> bool {
        self.taken(self.entry, name) > 0
    }

    pub fn add(&mut self, other: &Tally) {
        other.cases.iter().for_each(|(k, n)| *self.cases.entry(*k).or_default() += n);
        other.answers.iter().for_each(|(k, n)| *self.answers.entry(*k).or_default() += n);
        other.branches.iter().for_each(|(k, n)| *self.branches.entry(*k).or_default() += n);
    }

    fn answered(&self, entry: usize, number: u32) -> u64 {
        self.answers.get(&(entry, number)).copied().unwrap_or(0)
    }

    fn taken(&self, entry: usize, name: &'static str) -> u64 {
        self.branches.get(&(entry, name)).copied().unwrap_or(0)
    }

    pub fn all_cases(&self) -> u64 {
        self.cases.values().sum()
    }

    /// A table of the made inputs and of the answers of each of these entry points, and a line of its branches.
    pub fn table(&self, entries: &[usize]) -> String {
        let row = |head: String, cell: &dyn Fn(usize) -> String| format!("| {head} |{}\n", entries.iter().map(|&k| format!(" {} |", cell(k))).collect::<String>());
        let mut text = row("answers".to_string(), &|k| format!("`{}`", ASKED[k].name));
        text += &row("---".to_string(), &|_| "---".to_string());
        text += &row("made inputs".to_string(), &|k| self.cases.get(&k).copied().unwrap_or(0).to_string());
        for number in 0..=25 {
            if entries.iter().any(|&k| self.answered(k, number) > 0) {
                text += &row(number.to_string(), &|k| Some(self.answered(k, number)).filter(|&n| n > 0).map_or(String::new(), |n| n.to_string()));
            }
        }
        text.push('\n');
        for (k, asked) in entries.iter().map(|&k| (k, &ASKED[k])).filter(|(_, asked)| !asked.branches.is_empty()) {
            let told: Vec<String> = asked.branches.concat().iter().map(|name| format!("{name} {}", self.taken(k, name))).collect();
            text += &format!("- `{}`: {}\n", asked.name, told.join("; "));
        }
        text
    }

    /// What should have been seen and was not; and answers that the entry point does not have.
    pub fn missing(&self, entries: &[usize]) -> Vec<String> {
        let mut missing = Vec::new();
        for (k, asked) in entries.iter().map(|&k| (k, &ASKED[k])) {
            let numbers = asked.numbers.concat();
            missing.extend(numbers.iter().filter(|&&n| self.answered(k, n) == 0).map(|n| format!("{} never answered {n}", asked.name)));
            missing.extend(asked.branches.concat().iter().filter(|name| self.taken(k, name) == 0).map(|name| format!("{} never had: {name}", asked.name)));
            missing.extend(self.answers.keys().filter(|key| key.0 == k && !numbers.contains(&key.1)).map(|key| format!("{} answered {}, which it has not", asked.name, key.1)));
            missing.extend(self.branches.keys().filter(|key| key.0 == k && !asked.branches.concat().contains(&key.1)).map(|key| format!("{}: {} is not listed", asked.name, key.1)));
        }
        missing
    }
}
