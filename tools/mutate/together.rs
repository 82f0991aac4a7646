//! Edits that are written by hand. Each file of tools/mutate/together makes a wrong reader whose code still meets its definition: both are
//! edited alike, and proofs where they follow the code. What refuses the edit should be a claim, a law in the paper's words or a computed case, so
//! all crates that the edit reaches are checked without their functions, lowest first, until one is not proved; the table says what refused it. With `--code` they
//! are checked whole, up to the static library, which shows that the code meets the edited definition in every crate below the one that refuses it.

use crate::check::{Texts, Verdict, WorkingCopy, OF_ALL};
use crate::report::{self, Report};
use crate::source::names_in;
use crate::theory;
use std::collections::BTreeMap;
use std::fs;
use std::path::Path;
use std::sync::atomic::{AtomicUsize, Ordering::Relaxed};
use std::sync::Mutex;
use std::time::Instant;

/// The last crate that is checked with the code: the programs after it promise nothing of their own.
const LAST: &str = "laddertick_c";

/// An edit as its file has it.
struct Together {
    pub name: String,
    /// The sentence that it breaks.
    breaks: String,
    changes: Vec<Change>,
}

/// One text for another in a file, whose path is from the repository's root on.
struct Change {
    file: String,
    old: String,
    new: String,
}

/// What became of an edit, by its number, and what refused it.
struct Outcome {
    edit: usize,
    verdict: Verdict,
    refused_by: String,
}

/// The named edits, or all, in the order of their names; or their faults, such as a text that is not in its file.
fn read(root: &Path, names: &[String]) -> Result<Vec<Together>, String> {
    let folder = root.join("tools/mutate/together");
    let edit = |file: &String| Some(parse(file.strip_suffix(".edit")?, &fs::read_to_string(folder.join(file)).expect("an edit")));
    let mut all: Vec<Together> = names_in(&folder).iter().filter_map(edit).collect();
    let known = |name: &String| all.iter().any(|edit| edit.name == *name);
    let mut faults: Vec<String> = names.iter().filter(|name| !known(name)).map(|name| format!("no edit has the name {name}")).collect();
    all.retain(|edit| names.is_empty() || names.contains(&edit.name));
    faults.extend(all.iter().filter_map(|edit| Some(format!("{}: {}", edit.name, edit.made(root).err()?))));
    if faults.is_empty() {
        Ok(all)
    } else {
        Err(faults.join("\n"))
    }
}

/// As a must-fail edit, its files from the repository's root on. Several `old:` in a row are one text of several lines, and so are several `new:`.
fn parse(name: &str, text: &str) -> Together {
    let mut edit = Together { name: name.into(), breaks: String::new(), changes: vec![] };
    let (mut file, mut last) = ("", "");
    for line in text.lines() {
        let (word, rest) = line.split_once(' ').unwrap_or((line, ""));
        match (word, edit.changes.last_mut()) {
            ("#", _) if edit.breaks.is_empty() => edit.breaks = rest.into(),
            ("file:", _) => file = rest,
            ("old:", Some(change)) if last == word => change.old += &format!("\n{rest}"),
            ("old:", _) => edit.changes.push(Change { file: file.into(), old: rest.into(), new: String::new() }),
            ("new:", Some(change)) if last == word => change.new += &format!("\n{rest}"),
            ("new:", Some(change)) => change.new = rest.into(),
            _ => {}
        }
        last = word;
    }
    edit
}

impl Together {
    /// The files with their new texts, or what is wrong.
    fn made(&self, root: &Path) -> Result<Texts<'_>, String> {
        let mut texts = Texts::new();
        for Change { file, old, new } in &self.changes {
            let text = match texts.get(file.as_str()) {
                Some(text) => text.clone(),
                None => fs::read_to_string(root.join(file)).map_err(|_| format!("there is no file {file}"))?,
            };
            if text.matches(old.as_str()).count() != 1 {
                return Err(format!("{file} does not have this text once:\n{old}"));
            }
            texts.insert(file, text.replacen(old.as_str(), new, 1));
        }
        (!texts.is_empty()).then_some(texts).ok_or("it changes nothing".into())
    }
}

/// Tries edits, some at a time, each in a copy of its own: the exit status.
pub fn run(root: &Path, copies: &Path, folder: &Path, names: &[String], jobs: usize, code: bool) -> i32 {
    let edits = match read(root, names) {
        Ok(edits) => edits,
        Err(faults) => {
            eprintln!("{faults}\nNOTHING WAS TRIED: these edits do not fit the files");
            return 2;
        }
    };
    let last = if code { LAST } else { theory::LAST };
    let copy = |name: &str, texts: &Texts| {
        if !code {
            return theory::make(root, &copies.join(name), texts);
        }
        let copy = WorkingCopy::make(root, &copies.join(name));
        copy.write(texts);
        copy
    };
    // unedited, it stays: the copies of the edits begin with what is kept there
    let (verdict, said) = copy("unedited", &Texts::new()).check(last, OF_ALL);
    if verdict != Verdict::Survived {
        eprintln!("{said}the crates are not proved as they stand");
        return 2;
    }
    let report = Report::open(folder.into(), false, BTreeMap::new());
    let next = AtomicUsize::new(0);
    let outcomes = Mutex::new(vec![]);
    let work = |job: usize| {
        while let Some((number, edit)) = edits.iter().enumerate().nth(next.fetch_add(1, Relaxed)) {
            let start = Instant::now();
            let (verdict, said) = copy(&job.to_string(), &edit.made(root).expect("an edit that fits")).check(last, OF_ALL);
            let refused_by = refused_by(&said, last);
            report.add(&format!("{}: {refused_by}", edit.name), verdict, start.elapsed().as_secs_f64(), &said);
            eprintln!("{}: {} {refused_by}", report::word(verdict), edit.name);
            outcomes.lock().unwrap().push(Outcome { edit: number, verdict, refused_by });
        }
    };
    std::thread::scope(|scope| (0..jobs).for_each(|job| drop(scope.spawn(move || work(job)))));
    let mut outcomes = outcomes.into_inner().unwrap();
    outcomes.sort_by_key(|outcome| outcome.edit);
    let table = table(&edits, &outcomes);
    fs::write(folder.join("summary.txt"), &table).expect("the summary");
    print!("{table}");
    outcomes.iter().any(|outcome| outcome.verdict != Verdict::Refused) as i32
}

/// The first error's file and line, its words, and the names that the errors of that file stand in: a lemma that fails takes those that rest on it along. The crate is the
/// last one, or the library below it that was not proved.
fn refused_by(said: &str, last: &str) -> String {
    let crate_name = said.lines().find_map(|line| line.strip_prefix("rt: the library ")?.split_once(" did not build")).map_or(last, |(name, _)| name);
    let places = said.lines().filter_map(|line| line.split_once(": error: "));
    let unmet = said.lines().filter_map(|line| line.strip_prefix("note: ").and_then(|line| Some(line.split_at(line.find(": it is not proved ")?))));
    let errors: Vec<(&str, &str)> = places.chain(unmet).map(|(place, words)| (place.trim_start_matches("./"), words.trim_start_matches(": "))).collect();
    let Some((first, words)) = errors.first() else { return String::new() };
    let file = |place: &str| place.split(':').next().unwrap_or(place).to_string();
    let mut names: Vec<&str> = vec![];
    for (_, words) in errors.iter().filter(|(place, _)| file(place) == file(first)) {
        let own = words.strip_prefix('`').and_then(|rest| rest.split('`').next());
        let resting = words.split_once(" not checked: ").map_or("", |(_, names)| names);
        for name in own.into_iter().chain(resting.split(", ").filter_map(|name| name.split(' ').next())) {
            if !name.is_empty() && !names.contains(&name) {
                names.push(name);
            }
        }
    }
    let line = first.rsplit_once(':').map_or(*first, |(line, _)| line);
    format!("{crate_name}/{line} ({}): {words}", names.join(", "))
}

fn table(edits: &[Together], outcomes: &[Outcome]) -> String {
    let row = |outcome: &Outcome| {
        let Together { name, breaks, changes } = &edits[outcome.edit];
        let mut files: Vec<&str> = changes.iter().map(|change| change.file.trim_start_matches("crates/")).collect();
        files.dedup();
        format!("{name}: {breaks}\n    {}\n    {}: {}\n", files.join(", "), report::word(outcome.verdict), outcome.refused_by)
    };
    let refused = outcomes.iter().filter(|outcome| outcome.verdict == Verdict::Refused).count();
    outcomes.iter().map(row).chain([format!("{refused} of {} refused\n", outcomes.len())]).collect()
}
