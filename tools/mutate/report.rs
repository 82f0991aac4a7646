//! Results: a line each in target/mutate/report.txt as they come, and a page at the end.

use crate::check::{Verdict, VERDICTS};
use crate::edits::Edit;
use crate::plan::Subject;
use crate::run::Outcome;
use crate::source::Sources;
use std::collections::BTreeMap;
use std::fs;
use std::io::Write;
use std::path::PathBuf;
use std::process::Command;
use std::sync::Mutex;

/// Results by the words that name their edit. What `rt` said of each lies in said/.
pub struct Report {
    folder: PathBuf,
    /// By crate: its stamp, which changes with its files and with those of what it is built on.
    stamps: BTreeMap<String, String>,
    state: Mutex<State>,
}

#[derive(Default)]
struct State {
    results: BTreeMap<String, Verdict>,
    /// Texts in said/.
    said: usize,
    /// How often an unedited crate was proved, and how often not.
    controls: [usize; 2],
    /// Seconds of all checks.
    seconds: f64,
}

/// Controls that held, and those that failed.
const CONTROLS: [&str; 2] = ["control", "control FAILED"];

impl Report {
    /// An empty report, or what counts of the one that an interrupted run left: not the edits at which `rt` itself failed, nor those of a crate that has changed since.
    pub fn open(folder: PathBuf, resume: bool, stamps: BTreeMap<String, String>) -> Report {
        let path = folder.join("report.txt");
        let said = folder.join("said");
        if !resume {
            let _ = fs::remove_dir_all(&said);
            let _ = fs::remove_file(&path);
        }
        fs::create_dir_all(&said).expect("the folder said/");
        let text = fs::read_to_string(&path).unwrap_or_default();
        let mut state = State { said: fs::read_dir(&said).into_iter().flatten().count(), ..State::default() };
        let kept: Vec<&str> = text.lines().filter(|line| counts(line, &stamps)).collect();
        kept.iter().for_each(|line| state.take(line));
        fs::write(&path, kept.iter().map(|line| format!("{line}\n")).collect::<String>()).expect("the report");
        Report { folder, stamps, state: Mutex::new(state) }
    }

    pub fn known(&self, name: &str) -> Option<Verdict> {
        self.state.lock().unwrap().results.get(name).copied()
    }

    /// The result of an edit, the seconds of its check, and what `rt` said.
    pub fn add(&self, name: &str, verdict: Verdict, seconds: f64, said: &str) {
        self.write(word(verdict), seconds, name, said);
    }

    pub fn control(&self, crate_name: &str, holds: bool, seconds: f64, said: &str) {
        let own = format!("crate {crate_name}: ");
        let modules = said.lines().find_map(|line| line.strip_prefix(&own)).unwrap_or("");
        self.write(CONTROLS[!holds as usize], seconds, &format!("{crate_name}: {modules}"), said);
    }

    /// Whether every crate was proved without its edits.
    pub fn holds(&self) -> bool {
        self.state.lock().unwrap().controls[1] == 0
    }

    fn write(&self, word: &str, seconds: f64, name: &str, said: &str) {
        let mut state = self.state.lock().unwrap();
        state.said += 1;
        let log = format!("said/{}.txt", state.said);
        fs::write(self.folder.join(&log), said).expect("what rt said");
        let stamp = self.stamps.get(crate_of(name)).map_or("", |stamp| stamp);
        let line = format!("{word}\t{seconds:.1} s, {log}, {stamp}\t{name}");
        let mut file = fs::OpenOptions::new().append(true).open(self.folder.join("report.txt")).expect("the report");
        writeln!(file, "{line}").expect("the report");
        state.take(&line);
    }
}

impl State {
    fn take(&mut self, line: &str) {
        let Some((word, how, name)) = parts(line) else { return };
        self.seconds += how.split_once(" s, ").and_then(|(seconds, _)| seconds.parse::<f64>().ok()).unwrap_or(0.0);
        if let Some(which) = CONTROLS.iter().position(|w| *w == word) {
            self.controls[which] += 1;
        }
        if let Some((verdict, _)) = VERDICTS.iter().find(|(_, w)| *w == word) {
            self.results.insert(name.into(), *verdict);
        }
    }
}

/// A line's result, how it was had, and the name of its edit.
fn parts(line: &str) -> Option<(&str, &str, &str)> {
    let (word, rest) = line.split_once('\t')?;
    let (how, name) = rest.split_once('\t')?;
    Some((word, how, name))
}

/// The crate of a line's name, which goes on with its file or with words.
fn crate_of(name: &str) -> &str {
    name.split(['/', ':']).next().unwrap_or(name)
}

fn counts(line: &str, stamps: &BTreeMap<String, String>) -> bool {
    let Some((word, how, name)) = parts(line) else { return false };
    let unchanged = stamps.get(crate_of(name)).is_some_and(|stamp| how.ends_with(stamp.as_str()));
    unchanged && ![self::word(Verdict::Broken), CONTROLS[1]].contains(&word)
}

pub fn word(verdict: Verdict) -> &'static str {
    VERDICTS.iter().find(|(v, _)| *v == verdict).expect("a verdict").1
}

/// An edit in words: `crate/file:line function: old -> new`, whole lines where it stays within one.
pub fn name(sources: &Sources, subject: &Subject, edit: &Edit) -> String {
    let file = &sources.files[subject.function.file];
    let (old, new) = shown(file.text, edit);
    let place = format!("{}/{}:{}", file.crate_name, file.path, file.line(edit.range.start));
    format!("{place} {} ({}): {old} -> {new}", subject.function.full_name(), edit.kind)
}

fn shown(text: &str, edit: &Edit) -> (String, String) {
    let old = &text[edit.range.clone()];
    let (from, to) = if old.contains('\n') {
        (edit.range.start, edit.range.end)
    } else {
        let from = text[..edit.range.start].rfind('\n').map_or(0, |i| i + 1);
        (from, text[edit.range.end..].find('\n').map_or(text.len(), |i| edit.range.end + i))
    };
    let new = [&text[from..edit.range.start], &edit.new, &text[edit.range.end..to]].concat();
    (one_line(&text[from..to]), one_line(&new))
}

fn one_line(text: &str) -> String {
    text.split_whitespace().collect::<Vec<_>>().join(" ")
}

/// A page: how it was run, a row for each crate, and what is to be read by hand: every edit that was neither refused nor no program.
pub fn summary(command: &str, crates: &[String], subjects: &[Subject], outcomes: &[Outcome], report: &Report) -> String {
    let state = report.state.lock().unwrap();
    let count = |verdict: Verdict| outcomes.iter().filter(|(_, _, v)| *v == verdict).count();
    let mut text = format!("`{command}`, ended on {}: {:.0} minutes of checks.\n\n", today(), state.seconds / 60.0);
    text += "Functions: those with a contract. Edited: those of them with an edit that reached the prover.\n\n";
    text += "| crate | functions | edited | edits | refused | by its run | could not tell | survived |\n|---|---|---|---|---|---|---|---|\n";
    for name in crates.iter().filter(|name| subjects.iter().any(|s| s.crate_name == **name)) {
        text += &row(&format!("`{name}`"), subjects, outcomes, |s| s.crate_name == name);
    }
    text += &row("all", subjects, outcomes, |_| true);
    text += &format!("\n{} more were no program", count(Verdict::NoProgram));
    if count(Verdict::Broken) > 0 {
        text += &format!("; at {} `rt` failed, and `--resume` tries them again", count(Verdict::Broken));
    }
    let [held, fell] = state.controls;
    text += &format!(".\n\nControl: unedited, a crate must be proved before its edits, after every twentieth and after the last. Controls that held: {held}; that failed: {fell}.\n");
    let by_hand = |v: &Verdict| ![Verdict::Refused, Verdict::NoProgram].contains(v);
    if outcomes.iter().any(|(_, _, v)| by_hand(v)) {
        text += "\n```\n";
        for (verdict, _) in VERDICTS.iter().filter(|(v, _)| by_hand(v)) {
            let of_verdict = outcomes.iter().filter(|(_, _, v)| v == verdict);
            text.extend(of_verdict.map(|(_, name, v)| format!("{}: {name}\n", word(*v))));
        }
        text += "```\n";
    }
    text
}

fn today() -> String {
    let output = Command::new("date").args(["-u", "+%F"]).output().expect("the command date");
    String::from_utf8_lossy(&output.stdout).trim().into()
}

fn row(name: &str, subjects: &[Subject], outcomes: &[Outcome], of: impl Fn(&Subject) -> bool) -> String {
    let own: Vec<_> = outcomes.iter().filter(|(s, _, _)| of(&subjects[*s])).collect();
    let count = |verdict: Verdict| own.iter().filter(|(_, _, v)| *v == verdict).count();
    let reached = |s: usize| own.iter().any(|(t, _, v)| *t == s && *v != Verdict::NoProgram);
    let numbers = [
        subjects.iter().filter(|s| of(s)).count(),
        (0..subjects.len()).filter(|&s| reached(s)).count(),
        own.len() - count(Verdict::NoProgram),
        count(Verdict::Refused),
        count(Verdict::RunDiffers),
        count(Verdict::Unclear),
        count(Verdict::Survived),
    ];
    format!("| {name} |{}\n", numbers.map(|n| format!(" {n} |")).concat())
}
