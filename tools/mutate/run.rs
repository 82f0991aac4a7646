//! The jobs: each takes the next crate of the plan and tries the edits of its functions in a copy of its own.

use crate::check::{Texts, Verdict, WorkingCopy, OF_ALL};
use crate::plan::Plan;
use crate::report::{self, Report};
use crate::source::Sources;
use std::collections::BTreeMap;
use std::sync::atomic::{AtomicUsize, Ordering::Relaxed};
use std::sync::Mutex;
use std::time::Instant;

/// Edits of one function that may turn out to be no program, one after the other.
const TRIES: usize = 12;

/// Edits between two controls: as many are lost where a run is interrupted.
const BETWEEN_CONTROLS: usize = 20;

/// A subject by number, its edit in words, and what became of it.
pub type Outcome = (usize, String, Verdict);

/// What the jobs share.
pub struct Run<'a> {
    sources: &'a Sources,
    plan: &'a Plan<'a>,
    report: &'a Report,
    outcomes: Mutex<Vec<Outcome>>,
    /// Crates with the subjects of their edits, the dearest first.
    crates: Vec<(&'a str, Vec<usize>)>,
    /// The next of these.
    next: AtomicUsize,
    start: Instant,
}

/// One crate in a job's copy.
struct Turn<'a> {
    copy: &'a WorkingCopy,
    crate_name: &'a str,
    /// What the last control said: whether the unedited crate is proved.
    proved: Option<bool>,
    /// For a subject, the next of its edits.
    next_edit: BTreeMap<usize, usize>,
    /// The outcomes since the last control, by number, each with the seconds of its check and what `rt` said.
    open: Vec<(usize, f64, String)>,
}

impl<'a> Run<'a> {
    pub fn new(sources: &'a Sources, plan: &'a Plan<'a>, lines: &BTreeMap<String, u64>, report: &'a Report) -> Run<'a> {
        let mut by_name: BTreeMap<&str, Vec<usize>> = BTreeMap::new();
        for &subject in &plan.order {
            by_name.entry(plan.subjects[subject].crate_name).or_default().push(subject);
        }
        let mut crates: Vec<_> = by_name.into_iter().collect();
        crates.sort_by_key(|(name, order)| std::cmp::Reverse(lines[*name] * order.len() as u64));
        Run { sources, plan, report, outcomes: Mutex::default(), crates, next: AtomicUsize::new(0), start: Instant::now() }
    }

    pub fn on(self, copies: &[WorkingCopy]) -> Vec<Outcome> {
        std::thread::scope(|scope| copies.iter().for_each(|copy| drop(scope.spawn(|| self.work(copy)))));
        self.outcomes.into_inner().unwrap()
    }

    fn work(&self, copy: &WorkingCopy) {
        while let Some((crate_name, order)) = self.crates.get(self.next.fetch_add(1, Relaxed)) {
            let mut turn = Turn { copy, crate_name, proved: None, next_edit: BTreeMap::new(), open: vec![] };
            for &subject in order {
                for _ in 0..TRIES {
                    if self.try_next(&mut turn, subject) != Some(Verdict::NoProgram) {
                        break;
                    }
                }
            }
            if !turn.open.is_empty() {
                self.control(&mut turn);
            }
        }
    }

    /// Tries the next edit of a subject, unless an earlier run did; nothing where it has no more, or the crate is not proved without it.
    fn try_next(&self, turn: &mut Turn<'a>, number: usize) -> Option<Verdict> {
        let subject = &self.plan.subjects[number];
        let next = turn.next_edit.entry(number).or_default();
        let edit = subject.edits.get(*next)?;
        *next += 1;
        let name = report::name(self.sources, subject, edit);
        if let Some(verdict) = self.report.known(&name) {
            self.outcomes.lock().unwrap().push((number, name, verdict));
            return Some(verdict);
        }
        if turn.proved.is_none() {
            self.control(turn);
        }
        if turn.proved == Some(false) {
            return None;
        }
        let file = &self.sources.files[subject.function.file];
        let path = format!("crates/{}/{}", turn.crate_name, file.path);
        let start = Instant::now();
        let (verdict, said) = turn.copy.verdict(turn.crate_name, &Texts::from([(path.as_str(), edit.made(file.text))]));
        let mut outcomes = self.outcomes.lock().unwrap();
        turn.open.push((outcomes.len(), start.elapsed().as_secs_f64(), said));
        outcomes.push((number, name, verdict));
        self.progress(&outcomes);
        drop(outcomes);
        if turn.open.len() >= BETWEEN_CONTROLS {
            self.control(turn);
        }
        Some(verdict)
    }

    /// The unedited crate. Where it is not proved, what was said of the edits since the last control counts for nothing.
    fn control(&self, turn: &mut Turn<'a>) {
        let start = Instant::now();
        let (verdict, said) = turn.copy.check(turn.crate_name, OF_ALL);
        let holds = verdict == Verdict::Survived;
        turn.proved = Some(holds);
        if !holds {
            eprintln!("{said}{} is not proved as it stands: its edits are to be tried again, by --resume", turn.crate_name);
        }
        let seconds = start.elapsed().as_secs_f64();
        let mut outcomes = self.outcomes.lock().unwrap();
        for (number, seconds, said) in turn.open.drain(..) {
            let (_, name, verdict) = &mut outcomes[number];
            *verdict = if holds { *verdict } else { Verdict::Broken };
            self.report.add(name, *verdict, seconds, &said);
        }
        self.report.control(turn.crate_name, holds, seconds, &said);
    }

    /// Counts, and how long the rest will take if it goes on as it did.
    fn progress(&self, outcomes: &[Outcome]) {
        let count = |verdict: Verdict| outcomes.iter().filter(|(_, _, v)| *v == verdict).count();
        let reached = outcomes.len() - count(Verdict::NoProgram);
        let refused = count(Verdict::Refused) + count(Verdict::RunDiffers);
        let pace = self.start.elapsed().as_secs_f64() / reached.max(1) as f64;
        let Some((_, name, verdict)) = outcomes.last() else { return };
        eprintln!(
            "{reached}/{} edits: {refused} refused, {} survived, {} others; {} were no program; about {:.0} min left; {}",
            self.plan.order.len(),
            count(Verdict::Survived),
            reached - refused - count(Verdict::Survived),
            count(Verdict::NoProgram),
            self.plan.order.len().saturating_sub(reached) as f64 * pace / 60.0,
            name.split(' ').next().unwrap_or(name)
        );
        if *verdict == Verdict::Survived {
            eprintln!("SURVIVED: {name}");
        }
    }
}
