//! The mutation run. It makes small edits to the code of functions that have a contract, one at a time, as a slip of the hand would: another
//! comparison, another constant, a condition dropped, two fields swapped, one too many. Each is made in a copy of the crates; contracts, definitions and
//! proofs stay as they are. The prover must refuse it (`rt check` of the crate).
//!
//! A survivor is an edit with which the crate is still proved. Either it changes nothing that can be seen (`a < b` and `a <= b` choose
//! the same of two equal numbers), or the contract is too weak: a wrong program meets it too.
//! An edit that does not pass the types or the borrow checker is no program; the next edit of its function is tried instead.
//!
//! A refusal tells that code, contract and proof no longer fit together. Whether an edit changes what the code does is not looked at: one
//! that changes nothing may be refused too, since the proof was written for the other form.
//!
//! tokens, source: the code as tokens and functions. body, edits: the edits that a function allows. plan: which are tried. check: what
//! `rt check` says of one. run: the jobs. report: target/mutate/report.txt, and the page at the end. together: the mode of that name, whose
//! edits are written by hand and change definitions along with the code. theory: the repository without its functions. wrong: wrong programs that are written by hand, `--wrong` and `--kept`.

mod body;
mod check;
mod edits;
mod plan;
mod report;
mod run;
mod source;
mod theory;
mod together;
mod tokens;
mod wrong;

use check::{Verdict, WorkingCopy};
use plan::{plan, Plan, Subject};
use report::Report;
use run::Run;
use source::Sources;
use std::fs;
use std::process::exit;

const USAGE: &str = "usage: tools/mutate/run [--crates A,B] [--most N | --each] [--jobs J] [--seed S] [--resume] [--plan]
       tools/mutate/run --together [--code] [NAME..] [--jobs J]
       tools/mutate/run --wrong | --kept [CRATE/NAME..] [--jobs J]";

struct Options {
    crates: Vec<String>,
    /// How many edits; nothing stands for one of every function.
    most: Option<usize>,
    jobs: Option<usize>,
    seed: u64,
    resume: bool,
    plan: bool,
    /// Whether edits of definitions together with code are tried with the code.
    code: bool,
    /// The mode whose edits are written by hand, as together, and the names of those that were asked for; none stands for all.
    by_hand: Option<(String, Vec<String>)>,
}

fn main() {
    let root = std::env::current_dir().expect("a current folder");
    let copies = std::env::var_os("COPIES").map(|folder| root.join(folder));
    let listed = source::listed_crates(&root);
    let options = options(&listed).unwrap_or_else(|| {
        eprintln!("{USAGE}");
        exit(2)
    });
    if let Some((mode, names)) = &options.by_hand {
        let copies = copies.expect("a folder for copies");
        exit(match mode.as_str() {
            "together" => together::run(&root, &copies, &root.join("target/mutate/together"), names, options.jobs.unwrap_or(2), options.code),
            _ => wrong::run(&root, &copies, &root.join("tools/mutate").join(mode), names, options.jobs),
        });
    }
    let sources = Sources::read(&root, &listed);
    let lines = listed.iter().map(|name| (name.clone(), source::lines(&root, name))).collect();
    let plan = plan(&sources, &options.crates, &lines, options.most, options.seed);
    if options.plan {
        return print_plan(&sources, &plan);
    }
    let copies = copies.expect("a folder for copies");
    let copies: Vec<WorkingCopy> = (0..options.jobs.unwrap_or(2)).map(|job| WorkingCopy::make(&root, &copies.join(job.to_string()))).collect();
    let report = Report::open(root.join("target/mutate"), options.resume, source::stamps(&root));
    let results = Run::new(&sources, &plan, &lines, &report).on(&copies);
    let words = std::env::args().skip(1).filter(|word| word != "--resume");
    let command: Vec<String> = ["tools/mutate/run".into()].into_iter().chain(words).collect();
    let summary = report::summary(&command.join(" "), &listed, &plan.subjects, &results, &report);
    fs::write(root.join("target/mutate/summary.txt"), &summary).expect("the summary");
    print!("{summary}");
    if !report.holds() {
        exit(2);
    }
    let left = |verdict: &Verdict| ![Verdict::Refused, Verdict::RunDiffers, Verdict::NoProgram].contains(verdict);
    exit(results.iter().any(|(_, _, verdict)| left(verdict)) as i32);
}

fn options(listed: &[String]) -> Option<Options> {
    let mut options = Options { crates: listed.to_vec(), most: Some(180), jobs: None, seed: 1, resume: false, plan: false, code: false, by_hand: None };
    let mut words = std::env::args().skip(1);
    while let Some(word) = words.next() {
        match word.as_str() {
            "--crates" => options.crates = words.next()?.split(',').map(String::from).collect(),
            "--most" => options.most = Some(words.next()?.parse().ok()?),
            "--each" => options.most = None,
            "--jobs" => options.jobs = Some(words.next()?.parse().ok().filter(|&jobs| jobs > 0)?),
            "--seed" => options.seed = words.next()?.parse().ok()?,
            "--resume" => options.resume = true,
            "--plan" => options.plan = true,
            "--code" => options.code = true,
            "--together" | "--wrong" | "--kept" => options.by_hand = Some((word[2..].into(), vec![])),
            name if !name.starts_with('-') => options.by_hand.as_mut()?.1.push(name.into()),
            _ => return None,
        }
    }
    let unknown = options.crates.iter().find(|name| !listed.contains(name));
    unknown.inspect(|name| eprintln!("{name} is not listed in crates.txt")).is_none().then_some(options)
}

fn print_plan(sources: &Sources, plan: &Plan) {
    for subject in &plan.subjects {
        for edit in &subject.edits[..subject.wanted] {
            println!("{}", report::name(sources, subject, edit));
        }
    }
    let of = |wanted: fn(&Subject) -> bool| plan.subjects.iter().filter(|s| wanted(s)).count();
    let all: usize = plan.subjects.iter().map(|s| s.edits.len()).sum();
    println!(
        "{} edits of {all}, over {} of {} functions; {} have none",
        plan.order.len(),
        of(|s| s.wanted > 0),
        plan.subjects.len(),
        of(|s| s.edits.is_empty())
    );
}
