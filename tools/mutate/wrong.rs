//! Wrong programs: must-fail edits that stand apart from their crates. They are put into a copy of the crates, and `rt must-fail` tries them there.

use crate::check::WorkingCopy;
use crate::source::names_in;
use std::fs;
use std::path::Path;
use std::process::{Command, Stdio};

/// Tries those of a folder that have the names CRATE/NAME, or all: the exit status.
pub fn run(root: &Path, copies: &Path, folder: &Path, names: &[String], jobs: Option<usize>) -> i32 {
    let of_crate = |name: &String| -> Vec<String> {
        let edits = names_in(&folder.join(name));
        edits.iter().filter_map(|edit| Some(format!("{name}/{}", edit.strip_suffix(".edit")?))).collect()
    };
    let mut edits: Vec<String> = names_in(folder).iter().flat_map(of_crate).collect();
    if let Some(name) = names.iter().find(|name| !edits.contains(name)) {
        eprintln!("no edit has the name {name}");
        return 2;
    }
    edits.retain(|edit| names.is_empty() || names.contains(edit));
    let copy = WorkingCopy::make(root, &copies.join("wrong"));
    let mut crates: Vec<&str> = vec![];
    for edit in &edits {
        let (crate_name, name) = edit.split_once('/').expect("a crate and a name");
        let to = copy.root.join("crates").join(crate_name).join("must-fail");
        fs::create_dir_all(&to).expect("a folder of must-fail edits");
        fs::copy(folder.join(format!("{edit}.edit")), to.join(format!("{name}.edit"))).expect("an edit");
        crates.push(crate_name);
    }
    crates.dedup();
    let mut command = Command::new("rt");
    command.arg("must-fail").args(crates).current_dir(&copy.root).stdin(Stdio::null()).stderr(Stdio::inherit());
    if let Some(jobs) = jobs {
        command.env("RT_JOBS", jobs.to_string());
    }
    let output = command.output().expect("the command rt");
    let said = String::from_utf8_lossy(&output.stdout);
    let refused = said.lines().filter(|line| line.contains(".edit: refused")).count();
    println!("{said}{refused} of {} refused", edits.len());
    (!output.status.success() || refused < edits.len()) as i32
}
