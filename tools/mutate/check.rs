//! A working copy of the repository, and what `rt check` says of an edit there.

use crate::source;
use std::collections::BTreeMap;
use std::fs::{self, File};
use std::path::{Path, PathBuf};
use std::process::{Command, Stdio};

/// Texts of files that an edit makes, by their paths from the repository's root on.
pub type Texts<'a> = BTreeMap<&'a str, String>;

/// What becomes of an edit.
#[derive(Clone, Copy, PartialEq, Eq, Debug)]
pub enum Verdict {
    Refused,
    /// The prover met a limit of its own, or of time.
    Unclear,
    /// It does not pass the types or the borrow checker, so nothing was asked of the prover.
    NoProgram,
    /// A program that is proved and then writes something else than its file `stdout`.
    RunDiffers,
    Survived,
    /// `rt` itself failed.
    Broken,
}

pub const VERDICTS: [(Verdict, &str); 6] = [
    (Verdict::Refused, "refused"),
    (Verdict::Unclear, "could not tell"),
    (Verdict::NoProgram, "no program"),
    (Verdict::RunDiffers, "refused by its run"),
    (Verdict::Survived, "SURVIVED"),
    (Verdict::Broken, "rt failed"),
];

/// Seconds that the check of an edit may take, over what the crate's own has kept.
pub const OF_AN_EDIT: u64 = 1800;

/// Seconds of a check that may have much to prove, in the crate and below it.
pub const OF_ALL: u64 = 14400;

/// What `timeout` exits with where it ended the check.
const OUT_OF_TIME: i32 = 124;

/// A folder with the crates.
pub struct WorkingCopy {
    pub root: PathBuf,
}

impl WorkingCopy {
    /// Copies crates.txt and the crates as they are written; what stood there goes. What `rt` keeps of them is left out, and so are their must-fail edits: a check begins
    /// with what another folder of this machine has kept of the same text.
    pub fn make(from: &Path, to: &Path) -> WorkingCopy {
        let _ = fs::remove_dir_all(to);
        fs::create_dir_all(to).expect("a folder for a copy");
        let mut command = Command::new("cp");
        command.args(["-a", "--parents", "crates.txt"]).current_dir(from);
        for name in source::listed_crates(from) {
            let parts = source::names_in(&from.join("crates").join(&name)).into_iter().filter(|part| part != "out" && part != "must-fail");
            command.args(parts.map(|part| format!("crates/{name}/{part}")));
        }
        let status = command.arg(to).status();
        assert!(status.is_ok_and(|s| s.success()), "the crates cannot be copied to {}", to.display());
        WorkingCopy { root: to.into() }
    }

    /// `rt check` of a crate with other texts in files of it, and the run of a program that is proved with them: the verdict, and what `rt` said. Then the files are as they were.
    pub fn verdict(&self, crate_name: &str, texts: &Texts) -> (Verdict, String) {
        let old: Vec<Vec<u8>> = texts.keys().map(|path| fs::read(self.root.join(path)).expect("a file of the copy")).collect();
        self.write(texts);
        let (mut verdict, mut said) = self.check(crate_name, OF_AN_EDIT);
        if verdict == Verdict::Survived && self.folder(crate_name).join("src/main.rt").exists() {
            let run;
            (verdict, run) = self.run(crate_name);
            said += &run;
        }
        texts.keys().zip(old).for_each(|(path, text)| fs::write(self.root.join(path), text).expect("the file of the edit"));
        (verdict, said)
    }

    /// `rt check` of a crate as it stands, which first builds what it needs of those below: the verdict, and what `rt` said.
    pub fn check(&self, crate_name: &str, seconds: u64) -> (Verdict, String) {
        let output = self.rt("check", crate_name, seconds).output().expect("the commands timeout and rt");
        let said = String::from_utf8_lossy(&[output.stderr, output.stdout].concat()).into_owned();
        (read(&said, output.status.code()), said)
    }

    /// Runs a program on its file `stdin`: whether it writes what its file `stdout` has.
    fn run(&self, crate_name: &str) -> (Verdict, String) {
        let file = |name: &str| self.folder(crate_name).join(name);
        let stdin = File::open(file("stdin")).map_or(Stdio::null(), Stdio::from);
        let output = self.rt("run", crate_name, OF_AN_EDIT).stdin(stdin).output().expect("the commands timeout and rt");
        let wrote = output.status.success() && output.stdout == fs::read(file("stdout")).unwrap_or_default();
        let verdict = if wrote { Verdict::Survived } else { Verdict::RunDiffers };
        (verdict, String::from_utf8_lossy(&[output.stderr, output.stdout].concat()).into_owned())
    }

    fn rt(&self, word: &str, crate_name: &str, seconds: u64) -> Command {
        let mut command = Command::new("timeout");
        command.arg(seconds.to_string()).args(["rt", word, "--jobs", "1"]).current_dir(self.folder(crate_name));
        command
    }

    fn folder(&self, crate_name: &str) -> PathBuf {
        self.root.join("crates").join(crate_name)
    }

    /// Other texts for files. They stay.
    pub fn write(&self, texts: &Texts) {
        texts.iter().for_each(|(path, text)| fs::write(self.root.join(path), text).expect("the file of the edit"));
    }
}

/// With no line `logic=` the code did not reach the prover.
fn read(said: &str, status: Option<i32>) -> Verdict {
    match status {
        Some(0) => Verdict::Survived,
        Some(1) if said.lines().any(|line| line.starts_with("logic=not-proved")) => Verdict::Refused,
        Some(1) => Verdict::NoProgram,
        Some(3) | Some(OUT_OF_TIME) => Verdict::Unclear,
        _ => Verdict::Broken,
    }
}
