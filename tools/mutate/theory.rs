//! The repository without its functions: types, definitions, laws, claims and tables of computed cases. What refuses a wrong definition stands there, and
//! without the proofs of functions all of it is checked in a fraction of the time.

use crate::check::{Texts, WorkingCopy};
use crate::source;
use std::fs;
use std::path::Path;

/// The last crate with laws about the definitions: the static library and the programs over it have functions alone.
pub const LAST: &str = "laddertick";

/// Files that speak of functions, beside those of the proof of each: they are left out,
const OF_FUNCTIONS: [&str; 2] = ["crates/laddertick/specs/Proved.antt", "crates/laddertick/proofs/Proved.antt"];
const OF_A_PROOF: [&str; 3] = ["/Proof.antt", "/Invariants.antt", "/Answers.antt"];

/// and so are the words of other files that name them.
const NAMED: [(&str, &str); 6] = [
    ("crates/laddertick/specs/Lib.antt", "pub mod Proved\n"),
    ("crates/laddertick/specs/Claims.antt", "use Rattle.laddertick.specs.Proved.{Proved}\n"),
    ("crates/laddertick/specs/Claims.antt", "  pub proved : Proved\n"),
    ("crates/laddertick/proofs/Lib.antt", "pub mod Proved\n"),
    ("crates/laddertick/proofs/Claims.antt", "use Rattle.laddertick.proofs.Proved.{proved}\n"),
    ("crates/laddertick/proofs/Claims.antt", "proved = proved; "),
];

/// A copy of the repository without its functions, and with other texts in files of it. The crates behind the last one are as they were, and nothing is said of them.
pub fn make(root: &Path, to: &Path, texts: &Texts) -> WorkingCopy {
    let copy = WorkingCopy::make(root, to);
    copy.write(texts);
    let listed = source::listed_crates(to);
    for name in &listed[..=listed.iter().position(|name| name == LAST).expect("the last crate")] {
        for file in source::files(to, name) {
            let path = file.strip_prefix(to).expect("a file of the copy").to_str().expect("a name in UTF-8");
            if OF_FUNCTIONS.contains(&path) || OF_A_PROOF.iter().any(|name| path.ends_with(name)) {
                fs::remove_file(&file).expect("a file of the copy");
                continue;
            }
            let text = fs::read_to_string(&file).expect("a file of the copy");
            let theory = without_functions(path, &text);
            if theory != text {
                fs::write(&file, theory).expect("a file of the copy");
            }
        }
    }
    copy
}

fn without_functions(path: &str, text: &str) -> String {
    let mut text = if path.ends_with(".rt") { source::without_functions(text) } else { text.into() };
    for (_, part) in NAMED.iter().filter(|(file, _)| *file == path) {
        assert!(text.contains(part), "{path} no longer has {part}");
        text = text.replacen(part, "", 1);
    }
    text
}
