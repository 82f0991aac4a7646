//! The crates' code: each file cut into functions, and what it declares and imports.

use crate::tokens::{tokens, Kind, Token};
use std::collections::BTreeMap;
use std::fs;
use std::hash::{DefaultHasher, Hash, Hasher};
use std::path::{Path, PathBuf};

/// A file of a crate's src/. Its text lives as long as the program.
pub struct File {
    pub crate_name: String,
    /// From the crate's folder on, as src/line.rt.
    pub path: String,
    pub text: &'static str,
    /// Imported names with the paths that they stand for: crate, module, name.
    imports: Vec<[String; 3]>,
}

impl File {
    pub fn line(&self, at: usize) -> usize {
        1 + self.text[..at].bytes().filter(|&b| b == b'\n').count()
    }

    /// As a path in the code: `line` for src/line.rt, nothing for src/lib.rt and src/main.rt.
    fn module(&self) -> String {
        let inner = self.path.trim_start_matches("src/").trim_end_matches(".rt");
        if inner == "lib" || inner == "main" {
            String::new()
        } else {
            inner.replace('/', "::")
        }
    }
}

/// A function with a contract.
pub struct Function {
    /// Its file, by place in `Sources::files`.
    pub file: usize,
    pub module: String,
    pub name: String,
    pub params: Vec<(String, String)>,
    pub returns: String,
    /// Between its braces.
    pub body: Vec<Token<'static>>,
}

impl Function {
    pub fn full_name(&self) -> String {
        if self.module.is_empty() {
            self.name.clone()
        } else {
            format!("{}::{}", self.module, self.name)
        }
    }

    pub fn takes_and_gives_as(&self, other: &Function) -> bool {
        let types = |f: &Function| f.params.iter().map(|(_, t)| t.clone()).collect::<Vec<_>>();
        self.returns == other.returns && types(self) == types(other)
    }
}

pub struct Sources {
    pub files: Vec<File>,
    pub functions: Vec<Function>,
    /// By name: fields and their types.
    pub structs: BTreeMap<String, Vec<(String, String)>>,
    /// By name: variants and what they carry.
    pub enums: BTreeMap<String, Vec<(String, String)>>,
}

impl Sources {
    /// All crates of crates.txt, in its order.
    pub fn read(root: &Path, crates: &[String]) -> Sources {
        let mut sources = Sources { files: vec![], functions: vec![], structs: BTreeMap::new(), enums: BTreeMap::new() };
        for name in crates {
            for path in files_below(&root.join("crates").join(name).join("src")) {
                sources.add(root, name, &path);
            }
        }
        sources
    }

    fn add(&mut self, root: &Path, crate_name: &str, path: &Path) {
        let text: &'static str = Box::leak(fs::read_to_string(path).expect("a file of src/").into_boxed_str());
        let inner = path.strip_prefix(root.join("crates").join(crate_name)).expect("a path below its crate");
        let all = tokens(text, 0, text.len());
        let file = File { crate_name: crate_name.into(), path: inner.display().to_string(), text, imports: imports(&all, crate_name) };
        self.declarations(&all);
        for (from, to) in function_parts(text) {
            self.functions.extend(function(&file, self.files.len(), from, to));
        }
        self.files.push(file);
    }

    fn declarations(&mut self, all: &[Token]) {
        for i in 0..all.len().saturating_sub(2) {
            let to = if all[i].is("struct") { &mut self.structs } else { &mut self.enums };
            if all[i].is_one_of(&["struct", "enum"]) && all[i + 2].is("{") {
                let parts = split(&all[i + 3..closing(all, i + 2)]);
                to.insert(all[i + 1].text.into(), parts.iter().map(|part| declared(part)).collect());
            }
        }
    }

    /// The function that a file means by a name: one that it imports, else its own.
    pub fn function_named(&self, file: usize, name: &str) -> Option<&Function> {
        self.visible(file).into_iter().find(|f| f.name == name)
    }

    /// The functions that a file can call by name alone.
    pub fn visible(&self, file: usize) -> Vec<&Function> {
        let imports = &self.files[file].imports;
        let of_crate = |f: &Function| &self.files[f.file].crate_name;
        let imported = |f: &Function| imports.iter().any(|[a, b, c]| a == of_crate(f) && *b == f.module && *c == f.name);
        self.functions.iter().filter(|f| f.file == file || imported(f)).collect()
    }
}

/// The crates that crates.txt names, in its order.
pub fn listed_crates(root: &Path) -> Vec<String> {
    listed_dependencies(root).into_iter().map(|(name, _)| name).collect()
}

/// The same, each with those that its line names.
pub fn listed_dependencies(root: &Path) -> Vec<(String, Vec<String>)> {
    let text = fs::read_to_string(root.join("crates.txt")).expect("crates.txt");
    let lines = text.lines().filter_map(|line| line.split('#').next()?.split_once(':'));
    let words = |text: &str| text.split_whitespace().map(String::from).collect::<Vec<_>>();
    lines.map(|(name, needs)| (words(name)[0].clone(), words(needs))).collect()
}

/// A crate and all of the repository that it is built on, lowest first.
pub fn built_on(root: &Path, crate_name: &str) -> Vec<String> {
    let mut wanted = vec![crate_name.to_string()];
    let mut found = vec![];
    for (name, needs) in listed_dependencies(root).into_iter().rev() {
        if wanted.contains(&name) {
            wanted.extend(needs);
            found.push(name);
        }
    }
    found.reverse();
    found
}

/// The names of what a folder has; none where it is no folder.
pub fn names_in(folder: &Path) -> Vec<String> {
    let mut names: Vec<String> = fs::read_dir(folder).into_iter().flatten().flatten().filter_map(|entry| entry.file_name().into_string().ok()).collect();
    names.sort();
    names
}

/// The files of a crate's src/, specs/ and proofs/.
pub fn files(root: &Path, crate_name: &str) -> Vec<PathBuf> {
    ["src", "specs", "proofs"].iter().flat_map(|part| files_below(&root.join("crates").join(crate_name).join(part))).collect()
}

fn files_below(folder: &Path) -> Vec<PathBuf> {
    let paths = names_in(folder).into_iter().map(|name| folder.join(name));
    paths.flat_map(|path| if path.is_dir() { files_below(&path) } else { vec![path] }).collect()
}

/// The lines of a crate, which tell about how dear it is to check.
pub fn lines(root: &Path, crate_name: &str) -> u64 {
    files(root, crate_name).iter().map(|file| fs::read_to_string(file).map_or(0, |text| text.lines().count() as u64)).sum()
}

/// For each crate a number that changes with its files and with those of what it is built on.
pub fn stamps(root: &Path) -> BTreeMap<String, String> {
    let own = |name: &String| -> u64 {
        let mut hasher = DefaultHasher::new();
        files(root, name).iter().for_each(|file| (file.strip_prefix(root).ok(), fs::read(file).ok()).hash(&mut hasher));
        hasher.finish()
    };
    let sums: BTreeMap<String, u64> = listed_crates(root).iter().map(|name| (name.clone(), own(name))).collect();
    let stamp = |name: &String| {
        let mut hasher = DefaultHasher::new();
        built_on(root, name).iter().for_each(|below| sums.get(below).hash(&mut hasher));
        format!("{:016x}", hasher.finish())
    };
    sums.keys().map(|name| (name.clone(), stamp(name))).collect()
}

/// Where functions begin and end: from a line with `fn`, or from the attributes right above it, to the brace that closes it, at the same indentation.
fn function_parts(text: &str) -> Vec<(usize, usize)> {
    let mut parts = Vec::new();
    let mut open: Option<(usize, usize)> = None;
    let mut attributes: Option<usize> = None;
    let mut at = 0;
    for line in text.split_inclusive('\n') {
        let indent = line.len() - line.trim_start().len();
        let is_attribute = line.trim_start().starts_with("#[");
        match open {
            None if begins_function(line.trim()) => open = Some((attributes.unwrap_or(at), indent)),
            Some((from, depth)) if indent == depth && line.trim() == "}" => {
                parts.push((from, at + indent + 1));
                open = None;
            }
            _ => {}
        }
        attributes = is_attribute.then_some(attributes.unwrap_or(at));
        at += line.len();
    }
    parts
}

/// A file's text without its functions and what it imports for them: functions, which have small letters, and definitions. Types and constants stay.
pub fn without_functions(text: &str) -> String {
    let mut rest = String::new();
    let mut at = 0;
    for (from, to) in function_parts(text) {
        rest += &text[at..from];
        at = to;
    }
    rest += &text[at..];
    let mut types = String::new();
    let mut left = &rest[..];
    while let Some(line) = left.split_inclusive('\n').next() {
        let is_import = ["use ", "pub use ", "ghost use "].iter().any(|start| line.starts_with(start));
        let end = if is_import { left.find(";\n").map_or(left.len(), |i| i + 2) } else { line.len() };
        types += &if is_import { import_of_types(&left[..end]) } else { line.into() };
        left = &left[end..];
    }
    types
}

/// Of an import the names that have capital letters; nothing where it has none, or is one of definitions.
fn import_of_types(import: &str) -> String {
    let (path, names) = import.trim_end().trim_end_matches(['}', ';']).rsplit_once(['{', ':']).unwrap_or(("", ""));
    let names: Vec<&str> = names.split(',').map(str::trim).filter(|name| name.starts_with(|c: char| c.is_uppercase())).collect();
    if names.is_empty() || import.starts_with("ghost ") {
        return String::new();
    }
    format!("{}::{{{}}};\n", path.trim_end_matches(':'), names.join(", "))
}

fn begins_function(line: &str) -> bool {
    ["fn ", "pub fn ", "pub(crate) fn ", "pub extern \"C\" fn "].iter().any(|start| line.starts_with(start))
}

/// The function between two places, if it has an `ensures`: one that promises nothing has nothing to refuse.
fn function(file: &File, number: usize, from: usize, to: usize) -> Option<Function> {
    let body_from = body_start(file.text, from)?;
    if !file.text[from..body_from].lines().any(|line| line.trim().starts_with("ensures")) {
        return None;
    }
    let head = tokens(file.text, from, body_from);
    let name = 1 + head.iter().position(|t| t.is("fn"))?;
    let open = name + head[name..].iter().position(|t| t.is("("))?;
    let close = closing(&head, open);
    Some(Function {
        file: number,
        module: file.module(),
        name: head[name].text.into(),
        params: split(&head[open + 1..close]).iter().map(|part| declared(part)).collect(),
        returns: returned(&head[close + 1..]),
        body: tokens(file.text, body_from, to - 1),
    })
}

/// Behind the first line at the indentation of `fn` that ends with an opening brace; contracts stand deeper.
fn body_start(text: &str, from: usize) -> Option<usize> {
    let indent = |line: &str| line.len() - line.trim_start().len();
    let depth = indent(text[from..].lines().next()?);
    let mut at = from;
    for line in text[from..].split_inclusive('\n') {
        at += line.len();
        if indent(line) == depth && line.trim_end().ends_with('{') {
            return Some(at);
        }
    }
    None
}

/// `use a::b::c;` and `use a::b::{c, d};` of functions and types; `crate` is the crate itself.
fn imports(all: &[Token], own: &str) -> Vec<[String; 3]> {
    let mut found = Vec::new();
    for (i, _) in all.iter().enumerate().filter(|&(i, t)| t.is("use") && (i == 0 || !all[i - 1].is("ghost"))) {
        let end = i + all[i..].iter().take_while(|t| !t.is(";")).count();
        let open = (i..end).find(|&j| all[j].is("{")).unwrap_or(end - 1);
        let path: Vec<&str> = all[i + 1..open].iter().filter(|t| !t.is("::")).map(|t| t.text).collect();
        let Some((first, middle)) = path.split_first() else { continue };
        let first = if *first == "crate" { own } else { first };
        let names = all[open..end].iter().filter(|t| t.kind == Kind::Word);
        found.extend(names.map(|name| [first.to_string(), middle.join("::"), name.text.to_string()]));
    }
    found
}

/// A field, parameter or variant: its name, and its type or what it carries, without blanks. The number that a variant stands for is no part of that.
fn declared(part: &[Token]) -> (String, String) {
    let skip = part.iter().take_while(|t| t.is_one_of(&["pub", "mut"])).count();
    let part = &part[skip..];
    let behind = if part.get(1).is_some_and(|t| t.is(":")) { 2 } else { 1 };
    let carried = part[behind.min(part.len())..].iter().take_while(|t| !t.is("="));
    (part[0].text.into(), carried.map(|t| t.text).collect())
}

fn returned(behind: &[Token]) -> String {
    if !behind.first().is_some_and(|t| t.is("->")) {
        return String::new();
    }
    behind[1..].iter().take_while(|t| !t.is_one_of(&["requires", "ensures", "{"])).map(|t| t.text).collect()
}

/// The place of the bracket that closes the one at i.
pub fn closing(all: &[Token], i: usize) -> usize {
    let mut depth = 0;
    for (j, t) in all.iter().enumerate().skip(i) {
        depth += (t.kind == Kind::Sign && t.is_one_of(&["(", "[", "{"])) as i32;
        depth -= (t.kind == Kind::Sign && t.is_one_of(&[")", "]", "}"])) as i32;
        if depth == 0 {
            return j;
        }
    }
    all.len() - 1
}

/// The parts between commas that stand in no inner bracket; a comma behind the last part counts for nothing.
pub fn split<'t, 'a>(all: &'t [Token<'a>]) -> Vec<&'t [Token<'a>]> {
    let mut parts = Vec::new();
    let (mut from, mut i) = (0, 0);
    while i < all.len() {
        if all[i].is_one_of(&["(", "[", "{"]) {
            i = closing(all, i);
        } else if all[i].is(",") {
            parts.push(&all[from..i]);
            from = i + 1;
        }
        i += 1;
    }
    if from < all.len() {
        parts.push(&all[from..]);
    }
    parts
}
