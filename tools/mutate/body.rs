//! What is known of a function's body where an edit is looked for: its brackets and calls, and the types of its locals as far as they are plain.

use crate::source::{closing, split, Function, Sources};
use crate::tokens::{Kind, Token};

pub struct Body<'a> {
    pub sources: &'a Sources,
    pub function: &'a Function,
    pub tokens: &'a [Token<'static>],
    /// Names with their types, and the token from which on they are known.
    pub locals: Vec<(String, String, usize)>,
    /// For each token the bracket around it.
    around: Vec<Option<usize>>,
}

/// A call or a literal of a struct: where its name stands, and its parts as ranges of tokens.
pub struct Group {
    pub name: usize,
    pub close: usize,
    pub parts: Vec<(usize, usize)>,
}

/// An arm of a match: its pattern and its result as ranges of tokens.
pub struct Arm {
    pub pattern: (usize, usize),
    pub result: (usize, usize),
}

const KEYWORDS: [&str; 10] = ["if", "else", "while", "loop", "match", "return", "let", "mut", "in", "as"];

impl<'a> Body<'a> {
    pub fn new(sources: &'a Sources, function: &'a Function) -> Body<'a> {
        let tokens = &function.body[..];
        let mut body = Body { sources, function, tokens, locals: vec![], around: brackets_around(tokens) };
        body.locals = function.params.iter().map(|(name, t)| (name.clone(), t.clone(), 0)).collect();
        for i in 0..tokens.len() {
            if tokens[i].is("let") {
                body.locals.extend(body.declared_local(i));
            }
        }
        body
    }

    pub fn is(&self, i: usize, text: &str) -> bool {
        self.tokens.get(i).is_some_and(|t| t.is(text))
    }

    pub fn is_one_of(&self, i: usize, texts: &[&str]) -> bool {
        self.tokens.get(i).is_some_and(|t| t.is_one_of(texts))
    }

    pub fn is_kind(&self, i: usize, kind: Kind) -> bool {
        self.tokens.get(i).is_some_and(|t| t.kind == kind)
    }

    /// A name, not a word of the language.
    pub fn is_name(&self, i: usize) -> bool {
        self.is_kind(i, Kind::Word) && !self.is_one_of(i, &KEYWORDS)
    }

    /// The file's text of the tokens from a up to b.
    pub fn text(&self, (a, b): (usize, usize)) -> &'static str {
        &self.sources.files[self.function.file].text[self.tokens[a].start..self.tokens[b - 1].end()]
    }

    pub fn closing(&self, i: usize) -> usize {
        closing(self.tokens, i)
    }

    /// A sign between two operands: `a & b`, not `&b`.
    pub fn is_binary(&self, i: usize) -> bool {
        let ends_operand = |t: &Token| t.kind != Kind::Sign || t.is_one_of(&[")", "]"]);
        i > 0 && self.is_kind(i, Kind::Sign) && ends_operand(&self.tokens[i - 1]) && !self.is_one_of(i - 1, &KEYWORDS)
    }

    /// Behind the operand that begins at i: signs before it, a name, a literal or a bracket, then calls, places and fields.
    pub fn operand_end(&self, mut i: usize) -> usize {
        while self.is_one_of(i, &["!", "&", "-", "*", "mut"]) {
            i += 1;
        }
        i = if self.is_one_of(i, &["(", "["]) { self.closing(i) + 1 } else { i + 1 };
        loop {
            if self.is_one_of(i, &["(", "["]) {
                i = self.closing(i) + 1;
            } else if self.is_one_of(i, &[".", "::"]) {
                i += 2;
            } else {
                return i;
            }
        }
    }

    /// The first opening brace from i on that stands in no bracket: the block of an `if`, a `while` or a `match`.
    pub fn block_from(&self, mut i: usize) -> usize {
        while i < self.tokens.len() && !self.is(i, "{") {
            i = if self.is_one_of(i, &["(", "["]) { self.closing(i) + 1 } else { i + 1 };
        }
        i
    }

    pub fn begins_statement(&self, i: usize) -> bool {
        i == 0 || (self.is_one_of(i - 1, &["{", "}", ";"]) && !self.is(i, "else"))
    }

    /// The semicolon or brace that ends the statement at i.
    pub fn statement_end(&self, mut i: usize) -> usize {
        while i < self.tokens.len() && !self.is_one_of(i, &[";", "}"]) {
            i = if self.is_one_of(i, &["(", "[", "{"]) { self.closing(i) + 1 } else { i + 1 };
        }
        i
    }

    /// Where the expression begins that the body ends with, if it does.
    pub fn last_expression(&self) -> Option<usize> {
        let mut i = 0;
        let mut last = None;
        while i < self.tokens.len() {
            if self.begins_statement(i) {
                last = Some(i);
            }
            i = if self.is_one_of(i, &["(", "[", "{"]) { self.closing(i) + 1 } else { i + 1 };
        }
        last.filter(|_| !self.is(self.tokens.len() - 1, ";"))
    }

    /// Calls by name, constructors too; patterns are no calls.
    pub fn calls(&self) -> Vec<Group> {
        let groups = (1..self.tokens.len()).filter(|&i| self.is(i, "(") && self.is_name(i - 1)).map(|i| self.group(i));
        groups.filter(|g| !self.is_pattern(g.close)).collect()
    }

    /// Literals of structs.
    pub fn struct_literals(&self) -> Vec<Group> {
        let literal = |i: &usize| self.is(*i, "{") && self.is_name(*i - 1) && is_type_name(self.tokens[*i - 1].text);
        let named = |&(a, b): &(usize, usize)| self.is_name(a) && (b == a + 1 || self.is(a + 1, ":"));
        (1..self.tokens.len()).filter(literal).map(|i| self.group(i)).filter(|g| g.parts.iter().all(named)).collect()
    }

    fn group(&self, open: usize) -> Group {
        let close = self.closing(open);
        let inner = &self.tokens[open + 1..close];
        let mut from = open + 1;
        let mut parts = Vec::new();
        for part in split(inner) {
            parts.push((from, from + part.len()));
            from += part.len() + 1;
        }
        Group { name: open - 1, close, parts }
    }

    /// The arms of the match at i.
    pub fn arms(&self, i: usize) -> Vec<Arm> {
        let open = self.block_from(i);
        let close = self.closing(open);
        let mut arms = Vec::new();
        let mut at = open + 1;
        while at < close {
            let Some(arrow) = (at..close).find(|&j| self.is(j, "=>")) else { break };
            let end = self.result_end(arrow + 1, close);
            arms.push(Arm { pattern: (at, arrow), result: (arrow + 1, end) });
            at = if self.is(end, ",") { end + 1 } else { end };
        }
        arms
    }

    fn result_end(&self, from: usize, close: usize) -> usize {
        if self.is(from, "{") {
            return self.closing(from) + 1;
        }
        let mut i = from;
        while i < close && !self.is(i, ",") {
            i = if self.is_one_of(i, &["(", "[", "{"]) { self.closing(i) + 1 } else { i + 1 };
        }
        i
    }

    /// What ends at i is a pattern: an arrow, an alternative or an equals sign follows.
    pub fn is_pattern(&self, i: usize) -> bool {
        self.is_one_of(i + 1, &["=>", "|", "="])
    }

    /// The token stands in a literal of a struct as `name,`: field and value in one.
    pub fn is_shorthand(&self, i: usize) -> bool {
        let in_literal = self.around[i].is_some_and(|o| o > 0 && self.is(o, "{") && is_type_name(self.tokens[o - 1].text));
        in_literal && self.is_one_of(i - 1, &["{", ","]) && self.is_one_of(i + 1, &["}", ","])
    }

    /// Names, literals and dots alone.
    pub fn is_plain(&self, (a, b): (usize, usize)) -> bool {
        (a..b).all(|i| !self.is_kind(i, Kind::Sign) || self.is_one_of(i, &[".", "::"]))
    }

    /// The type of a plain operand, where it is known.
    pub fn type_of(&self, (a, b): (usize, usize)) -> Option<String> {
        let first = self.tokens[a];
        match (first.kind, b - a) {
            (Kind::Byte, 1) => Some("u8".into()),
            (Kind::Number, 1) => Some("number".into()),
            (Kind::Word, 1) if first.is_one_of(&["true", "false"]) => Some("bool".into()),
            (Kind::Word, 1) => self.local_type(first.text, a),
            (Kind::Word, 3) if self.is(a + 1, ".") => self.field_type(&self.local_type(first.text, a)?, self.tokens[a + 2].text),
            _ => None,
        }
    }

    pub fn local_type(&self, name: &str, at: usize) -> Option<String> {
        self.locals.iter().rev().find(|(n, _, from)| n == name && *from <= at).map(|(_, t, _)| t.clone())
    }

    fn field_type(&self, of: &str, field: &str) -> Option<String> {
        let fields = self.sources.structs.get(of)?;
        fields.iter().find(|(name, _)| name == field).map(|(_, t)| t.clone())
    }

    /// `let name: T = ..;` and `let name = ..;` where the value's first tokens tell its type.
    fn declared_local(&self, at: usize) -> Option<(String, String, usize)> {
        let name = if self.is(at + 1, "mut") { at + 2 } else { at + 1 };
        let end = (name..self.tokens.len()).find(|&i| self.is(i, ";"))?;
        let known = if self.is(name + 1, ":") {
            let equals = (name..end).find(|&i| self.is(i, "="))?;
            self.tokens[name + 2..equals].iter().map(|t| t.text).collect()
        } else if self.is(name + 1, "=") {
            self.value_type(name + 2, end)?
        } else {
            return None;
        };
        Some((self.tokens[name].text.into(), known, end))
    }

    fn value_type(&self, from: usize, end: usize) -> Option<String> {
        let whole = self.operand_end(from) == end;
        if self.is(from, "&") {
            Some("&[u8]".into())
        } else if self.is(end - 1, ")") && whole && self.is(end - 3, "len") {
            Some("usize".into())
        } else if self.is(from + 1, "(") && whole {
            self.sources.function_named(self.function.file, self.tokens[from].text).map(|f| f.returns.clone())
        } else if self.is(from + 1, "[") && whole {
            Some("u8".into())
        } else if self.is_kind(from, Kind::Number) {
            Some("usize".into())
        } else if whole {
            self.type_of((from, end))
        } else {
            None
        }
    }
}

fn brackets_around(tokens: &[Token]) -> Vec<Option<usize>> {
    let mut open = Vec::new();
    let mut around = Vec::new();
    for (i, t) in tokens.iter().enumerate() {
        if t.is_one_of(&[")", "]", "}"]) {
            open.pop();
        }
        around.push(open.last().copied());
        if t.is_one_of(&["(", "[", "{"]) {
            open.push(i);
        }
    }
    around
}

/// `LabelPosition`, not `LONGEST` nor `position`.
fn is_type_name(name: &str) -> bool {
    name.starts_with(|c: char| c.is_uppercase()) && !is_constant(name)
}

/// `LONGEST`. A variant of one letter, as `H`, is none.
pub fn is_constant(name: &str) -> bool {
    name.len() > 1 && name.starts_with(|c: char| c.is_uppercase()) && !name.contains(|c: char| c.is_lowercase())
}
