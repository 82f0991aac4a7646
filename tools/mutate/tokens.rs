//! Rattle's code as tokens.

#[derive(Clone, Copy, PartialEq, Eq, Debug)]
pub enum Kind {
    Word,
    Number,
    /// `b'A'`
    Byte,
    /// `b"A"` or `"A"`
    Text,
    Sign,
}

/// A token and where its file has it.
#[derive(Clone, Copy, Debug)]
pub struct Token<'a> {
    pub kind: Kind,
    pub text: &'a str,
    pub start: usize,
}

impl Token<'_> {
    pub fn end(&self) -> usize {
        self.start + self.text.len()
    }

    pub fn is(&self, text: &str) -> bool {
        self.text == text
    }

    pub fn is_one_of(&self, texts: &[&str]) -> bool {
        texts.contains(&self.text)
    }
}

/// Signs of more than one character, longer ones first.
const SIGNS: [&str; 19] =
    ["..=", "&&", "||", "==", "!=", "<=", ">=", "->", "=>", "::", "..", "+=", "-=", "*=", "/=", "|=", "&=", "<<", ">>"];

/// The tokens of a part of a file, blanks and comments left out.
pub fn tokens(file: &str, from: usize, to: usize) -> Vec<Token<'_>> {
    let mut found = Vec::new();
    let mut at = from;
    while at < to {
        let rest = &file[at..to];
        let first = rest.chars().next().unwrap();
        if first.is_whitespace() {
            at += first.len_utf8();
        } else if rest.starts_with("//") {
            at += rest.find('\n').unwrap_or(rest.len());
        } else {
            let (kind, len) = first_token(rest, first);
            found.push(Token { kind, text: &rest[..len], start: at });
            at += len;
        }
    }
    found
}

fn first_token(rest: &str, first: char) -> (Kind, usize) {
    if rest.starts_with("b'") {
        (Kind::Byte, 2 + closed_by(&rest[2..], b'\''))
    } else if rest.starts_with("b\"") {
        (Kind::Text, 2 + closed_by(&rest[2..], b'"'))
    } else if first == '"' {
        (Kind::Text, 1 + closed_by(&rest[1..], b'"'))
    } else if first.is_ascii_digit() {
        (Kind::Number, number_len(rest.as_bytes()))
    } else if in_word(first) {
        (Kind::Word, rest.find(|c| !in_word(c)).unwrap_or(rest.len()))
    } else {
        let sign = SIGNS.iter().find(|sign| rest.starts_with(**sign));
        (Kind::Sign, sign.map_or(first.len_utf8(), |sign| sign.len()))
    }
}

fn in_word(c: char) -> bool {
    c.is_alphanumeric() || c == '_'
}

/// How far the quote goes that closes a literal; a backslash hides the byte behind it.
fn closed_by(rest: &str, quote: u8) -> usize {
    let mut hidden = false;
    for (i, b) in rest.bytes().enumerate() {
        if b == quote && !hidden {
            return i + 1;
        }
        hidden = b == b'\\' && !hidden;
    }
    rest.len()
}

/// `2.0` is one number, `0..n` begins with another.
fn number_len(rest: &[u8]) -> usize {
    let digit_at = |i: usize| rest.get(i).is_some_and(|b| b.is_ascii_digit());
    let in_number = |i: usize| rest[i].is_ascii_alphanumeric() || rest[i] == b'_' || (rest[i] == b'.' && digit_at(i + 1));
    (0..rest.len()).find(|&i| !in_number(i)).unwrap_or(rest.len())
}
