//! The kinds of edit, and for each the places of a body where it can be made.

use crate::body::{is_constant, Arm, Body, Group};
use crate::source::Function;
use crate::tokens::Kind;
use std::collections::HashSet;
use std::ops::Range;

/// A part of the file, and what stands there instead.
pub struct Edit {
    pub kind: &'static str,
    pub range: Range<usize>,
    pub new: String,
}

/// Parts of the file, each with what stands there instead.
type Found = Vec<(Range<usize>, String)>;
type Finder = fn(&Body) -> Found;

pub const KINDS: [(&str, Finder); 20] = [
    ("comparison", comparisons),
    ("arithmetic", arithmetic),
    ("off by one", off_by_one),
    ("literal", literals),
    ("constant", constants),
    ("and/or", logic),
    ("condition set", conditions_set),
    ("condition dropped", conditions_dropped),
    ("not dropped", negations),
    ("truth", truths),
    ("arguments swapped", arguments_swapped),
    ("values swapped", values_swapped),
    ("slice", slices),
    ("arms", arms_exchanged),
    ("other local", other_locals),
    ("other field", other_fields),
    ("other variant", other_variants),
    ("other function", other_functions),
    ("call dropped", calls_dropped),
    ("statement dropped", statements_dropped),
];

impl Edit {
    /// The file's text with the edit made.
    pub fn made(&self, text: &str) -> String {
        [&text[..self.range.start], &self.new, &text[self.range.end..]].concat()
    }
}

/// Every edit of a body, once: two that give the same text are one, and one that gives the old text is none.
pub fn edits(body: &Body) -> Vec<Edit> {
    let text = body.sources.files[body.function.file].text;
    let mut texts = HashSet::from([text.to_string()]);
    let mut found = Vec::new();
    for (kind, finder) in KINDS {
        let of_kind = finder(body).into_iter().map(|(range, new)| Edit { kind, range, new });
        found.extend(of_kind.filter(|edit| texts.insert(edit.made(text))));
    }
    found
}

/// The place of the tokens from a up to b.
fn place(body: &Body, (a, b): (usize, usize)) -> Range<usize> {
    body.tokens[a].start..body.tokens[b - 1].end()
}

/// Signs between operands, each replaced by the one beside it.
fn signs(body: &Body, pairs: &[(&str, &str)]) -> Found {
    let mut found = Vec::new();
    for i in (0..body.tokens.len()).filter(|&i| body.is_binary(i)) {
        for (_, new) in pairs.iter().filter(|(old, _)| body.is(i, old)) {
            found.push((place(body, (i, i + 1)), new.to_string()));
        }
    }
    found
}

fn comparisons(body: &Body) -> Found {
    signs(body, &[("<", "<="), ("<=", "<"), (">", ">="), (">=", ">"), ("==", "!="), ("!=", "==")])
}

fn arithmetic(body: &Body) -> Found {
    signs(body, &[("+", "-"), ("-", "+"), ("*", "+"), ("/", "*"), ("%", "/"), ("+=", "-="), ("-=", "+=")])
}

fn logic(body: &Body) -> Found {
    signs(body, &[("&", "|"), ("|", "&"), ("&&", "||"), ("||", "&&")])
        .into_iter()
        .filter(|(range, _)| !in_pattern(body, range.start))
        .collect()
}

/// An alternative of a pattern, as in `2 | 3 => m`.
fn in_pattern(body: &Body, at: usize) -> bool {
    let matches = (0..body.tokens.len()).filter(|&i| body.is(i, "match"));
    let mut arms = matches.flat_map(|i| body.arms(i));
    arms.any(|arm| place(body, arm.pattern).contains(&at))
}

/// `+ 1` and `- 1` dropped or doubled; an answer or a field with one added.
fn off_by_one(body: &Body) -> Found {
    let mut found = field_values_raised(body);
    for answer in answers(body) {
        found.push((place(body, answer), format!("{} + 1", body.text(answer))));
    }
    for i in (0..body.tokens.len()).filter(|&i| body.is_binary(i) && body.is(i + 1, "1")) {
        if body.is_one_of(i, &["+", "-"]) {
            found.push((body.tokens[i - 1].end()..body.tokens[i + 1].end(), String::new()));
        }
        if body.is_one_of(i, &["+", "-", "+=", "-="]) {
            found.push((place(body, (i + 1, i + 2)), "2".into()));
        }
    }
    found
}

/// What a function that gives a number gives, literals apart: behind `return`, in the arms of a match at its end, or at its end itself.
fn answers(body: &Body) -> Vec<(usize, usize)> {
    if !is_integer(&body.function.returns) {
        return vec![];
    }
    let end = body.tokens.len();
    let mut found = Vec::new();
    for i in (0..end).filter(|&i| body.is(i, "return")) {
        found.extend((i..end).find(|&j| body.is(j, ";")).map(|j| (i + 1, j)));
    }
    match body.last_expression() {
        Some(from) if body.is(from, "match") => found.extend(body.arms(from).iter().map(|arm| arm.result)),
        Some(from) if !body.is_one_of(from, &["if", "loop", "while"]) => found.push((from, end)),
        _ => {}
    }
    found.retain(|&answer| !body.is(answer.0, "{") && !is_literal(body, answer));
    found
}

fn is_literal(body: &Body, (a, b): (usize, usize)) -> bool {
    b == a + 1 && [Kind::Number, Kind::Byte].contains(&body.tokens[a].kind)
}

/// The values of a literal's fields that are declared as integers, where they are plain.
fn field_values_raised(body: &Body) -> Found {
    let mut found = Vec::new();
    for literal in body.struct_literals() {
        for &part in &literal.parts {
            let own = value(body, part);
            if body.is_plain(own) && !is_literal(body, own) && field_type(body, &literal, part).is_some_and(|t| is_integer(t)) {
                found.push((place(body, part), format!("{}: {} + 1", body.tokens[part.0].text, body.text(own))));
            }
        }
    }
    found
}

fn is_integer(name: &str) -> bool {
    ["u8", "u32", "u64", "usize", "i32", "i64"].contains(&name)
}

/// Numbers and bytes changed by one; of a text one byte.
fn literals(body: &Body) -> Found {
    let mut found = Vec::new();
    for (i, t) in body.tokens.iter().enumerate() {
        let new = match t.kind {
            Kind::Number => next_number(t.text),
            Kind::Byte => next_byte(t.text),
            Kind::Text => next_text(t.text),
            _ => None,
        };
        found.extend(new.map(|new| (place(body, (i, i + 1)), new)));
    }
    found
}

/// The next number as it was written: decimal, hexadecimal or with a point. The one before where the next takes more bits.
fn next_number(text: &str) -> Option<String> {
    if let Some((whole, rest)) = text.split_once('.') {
        return Some(format!("{}.{rest}", whole.parse::<u64>().ok()? + 1));
    }
    let hexadecimal = text.strip_prefix("0x");
    let digits = hexadecimal.unwrap_or(text).replace('_', "");
    let value = u64::from_str_radix(&digits, if hexadecimal.is_some() { 16 } else { 10 }).ok()?;
    let full = [8, 16, 32, 64].iter().any(|bits| value == u64::MAX >> (64 - bits));
    let value = if full { value - 1 } else { value + 1 };
    Some(if hexadecimal.is_some() { format!("0x{value:0width$x}", width = digits.len()) } else { value.to_string() })
}

/// b'A' becomes b'B'.
fn next_byte(text: &str) -> Option<String> {
    let [b'b', b'\'', b, b'\''] = text.as_bytes() else { return None };
    let next = if (b' '..b'~').contains(b) && !b"'\\".contains(&(b + 1)) { b + 1 } else { b - 1 };
    Some(format!("b'{}'", next as char))
}

/// The last letter or digit, which may be that of `\x1d`.
fn next_text(text: &str) -> Option<String> {
    let at = text.rfind(|c: char| c.is_ascii_digit() || ('a'..'f').contains(&c))?;
    let mut new = text.as_bytes().to_vec();
    new[at] = if new[at] == b'9' { b'8' } else { new[at] + 1 };
    String::from_utf8(new).ok()
}

/// A constant by name, with one added.
fn constants(body: &Body) -> Found {
    let mut found = Vec::new();
    for i in (0..body.tokens.len()).filter(|&i| body.is_name(i) && is_constant(body.tokens[i].text)) {
        let from = if i > 1 && body.is(i - 1, "::") { i - 2 } else { i };
        found.push((place(body, (from, i + 1)), format!("({} + 1)", body.text((from, i + 1)))));
    }
    found
}

/// `if c` becomes `if true` and `if false`, `while c` becomes `while false`.
fn conditions_set(body: &Body) -> Found {
    let mut found = Vec::new();
    for (word, new) in [("if", "true"), ("if", "false"), ("while", "false")] {
        let places = (0..body.tokens.len()).filter(|&i| body.is(i, word));
        found.extend(places.map(|i| (place(body, (i + 1, body.block_from(i))), new.to_string())));
    }
    found
}

/// One side of `&&`, `||`, `&` or `|` dropped.
fn conditions_dropped(body: &Body) -> Found {
    let mut found = Vec::new();
    for i in (0..body.tokens.len()).filter(|&i| body.is_binary(i) && body.is_one_of(i, &["&", "|"])) {
        if !in_pattern(body, body.tokens[i].start) {
            found.push((body.tokens[i - 1].end()..body.tokens[body.operand_end(i + 1) - 1].end(), String::new()));
        }
    }
    for i in (0..body.tokens.len()).filter(|&i| body.is_one_of(i, &["if", "while"])) {
        let end = body.block_from(i);
        for j in (i + 1..end).filter(|&j| body.is_one_of(j, &["&&", "||"])) {
            found.push((place(body, (i + 1, end)), body.text((i + 1, j)).into()));
            found.push((place(body, (i + 1, end)), body.text((j + 1, end)).into()));
        }
    }
    found
}

fn negations(body: &Body) -> Found {
    let places = (0..body.tokens.len()).filter(|&i| body.is(i, "!"));
    places.map(|i| (place(body, (i, i + 1)), String::new())).collect()
}

fn truths(body: &Body) -> Found {
    let mut found = Vec::new();
    for (old, new) in [("true", "false"), ("false", "true")] {
        let places = (0..body.tokens.len()).filter(|&i| body.is(i, old));
        found.extend(places.map(|i| (place(body, (i, i + 1)), new.to_string())));
    }
    found
}

/// Functions that give the same when their arguments are swapped.
const EITHER_WAY: [&str; 7] = ["min", "max", "plus", "times", "checked_add", "checked_mul", "equal"];

/// Two neighbours of a call, where both are plain and their types may be the same.
fn arguments_swapped(body: &Body) -> Found {
    let mut found = Vec::new();
    for call in body.calls().iter().filter(|call| !body.is_one_of(call.name, &EITHER_WAY)) {
        for i in 1..call.parts.len() {
            let [a, b] = [call.parts[i - 1], call.parts[i]];
            if differ(body, a, b) && same_param_types(body, call, i) {
                let range = body.tokens[a.0].start..body.tokens[b.1 - 1].end();
                found.push((range, format!("{}, {}", body.text(b), body.text(a))));
            }
        }
    }
    found
}

/// Both are plain, and they differ in words but not in type.
fn differ(body: &Body, a: (usize, usize), b: (usize, usize)) -> bool {
    body.is_plain(a) && body.is_plain(b) && body.text(a) != body.text(b) && may_be_same(body, a, b)
}

/// The called function takes one type as arguments i - 1 and i, as far as it is known.
fn same_param_types(body: &Body, call: &Group, i: usize) -> bool {
    let called = body.sources.function_named(body.function.file, body.tokens[call.name].text);
    called.is_none_or(|f| f.params.get(i - 1).map(|p| &p.1) == f.params.get(i).map(|p| &p.1))
}

/// Their types are the same, as far as they are known; a number can be of several.
fn may_be_same(body: &Body, a: (usize, usize), b: (usize, usize)) -> bool {
    match (body.type_of(a), body.type_of(b)) {
        (Some(s), Some(t)) if s == "number" => t == "number" || is_integer(&t),
        (Some(s), Some(t)) if t == "number" => is_integer(&s),
        (Some(s), Some(t)) => s == t,
        _ => true,
    }
}

/// The values of two neighbouring fields of a literal.
fn values_swapped(body: &Body) -> Found {
    let mut found = Vec::new();
    for literal in body.struct_literals() {
        let values: Vec<_> = literal.parts.iter().map(|&part| value(body, part)).collect();
        for i in 1..values.len() {
            if differ(body, values[i - 1], values[i]) && same_field_types(body, &literal, i) {
                let [a, b] = [literal.parts[i - 1], literal.parts[i]];
                let [first, second] = [body.tokens[a.0].text, body.tokens[b.0].text];
                let new = format!("{first}: {}, {second}: {}", body.text(values[i]), body.text(values[i - 1]));
                found.push((body.tokens[a.0].start..body.tokens[b.1 - 1].end(), new));
            }
        }
    }
    found
}

/// `x: v` has the value v, and `x` has x.
fn value(body: &Body, part: (usize, usize)) -> (usize, usize) {
    if body.is(part.0 + 1, ":") {
        (part.0 + 2, part.1)
    } else {
        part
    }
}

/// The fields i - 1 and i of a literal are declared with one type.
fn same_field_types(body: &Body, literal: &Group, i: usize) -> bool {
    let declared = field_type(body, literal, literal.parts[i]);
    declared.is_some() && field_type(body, literal, literal.parts[i - 1]) == declared
}

/// The type with which a field of a literal is declared.
fn field_type<'a>(body: &Body<'a>, literal: &Group, part: (usize, usize)) -> Option<&'a String> {
    let fields = body.sources.structs.get(body.tokens[literal.name].text)?;
    fields.iter().find(|(name, _)| *name == body.tokens[part.0].text).map(|(_, t)| t)
}

/// `s[i..]` becomes `s[..i]`, and the other way; `s[a..b]` becomes `s[a..]`.
fn slices(body: &Body) -> Found {
    let mut found = Vec::new();
    for i in (0..body.tokens.len()).filter(|&i| body.is(i, "..")) {
        let Some(open) = (0..i).rev().find(|&j| body.is(j, "[") && body.closing(j) > i) else { continue };
        let close = body.closing(open);
        let inner = place(body, (open + 1, close));
        if i + 1 == close {
            found.push((inner, format!("..{}", body.text((open + 1, i)))));
        } else if i == open + 1 {
            found.push((inner, format!("{}..", body.text((i + 1, close)))));
        } else {
            found.push((inner, format!("{}..", body.text((open + 1, i)))));
        }
    }
    found
}

/// The longest result that is exchanged, in bytes.
const LONGEST_RESULT: usize = 120;

/// The results of two neighbouring arms; where one uses a name that only its pattern binds, it gives way to the other's.
fn arms_exchanged(body: &Body) -> Found {
    let mut found = Vec::new();
    for i in (0..body.tokens.len()).filter(|&i| body.is(i, "match")) {
        for pair in body.arms(i).windows(2) {
            let [a, b] = [pair[0].result, pair[1].result];
            let [first, second] = [body.text(a), body.text(b)];
            if first == second || first.len().max(second.len()) > LONGEST_RESULT {
                continue;
            }
            let same = binds_alike(body, pair[0].pattern, pair[1].pattern);
            match [uses_bound(body, &pair[0]), uses_bound(body, &pair[1])].map(|uses| uses && !same) {
                [false, false] => {
                    let range = body.tokens[a.0].start..body.tokens[b.1 - 1].end();
                    found.push((range, format!("{second}{}{first}", between(body, a, b))));
                }
                [true, false] => found.push((place(body, a), second.into())),
                [false, true] => found.push((place(body, b), first.into())),
                [true, true] => {}
            }
        }
    }
    found
}

/// The file's text behind the tokens of a and before those of b.
fn between(body: &Body, a: (usize, usize), b: (usize, usize)) -> &'static str {
    &body.sources.files[body.function.file].text[body.tokens[a.1 - 1].end()..body.tokens[b.0].start]
}

/// The names that a pattern binds.
fn bound(body: &Body, (a, b): (usize, usize)) -> Vec<&'static str> {
    let binds = |i: &usize| body.is_name(*i) && body.tokens[*i].text.starts_with(|c: char| c.is_lowercase());
    (a..b).filter(binds).map(|i| body.tokens[i].text).collect()
}

/// Two patterns bind the same names, to the same types.
fn binds_alike(body: &Body, a: (usize, usize), b: (usize, usize)) -> bool {
    bound(body, a) == bound(body, b) && carried(body, a) == carried(body, b)
}

/// What the variant of a pattern carries.
fn carried<'a>(body: &Body<'a>, (a, _): (usize, usize)) -> Option<&'a String> {
    let variants = body.sources.enums.get(body.tokens[a].text)?;
    variants.iter().find(|(name, _)| body.is(a + 2, name)).map(|(_, carried)| carried)
}

fn uses_bound(body: &Body, arm: &Arm) -> bool {
    bound(body, arm.pattern).iter().any(|name| (arm.result.0..arm.result.1).any(|i| body.is(i, name)))
}

/// A local replaced by another of its type.
fn other_locals(body: &Body) -> Found {
    let mut found = Vec::new();
    for i in (0..body.tokens.len()).filter(|&i| is_use(body, i)) {
        let name = body.tokens[i].text;
        let Some(own) = body.local_type(name, i) else { continue };
        for (other, _, _) in body.locals.iter().filter(|(n, t, from)| n != name && *t == own && *from < i) {
            let new = if body.is_shorthand(i) { format!("{name}: {other}") } else { other.clone() };
            found.push((place(body, (i, i + 1)), new));
        }
    }
    found
}

/// The token is a name that is read there: no field, path, call, declaration, assignment or pattern.
fn is_use(body: &Body, i: usize) -> bool {
    let before = i > 0 && body.is_one_of(i - 1, &[".", "::", "let", "mut"]);
    body.is_name(i) && !before && !body.is_one_of(i + 1, &["::", "(", ":", "=", "+=", "-=", "=>"])
}

/// A field replaced by another of its struct and type.
fn other_fields(body: &Body) -> Found {
    let mut found = Vec::new();
    for i in (2..body.tokens.len()).filter(|&i| body.is(i - 1, ".") && body.is_kind(i, Kind::Word) && !body.is(i + 1, "(")) {
        let owner = body.local_type(body.tokens[i - 2].text, i);
        for (name, fields) in &body.sources.structs {
            if owner.as_ref().is_none_or(|owner| owner == name) {
                let others = siblings(fields, body.tokens[i].text);
                found.extend(others.map(|other| (place(body, (i, i + 1)), other.clone())));
            }
        }
    }
    found
}

/// The other names that are declared with the same type, or carry the same.
fn siblings<'a>(all: &'a [(String, String)], name: &'a str) -> impl Iterator<Item = &'a String> {
    let own = all.iter().find(|(n, _)| n == name).map(|(_, t)| t);
    all.iter().filter(move |(n, t)| n != name && Some(t) == own).map(|(n, _)| n)
}

/// A variant replaced by another of its enum that carries the same.
fn other_variants(body: &Body) -> Found {
    let mut found = Vec::new();
    for i in (2..body.tokens.len()).filter(|&i| body.is(i - 1, "::") && body.is_name(i)) {
        let end = if body.is(i + 1, "(") { body.closing(i + 1) } else { i };
        if let Some(variants) = body.sources.enums.get(body.tokens[i - 2].text).filter(|_| !body.is_pattern(end)) {
            let others = siblings(variants, body.tokens[i].text);
            found.extend(others.map(|other| (place(body, (i, i + 1)), other.clone())));
        }
    }
    found
}

/// A called function replaced by another that takes and gives the same types.
fn other_functions(body: &Body) -> Found {
    let mut found = Vec::new();
    for (call, called) in known_calls(body) {
        for other in body.sources.visible(body.function.file) {
            if other.name != called.name && other.name != body.function.name && other.takes_and_gives_as(called) {
                found.push((place(body, (call.name, call.name + 1)), other.name.clone()));
            }
        }
    }
    found
}

/// A call replaced by its first argument, where that has the type of the answer; and an arm that gives back what it matched.
fn calls_dropped(body: &Body) -> Found {
    let mut found = Vec::new();
    for (call, called) in known_calls(body) {
        if called.params.first().is_some_and(|(_, t)| *t == called.returns) {
            found.push((place(body, (call.name, call.close + 1)), body.text(call.parts[0]).into()));
        }
    }
    for arm in (0..body.tokens.len()).filter(|&i| body.is(i, "match")).flat_map(|i| body.arms(i)) {
        if body.is(arm.pattern.0, &body.function.returns) {
            found.push((place(body, arm.result), body.text(arm.pattern).into()));
        }
    }
    found
}

/// The calls of functions that are declared in the crates.
fn known_calls<'a>(body: &Body<'a>) -> Vec<(Group, &'a Function)> {
    let is_path = |call: &Group| call.name > 0 && body.is_one_of(call.name - 1, &["::", "."]);
    let named = |call: &Group| body.sources.function_named(body.function.file, body.tokens[call.name].text);
    body.calls().into_iter().filter(|call| !is_path(call)).filter_map(|call| named(&call).map(|f| (call, f))).collect()
}

/// An assignment, or a call whose answer is not used.
fn statements_dropped(body: &Body) -> Found {
    let mut found = Vec::new();
    for i in (0..body.tokens.len()).filter(|&i| body.is_name(i) && body.begins_statement(i)) {
        let end = body.statement_end(i);
        if body.is(end, ";") {
            found.push((place(body, (i, end + 1)), String::new()));
        }
    }
    found
}
