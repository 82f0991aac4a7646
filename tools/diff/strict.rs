//! The strict reading beside the plain one: what 01 claims of the two ("The well-site profile"), on one input; and, where the input has no `GW`, the profile told anew from the
//! text of its lines.

use crate::raw::{self, Checked};
use oracle::Answer;

/// The verdict, held to the claims: a file that the profile accepts is accepted by the plain reading; a refusal other than 17 and 18 is the plain reading's own, number
/// and place; 17 and 18 come no later than that one. `plain` is what the plain reading answers. What it is of an input without graphics is told anew.
pub fn checked(input: &[u8], plain: &Answer) -> Result<Checked, String> {
    let checked = raw::check(input);
    let refused = match plain {
        Answer::Refused(number, place) => Some((*number as u32, *place)),
        _ => None,
    };
    let plainly = refused.map_or(Checked::default(), |(number, place)| Checked { number, place, ..Checked::default() });
    let own = matches!(checked.number, 17 | 18);
    if own && refused.is_some_and(|(number, place)| number == 14 || place < checked.place) {
        return Err(format!("{checked:?}: a refusal of the plain reading comes before it"));
    }
    if !own && checked != plainly {
        return Err(format!("{checked:?}: neither a refusal of the profile's nor the plain answer"));
    }
    // Graphics may hold anything: their lines are not cut here.
    if plainly.number != 14 && !input.windows(2).any(|two| two == b"GW") {
        let expected = match objected(input) {
            Some(found) if refused.map_or(true, |(_, place)| found.place <= place) => found,
            _ => plainly,
        };
        if checked != expected {
            return Err(format!("{checked:?} given, {expected:?} expected"));
        }
    }
    Ok(checked)
}

/// The first line with a field that the profile objects to.
fn objected(input: &[u8]) -> Option<Checked> {
    let mut place = 0;
    for line in input.split(|&b| b == b'\n') {
        if let Some((field, held)) = objection(String::from_utf8_lossy(line).trim()) {
            return Some(Checked { number: if held == 4 { 18 } else { 17 }, field, held, place });
        }
        place += line.len() + 1;
    }
    None
}

/// The first field of a line that does not hold what it must, from 1, and what it held.
fn objection(line: &str) -> Option<(u32, u32)> {
    let letter = line.chars().next()?;
    let fields: Vec<&str> = match letter {
        'R' if line[1..].starts_with(|c: char| c.is_ascii_digit()) => line[1..].splitn(2, ',').collect(),
        'A' | 'B' | 'b' => {
            let (first, last) = (line.find('"')?, line.rfind('"')?);
            if last <= first + 1 {
                return None;
            }
            line[1..first].trim_end_matches(',').split(',').collect()
        }
        'L' if line[1..].starts_with(['O', 'W', 'E', 'S']) => line[2..].split(',').collect(),
        'X' => line[1..].split(',').collect(),
        _ => return None,
    };
    // How many fields there must be, and which of them are numbers.
    let (least, numbers): (usize, &[usize]) = match (letter, line.as_bytes().get(1)) {
        ('R', _) => (1, &[0, 1]),
        ('A', _) => (7, &[0, 1, 2, 3, 4, 5]),
        ('B', _) => (8, &[0, 1, 2, 4, 5, 6]),
        ('b', _) => (3, &[0, 1]),
        ('X', _) | ('L', Some(b'S')) => (5, &[0, 1, 2, 3, 4]),
        _ => (4, &[0, 1, 2, 3]),
    };
    if fields.len() < least {
        return None;
    }
    let allowed = |k: usize, value: i32| match (letter, k) {
        ('A' | 'B', 2) => (0..=3).contains(&value),
        ('A', 3) => (1..=5).contains(&value),
        ('A', 4) => (1..=6).contains(&value) || value == 8,
        ('A', 5) => (1..=9).contains(&value),
        _ => true,
    };
    let held = |k: usize| {
        let field = fields[k].trim();
        let digits = field.strip_prefix(['-', '+']).unwrap_or(field);
        match field.parse::<i32>() {
            _ if field.is_empty() => 1,
            _ if digits.is_empty() || !digits.bytes().all(|b| b.is_ascii_digit()) => 2,
            Err(_) => 3,
            Ok(value) if !allowed(k, value) => 4,
            Ok(_) => 0,
        }
    };
    numbers.iter().filter(|&&k| k < fields.len()).map(|&k| (k as u32 + 1, held(k))).find(|&(_, held)| held != 0)
}
