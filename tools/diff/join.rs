//! Two files joined (01, "Joining two files"): the input with itself, behind and before files of its own.

use crate::compare::{self, Lent};
use crate::raw::{self, Joined};
use oracle::{Answer, LIMIT};

/// A label, and behind it elements that no print line prints, with a reference that must not reach what is joined to it.
const UNPRINTED: &[u8] = b"R70,80\nLO1,2,3,4\nP2,3\n\tLO5,6,7,8 \nLE1,1,1,1";
/// Refused as 4 at place 2.
const WRONG: &[u8] = b"N\nLO1";

/// The input's answers as one of two files, held to 01: `expected` is what it lists, `text` its normalised text.
pub fn joined(lent: &mut Lent, input: &[u8], expected: &Answer, text: &[u8]) -> Result<(), String> {
    let Answer::Labels(labels) = expected else {
        let &Answer::Refused(number, place) = expected else { unreachable!("01 answers every input") };
        refused(lent, input, WRONG, Joined { number: number as u32, file: 1, place })?;
        refused(lent, UNPRINTED, input, Joined { number: number as u32, file: 2, place })?;
        return refused(lent, WRONG, input, Joined { number: 4, file: 1, place: 2 });
    };
    refused(lent, input, WRONG, Joined { number: 4, file: 2, place: 2 })?;
    // What is pending at the end is the second file's.
    let before = oracle::normalised(UNPRINTED);
    let printed = list(lent, UNPRINTED)?;
    let printed = printed.lines().filter(|line| !line.starts_with("fe")).map(|line| format!("{line}\n")).collect::<String>();
    for (first, text_of_first, labels_of_first) in [(input, text, &labels.printed), (UNPRINTED, &before, &printed)] {
        let whole = [text_of_first, b"N\n", text].concat();
        if whole.len() > LIMIT {
            refused(lent, first, input, Joined { number: 25, file: 0, place: whole.len() })?;
            continue;
        }
        written(lent, first, input, &whole)?;
        let (ours, both) = (list(lent, &whole)?, labels_of_first.clone() + &expected.lines());
        if ours != both {
            return Err(format!("the joined text is listed as\n{ours}"));
        }
    }
    Ok(())
}

/// Our listing of an accepted file.
fn list(lent: &mut Lent, input: &[u8]) -> Result<String, String> {
    let mut out = vec![0; 16 * input.len()];
    let got = raw::list(lent.place(input), &mut out);
    if got.number != 0 {
        return Err(format!("{got:?}, and not accepted"));
    }
    out.truncate(got.place);
    Ok(String::from_utf8_lossy(&out).into_owned())
}

/// The joined text: with room to spare, with exactly enough, one byte less and none.
fn written(lent: &mut Lent, first: &[u8], second: &[u8], text: &[u8]) -> Result<(), String> {
    let n = text.len();
    for room in [n + 40, n] {
        answers(lent, first, second, room, Joined { number: 0, file: 0, place: n }, text)?;
    }
    for room in [n - 1, 0] {
        answers(lent, first, second, room, Joined { number: 15, file: 0, place: n }, b"")?;
    }
    Ok(())
}

/// A refusal, with room to spare and with none.
fn refused(lent: &mut Lent, first: &[u8], second: &[u8], expected: Joined) -> Result<(), String> {
    for room in [3 * (first.len() + second.len()).min(65_536) + 40, 0] {
        answers(lent, first, second, room, expected, b"")?;
    }
    Ok(())
}

fn answers(lent: &mut Lent, first: &[u8], second: &[u8], room: usize, expected: Joined, text: &[u8]) -> Result<(), String> {
    let got = lent.joining(first, second, room);
    compare::held(lent, first, room, got, expected, text)
}
