//! 01's answer to any input. `LE` is none of the Rust's commands, so it is asked about copies in which each such line has another letter:
//! "`LE` is read as `LO` is". The copies have the input's length, and all places stay.
//!
//! The colour is held to the definition: with `LO` for `LE` a box is black and with `LW` white, so where the frames of these two copies differ,
//! they differ in the colour flag of an `LE` line, which is 2.
//!
//! The Rust prints at the end of the input, and here "The end prints nothing". So its last label is taken off when nothing printed it: when it is not among the
//! labels of a copy with a line `N` behind it, which drops what is pending. The elements of that label are the ones that are pending at the end, and their
//! number is the count of frame fe.

//!
//! A print line has one count there, and two here. It is asked about a copy with the comma and the copies cut from such lines; the places of refusals behind a cut
//! are told as they are in the input. What the counts say is no part of its answer (`fields`).

use crate::panics::{self, Cause};
use crate::{fields, unit_end, Answer, Labels, LIMIT};
use std::ops::Range;

/// What 01 answers, and why the Rust panics where it does. Never `Answer::Panic`.
pub fn answer(input: &[u8]) -> (Answer, Option<Cause>) {
    if input.len() > LIMIT {
        return (Answer::Refused(14, 0), None);
    }
    let cuts = copies(input);
    if cuts.is_empty() {
        return at_the_end(input);
    }
    let mut copy = input.to_vec();
    cuts.iter().rev().for_each(|cut| drop(copy.drain(cut.clone())));
    match at_the_end(&copy) {
        (Answer::Refused(number, place), cause) => (Answer::Refused(number, uncut(place, &cuts)), cause),
        other => other,
    }
}

/// Where the comma and the copies of each print line with two counts stand.
pub fn copies(input: &[u8]) -> Vec<Range<usize>> {
    // Short of a long look at inputs that cannot have one.
    if !input.windows(2).any(|pair| pair[0] == b'P' && pair[1].is_ascii_digit()) {
        return Vec::new();
    }
    let (mut cuts, mut place) = (Vec::new(), 0);
    while place < input.len() {
        let end = unit_end(input, place);
        let text = String::from_utf8_lossy(&input[place..end]);
        if let Some((sets, copies @ [_, ..])) = text.trim().strip_prefix('P').and_then(fields::counts).map(|(s, c)| (s, c.as_bytes())) {
            // No blank has the byte `P` in it.
            let letter = input[place..end].iter().position(|&b| b == b'P').expect("the line begins with it");
            let comma = place + letter + 1 + sets.len();
            cuts.push(comma..comma + 1 + copies.len());
        }
        place = end;
    }
    cuts
}

/// Where the unit stands in the input that stands at a place of the copy without the cuts.
fn uncut(place: usize, cuts: &[Range<usize>]) -> usize {
    cuts.iter().fold(place, |place, cut| if cut.start < place { place + cut.len() } else { place })
}

/// What 01 answers where a print line has one count.
fn at_the_end(input: &[u8]) -> (Answer, Option<Cause>) {
    match with_colours(input) {
        (Answer::Labels(all), cause) if !all.printed.is_empty() => (Answer::Labels(unprinted(input, &all.printed)), cause),
        other => other,
    }
}

/// The labels that print lines printed, and what is pending behind them; `all` are the Rust's.
fn unprinted(input: &[u8], all: &str) -> Labels {
    let (Answer::Labels(dropped), _) = with_colours(&[input, b"\nN"].concat()) else {
        unreachable!("a line N behind an accepted input is refused");
    };
    let last = all.strip_prefix(&*dropped.printed).expect("a line N takes off no label that a print line printed");
    let Some((count, pending)) = last.split_once('\n') else {
        return dropped;
    };
    assert_eq!(count, format!("00{:08x}", pending.lines().count()), "the end prints one label at most");
    Labels { printed: dropped.printed, pending: pending.to_string() }
}

/// What 01 answers but for the end of the input.
fn with_colours(input: &[u8]) -> (Answer, Option<Cause>) {
    let places = exclusive_or(input);
    if places.is_empty() {
        return panics::answer(input);
    }
    let (black, cause) = panics::answer(&with_letter(input, &places, b'O'));
    let (white, _) = panics::answer(&with_letter(input, &places, b'W'));
    match (black, white) {
        (Answer::Labels(black), Answer::Labels(white)) => {
            let printed = coloured(&black.printed, &white.printed);
            (Answer::Labels(Labels { printed, ..black }), cause)
        }
        (black, white) => {
            assert_eq!(black, white, "a colour changes what is refused");
            (black, cause)
        }
    }
}

/// Where the `E` of each `LE` line stands. A line may have Unicode blanks before its letters; a graphic's payload is no line, and data stands behind other letters.
pub fn exclusive_or(input: &[u8]) -> Vec<usize> {
    // Short of a long look at inputs that cannot have one.
    if !input.windows(2).any(|pair| pair == b"LE") {
        return Vec::new();
    }
    let (mut places, mut place) = (Vec::new(), 0);
    while place < input.len() {
        let end = unit_end(input, place);
        let unit = &input[place..end];
        if String::from_utf8_lossy(unit).trim().starts_with("LE") {
            // No blank has the byte `L` in it.
            let letter = unit.iter().position(|&b| b == b'L').expect("the line begins with it");
            places.push(place + letter + 1);
        }
        place = end;
    }
    places
}

fn with_letter(input: &[u8], places: &[usize], letter: u8) -> Vec<u8> {
    let mut copy = input.to_vec();
    places.iter().for_each(|&place| copy[place] = letter);
    copy
}

/// The frames of both listings where they agree; a box that is black in one and white in the other has colour 2.
fn coloured(black: &str, white: &str) -> String {
    assert_eq!(black.len(), white.len());
    let lines = black.lines().zip(white.lines()).map(|(black, white)| {
        if black == white {
            return format!("{black}\n");
        }
        let (sizes, flag) = black.split_at(black.len() - 2);
        assert!(black.starts_with("02") && flag == "00" && white == format!("{sizes}01"), "a colour changes {black}");
        format!("{sizes}02\n")
    });
    lines.collect()
}
