//! Two files joined, as the scope document has it ("Joining two files").

use laddertick::{join, labels, list, normalise, Part, Refused, Unjoined, Unprinted, LONGEST};

/// The refusal of two files.
fn refused(first: &[u8], second: &[u8]) -> (Option<Part>, u8, usize) {
    let unjoined = join(first, second).unwrap_err();
    (unjoined.part, unjoined.refused.number, unjoined.refused.place)
}

#[test]
fn empty_and_empty() {
    assert_eq!(join(b"", b"").unwrap(), b"N\n");
}

#[test]
fn the_labels_of_both() {
    let first = b"R100,200\nLO1,2,3,4\nP1\n LO5,6,7,8\nP2,3\nLO1,1,1,1";
    let second = b"LO9,10,11,12\nP4\n\nGW1,2,1,2,x\nLO1,1,1,1\n";
    let text = join(first, second).unwrap();
    assert_eq!(text, [&normalise(first).unwrap()[..], b"N\n", &normalise(second).unwrap()].concat());
    // The first file ends with an element that is never printed, nor counted; the second with a graphic and a line.
    let printed = |file| list(file).unwrap().lines().filter(|line| !line.starts_with("fe")).map(|line| format!("{line}\n")).collect::<String>();
    assert_eq!(list(&text).unwrap(), printed(first) + &list(second).unwrap());
    let mut walk = labels(&text);
    assert_eq!(walk.by_ref().map(|label| label.unwrap().elements.len()).collect::<Vec<_>>(), [1, 1, 1]);
    assert_eq!(walk.unprinted(), behind(second));
}

/// The elements that are pending at the end of a file.
fn behind(file: &[u8]) -> Option<Unprinted> {
    let mut walk = labels(file);
    walk.by_ref().for_each(drop);
    walk.unprinted()
}

#[test]
fn the_first_refusal_first() {
    let (fine, wrong) = (&b"LO1,2,3,4\nP\n"[..], &b"N\nLO1"[..]);
    assert_eq!(refused(wrong, wrong), (Some(Part::First), 4, 2));
    assert_eq!(refused(wrong, fine), (Some(Part::First), 4, 2));
    assert_eq!(refused(fine, wrong), (Some(Part::Second), 4, 2));
    assert_eq!(join(fine, wrong).unwrap_err().to_string(), format!("the second file: {}", Refused { number: 4, place: 2 }));
}

#[test]
fn too_long() {
    let fine = &b"LO1,2,3,4\nP\n"[..];
    let long = vec![b'\n'; LONGEST + 1];
    assert_eq!(refused(&long, b"LO1"), (Some(Part::First), 14, 0));
    assert_eq!(refused(fine, &long), (Some(Part::Second), 14, 0));
    // A line of the longest file, and one byte less.
    let mut line = vec![b';'; LONGEST - 3];
    assert_eq!(join(&line, b"").unwrap().len(), LONGEST);
    line.push(b';');
    assert_eq!(join(&line, b"").unwrap_err(), Unjoined { refused: Refused { number: 25, place: LONGEST + 1 }, part: None });
}
