//! Answers that the scope document gives, through the safe crate.

use laddertick::{
    check, labels, list, normalise, steps, strict_list, BarMode, Bars, Colour, Dots300, Element, Field, Held, Index, Kind, Label, QrLevel, Refusal, Refused,
    Scale, Step, Unfit, Unprinted, LONGEST,
};
use std::borrow::Cow;

/// The one element of a file with one label, and nothing behind it.
fn one(file: &[u8]) -> Element<'_> {
    let mut walk = labels(file);
    let mut labels: Vec<Label> = walk.by_ref().collect::<Result<_, _>>().unwrap();
    assert_eq!((labels.len(), walk.unprinted()), (1, None));
    assert_eq!(labels[0].elements.len(), 1);
    labels.remove(0).elements.remove(0)
}

/// The refusal of a file.
fn refused(file: &[u8]) -> (u8, usize) {
    let refused = labels(file).collect::<Result<Vec<_>, _>>().unwrap_err();
    assert_eq!(list(file).unwrap_err(), refused);
    (refused.number, refused.place)
}

#[test]
fn the_worked_example() {
    let file = b"R10,20\nLO5,6,30,4\nP1\n";
    assert_eq!(list(file).unwrap(), "00000000010000000100000001\n020000000f0000001a0000001e000000040000000400\n");
    let line = one(file);
    assert_eq!((line.x, line.y, line.data, line.text()), (15, 26, &b""[..], None));
    assert_eq!(line.kind, Kind::Box { width: 30, height: 4, thickness: 4, colour: Colour::Black });
}

#[test]
fn every_kind() {
    let bars = |rotation, narrow, height, line| Bars { rotation, narrow, height, line };
    let scale = |font, horizontal, vertical| Scale { font, horizontal, vertical };
    let cases: [(&[u8], Kind, Option<&str>); 20] = [
        (b"A1,2,1,3,4,2,R,\"x\"", Kind::Text { rotation: 1, reverse: true, scale: scale(3, 4, 2), height: 40.0, width: 48.0 }, Some("x")),
        (b"A1,2,0,0,,-7,N,\"x\"", Kind::Text { rotation: 0, reverse: false, scale: scale(0, 1, 1), height: 12.0, width: 12.0 }, Some("x")),
        (b"LW1,2,3,4", Kind::Box { width: 3, height: 4, thickness: 3, colour: Colour::White }, None),
        (b"LE1,2,3,4", Kind::Box { width: 3, height: 4, thickness: 3, colour: Colour::ExclusiveOr }, None),
        (b"X1,2,5,11,22", Kind::Box { width: 10, height: 20, thickness: 5, colour: Colour::Black }, None),
        (b"LS1,12,1,6,2", Kind::Diagonal { width: 5, height: 10, thickness: 1, falls: false }, None),
        (b"GW1,2,1,2,\x00\x0a", Kind::Graphic { row_bytes: 1 }, None),
        (b"B1,2,0,1E,2,2,9,B,\"x\"", Kind::Code128 { bars: bars(0, 2, 9, true), mode: BarMode::Ean }, Some("x")),
        (b"B1,2,3,E30,2,2,9,N,\"x\"", Kind::Ean13(bars(3, 2, 9, false)), Some("x")),
        (b"B1,2,0,E80,2,2,9,N,\"x\"", Kind::Ean8(bars(0, 2, 9, false)), Some("x")),
        (b"B1,2,0,UA0,2,2,9,N,\"x\"", Kind::UpcA(bars(0, 2, 9, false)), Some("x")),
        (b"B1,2,0,UE0,2,2,9,N,\"x\"", Kind::UpcE(bars(0, 2, 9, false)), Some("x")),
        (b"B1,2,0,2C,2,5,9,N,\"x\"", Kind::Interleaved2of5 { bars: bars(0, 2, 9, false), check: true, wide: 5, ratio: 2.5 }, Some("x")),
        (b"B1,2,0,3,2,-5,9,N,\"x\"", Kind::Code39 { bars: bars(0, 2, 9, false), check: false, wide: -5, ratio: 2.0 }, Some("x")),
        (b"B1,2,0,3C,,,9,N,\"x\"", Kind::Code39 { bars: bars(0, 1, 9, false), check: true, wide: 2, ratio: 2.0 }, Some("x")),
        (
            b"b1,2,P,600,300,s3,l4,r30,x2,y6,\"x\"",
            Kind::Pdf417 { rotation: 0, row_height: 6, security: 3, columns: 4, rows: 30, truncate: false, module_width: 2 },
            Some("x"),
        ),
        (b"b1,2,A,d4,\"x\"", Kind::Aztec { magnification: 4, size: 0 }, Some("x")),
        (b"b1,2,D,h4,\"x\"", Kind::DataMatrix { module: 4, columns: 0, rows: 0 }, Some("x")),
        (b"b1,2,Q,s4,eL,\"x\"", Kind::Qr { magnification: 4, level: QrLevel::L }, Some("x")),
        (b"b1,2,M,m3,\"\xff\"", Kind::Maxicode { mode: 3 }, Some("\u{fffd}")),
    ];
    for (line, kind, text) in cases {
        let file = [line, b"\nP\n"].concat();
        let element = one(&file);
        assert_eq!((element.x, element.y), (1, 2), "{}", line.escape_ascii());
        assert_eq!(element.kind, kind);
        assert_eq!(element.text().as_deref(), text);
    }
}

#[test]
fn data_is_the_files() {
    let file = b"GW0,0,2,2,ab\nd\nP";
    let element = one(file);
    assert_eq!(element.data, b"ab\nd");
    assert_eq!(element.data.as_ptr(), file[10..].as_ptr());
}

#[test]
fn steps_clear_and_print() {
    let file = b"N\nLO1,1,1,1\nN\nLO2,2,2,2\nP5,7\nP\nLO3,3,3,3";
    let mut walk = steps(file);
    let said: Vec<String> = walk
        .by_ref()
        .map(|step| match step.unwrap() {
            Step::Element(e) => format!("at {}", e.x),
            Step::Clear => "clear".to_string(),
            Step::Print(p) => format!("print {} {} {}", p.count, p.sets, p.copies),
        })
        .collect();
    assert_eq!(said, ["clear", "at 1", "clear", "at 2", "print 1 5 7", "at 3"]);
    assert_eq!(walk.unprinted(), Some(Unprinted { elements: 1 }));
    assert_eq!(labels(file).count(), 1);
}

#[test]
fn no_print_line_no_label() {
    let unprinted = |file: &[u8]| {
        let mut labels = labels(file);
        // Not before the end is reached.
        assert_eq!(labels.unprinted(), None);
        let count = labels.by_ref().filter(|label| label.is_ok()).count();
        (count, labels.unprinted().map(|unprinted| unprinted.to_string()))
    };
    let words = |words: &str| Some(words.to_string());
    assert_eq!(unprinted(b"LO1,1,1,1\nP\nLO2,2,2,2\nLO3,3,3,3\n"), (1, words("2 elements behind the last print line: no label")));
    assert_eq!(unprinted(b"LO1,1,1,1"), (0, words("1 element behind the last print line: no label")));
    assert_eq!(unprinted(b"LO1,1,1,1\nP\n"), (1, None));
    assert_eq!(unprinted(b"LO1,1,1,1\nN\n"), (0, None));
    assert_eq!(unprinted(b"LO1,1,1,1\nLO\n"), (0, None));
    assert_eq!(list(b"LO1,2,3,4\nP\nLO1,1,1,1\nLO2,2,2,2").unwrap().lines().last(), Some("fe00000002"));
}

#[test]
fn refusals_say_number_place_and_meaning() {
    assert_eq!(refused(b"N\nA1,2,0,1,1,1,,\"x\"\n"), (1, 2));
    assert_eq!(refused(b"N\n B0,0,0,1D,2,2,9,B,\"x\"\n"), (7, 2));
    assert_eq!(refused(b"N\nLEFT JAR\n"), (4, 2));
    assert_eq!(refused(b"GW1,2,3"), (10, 0));
    assert_eq!(refused(b"GW0,0,-1,1,"), (11, 0));
    assert_eq!(refused(b"GW0,0,1,1,"), (12, 0));
    assert_eq!(refused(b"R1\nLO2147483647,0,1,1"), (13, 3));
    assert_eq!(refused(b"X2147483647,0,1,-1,0"), (19, 0));
    assert_eq!(refused(b"R0,-2147483648\nX2147483647,-1,1,-1,-1"), (13, 15));
    let words = labels(b"LO1\n").next().unwrap().unwrap_err().to_string();
    assert_eq!(words, "refused (4): a line (LO, LW, LE) needs 4 fields: x, y, width, height, at offset 0 (from 0)");
    assert_eq!(Refused { number: 14, place: 0 }.to_string(), "refused (14): more than 16,777,216 bytes");
    // What was printed before the refused line, then the refusal, then nothing.
    let mut walk = labels(b"LO1,1,1,1\nP\nLO2,2,2,2\nX\nP\n");
    assert_eq!(walk.next().unwrap().unwrap().elements.len(), 1);
    assert_eq!(walk.next().unwrap().unwrap_err(), Refused { number: 6, place: 22 });
    assert!(walk.next().is_none());
}

/// Every number has one name, and every name its number and its words.
#[test]
fn refusals_by_name() {
    let named: Vec<Refusal> = (0..=255).filter_map(Refusal::from_number).collect();
    assert_eq!(named.len(), (1..=255).filter(|&number| Refused { number, place: 0 }.meaning() != "unknown").count());
    for refusal in &named {
        assert_eq!(Refusal::from_number(refusal.number()), Some(*refusal));
        let refused = Refused { number: refusal.number(), place: 7 };
        assert_eq!((refused.refusal(), refused.meaning()), (Some(*refusal), refusal.meaning()));
        assert_eq!(refused.to_string().ends_with("at offset 7 (from 0)"), refusal.is_of_line());
    }
    assert_eq!((named[0], named[0].number()), (Refusal::TextFields, 1));
    assert_eq!(labels(b"X1").next().unwrap().unwrap_err().refusal(), Some(Refusal::BoxFields));
    assert_eq!(Refused { number: 255, place: 0 }.refusal(), None);
    assert_eq!(Refused { number: 255, place: 7 }.to_string(), "refused (255): unknown");
}

/// Text that is UTF-8 is the file's own.
#[test]
fn text_is_borrowed() {
    let file = "A1,2,0,1,1,1,N,\"S\u{fc}d\"\nP\n".as_bytes();
    match one(file).text() {
        Some(Cow::Borrowed(text)) => assert_eq!((text, text.as_ptr()), ("S\u{fc}d", file[16..].as_ptr())),
        other => panic!("{other:?}"),
    }
    assert!(matches!(one(b"A1,2,0,1,1,1,N,\"\xff\xfe\"\nP\n").text(), Some(Cow::Owned(text)) if text == "\u{fffd}\u{fffd}"));
}

/// Behind the last item there is none, however often one asks.
#[test]
fn ends_stay_ends() {
    fn fused<T: std::iter::FusedIterator>(mut walk: T) -> usize {
        let count = walk.by_ref().count();
        assert!(walk.next().is_none() && walk.next().is_none());
        count
    }
    let file = b"LO1,1,1,1\nP\nX\nLO1,1,1,1\nP\n";
    assert_eq!((fused(labels(file)), fused(steps(file)), fused(labels(b"")), fused(steps(b"N"))), (2, 3, 0, 1));
    assert_eq!(fused(Index::of(b"LO1,1,1,1\nP\n").unwrap().iter()), 1);
}

/// The words are those that the C examples print; examples/c/test holds them against the same files.
#[test]
fn words_of_c() {
    let printed = concat!(include_str!("../../../samples/expected/refusals.err"), include_str!("../../../samples/expected/objections.err"));
    let meaning = |number| Refused { number, place: 0 }.meaning();
    for number in (1..=14).chain(17..=19) {
        let line = format!("laddertick: -: refused ({number}): {}", meaning(number));
        assert!(printed.lines().any(|said| said == line), "{line}");
    }
    assert_eq!(meaning(15), "the buffer is too short");
    assert_eq!(
        meaning(16),
        "a walk whose place is past the end or whose pending count is above its place, or an entry whose last place is past the end or before its first"
    );
    assert_eq!(meaning(20), "more labels than the list has entries");
    assert_eq!(meaning(21), "no such label");
    assert_eq!(meaning(22), "the far corner is below the near one");
    assert_eq!(meaning(23), "an element that no line or block says by itself");
}

#[test]
fn normalised_text() {
    assert_eq!(normalise(b" N \r\n").unwrap(), b"N\n");
    assert_eq!(normalise(b"GW,,,,".repeat(50).as_slice()).unwrap(), b"GW,,,,\n".repeat(50));
    assert_eq!(normalise(b"").unwrap(), b"");
}

#[test]
fn at_the_limit() {
    let mut file = vec![b'\n'; LONGEST];
    assert_eq!(normalise(&file).unwrap(), b"");
    assert_eq!(labels(&file).count(), 0);
    file.push(b'\n');
    assert_eq!(normalise(&file).unwrap_err(), Refused { number: 14, place: 0 });
    assert_eq!(refused(&file), (14, 0));
}

#[test]
fn the_well_site_profile() {
    let file = b"R10,20\nLO5,6,30,4\nP1\nLO1,2,3,4\n";
    assert_eq!(check(file), Ok(()));
    assert_eq!(strict_list(file), list(file));
    let unfit = |number, place, field| Err(Unfit { refused: Refused { number, place }, field });
    let at = |number, held| Some(Field { number, held });
    let cases: [(&[u8], _); 6] = [
        (b"N\nA1,2,0,1,,1,N,\"x\"\nP", unfit(17, 2, at(5, Held::Empty))),
        (b"A1,2,0,1,12O,1,N,\"x\"\nP", unfit(17, 0, at(5, Held::NoNumber))),
        (b"N\n LO1,99999999999,3,4\nP", unfit(17, 2, at(2, Held::Beyond))),
        (b"A1,2,0,1,7,1,N,\"x\"\nP", unfit(18, 0, at(5, Held::Outside))),
        (b"N\nB0,0,0,1D,2,2,9,B,\"x\"\nP", unfit(7, 2, None)),
        (b"LO1,2\nR1,\n", unfit(4, 0, None)),
    ];
    for (file, due) in cases {
        assert_eq!(check(file), due, "{}", file.escape_ascii());
        assert_eq!(strict_list(file).unwrap_err(), due.unwrap_err().refused);
    }
    let said = check(b"N\nR1,\n").unwrap_err().to_string();
    assert_eq!(said, "refused (17): a field holds no value, which the well-site profile asks for, at offset 2 (from 0), field 2: empty");
}

/// The entries are those of docs/SCOPE.md ("The label index"): behind print lines that printed nothing; `N` and `R` start none; the reference is that at the first byte.
#[test]
fn the_label_index() {
    let file = b"R5,6\nP\nR10,20\nLO1,2,4,3\nN\nLE1,2,7,8\nP1\nLW1,2,7,8\nLO3,3,3,3\nP2,3\nP\nLO,,,\n";
    let index = Index::of(file).unwrap();
    let told: Vec<_> = index.iter().map(|entry| (entry.number(), entry.bytes(), entry.elements(), entry.reference())).collect();
    assert_eq!(told, [(0, 7..39, 1, (5, 6)), (1, 39..64, 2, (0, 0))]);
    assert_eq!((index.len(), index.is_empty()), (2, false));
    assert!(index.get(2).is_none());
    assert_eq!(index.list(2).unwrap_err(), Refused { number: 21, place: 2 });
    assert_eq!(index.list(2).unwrap_err().to_string(), "refused (21): no such label");
    // Each label is what the whole file has for it, its data too where it stands.
    let all: Vec<Label> = labels(file).collect::<Result<_, _>>().unwrap();
    let opened: Vec<Label> = index.iter().map(|entry| entry.label()).collect();
    assert_eq!(opened, all);
    let lines: String = (0..index.len()).map(|number| index.list(number).unwrap()).collect();
    assert_eq!(list(file).unwrap(), lines + "fe00000001\n");
    assert_eq!(index.iter().rev().map(|entry| entry.number()).collect::<Vec<_>>(), [1, 0]);
}

#[test]
fn many_labels_and_none() {
    // More labels than the first guess has room for, the shortest that there are.
    let file = b"X,,,,\nP\n".repeat(1_000);
    let index = Index::of(&file).unwrap();
    assert_eq!(index.len(), 1_000);
    assert_eq!(index.get(999).unwrap().bytes(), 7_992..8_000);
    let jars: String = (0..40).map(|i| format!("N\nA0,0,0,2,1,1,N,\"Jar {i} of 40\"\nP{i}\n")).collect();
    let index = Index::of(jars.as_bytes()).unwrap();
    let label = index.get(17).unwrap().label();
    assert_eq!((label.elements[0].text().as_deref(), label.sets), (Some("Jar 17 of 40"), 17));
    let data = label.elements[0].data;
    assert_eq!(data.as_ptr(), jars[jars.find("Jar 17").unwrap()..].as_ptr());
    assert!(Index::of(b"").unwrap().is_empty());
    assert!(Index::of(b"LO1,1,1,1\n").unwrap().is_empty());
    assert_eq!(Index::of(b"LO1,1,1,1\nP\nX1\n").unwrap_err(), Refused { number: 6, place: 12 });
    assert_eq!(Index::of(&vec![b'\n'; LONGEST + 1]).unwrap_err(), Refused { number: 14, place: 0 });
}

/// The numbers are those of docs/SCOPE.md ("From 203 to 300 dots").
#[test]
fn from_203_to_300_dots() {
    let file = b"LO-1,-2,7,5\nN\nR100,200\nA1,2,3,4,5,6,R,\"seven77\"\nLS1,2,7,31,42\nB1,2,3,2C,4,10,6,N,\"hello\"\nP5,6\nN\nLO1453130601,-1453130602,1,1\nP\n";
    let index = Index::of(file).unwrap();
    let label = index.to_300(0).unwrap();
    assert_eq!((label.sets, label.copies, label.elements.len()), (5, 6, 3));
    assert!(label.elements.iter().all(|e| (e.x, e.y) == (Dots300(149), Dots300(299))));
    let scale = Scale { font: 4, horizontal: 5, vertical: 6 };
    assert_eq!(label.elements[0].kind, Kind::Text { rotation: 3, reverse: true, scale, height: 144.0, width: 70.0 });
    assert_eq!(label.elements[0].text().as_deref(), Some("seven77"));
    assert_eq!(label.elements[1].kind, Kind::Diagonal { width: Dots300(44), height: Dots300(59), thickness: Dots300(10), falls: true });
    let bars = Bars { rotation: 3, narrow: 4, height: Dots300(9), line: false };
    assert_eq!(label.elements[2].kind, Kind::Interleaved2of5 { bars, check: true, wide: 10, ratio: 2.5 });
    let ends = index.to_300(1).unwrap();
    assert_eq!((ends.elements[0].x, ends.elements[0].y), (Dots300(i32::MAX), Dots300(i32::MIN)));
    let cases: [(&[u8], u8, usize); 5] = [
        (b"LO1453130602,0,1453130602,1\nP", 13, 0),
        (b"LO0,0,1,1\n LO0,0,1,1453130602\nLO1453130602,0,1,1\nP", 19, 10),
        (b"LO1453130602,0,1,1\n GW0,0,1,1,zP", 24, 19),
        (b"LO1,1,1,1\nP", 21, 1),
        (b"", 21, 1),
    ];
    for (file, number, place) in cases {
        let index = Index::of(file).unwrap();
        assert_eq!(index.to_300((number == 21) as usize), Err(Refused { number, place }), "{}", file.escape_ascii());
    }
    let said = Index::of(b"GW0,0,1,1,zP").unwrap().to_300(0).unwrap_err().to_string();
    assert_eq!(said, "refused (24): a label with a graphic, which cannot be set for another resolution, at offset 0 (from 0)");
}
