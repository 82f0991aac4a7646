//! Elements and labels written as EPL, as the scope document has it ("Writing EPL"), and read again.

use laddertick::{
    labels, write, write_label, write_label_300, BarMode, Bars, Colour, Dots300, Element, Index, Kind, Label, QrLevel, Refusal, Refused, Scale, LONGEST,
};

/// The functions of the library themselves, with buffers of every size.
#[allow(dead_code)]
#[path = "../src/raw.rs"]
mod raw;

/// A line of each kind that a file yields, its values all different, and how it is written. The reference is 0,0.
const SPELLINGS: [(&[u8], &[u8]); 37] = [
    (b" A 1,2,3,4,5,6,R,\"seven77\" ", b"A1,2,3,4,5,6,R,\"seven77\"\n"),
    (b"A-1,-2,0,-9,,1,N,\"a\"b,\"", b"A-1,-2,0,-9,1,1,N,\"a\"b,\"\n"),
    (b"A1,2,1,5,3,4,R\"\xff\x00\"", b"A1,2,1,5,3,4,R,\"\xff\x00\"\n"),
    (b"LO1,2,4,3", b"LO1,2,4,3\n"),
    (b"LW1,2,4,3", b"LW1,2,4,3\n"),
    (b"LE1,2,3,4", b"LE1,2,3,4\n"),
    (b"X1,2,7,31,42", b"X1,2,7,31,42\n"),
    (b"X31,42,7,1,2", b"X1,2,7,31,42\n"),
    (b"X1,2,30,31,42", b"LO1,2,30,40\n"),
    (b"X1,2,7,1,2", b"X1,2,7,1,2\n"),
    (b"LS1,2,7,31,42", b"LS1,2,7,31,42\n"),
    (b"LS31,2,7,1,42", b"LS1,42,7,31,2\n"),
    (b"LS1,2,7,1,2", b"LS1,2,7,1,2\n"),
    (b"LS1,2,7,31,2", b"LS1,2,7,31,2\n"),
    (b"GW5,6,3,2,ab\ndef", b"GW5,6,3,2,ab\ndef\n"),
    (b"GW5,6,0,9,", b"GW5,6,0,0,\n"),
    (b"GW5,6,7,0,", b"GW5,6,7,0,\n"),
    (b"B1,2,2,0,4,5,6,B,\"hello\"", b"B1,2,2,0,4,2,6,B,\"hello\"\n"),
    (b"B1,2,2,1A,4,5,6,N,\"hello\"", b"B1,2,2,1,4,2,6,N,\"hello\"\n"),
    (b"B1,2,2,1E,4,5,6,B,\"hello\"", b"B1,2,2,1E,4,2,6,B,\"hello\"\n"),
    (b"B1,2,3,E30,4,5,6,B,\"hello\"", b"B1,2,3,E30,4,2,6,B,\"hello\"\n"),
    (b"B1,2,3,E80,4,5,6,N,\"hello\"", b"B1,2,3,E80,4,2,6,N,\"hello\"\n"),
    (b"B1,2,3,UA0,4,5,6,B,\"hello\"", b"B1,2,3,UA0,4,2,6,B,\"hello\"\n"),
    (b"B1,2,3,UE0,4,5,6,B,\"hello\"", b"B1,2,3,UE0,4,2,6,B,\"hello\"\n"),
    (b"B1,2,3,2C,4,10,6,N,\"hello\"", b"B1,2,3,2C,4,10,6,N,\"hello\"\n"),
    (b"B1,2,3,3,7,22,6,B,\"hello\"", b"B1,2,3,3,7,22,6,B,\"hello\"\n"),
    (b"b1,2,P,o3,y17,s4,l5,r6,t1,x8\"seven77\"", b"b1,2,P,o3,x8,y17,l5,r6,t1,s4,\"seven77\"\n"),
    (b"b1,2,P\"x\"", b"b1,2,P,o0,x6,y24,l0,r0,t0,\"x\"\n"),
    (b"b1,2,A,d44,e99\"hello\"", b"b1,2,A,d44,e99,\"hello\"\n"),
    (b"b1,2,D,c4,r7,h6\"hello\"", b"b1,2,D,h6,c4,r7,\"hello\"\n"),
    (b"b1,2,Q,s44,eH\"hello\"", b"b1,2,Q,s44,eH,\"hello\"\n"),
    (b"b1,2,Q,s4,eL\"hello\"", b"b1,2,Q,s4,eL,\"hello\"\n"),
    (b"b1,2,M,m3\"hello\"", b"b1,2,M,m3,\"hello\"\n"),
    // The longest numbers.
    (b"A-2147483648,2147483647,0,-2147483648,268435455,178956970,N,\"x\"", b"A-2147483648,2147483647,0,-2147483648,268435455,178956970,N,\"x\"\n"),
    (b"B-2147483648,-2147483648,3,2C,2147483647,-2147483648,2147483647,B,\"x\"", b"B-2147483648,-2147483648,3,2C,2147483647,-2147483648,2147483647,B,\"x\"\n"),
    (
        b"b-2147483648,-2147483648,P,o3,x9,y99,l2147483647,r2147483647,t1,s8,\"x\"",
        b"b-2147483648,-2147483648,P,o3,x9,y99,l2147483647,r2147483647,t1,s8,\"x\"\n",
    ),
    (b"X-2147483648,-2147483648,2147483647,-1,-1", b"LO-2147483648,-2147483648,2147483647,2147483647\n"),
];

/// The one label of a file, with nothing behind it.
fn one(file: &[u8]) -> Label<'_> {
    let mut walk = labels(file);
    let mut all: Vec<Label> = walk.by_ref().collect::<Result<_, _>>().unwrap();
    assert_eq!((all.len(), walk.unprinted()), (1, None));
    all.remove(0)
}

/// A box that no command draws.
fn unreadable() -> Element<'static> {
    boxed(-3, 4, 3)
}

fn boxed(width: i32, height: i32, thickness: i32) -> Element<'static> {
    Element::new(1, 2, Kind::Box { width, height, thickness, colour: Colour::Black }, b"")
}

fn refused(element: &Element) -> bool {
    match write(element) {
        Ok(_) => false,
        Err(refused) => {
            assert_eq!((refused.refusal(), refused.place), (Some(Refusal::NotReadable), 0));
            true
        }
    }
}

#[test]
fn every_kind() {
    for (line, due) in SPELLINGS {
        let file = [line, b"\nP\n"].concat();
        let label = one(&file);
        assert_eq!(label.elements.len(), 1);
        let text = write(&label.elements[0]).unwrap();
        assert_eq!(text.escape_ascii().to_string(), due.escape_ascii().to_string());
        assert_eq!(one(&[due, b"P\n"].concat()), label);
    }
}

#[test]
fn a_label_of_every_kind() {
    let mut file: Vec<u8> = b"LO9,9,9,9\nN\n".to_vec();
    SPELLINGS.iter().for_each(|(line, _)| file.extend([line, &b"\n"[..]].concat()));
    file.extend(b"P11,12\n");
    let label = one(&file);
    assert_eq!((label.elements.len(), label.sets, label.copies), (SPELLINGS.len(), 11, 12));
    let text = write_label(&label).unwrap();
    let lines: Vec<&[u8]> = SPELLINGS.iter().map(|&(_, due)| due).collect();
    assert_eq!(text.escape_ascii().to_string(), [b"N\n", &lines.concat()[..], b"P11,12\n"].concat().escape_ascii().to_string());
    assert_eq!(one(&text), label);
    // What was written is written the same again, and a file may have several labels in a row.
    assert_eq!(write_label(&one(&text)).unwrap(), text);
    let twice = text.repeat(2);
    assert_eq!(labels(&twice).collect::<Result<Vec<_>, _>>().unwrap(), [label.clone(), label]);
}

/// The reference point is in the positions, which are read again at 0,0, in the middle of another file too.
#[test]
fn a_reference_is_written_out() {
    let label = one(b"R100,-200\nLO1,2,3,4\nA5,6,0,1,1,1,N,\"x\"\nP\n");
    let text = write_label(&label).unwrap();
    assert_eq!(text, b"N\nLO101,-198,3,4\nA105,-194,0,1,1,1,N,\"x\"\nP1,1\n");
    let behind = [b"R7,7\nLO1,1,1,1\nLO1,1,1,1\n", &text[..]].concat();
    assert_eq!(one(&behind), label);
}

/// A label of a host's own making, and one that was changed, with data from elsewhere.
#[test]
fn made_and_changed() {
    let scale = Scale { font: 2, horizontal: 3, vertical: 4 };
    let (height, width) = scale.cell().unwrap();
    let bars = Bars { rotation: 1, narrow: 3, height: 80, line: true };
    let elements = vec![
        Element::new(-7, i32::MAX, Kind::Text { rotation: 2, reverse: true, scale, height, width }, "Süd".as_bytes()),
        Element::new(i32::MIN, 8, Kind::Code128 { bars, mode: BarMode::Automatic }, b"K07"),
        Element::new(1, 2, Kind::Code39 { bars, check: true, wide: 8, ratio: bars.ratio(8).unwrap() }, b"39"),
        Element::new(3, 4, Kind::Qr { magnification: 5, level: QrLevel::Q }, b"\xff"),
        Element::new(5, 6, Kind::Graphic { row_bytes: 2 }, b"\n\n\"\""),
    ];
    let mut label = Label { elements, sets: 0, copies: i32::MAX };
    let text = write_label(&label).unwrap();
    let due = b"N\nA-7,2147483647,2,2,3,4,R,\"S\xc3\xbcd\"\nB-2147483648,8,1,1,3,2,80,B,\"K07\"\nB1,2,1,3C,3,8,80,B,\"39\"\nb3,4,Q,s5,eQ,\"\xff\"\nGW5,6,2,2,\n\n\"\"\nP0,2147483647\n";
    assert_eq!(text.escape_ascii().to_string(), due.escape_ascii().to_string());
    assert_eq!(one(&text), label);
    label.elements[1].data = b"another and longer";
    assert_eq!(one(&write_label(&label).unwrap()), label);
}

#[test]
fn scales_and_ratios() {
    let scale = |font, horizontal, vertical| Scale { font, horizontal, vertical };
    assert_eq!(scale(4, 5, 6).cell(), Some((144.0, 70.0)));
    // Twelve dots a line, and 178956970 times twelve is the last product within 32 bits.
    assert_eq!(scale(1, 1, 178_956_970).cell(), Some((2_147_483_640.0, 8.0)));
    assert_eq!((scale(1, 1, 178_956_971).cell(), scale(1, 0, 1).cell(), scale(1, 1, -1).cell()), (None, None, None));
    let bars = |narrow| Bars { rotation: 0, narrow, height: Dots300(1), line: false };
    assert_eq!((bars(4).ratio(10), bars(4).ratio(i32::MIN), bars(0).ratio(10), bars(-1).ratio(10)), (Some(2.5), Some(2.0), None, None));
}

/// What no line yields, and its neighbours that one does.
#[test]
fn not_readable() {
    assert!(!refused(&boxed(1, 1, 1)) && !refused(&boxed(0, 0, 1)) && !refused(&boxed(4, 3, 9)));
    assert!(refused(&boxed(-1, 1, 1)) && refused(&boxed(1, -1, 1)) && refused(&boxed(4, 3, 0)) && refused(&boxed(0, 0, 0)));
    // As LO a box may pass 32 bits, as X it may not.
    assert!(!refused(&boxed(i32::MAX, 5, 5)) && refused(&boxed(i32::MAX, 5, 6)) && !refused(&boxed(i32::MAX - 1, 5, 6)));
    let at = |kind, data| Element::new(1, 2, kind, data);
    let white = |width, height, thickness| at(Kind::Box { width, height, thickness, colour: Colour::White }, b"");
    assert!(!refused(&white(4, 3, 3)) && refused(&white(4, 3, 4)) && refused(&white(4, 0, 0)));
    let line = |width, height, falls| at(Kind::Diagonal { width, height, thickness: 1, falls }, b"");
    assert!(!refused(&line(0, 0, true)) && refused(&line(0, 0, false)) && refused(&line(0, 3, true)) && !refused(&line(0, 3, false)));
    assert!(refused(&at(Kind::Box { width: 1, height: 1, thickness: 1, colour: Colour::Black }, b"x")));
    let scale = Scale { font: 1, horizontal: 1, vertical: 1 };
    let text = |rotation, height, data| at(Kind::Text { rotation, reverse: false, scale, height, width: 12.0 }, data);
    assert!(!refused(&text(3, 12.0, b"x")) && refused(&text(4, 12.0, b"x")) && refused(&text(3, 13.0, b"x")) && refused(&text(3, f64::NAN, b"x")));
    assert!(refused(&text(3, 12.0, b"")) && refused(&text(3, 12.0, b"a\nb")) && !refused(&text(3, 12.0, b"a\"\"b\r\x00 ")));
    let bars = |narrow, height| Bars { rotation: 0, narrow, height, line: false };
    let code_39 = |narrow, height, ratio| at(Kind::Code39 { bars: bars(narrow, height), check: false, wide: 6, ratio }, b"x");
    assert!(!refused(&code_39(2, 9, 3.0)) && refused(&code_39(2, 9, 2.5)) && refused(&code_39(0, 9, 3.0)) && refused(&code_39(2, 0, 3.0)));
    assert!(!refused(&at(Kind::Ean8(bars(1, 1)), b"x")) && refused(&at(Kind::Ean8(bars(1, -1)), b"x")));
    let graphic = |row_bytes, data| at(Kind::Graphic { row_bytes }, data);
    assert!(!refused(&graphic(3, b"abcdef")) && refused(&graphic(4, b"abcdef")) && refused(&graphic(0, b"abcdef")) && refused(&graphic(-1, b"")));
    assert!(!refused(&graphic(0, b"")) && !refused(&graphic(7, b"")));
    let aztec = |magnification, size| at(Kind::Aztec { magnification, size }, b"x");
    assert!(!refused(&aztec(55, 300)) && refused(&aztec(56, 300)) && refused(&aztec(0, 300)) && refused(&aztec(55, 100)) && !refused(&aztec(1, 232)));
    let qr = |magnification, data| at(Kind::Qr { magnification, level: QrLevel::M }, data);
    assert!(!refused(&qr(100, b"x")) && refused(&qr(101, b"x")));
    // 9,999 bytes decoded, of which one is three, and 10,000.
    let long = [&[b'x'; 9_997][..], b"\xff"].concat();
    assert!(!refused(&qr(1, &long[1..])) && refused(&qr(1, &long)));
    let maxicode = |mode| at(Kind::Maxicode { mode }, b"x");
    assert_eq!([1, 2, 3, 4, 5, 6, 7].map(|mode| refused(&maxicode(mode))), [true, false, false, false, true, false, true]);
    let matrix = |module, columns, rows| at(Kind::DataMatrix { module, columns, rows }, b"x");
    assert!(!refused(&matrix(40, i32::MAX, 0)) && refused(&matrix(41, 0, 0)) && refused(&matrix(1, -1, 0)) && refused(&matrix(1, 0, -1)));
    let pdf417 = |rotation, row_height, security, module_width| {
        at(Kind::Pdf417 { rotation, row_height, security, columns: 0, rows: 0, truncate: true, module_width }, b"x")
    };
    assert!(!refused(&pdf417(3, 99, -1, 9)) && !refused(&pdf417(0, 4, 8, 2)));
    assert!(refused(&pdf417(4, 99, -1, 9)) && refused(&pdf417(3, 100, -1, 9)) && refused(&pdf417(3, 99, 0, 9)) && refused(&pdf417(3, 99, 9, 9)));
    assert!(refused(&pdf417(3, 99, -1, 10)) && refused(&pdf417(3, 99, -1, 1)) && refused(&pdf417(3, 3, -1, 9)));
    let long = vec![b'x'; LONGEST + 1];
    assert_eq!(write(&text(0, 12.0, &long)), Err(Refused { number: 14, place: 0 }));
    assert_eq!(write(&unreadable()).unwrap_err().to_string(), "refused (23): an element that no line or block says by itself");
}

#[test]
fn a_label_refused() {
    let due = |elements: Vec<Element>, sets, copies| write_label(&Label { elements, sets, copies }).unwrap_err();
    let fine = || boxed(3, 4, 3);
    let readable = |place| Refused { number: 23, place };
    assert_eq!(due(vec![fine(), fine(), unreadable(), unreadable()], 1, 1), readable(2));
    assert_eq!(due(vec![unreadable()], 1, 1), readable(0));
    // Its own counts, behind its elements.
    assert_eq!(due(vec![fine(), unreadable(), fine()], -1, -1), readable(1));
    assert_eq!(due(vec![fine(), fine(), fine()], -1, 1), readable(3));
    assert_eq!(due(vec![fine(), fine(), fine()], 1, i32::MIN), readable(3));
    assert_eq!(due(vec![], 1, 1), readable(0));
    assert!(write_label(&Label { elements: vec![fine()], sets: 0, copies: 0 }).is_ok());
    // Data is too long together, whatever else is wrong.
    let long = vec![b'x'; LONGEST / 2 + 1];
    let graphic = Element::new(0, 0, Kind::Graphic { row_bytes: 1 }, &long);
    let mut label = Label { elements: vec![graphic.clone(), graphic], sets: -1, copies: 1 };
    assert_eq!(write_label(&label), Err(Refused { number: 14, place: 0 }));
    label.elements[1].data = &long[2..];
    assert_eq!(write_label(&label), Err(readable(2)));
    label.sets = 1;
    assert_eq!(one(&write_label(&Label { elements: label.elements[1..].to_vec(), ..label.clone() }).unwrap()).elements[0], label.elements[1]);
}

/// Buffers with room to spare, just enough and one byte less, and one at a refusal: what is not written keeps its values.
#[test]
fn buffers() {
    let input = b"A1,2,3,4,5,6,R,\"seven77\"\nLO1,2,4,3\nP5,6\n";
    let text = raw::step(input, raw::start());
    let line = raw::step(input, text.next).element;
    let (text, none) = (text.element, raw::Element { width: -1, ..line });
    type Call<'a> = &'a dyn Fn(&mut [u8]) -> raw::Written;
    let cases: [(Call, &[u8]); 3] = [
        (&|out| raw::write(input, text, out), b"A1,2,3,4,5,6,R,\"seven77\"\n"),
        (&|out| raw::write(input, line, out), b"LO1,2,4,3\n"),
        (&|out| raw::write_label(input, &[line, text, line], 7, 0, out), b"N\nLO1,2,4,3\nA1,2,3,4,5,6,R,\"seven77\"\nLO1,2,4,3\nP7,0\n"),
    ];
    for (call, due) in cases {
        let n = due.len();
        for room in [n + 3, n] {
            let mut out = vec![0xa5; room];
            assert_eq!(call(&mut out), raw::Written { number: 0, place: n });
            assert_eq!(out, [due, &[0xa5; 3][..room - n]].concat());
        }
        for room in [n - 1, 1, 0] {
            let mut out = vec![0xa5; room];
            assert_eq!(call(&mut out), raw::Written { number: 15, place: n });
            assert_eq!(out, vec![0xa5; room]);
        }
    }
    // 23 before 15, and with room.
    for room in [0, 100] {
        let mut out = vec![0xa5; room];
        assert_eq!(raw::write(input, none, &mut out), raw::Written { number: 23, place: 0 });
        assert_eq!(raw::write_label(input, &[line, text, none], 7, 0, &mut out), raw::Written { number: 23, place: 2 });
        assert_eq!(raw::write_label(input, &[line, text], 7, -1, &mut out), raw::Written { number: 23, place: 2 });
        // Data that passes the end of the input by a byte, and a place that is none of the kind's.
        assert_eq!(raw::write(&input[..22], text, &mut out), raw::Written { number: 23, place: 0 });
        assert_eq!(raw::write(input, raw::Element { data_start: 1, ..line }, &mut out), raw::Written { number: 23, place: 0 });
        assert_eq!(out, vec![0xa5; room]);
    }
    assert_eq!(raw::write(&input[..23], text, &mut []), raw::Written { number: 15, place: 25 });
}

/// From one printer to the other: the label at 300 dots, read again, has the numbers that it was converted to.
#[test]
fn at_300_dots() {
    let file = b"R100,200\nA1,2,3,4,5,6,R,\"seven77\"\nLS1,2,7,31,42\nB1,2,3,2C,4,10,6,N,\"hello\"\nX1,2,7,31,42\nb1,2,D,h6,c4,r7\"x\"\nP5,6\n";
    let mut label = Index::of(file).unwrap().to_300(0).unwrap();
    let text = write_label_300(&label).unwrap();
    let due =
        "N\nA149,299,3,4,5,6,R,\"seven77\"\nLS149,299,10,193,358\nB149,299,3,2C,4,10,9,N,\"hello\"\nX149,299,10,193,358\nb149,299,D,h6,c4,r7,\"x\"\nP5,6\n";
    assert_eq!(String::from_utf8(text.clone()).unwrap(), due);
    let read = one(&text);
    assert_eq!((read.sets, read.copies), (5, 6));
    assert_eq!(read.elements[1].kind, Kind::Diagonal { width: 44, height: 59, thickness: 10, falls: true });
    for (read, written) in read.elements.iter().zip(&label.elements) {
        assert_eq!((Dots300(read.x), Dots300(read.y), read.data), (written.x, written.y, written.data));
    }
    label.elements[2].x = Dots300(-7);
    label.elements[3].kind = Kind::Box { width: Dots300(-1), height: Dots300(1), thickness: Dots300(1), colour: Colour::Black };
    assert_eq!(write_label_300(&label), Err(Refused { number: 23, place: 3 }));
    label.elements.truncate(3);
    assert_eq!(one(&write_label_300(&label).unwrap()).elements[2].x, -7);
    label.copies = -1;
    assert_eq!(write_label_300(&label), Err(Refused { number: 23, place: 3 }));
}
