//! Bar codes: every type of `B`, ratios; every type and parameter of `b`; MaxiCode's modes and header.

use inputs::{Maker, BARS, CODES, HEADER, NO_TYPES, OPTIONS, SYMBOLS};

pub fn bars() -> crate::Inputs {
    let mut cases = Vec::new();
    for kind in BARS {
        let line = |fields: &str| [b"B5,6,1,", *kind, b",", fields.as_bytes(), b",\"0123\"\n"].concat();
        cases.push(["2,5,40,B", "1,3,1,N", "4,2147483647,2147483647, B ", ",,,b"].into_iter().flat_map(line).collect());
    }
    for kind in NO_TYPES.iter().chain(SYMBOLS) {
        cases.push([b"B5,6,2,", *kind, b",2,5,40,B,\"123\""].concat());
    }
    for (narrow, wide) in [(1, 2), (2, 5), (2, 3), (3, 7), (3, 10), (7, 15), (6, 13), (9, 100), (3, -9), (0, 3), (-4, 9), (2147483647, 1)] {
        cases.push(format!("B0,0,3,2C,{narrow},{wide},9,B,\"12\"\nB0,0,0,3,{narrow},{wide},9,N,\"12\"\n").into_bytes());
    }
    cases
}

pub fn symbols() -> crate::Inputs {
    let mut cases = Vec::new();
    // Each parameter with each type, and again behind others of its letter.
    for option in OPTIONS {
        let alone = |kind: &[u8]| [b"b1,2,", kind, b",", option, b",\"x\"\n"].concat();
        let behind = |kind: &[u8]| [b"b1,2,", kind, b",d7e9eHc5r6h7s6x5y44l3t1o2m6", option, b"\"x\"\n"].concat();
        cases.push(SYMBOLS.iter().flat_map(|kind| [alone(kind), behind(kind)].concat()).collect());
    }
    for kind in NO_TYPES.iter().chain(BARS) {
        cases.push([b"b5,6,", *kind, b",s4,\"123\""].concat());
    }
    cases
}

pub fn maxicode() -> crate::Inputs {
    let mut cases = Vec::new();
    let line = |options: &str, data: &[u8]| [b"b1,2,M", options.as_bytes(), b"\"", data, b"\"\n"].concat();
    for options in ["", ",m2", ",m3", ",m4", ",m6", ",m0", ",m1", ",m5", ",m7", ",m", ",m2m5", ",m5m2", ",m99999999999", ",M2", ",m02"] {
        cases.push([line(options, b"no header"), line(options, &[b"001840123456", HEADER, b"96x"].concat())].concat());
    }
    for n in 0..10 {
        let digits = &b"0018401234"[..n];
        let ends: [&[u8]; 3] = [b"", b"K", HEADER];
        cases.push(ends.iter().flat_map(|end| line("", &[digits, end, HEADER, b"96"].concat())).collect());
        cases.push(line("", &[digits, b"\xc3\xa9", HEADER].concat()));
        cases.push(line("", &[digits, b"\xff", HEADER].concat()));
    }
    for code in CODES {
        cases.push(line("", &[b"012", *code, b"4567", HEADER].concat()));
    }
    for n in 1..HEADER.len() {
        let cut = [b"0018401", &HEADER[..n]].concat();
        cases.push([line("", &cut), line("", &[&*cut, HEADER].concat())].concat());
    }
    let mut maker = Maker::new(3, 3);
    cases.extend((0..12).map(|_| line("", &maker.maxicode_data())));
    cases
}
