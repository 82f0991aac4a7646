//! Blanks of all kinds, and what is next to them in the code tables: at the ends of lines, fields, types and flags, around `GW`.

use inputs::{BLANKS, CODES, NO_BLANKS};

pub fn cases() -> crate::Inputs {
    let mut cases = Vec::new();
    for b in BLANKS.iter().chain(NO_BLANKS) {
        cases.push([b"LO1,2,3,4\nP", *b, b"1\nLO5,6,7,8\n", b, b"N", b, b"\nLO9,9,9,9\n"].concat());
        let reference = [b"R5", *b, b",", b, b"6", b, b"\nLO", b, b"1", b, b",2", b, b",", b, b"3,4", b, b"\n"].concat();
        cases.push([&reference, &b"A1,2,0,1,1,1,"[..], b, b"R", b, b",\"", b, b"x", b, b"\"", b].concat());
        cases.push([b"B1,2,0,", *b, b"1A", b, b",2,2,9,", b, b"B", b, b",\"x\""].concat());
        cases.push([*b, b"GW", b, b"1", b, b",2,1,", b, b"1", b, b",", b, b"Z\nP", b].concat());
    }
    // Undecodable bytes in data, in fields and at the ends of lines.
    for c in CODES {
        cases.push([b"A1,2,0,1,1,1,N,\"", *c, b"x", c, c, b"\"\nb1,2,Q,s", c, b"4,e", c, b",\"", c, b"\"", c].concat());
        cases.push([b"LO1,2,3,4\n", *c, b"N\nN", c, b"\nP", c, b"\nLO", c, b",2,3", c, b",4\n"].concat());
    }
    let ends: [&[u8]; 6] = [b"", b"\r", b" \r", b"\r ", b"\x0c\x0b", b"\xe2\x80\xa8\r"];
    for end in ends {
        for line in [&b"N"[..], b"P1", b"R3,4", b"LO1,2,3,4", b"b1,2,Q,\"x\""] {
            cases.push([b"LO1,2,3,4\n", line, end, b"\nLO5,6,7,8", end].concat());
        }
    }
    cases
}
