//! Refusals 1 to 12 at place 0, behind lines and behind blocks; the earliest one is told.

/// Units that are refused, by number.
const REFUSED: &[&[u8]] = &[
    b"A1,2,0,1,1,1,,\"x\"",
    b"A\"x\"",
    b"B1,2,0,1,2,2,9,\"x\"",
    b"B\"9\"\"",
    b"b1,2\"x\"",
    b"b,,,,\"x\"",
    b"LO1,2,3",
    b"LW",
    b"LE1,2",
    b"LS1,2,3,4",
    b"X,,,",
    b"B1,2,0,9,2,2,9,B,\"x\"",
    b"b1,2,q,s4,\"x\"",
    b"GW1,2,3",
    b"GW0,0,1,-1,x",
    b"GW0,0,9,99,abc",
];

/// What stands before them.
const BEFORE: &[&[u8]] = &[
    b"",
    b" \t",
    b"\n\r\n \n",
    b"N\r\nLO1,2,3,4\n",
    b"LO1,2,3,4\nP\nLO1,2,3,4\nP1\n",
    b"GW,,,,",
    b"GW1,2,1,3,\n,\n",
    b"R5,6\nGW1,2,1,1,\xff\n  ",
];

pub fn cases() -> crate::Inputs {
    let mut cases = Vec::new();
    for refused in REFUSED {
        for before in BEFORE {
            cases.push([before, *refused, b"\n"].concat());
        }
        cases.push(refused.to_vec());
        cases.push([*refused, b"\nN\nLO1,2,3,4\nP\n"].concat());
    }
    // Of two refused units the first counts, also where the second comes earlier in 01's order.
    for pair in REFUSED.windows(2) {
        cases.push([b"N\n", pair[1], b"\n", pair[0], b"\n"].concat());
    }
    // Count before type; type before what follows.
    cases.push(b"B1,2,0,9,2,2,9,\"x\"".to_vec());
    cases.push(b"GW0,0,-1,1".to_vec());
    cases.push(b"GW0,0,-1,9,".to_vec());
    cases.push(b"GW0,0,9,-1,".to_vec());
    // A position outside 32 bits behind a refusal, and before 10, 11 and 12.
    cases.push(b"R1\nLO1\nLO2147483647,0,1,1\n".to_vec());
    cases.push(b"R1\nGW2147483647,0,1\n".to_vec());
    cases.push(b"R1\nGW2147483647,0,-1,1,\n".to_vec());
    cases.push(b"R1\nGW2147483647,0,1,9,\n".to_vec());
    cases.push(b"R1\nA2147483647,0,0,1,1,1\"x\"\n".to_vec());
    cases
}
