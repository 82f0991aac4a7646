//! Numbers at every limit, in every number field.

use inputs::NUMBERS;

pub fn cases() -> crate::Inputs {
    let mut cases = Vec::new();
    for n in NUMBERS {
        let line = [b"LO", *n, b",", n, b",", n, b",", n, b"\n"].concat();
        let text = [b"A", *n, b",", n, b",", n, b",", n, b",2,3,N,\"x\"\n"].concat();
        let bars = [b"B", *n, b",", n, b",", n, b",3,", n, b",", n, b",", n, b",N,\"x\"\nB0,0,0,2,1,", n, b",1,N,\"x\"\n"].concat();
        cases.push([line, text, bars].concat());
        cases.push([b"A0,0,0,1,", *n, b",", n, b",N,\"x\"\nA0,0,0,4,", n, b",3,N,\"x\""].concat());
        cases.push([b"R0", *n, b",", n, b"\nLO0,0,1,1\nR", n, b"\nLO0,0,1,1\nR3,", n, b"\nLO0,0,1,1"].concat());
        cases.push([b"GW", *n, b",", n, b",0,", n, b",GW0,0,", n, b",0,"].concat());
        cases.push([b"X", *n, b",", n, b",", n, b",0,0\nLS0,0,", n, b",", n, b",", n].concat());
    }
    // Differences and their absolute values at the limit, on either axis.
    for (from, to) in [
        ("2147483647", "0"),
        ("0", "2147483647"),
        ("-2147483647", "0"),
        ("0", "-2147483647"),
        ("-2147483648", "-1"),
        ("-1", "-2147483648"),
        ("-1", "2147483646"),
        ("1073741823", "-1073741824"),
        ("2147483647", "2147483647"),
        ("-2147483648", "-2147483648"),
        ("2147483648", "-2147483649"),
    ] {
        cases.push(format!("LS{from},1,2,{to},3\nX3,{from},2,1,{to}\n").into_bytes());
    }
    // Sums with the reference at the limits.
    for (reference, at) in [
        ("R1,1", "2147483646,2147483646"),
        ("R2147483647,2147483647", "0,0"),
        ("R2147483647,-2147483648", "-2147483648,2147483647"),
        ("R2147483647,-2147483647", "-1,-1"),
        ("R2147483648,-2147483649", "2147483647,-2147483648"),
        ("R1,-1", "-2147483648,-2147483647"),
    ] {
        cases.push(format!("{reference}\nLO{at},1,1\nA{at},0,1,1,1,N,\"x\"\nGW{at},0,0,\nb{at},A,\"x\"\n").into_bytes());
        cases.push(format!("{reference}\nX{at},1,{at}\nLS{at},1,{at}\nB{at},0,1,1,2,9,B,\"x\"\n").into_bytes());
    }
    // Font products at the limit: the largest multipliers of each font.
    for (font, across, down) in [
        (1, 268435455, 178956970),
        (2, 214748364, 134217727),
        (3, 178956970, 107374182),
        (4, 153391689, 89478485),
        (5, 67108863, 44739242),
        (9, 268435455, 178956970),
    ] {
        cases.push(format!("A0,0,0,{font},{across},1,N,\"x\"\nA0,0,0,{font},1,{down},N,\"x\"").into_bytes());
        cases.push(format!("A0,0,0,{font},{across},{down},N,\"x\"\nA0,0,0,{font},{down},{down},N,\"x\"").into_bytes());
    }
    cases
}
