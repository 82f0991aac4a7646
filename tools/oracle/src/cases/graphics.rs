//! Graphic blocks: with and without LF, cut short, negative, with anything in the payload, directly behind one another.

use inputs::Maker;

pub fn cases() -> crate::Inputs {
    let mut cases: crate::Inputs = CASES.iter().map(|case| case.to_vec()).collect();
    // The payload ends one byte before the input, with it, or one byte behind it.
    for (width, lines) in [(1, 1), (1, 7), (7, 1), (3, 5), (2, 100), (255, 1)] {
        for length in [width * lines - 1, width * lines, width * lines + 1] {
            cases.push([format!("GW1,2,{width},{lines},").as_bytes(), &b"\n,N"[..].repeat(length)[..length]].concat());
        }
    }
    for odd in [0, 12, 5, 3] {
        let mut maker = Maker::new(40 + odd as u64, odd);
        cases.extend((0..15).map(|_| maker.graphics(60)));
    }
    cases
}

const CASES: &[&[u8]] = &[
    b"GW",
    b"GW\n",
    b"GW,",
    b"GW,,,\n",
    b"GW\n,,,,",
    b"GW1,2,\n1,1,x",
    b"GW1,2,1\n,1,x",
    b"G\nW1,2,1,1,x",
    b"GW1,2,1,1,x",
    b"GW1,2,1,1,x\n",
    b"GW1,2,1,1,\n\n",
    b"GW1,2,1,1,x\r\n",
    b"GW1,2,2,2,\n\n\n\n\nP\n",
    b"GW1,2,2,2,,,,,\nP\n",
    b"GW1,2,1,1,xGW3,4,1,1,yP1\n",
    b"GW1,2,1,1,xN\nLO1,2,3,4\n",
    b"GW1,2,1,1,xR7,8\nLO1,2,3,4\n",
    b"GW1,2,1,1,x GW3,4,1,1,y",
    b"GW1,2,1,1,x\x0bGW3,4,1,1,y",
    b"GW1,2,1,1,xA1,2,0,1,1,1,N,\"x\"\n",
    b"GW1,2,4,2,N\nP1\nR9,GW,,,,\n",
    b" \t\x0c\rGW1,2,1,1,x",
    b"\x0bGW1,2,1,1,x",
    b"\xc2\xa0GW1,2,1,1,x",
    b"\xffGW1,2,1,1,x",
    b"xGW1,2,1,1,x",
    b"gw1,2,1,1,x",
    b"Gw1,2,1,1,x",
    b"GWx1,2,1,1,x",
    b"GW 1 , 2 , 1 , 1 ,x",
    b"GW\xe3\x80\x801\xc2\x85,\xe2\x80\xa82,1,1,x",
    b"GW\xff1,2\xff,1,1,x",
    b"GW1,2,\xff3,9,x",
    b"GW1,2,3,\xc3,x",
    b"GW1,2,+1,+1,x",
    b"GW1,2,01,001,x",
    b"GW1,2,0,5,x",
    b"GW1,2,5,0,x",
    b"GW1,2,-1,0,x",
    b"GW1,2,0,-1,x",
    b"GW1,2,-2147483648,-2147483648,x",
    b"GW1,2,-0,-0,x",
    b"GW1,2,2147483647,2147483647,x",
    b"GW1,2,2147483647,0,x",
    b"GW1,2,0,2147483647,x",
    b"GW1,2,65536,65536,x",
    b"GW1,2,2147483648,1,x",
    b"GW1,2,4294967297,1,x",
    b"GW-5,-6,1,1,x",
    b"GW1,2,1,1,\"x\"",
    b"R5,6\nGW1,2,1,1,xP\nGW1,2,1,1,y",
    b"N\r\nGW1,2,1,1,\rP\r\n",
    b"GW\"1\",2,1,1,x",
];
