//! All strings of up to some tokens over small alphabets, between a head and a tail that make what they do visible.

pub struct Setting {
    head: &'static [u8],
    tokens: [&'static [u8]; 6],
    tail: &'static [u8],
}

impl Setting {
    /// Calls f on every string of the setting of up to so many tokens.
    pub fn each(&self, tokens: usize, mut f: impl FnMut(&[u8])) {
        let mut input = self.head.to_vec();
        self.longer(tokens, &mut input, &mut f);
    }

    fn longer(&self, left: usize, input: &mut Vec<u8>, f: &mut impl FnMut(&[u8])) {
        let n = input.len();
        input.extend(self.tail);
        f(input);
        input.truncate(n);
        if left > 0 {
            for token in self.tokens {
                input.extend(token);
                self.longer(left - 1, input, f);
                input.truncate(n);
            }
        }
    }
}

/// Tokens are single bytes where the alphabet is given as one string.
const fn bytes(head: &'static [u8], alphabet: &'static [u8; 6], tail: &'static [u8]) -> Setting {
    let (a, rest) = alphabet.split_at(1);
    let (b, rest) = rest.split_at(1);
    let (c, rest) = rest.split_at(1);
    let (d, rest) = rest.split_at(1);
    let (e, f) = rest.split_at(1);
    Setting { head, tokens: [a, b, c, d, e, f], tail }
}

const fn tokens(head: &'static [u8], tokens: [&'static [u8]; 6], tail: &'static [u8]) -> Setting {
    Setting { head, tokens, tail }
}

/// A text line up to its data; an element that shows a clear or a reference; MaxiCode's header.
const TEXT: &[u8] = b"A1,2,0,1,1,1,N,\"";
const BOX: &[u8] = b"LO1,2,3,4\n";
const HEADER: &[u8] = b"[)>\x1e01\x1d";

pub const SETTINGS: &[Setting] = &[
    // Lines, blocks and the walk.
    bytes(b"", b"GW,\nN0", b""),
    bytes(b"", b"GW,\n1 ", b"ab"),
    bytes(b"GW1,2,", b"01,-+\n", b"abN\n"),
    bytes(b"GW", b"1,\xff\x0b -", b",2,1,x"),
    bytes(BOX, b" \t\x0c\r\x0bG", b"GW1,2,1,1,x"),
    tokens(b"", [b"GW,,,,", b"GW0,0,1,1,", b"\n", b"P", b"N", b"LO1,2,3,4"], b""),
    tokens(BOX, [b"GW1,2,2,1,", b"\n", b"R5", b",", b"N\n", b"P1"], BOX),
    tokens(b"", [b"P\n", b"N\n", b"R5,6\n", b"R7\n", b"LO,,,\n", b"GW,,,,"], b"P3"),
    bytes(b"", b"R1,\n-P", b""),
    bytes(BOX, b"R1,\n-P", BOX),
    bytes(BOX, b"RN2 ,\n", BOX),
    bytes(BOX, b"P1,\r\nN", BOX),
    bytes(b"LO,,,\nP", b"1,0 +P", b"\nLO1"),
    bytes(b"LO,,,\nP214748", b"3678,4", b"\nP1\nLO,,,\nP"),
    bytes(b"", b"LOSW,\n", b""),
    bytes(b"", b"LEO,\n ", b""),
    tokens(BOX, [b"LE", b"GW1,2,2,1,", b"\n", b"\xc2\xa0", b",", b"\""], b",3,4\n"),
    bytes(b"", b"XLS,1\n", b""),
    bytes(b"LS", b"1,-2\n ", b",1"),
    bytes(b"", b"ABb\",\n", b""),
    bytes(b"A", b"1,\"R \n", b",1,1,1,R\"x\""),
    bytes(b"B1,2,0,", b"1A3C ,", b",2,2,9,B,\"x\""),
    bytes(b"B1,2,0,", b"EU0A38", b",2,2,9,B,\"x\""),
    bytes(b"B1,2,0,3,1,1,1", b"B\", 2\n", b"\"x\""),
    bytes(b"", b"b,M\"x\n", b""),
    bytes(b"b,", b"AQ,\" D", b"\"x\""),
    // Blanks at the ends of a line.
    bytes(b"", b" \x0b\xc2\xa0N\n", b""),
    bytes(BOX, b"\xc2\x85\xa0 N\r", b"\nP\n"),
    bytes(BOX, b"\xe2\x80\xa8\x81\x9fN", b"\nP\n"),
    bytes(BOX, b"\xe1\x9a\x80\xe3N ", b"\nP\n"),
    bytes(b"LO1,2,", b"\xe2\x80\x8a\x8b7,", b",5"),
    // Decoding.
    bytes(TEXT, b"\xc3\xa9\xff\xe2\x82\xac", b"\""),
    bytes(TEXT, b"\xf0\x9f\x98\x80x\xed", b"\""),
    bytes(TEXT, b"\xe0\xa0\x80\xed\x9f\xbf", b"\""),
    bytes(TEXT, b"\xf4\x8f\xbf\x90\x80\xf0", b"\""),
    bytes(TEXT, b"\xc1\xc2\x7f\x80\xbf\xc0", b"\""),
    bytes(TEXT, b"\xee\xef\xbf\xbd\xf5\xf1", b"\""),
    // Numbers; with a reference the sums pass the limit.
    bytes(b"LO", b"+-012 ", b",1,1,1"),
    bytes(b"LO214748", b"346789", b",1,1,1"),
    bytes(b"R1,-3\nLO1,-214748", b"346789", b",1,1"),
    bytes(b"R9\nX214748", b"346789", b",0,1,-1,0"),
    bytes(b"LS-1,-214748", b"346789", b",1,1,1"),
    bytes(b"A0,0,0,1,1,1789569", b"016789", b",N,\"x\""),
    bytes(b"A0,0,0,3,1789569", b"016789", b",7,N,\"x\""),
    bytes(b"B0,0,0,2,", b"0123,9", b",9,B,\"x\""),
    bytes(b"R1\nB214748", b"3467,8", b",0,1D,1,1,1,B,\"x\""),
    // Parameters of b.
    bytes(b"b1,2,A,", b"de102,", b"\"x\""),
    bytes(b"b1,2,A,e", b"0123d4", b"\"x\""),
    bytes(b"b1,2,D,", b"crh14,", b"\"x\""),
    bytes(b"b1,2,P,", b"sxy19t", b"\"x\""),
    bytes(b"b1,2,P,", b"rlo02,", b"\"x\""),
    bytes(b"b1,2,Q,", b"seLH10", b"\"x\""),
    bytes(b"b1,2,M,", b"m2456x", b"\"x\""),
    tokens(b"b1,2,M\"", [HEADER, b"1", b"23456", b"x", b"\xc3\xa9", b"\xff"], b"\""),
    tokens(b"R1\nb2147483646,2,M\"12345", [HEADER, b"1", b"x", b"\xe2\x82\xac", b"\"\n", b"\xf0"], b"\"\nLO1"),
];
