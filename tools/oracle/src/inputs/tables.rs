//! The odd parts that inputs are made of.

/// 01's White_Space but LF, encoded.
#[rustfmt::skip]
pub const BLANKS: &[&[u8]] = &[
    b" ", b"\t", b"\x0b", b"\x0c", b"\r", b"\xc2\x85", b"\xc2\xa0", b"\xe1\x9a\x80", b"\xe2\x80\x80", b"\xe2\x80\x81",
    b"\xe2\x80\x82", b"\xe2\x80\x83", b"\xe2\x80\x84", b"\xe2\x80\x85", b"\xe2\x80\x86", b"\xe2\x80\x87", b"\xe2\x80\x88",
    b"\xe2\x80\x89", b"\xe2\x80\x8a", b"\xe2\x80\xa8", b"\xe2\x80\xa9", b"\xe2\x80\xaf", b"\xe2\x81\x9f", b"\xe3\x80\x80",
];

/// Neighbours of the blanks that are none: characters, and single bytes of their encodings.
#[rustfmt::skip]
pub const NO_BLANKS: &[&[u8]] = &[
    b"\x00", b"\x08", b"\x0e", b"\x1c", b"\x1d", b"\x1e", b"\x1f", b"\x7f", b"\x85", b"\xa0", b"\x80", b"\xc2", b"\xc2\x84",
    b"\xc2\x86", b"\xc2\x9f", b"\xc2\xa1", b"\xe1\x9a", b"\xe1\x9a\x81", b"\xe1\xa0\x8e", b"\xe2\x80", b"\xe2\x80\x8b",
    b"\xe2\x80\xa7", b"\xe2\x80\xaa", b"\xe2\x80\xae", b"\xe2\x80\xb0", b"\xe2\x81\x9e", b"\xe2\x81\xa0", b"\xe3\x80",
    b"\xe3\x80\x81", b"\xef\xbb\xbf",
];

/// Undecodable bytes, and sequences at the edges of Unicode's table.
#[rustfmt::skip]
pub const CODES: &[&[u8]] = &[
    b"\x80", b"\xbf", b"\xc0\x80", b"\xc1\xbf", b"\xc2", b"\xc3\xa9", b"\xc3", b"\xdf\xbf", b"\xe0\x80\x80", b"\xe0\x9f\xbf",
    b"\xe0\xa0\x80", b"\xe0\xa0", b"\xe2\x82\xac", b"\xe2\x82", b"\xe2\x28\xa1", b"\xed\x9f\xbf", b"\xed\xa0\x80", b"\xed\xbf\xbf",
    b"\xee\x80\x80", b"\xef\xbf\xbd", b"\xef\xbf\xbf", b"\xf0\x80\x80\x80", b"\xf0\x8f\xbf\xbf", b"\xf0\x90\x80\x80", b"\xf0\x90\x80",
    b"\xf0\x9f\x98\x80", b"\xf0\x9f\x98", b"\xf0\x9f", b"\xf0", b"\xf0\x9f\x98x", b"\xf3\xbf\xbf\xbf", b"\xf4\x8f\xbf\xbf",
    b"\xf4\x90\x80\x80", b"\xf5\x80\x80\x80", b"\xf8\x88\x80\x80\x80", b"\xfe", b"\xff", b"\xc3\xc3\xa9", b"\xe2\x82\xe2\x82\xac",
];

/// Number fields that are odd: limits, signs, zeros, numbers that wrap at 32 and 64 bits, and what is no number.
#[rustfmt::skip]
pub const NUMBERS: &[&[u8]] = &[
    b"", b"0", b"1", b"2", b"3", b"4", b"5", b"6", b"-1", b"+1", b"-0", b"+0", b"007", b"+00012", b"-00012", b"2147483646",
    b"2147483647", b"2147483648", b"+2147483647", b"+2147483648", b"-2147483647", b"-2147483648", b"-2147483649", b"4294967295",
    b"4294967296", b"4294967297", b"-4294967295", b"99999999999", b"18446744073709551617", b"-18446744073709551615",
    b"00000000000000000000000000000002147483647", b"340282366920938463463374607431768211457", b"+", b"-", b"--1", b"+-1", b"-+1",
    b"1-", b"1 2", b"1.5", b"12O", b"0x10", b"1e3", b"x", b"\xd9\xa3", b"\xef\xbc\x91", b"1\xff", b"\xff1", b"\x001", b"- 1",
];

/// The largest multipliers that keep a font product within 32 bits, the next ones, and a pair whose width is rounded.
#[rustfmt::skip]
pub const MULTIPLIERS: &[&[u8]] = &[
    b"44739242", b"44739243", b"67108863", b"67108864", b"89478485", b"89478486", b"107374182", b"107374183", b"134217727", b"134217728",
    b"153391689", b"153391690", b"178956970", b"178956971", b"214748364", b"214748365", b"268435455", b"268435456", b"102870774",
    b"129730066",
];

/// The types of `B` that are read.
#[rustfmt::skip]
pub const BARS: &[&[u8]] =
    &[b"0", b"1", b"1A", b"1B", b"1C", b"1E", b"2", b"2C", b"2D", b"3", b"3C", b"E30", b"E80", b"UA0", b"UE0"];

/// The types of `b` that are read.
pub const SYMBOLS: &[&[u8]] = &[b"A", b"D", b"M", b"P", b"Q"];

/// Types that neither command reads.
#[rustfmt::skip]
pub const NO_TYPES: &[&[u8]] = &[
    b"", b"1D", b"9", b"K", b"E82", b"E3", b"E300", b"E", b"UA", b"UA2", b"UE5", b"1a", b"3c", b"e30", b"01", b"00", b"2G", b"PL",
    b"L", b"a", b"q", b"QQ", b"Q1", b"AD", b"1 A", b"1\xff", b"\xef\xbf\xbd",
];

/// Parameters of `b`.
#[rustfmt::skip]
pub const OPTIONS: &[&[u8]] = &[
    b"d4", b"d0", b"d55", b"d56", b"d99999999999", b"dX", b"e0", b"e1", b"e99", b"e100", b"e101", b"e104", b"e105", b"e200", b"e201",
    b"e208", b"e232", b"e233", b"e300", b"e301", b"eL", b"eM", b"eQ", b"eH", b"eX", b"e", b"c16", b"c", b"cx", b"r8", b"r", b"rr",
    b"h1", b"h40", b"h41", b"h0", b"h99999999999", b"v", b"m2", b"m3", b"m4", b"m5", b"m6", b"m", b"m02", b"mm2", b"s1", b"s8", b"s9",
    b"s0", b"s100", b"s101", b"s99999999999", b"x1", b"x2", b"x9", b"x10", b"y3", b"y4", b"y99", b"y100", b"l3", b"l", b"t1", b"t0",
    b"t01", b"tA", b"t", b"o0", b"o1", b"o2", b"o3", b"o4", b"o", b"f1", b"i7", b"iA", b"p", b"w400h200", b"m2s3eMiA", b"m2 s3", b"-5",
    b"s-5", b"s+5", b"s 5", b"\xff", b"s\xff5", b"", b"s2147483647", b"s2147483648", b"c2147483648", b"r4294967297", b"7s7", b"\xc3\xa9s4",
];

/// Counts of print lines, one or two, at the limit of 32 bits too.
pub const PRINTS: &[&[u8]] = &[
    b"", b"1", b"12", b"000", b"1,1", b"3,4", b"0,00", b"00000000000002,3", b"2147483647,2147483648", b"4294967297", b"2147483648,7", b"5,99999999999999999999",
];

/// The header that MaxiCode's mode hangs on.
pub const HEADER: &[u8] = b"[)>\x1e01\x1d";

/// Names and remarks on labels of a core store.
#[rustfmt::skip]
pub const WORDS: &[&[u8]] = &[
    b"CORE BOX 12", b"Well NH-7", b"1204.50 - 1205.35 m", b"JAR 0031", b"Sample bag", b"Shale, dark grey", b"TOP", b"BOTTOM",
    b"Descent 2", b"2026-03-14", b"5901234123457", b"96385074", b"012345678905", b"01234565", b"Gr\xc3\xb6\xc3\x9fe 40",
    b"\xe5\xb2\xa9\xe8\x8a\xaf", b"say \"top\" twice", b"a,b,c", b"N", b"P1", b"GW1,2,3,4,", b"x",
];

/// Lines that are no command, or hardly one.
#[rustfmt::skip]
pub const PROSE: &[&[u8]] = &[
    b"q609", b"Q406,24", b"S2", b"D8", b"ZT", b"ZB", b"JF", b"O", b"LE1,2,3,4", b"LE", b"LEFT JAR", b"L", b"I8,A,001", b"; remark", b"R", b"R-1", b"Rx",
    b"r1,2", b"n", b"NN", b"N N", b"P1,1", b"P 1", b"P-1", b"p1", b"PA1", b"FK\"X\"", b"US", b"EI", b"\xef\xbb\xbfN", b"A", b"B", b"b",
    b"A\"", b"B\"\"", b"Another box of jars", b"below the casing shoe", b"Box 12 is \"wet\"", b"GQ1", b"G W1,2,3,4,", b"gw1,2,3,4,",
];

/// The pieces of random token strings.
#[rustfmt::skip]
pub const TOKENS: &[&[u8]] = &[
    b"GW", b"GW,,,,", b"GW0,0,1,1,", b"GW1,2,2,2,", b"\n", b"\n", b"\n", b"\r\n", b",", b",", b",", b"\"", b"\"", b"N", b"N\n", b"P\n", b"P1",
    b"R", b"R1", b"R5,6\n", b"A", b"B", b"b", b"LO", b"LW", b"LS", b"LE", b"X", b"0", b"1", b"2", b"7", b"-", b"+", b" ", b"\t", b"\x0b",
    b"\xc2\xa0", b"\xe2\x80\x83", b"\xff", b"\xc3\xa9", b"\xe2", b"LO1,2,3,4\n", b"LE1,2,3,4\n", b"A1,2,0,1,1,1,N,\"x\"\n", b"B1,2,0,1,2,2,9,B,\"x\"\n",
    b"b1,2,Q,\"x\"\n", b"b,,M\"", b"LS1,2,3,4,5\n", b"X1,2,3,4,5\n", b"2147483647", b"-2147483648", b"E30", b"UA0", b"1A", b"M", b"Q", b"P",
    b"m2", b"s4", b"[)>\x1e01\x1d", b"123456", b"\x00",
];
