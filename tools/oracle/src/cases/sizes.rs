//! Long cases: QR data around 9,999 bytes, counted after decoding, and a file of 65,536 bytes.

use inputs::Maker;

pub fn cases() -> crate::Inputs {
    let mut cases = Vec::new();
    let qr = |data: &[u8]| [b"b1,2,Q,\"", data, b"\"\n"].concat();
    for n in 9_998..=10_001 {
        cases.push(qr(&vec![b'7'; n]));
        // One undecodable byte is three when decoded.
        cases.push(qr(&[vec![0xff; n / 3], vec![b'7'; n % 3]].concat()));
        // Characters of two bytes, and sequences cut after their third byte, keep their length.
        cases.push(qr(&[&b"\xc3\xa9"[..].repeat(n / 2)[..], &b"77"[..n % 2]].concat()));
    }
    cases.push(qr(&b"\xf0\x9f\x98"[..].repeat(3_333)));
    cases.push([b"LO1,2,3,4\nP\n ", &*qr(&vec![0xff; 3_334])].concat());
    // Other types have no such limit.
    cases.push([b"b1,2,A,\"", &*vec![0xff; 3_400], b"\"\n"].concat());
    // The listing program's longest input: one block and its print line.
    let payload = Maker::new(9, 0).payload(8 * 8_190);
    cases.push([b"GW1,2,8,8190,", &*payload, b"\nP\n"].concat());
    assert_eq!(cases[cases.len() - 1].len(), crate::LONGEST_CASE);
    cases
}
