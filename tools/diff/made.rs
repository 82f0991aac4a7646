//! The mixture of made inputs, shared with tools/independent.

use inputs::Maker;

/// An input of one of the kinds, more or less odd.
pub fn made(maker: &mut Maker) -> Vec<u8> {
    maker.odd = [0, 60, 20, 8, 3][maker.rng.below(5)];
    match maker.rng.below(16) {
        0..=3 => maker.file(8),
        4..=5 => at_the_limit(maker),
        6 => maker.label(),
        7 => maker.graphics(60),
        8 if maker.rng.one_in(40) => maker.graphics(6_000),
        8 if maker.rng.one_in(200) => qr_sizes(maker),
        9 if maker.rng.one_in(20) => long_lines(maker),
        9 if maker.rng.one_in(4) => near_lf(maker),
        8..=9 => maker.unit(),
        10 => maker.tokens(16),
        11 => maker.bytes(32),
        12 => {
            let label = maker.label();
            maker.damaged(&label)
        }
        13 => {
            let graphics = maker.graphics(60);
            maker.damaged(&graphics)
        }
        _ => {
            let file = maker.file(6);
            maker.damaged(&file)
        }
    }
}

/// A reference near the limits of 32 bits, and a file behind it.
fn at_the_limit(maker: &mut Maker) -> Vec<u8> {
    let near = |maker: &mut Maker| i32::MAX as i64 - maker.rng.below(1_000) as i64;
    let x = near(maker);
    let y = if maker.rng.one_in(2) { near(maker) } else { -near(maker) };
    [format!("R{x},{y}\n").into_bytes(), maker.file(3)].concat()
}

/// QR data of about 9,999 bytes once decoded.
pub fn qr_sizes(maker: &mut Maker) -> Vec<u8> {
    let part = [&b"7"[..], b"\xff", b"\xc3\xa9", b"\xe2\x82", b"\xf0\x9f\x98", b"\xf0\x9f\x98\x80"][maker.rng.below(6)];
    let decoded = String::from_utf8_lossy(part).len();
    let odd = vec![b'7'; maker.rng.below(8)];
    [b"N\nb1,2,Q,\"", &*part.repeat(9_996 / decoded), &odd, b"\"\n"].concat()
}

/// Lines that are written in several pieces, with blanks at their ends and across the seams between pieces, and a label behind them.
fn long_lines(maker: &mut Maker) -> Vec<u8> {
    let mut input = Vec::new();
    for _ in 0..1 + maker.rng.below(2) {
        let blank = [b' ', b'\t', b'\r', 0x0c, 0x0b][maker.rng.below(5)];
        let from = maker.rng.below(3) * maker.rng.below(4_100);
        input.extend(vec![blank; from]);
        let start = input.len();
        input.extend(vec![b';'; 4_096 * (1 + maker.rng.below(3)) + maker.rng.below(9) - 4]);
        for seam in (start..input.len()).step_by(4_096) {
            let around = seam.saturating_sub(maker.rng.below(6)).max(start + 1)..(seam + maker.rng.below(6)).min(input.len());
            if maker.rng.one_in(2) && around.start < around.end {
                input[around].fill(blank);
            }
        }
        input.extend(vec![b' '; maker.rng.below(3) * maker.rng.below(4_100)]);
        input.extend([&b"\n"[..], b"\r\n", b""][maker.rng.below(3)]);
    }
    if maker.rng.one_in(2) {
        input.extend(maker.label());
    }
    input
}

/// Lines of up to some sixty-four bytes and more, of blanks and of bytes that are LF but for one bit.
fn near_lf(maker: &mut Maker) -> Vec<u8> {
    let mut input = Vec::new();
    for _ in 0..1 + maker.rng.below(6) {
        for _ in 0..maker.rng.below(150) {
            input.push([0x8a, 0x4a, 0x2a, 0x1a, 0x02, 0x0e, 0x08, 0x0b, b' ', b'\r'][maker.rng.below(10)]);
        }
        input.push(b'\n');
    }
    input.truncate(input.len() - maker.rng.below(2));
    input
}
