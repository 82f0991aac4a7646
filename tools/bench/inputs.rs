//! The inputs of the benchmark: each kind at any size, the same on every machine.

/// A kind of input by its name, and how it is made at a size.
pub struct Kind {
    pub name: &'static str,
    pub make: fn(usize) -> Vec<u8>,
    /// The Rust takes the square of the length on it.
    pub hostile: bool,
}

pub const KINDS: &[Kind] = &[
    Kind { name: "labels", make: labels, hostile: false },
    Kind { name: "bar codes", make: bar_codes, hostile: false },
    Kind { name: "graphics", make: graphics, hostile: false },
    Kind { name: "one line", make: one_line, hostile: false },
    Kind { name: "blocks without LF", make: blocks, hostile: true },
    Kind { name: "refused at the end", make: refused, hostile: false },
];

/// Parts with their numbers, as many as fit, filled up with one line that says nothing.
fn filled(size: usize, part: impl Fn(usize) -> Vec<u8>) -> Vec<u8> {
    let mut input = Vec::with_capacity(size);
    for i in 0.. {
        let next = part(i);
        if input.len() + next.len() > size {
            break;
        }
        input.extend(next);
    }
    input.resize(size, b';');
    input
}

/// Jar and bag labels as a driver sends them.
fn labels(size: usize) -> Vec<u8> {
    filled(size, label)
}

/// One label again and again, and nothing behind the last.
pub fn same_label(size: usize) -> Vec<u8> {
    label(0).repeat(size / label(0).len())
}

/// One label that is a whole file: texts, lines and bar codes, and a print line at the end.
pub fn one_label(size: usize) -> Vec<u8> {
    let last = b"\nP1\n";
    let mut input = filled(size - last.len(), |i| {
        let (x, y) = (i % 700, i % 1_100);
        format!(
            "A{x},{y},0,2,1,1,N,\"Grey siltstone {i}\"\r\nLO{x},{y},380,2\r\nX{x},{y},3,{},{}\r\nB{x},{y},0,1,2,4,60,B,\"K07-{i:06}\"\r\n",
            x + 100,
            y + 90
        )
        .into_bytes()
    });
    input.extend(last);
    input
}

/// Settings, a reference, texts, lines, a bar code.
fn label(i: usize) -> Vec<u8> {
    let (from, to) = (i % 900, i % 900 + 1);
    format!(
        "N\r\nq609\r\nQ406,24\r\nS2\r\nD8\r\nR{},8\r\nA0,0,0,4,1,1,N,\"KARST-07 BAG {i:04}\"\r\n\
         A0,30,0,2,1,1,N,\"{from}.30 - {to}.55 m\"\r\nA0,52,0,2,1,1,N,\"Grey siltstone, calcite veins\"\r\n\
         A0,74,0,3,1,2,R,\"Bohrung Süd 3, Kiste {}\"\r\nLO0,92,380,2\r\nX0,140,3,560,330\r\n\
         B0,100,0,1,2,4,60,B,\"K07-{i:06}\"\r\nA260,104,0,3,1,1,N,\"HCL\"\r\nP1\r\n",
        i % 16,
        i % 40,
    )
    .into_bytes()
}

fn bar_codes(size: usize) -> Vec<u8> {
    filled(size, |i| {
        format!(
            "N\nB30,20,0,1,2,4,60,B,\"K07-{i:06}\"\nB30,120,0,E30,3,6,80,B,\"4006381{:05}\"\nB30,240,1,3C,2,5,60,N,\"S3-{i:04}\"\n\
             b400,20,P,600,300,s3,l4,r30,x2,y6,\"SITE=NORTH;TRAY={i};FROM=21.5\"\nb400,200,D,h4,\"N-T{i}\"\n\
             b80,200,Q,m2,s4,eM,\"SUD3;18;118.0;119.0;{i:04}\"\nb30,300,A,d4,\"core {i}\"\nP1\n",
            i % 100_000,
        )
        .into_bytes()
    })
}

/// A drawn profile of 480 by 100 dots, white but for its line, between a few lines.
fn graphics(size: usize) -> Vec<u8> {
    filled(size, |i| {
        let mut label = b"N\nR8,8\nGW10,20,60,100,".to_vec();
        label.extend((0..6_000).map(|k| if k % 60 == (k / 60 * 7 + i) % 60 { 0x3c } else { 0 }));
        label.extend(format!("\nA0,130,0,2,1,1,N,\"profile {i}\"\nP1\n").bytes());
        label
    })
}

/// One text of that length.
fn one_line(size: usize) -> Vec<u8> {
    let mut input = b"A0,0,0,4,1,1,N,\"".to_vec();
    input.resize(size - 2, b'x');
    input.extend(b"\"\n");
    input
}

/// Empty graphics with no LF between them.
fn blocks(size: usize) -> Vec<u8> {
    filled(size, |_| b"GW,,,,".to_vec())
}

/// Labels whose last line has too few fields.
fn refused(size: usize) -> Vec<u8> {
    let last = b"\nLO1,2\n";
    let mut input = labels(size - last.len());
    input.extend(last);
    input
}
