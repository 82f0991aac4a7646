//! Standard input's frames, one a line; the one frame ff of a refusal; or `panic`. With the word `normalise`: its normalised text.

use std::io::{Read, Write};

fn main() -> std::io::Result<()> {
    let mut input = Vec::new();
    std::io::stdin().read_to_end(&mut input)?;
    let answer = match std::env::args().nth(1).as_deref() {
        Some("normalise") => oracle::normalised(&input),
        _ => oracle::listing(&input).lines().into_bytes(),
    };
    std::io::stdout().write_all(&answer)
}
