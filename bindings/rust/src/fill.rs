use crate::raw::Written;
use crate::Refused;

/// What `of` writes: into room for `guess` bytes, or into as many as it then says that it needs.
pub fn filled(guess: usize, of: impl Fn(&mut [u8]) -> Written) -> Result<Vec<u8>, Refused> {
    let mut out = vec![0; guess];
    let mut written = of(&mut out);
    if written.number == Refused::OUTPUT_TOO_SHORT as u32 {
        out.resize(written.place, 0);
        written = of(&mut out);
    }
    if written.number != 0 {
        return Err(Refused { number: written.number as u8, place: written.place });
    }
    out.truncate(written.place);
    Ok(out)
}
