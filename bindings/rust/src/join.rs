use crate::{raw, Refused};
use std::{error, fmt};

/// One of the two files that [`join`] is given.
#[derive(Clone, Copy, Debug, PartialEq, Eq)]
pub enum Part {
    /// The first.
    First,
    /// The second.
    Second,
}

/// Two files that are not joined.
#[derive(Clone, Copy, Debug, PartialEq, Eq)]
pub struct Unjoined {
    /// The refusal; its place is in the file that was refused.
    pub refused: Refused,
    /// The file that was refused; none where both are accepted and their joined text is longer than [`LONGEST`](crate::LONGEST) (25).
    pub part: Option<Part>,
}

/// The first file normalised, a line `N`, the second normalised: the labels of the first, followed by those of the second. Elements that no print line of the first
/// prints are dropped there.
pub fn join(first: &[u8], second: &[u8]) -> Result<Vec<u8>, Unjoined> {
    // Each normalised text has room in n + n / 6 + 1 bytes, and the line between them in two, so there is nothing to measure.
    let room = |file: &[u8]| file.len() + file.len() / 6 + 1;
    let mut out = vec![0; room(first) + 2 + room(second)];
    let joined = raw::join(first, second, &mut out);
    if joined.number != 0 {
        let part = match joined.file {
            1 => Some(Part::First),
            2 => Some(Part::Second),
            _ => None,
        };
        return Err(Unjoined { refused: Refused { number: joined.number as u8, place: joined.place }, part });
    }
    out.truncate(joined.place);
    Ok(out)
}

impl fmt::Display for Unjoined {
    fn fmt(&self, f: &mut fmt::Formatter<'_>) -> fmt::Result {
        match self.part {
            Some(Part::First) => write!(f, "the first file: {}", self.refused),
            Some(Part::Second) => write!(f, "the second file: {}", self.refused),
            None => self.refused.fmt(f),
        }
    }
}

impl error::Error for Unjoined {}
