use crate::{raw, Refused};
use std::{error, fmt};

/// What a field held that the well-site profile objects to.
#[derive(Clone, Copy, Debug, PartialEq, Eq)]
#[non_exhaustive]
pub enum Held {
    /// Nothing but blanks.
    Empty,
    /// Something else than an optional sign and digits.
    NoNumber,
    /// A number outside 32 bits.
    Beyond,
    /// A value outside the profile.
    Outside,
}

/// A field that is not as the profile asks.
#[derive(Clone, Copy, Debug, PartialEq, Eq)]
pub struct Field {
    /// Counted from 1; of `R` everything behind the first comma is field 2.
    pub number: u32,
    /// What it held.
    pub held: Held,
}

/// A file that the well-site profile refuses.
#[derive(Clone, Copy, Debug, PartialEq, Eq)]
pub struct Unfit {
    /// The refusal.
    pub refused: Refused,
    /// Of 17 and 18; every other refusal is that of the plain reading and tells of no field.
    pub field: Option<Field>,
}

/// The well-site profile's verdict on a file typed by hand: every number field that has a default must hold a value, and rotations, fonts, multipliers and the width
/// of a graphic one in their range. A file that it accepts has the labels that [`labels`](crate::labels) answers; so check first, and then walk.
pub fn check(input: &[u8]) -> Result<(), Unfit> {
    let checked = raw::check(input);
    let held = match checked.held {
        1 => Some(Held::Empty),
        2 => Some(Held::NoNumber),
        3 => Some(Held::Beyond),
        4 => Some(Held::Outside),
        _ => None,
    };
    if checked.number == 0 {
        return Ok(());
    }
    let field = held.map(|held| Field { number: checked.field, held });
    Err(Unfit { refused: Refused { number: checked.number as u8, place: checked.place }, field })
}

impl fmt::Display for Held {
    fn fmt(&self, f: &mut fmt::Formatter<'_>) -> fmt::Result {
        f.write_str(match self {
            Held::Empty => "empty",
            Held::NoNumber => "no number",
            Held::Beyond => "beyond 32 bits",
            Held::Outside => "outside the profile",
        })
    }
}

impl fmt::Display for Unfit {
    fn fmt(&self, f: &mut fmt::Formatter<'_>) -> fmt::Result {
        self.refused.fmt(f)?;
        match self.field {
            Some(field) => write!(f, ", field {}: {}", field.number, field.held),
            None => Ok(()),
        }
    }
}

impl error::Error for Unfit {}
