use crate::refusal::{is_of_line, Refusal};
use std::{error, fmt};

/// A refusal: its number and its place.
#[derive(Clone, Copy, Debug, PartialEq, Eq)]
pub struct Refused {
    /// The number, as the library gives it. [`refusal`](Refused::refusal) has its name.
    pub number: u8,
    /// The first byte of the refused line, its blanks included, counted from 0; of some refusals something else, which [`Refusal`] says.
    pub place: usize,
}

impl Refused {
    pub(crate) const OUTPUT_TOO_SHORT: u8 = Refusal::OutputTooShort as u8;
    pub(crate) const TOO_MANY_LABELS: u8 = Refusal::TooManyLabels as u8;

    /// Which refusal it is; none where the library is newer than this crate and has given a number that is not known here.
    ///
    /// ```
    /// use laddertick::{labels, Refusal};
    /// let refused = labels(b"LO1,2\n").next().unwrap().unwrap_err();
    /// assert_eq!(refused.refusal(), Some(Refusal::LineFields));
    /// ```
    pub fn refusal(&self) -> Option<Refusal> {
        Refusal::from_number(self.number)
    }

    /// What the number means, in the words that `laddertick` prints.
    pub fn meaning(&self) -> &'static str {
        self.refusal().map_or("unknown", Refusal::meaning)
    }
}

impl fmt::Display for Refused {
    fn fmt(&self, f: &mut fmt::Formatter<'_>) -> fmt::Result {
        write!(f, "refused ({}): {}", self.number, self.meaning())?;
        if is_of_line(self.number) {
            write!(f, ", at offset {} (from 0)", self.place)?;
        }
        Ok(())
    }
}

impl error::Error for Refused {}
