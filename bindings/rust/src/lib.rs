//! EPL label files: a file's labels, its normalised text, and labels written.
//!
//! ```
//! let file = b"R10,20\nLO5,6,30,4\nA5,40,0,2,1,1,N,\"Bag 7\"\nP1\n";
//! let mut labels = laddertick::labels(file);
//! for label in &mut labels {
//!     for element in label?.elements {
//!         println!("{},{} {:?} {:?}", element.x, element.y, element.kind, element.text());
//!     }
//! }
//! if let Some(unprinted) = labels.unprinted() {
//!     eprintln!("{unprinted}");
//! }
//! # Ok::<(), laddertick::Refused>(())
//! ```
//!
//! [`Index`] opens single labels of a long file: it is read whole once, and then each label by its own bytes. [`Index::to_300`] sets one for a printer of 300 dots an
//! inch. [`write_label`] gives a label, as it was read or with another text, back as EPL.
//!
//! The work is done by a static library in which every function is proved to meet its contract, to return, and to touch only what it was lent
//! (docs/CONTRACTS.md of the repository). This crate is the thin safe side of it: it allocates, the library does not. To link, it needs the library: as `make install` has put it
//! (`pkg-config laddertick`), or from the folder that the environment variable `LADDERTICK_LIB` names; to be checked or documented it does not.

#![deny(missing_docs)]

mod check;
mod element;
mod fill;
mod index;
mod join;
mod raw;
mod refusal;
mod refused;
mod walk;
mod write;

pub use check::{check, Field, Held, Unfit};
pub use element::{BarMode, Bars, Colour, Dots300, Element, Kind, QrLevel, Scale};
use fill::filled;
pub use index::{Entry, Index, Label300};
pub use join::{join, Part, Unjoined};
pub use raw::Rectangle;
pub use refusal::Refusal;
pub use refused::Refused;
pub use walk::{labels, steps, Label, Labels, Print, Step, Steps, Unprinted};
pub use write::{write, write_label, write_label_300};

/// The version of this crate, which is that of the library that it was made with.
pub const VERSION: &str = env!("CARGO_PKG_VERSION");

/// The longest input; a longer one is refused 14.
pub const LONGEST: usize = 16_777_216;

/// The file with blanks and empty lines taken away and graphics copied whole. Only an input over [`LONGEST`] is refused.
pub fn normalise(input: &[u8]) -> Result<Vec<u8>, Refused> {
    // n + n / 6 + 1 bytes are always enough, so there is nothing to measure.
    filled(input.len() + input.len() / 6 + 1, |out| raw::normalise(input, out))
}

/// The labels of a file as frames, one a line in hexadecimal, and behind them frame fe if elements are pending at the end; or the refusal of the earliest
/// refused line.
pub fn list(input: &[u8]) -> Result<String, Refused> {
    listing(|out| raw::list(input, out))
}

/// As [`list`], under the well-site profile ([`check`]): the same listing, or the refusal of the earliest line that either reading refuses.
pub fn strict_list(input: &[u8]) -> Result<String, Refused> {
    listing(|out| raw::strict_list(input, out))
}

fn listing(of: impl Fn(&mut [u8]) -> raw::Written) -> Result<String, Refused> {
    Ok(String::from_utf8(filled(0, of)?).expect("a listing is hexadecimal digits and LF"))
}
