use crate::element::{plain, Dots300, Element, Length};
use crate::fill::filled;
use crate::index::Label300;
use crate::raw::{self, Written};
use crate::walk::Label;
use crate::{Refusal, Refused, LONGEST};

/// No command has more bytes than this beside its data, so that a first guess is rarely too short; where it is, 15 tells.
const COMMAND: usize = 70;

/// One element as its command and an LF. Read again, wherever it stands in a file, it yields an equal element.
///
/// Each element has one spelling (docs/CONTRACTS.md of the repository): a black box is `LO` where its thickness is the smaller side and both sides are at least 1,
/// else `X`; a Code 128 in mode Automatic has type 1. An element that no single line or block yields is refused 23
/// ([`NotReadable`](crate::Refusal::NotReadable)), with place 0: a negative width, data that is empty, a box with data, a cell or a ratio that is not the scale's or the bars'
/// own ([`Scale::cell`](crate::Scale::cell), [`Bars::ratio`](crate::Bars::ratio)). Data longer than [`LONGEST`](crate::LONGEST) is refused 14 before that.
///
/// ```
/// use laddertick::{write, Colour, Element, Kind};
/// let element = Element::new(5, 6, Kind::Box { width: 30, height: 4, thickness: 4, colour: Colour::White }, b"");
/// assert_eq!(write(&element)?, b"LW5,6,30,4\n");
/// # Ok::<(), laddertick::Refused>(())
/// ```
pub fn write(element: &Element<'_>) -> Result<Vec<u8>, Refused> {
    filled(COMMAND + element.data.len(), |out| raw::write(element.data, plain(element, 0), out))
}

/// A label as EPL: `N`, its elements, each as [`write()`] has it, and its print line. Read again, the text is one label, equal to this one.
///
/// Refused 23 where one of its elements is: the place is its number, from 0. Behind that, with the element count as its place, a label with no element, more than
/// 16,777,216 elements or a negative number of sets or copies. Data of more than [`LONGEST`](crate::LONGEST) bytes together is refused 14 before all else.
///
/// ```
/// let file = b"R10,20\nLO5,6,30,4\nA5,40,0,2,1,1,N,\"Bag 7\"\nP2,3\n";
/// let mut label = laddertick::labels(file).next().unwrap()?;
/// label.elements[1].data = b"Bag 8";
/// assert_eq!(laddertick::write_label(&label)?, b"N\nLO15,26,30,4\nA15,60,0,2,1,1,N,\"Bag 8\"\nP2,3\n");
/// # Ok::<(), laddertick::Refused>(())
/// ```
pub fn write_label(label: &Label<'_>) -> Result<Vec<u8>, Refused> {
    written(&label.elements, |input, elements, out| raw::write_label(input, elements, label.sets, label.copies, out))
}

/// As [`write_label`], of a label for 300 dots an inch ([`Index::to_300`](crate::Index::to_300)): the numbers written are the new printer's dots.
///
/// ```
/// let label = laddertick::Index::of(b"LO-1,-2,7,5\nB1,2,0,1,2,5,30,B,\"x\"\nP2,3\n")?.to_300(0)?;
/// assert_eq!(laddertick::write_label_300(&label)?, b"N\nLO-1,-3,10,7\nB1,3,0,1,2,2,44,B,\"x\"\nP2,3\n");
/// # Ok::<(), laddertick::Refused>(())
/// ```
pub fn write_label_300(label: &Label300<'_>) -> Result<Vec<u8>, Refused> {
    written::<Dots300>(&label.elements, |input, elements, out| raw::write_label_300(input, elements, label.sets, label.copies, out))
}

/// What `of` writes of these elements. Their data may be of several files or of none; the library reads it from one input, in which it is laid end to end.
fn written<L: Length>(elements: &[Element<'_, L>], of: impl Fn(&[u8], &[raw::Element<L>], &mut [u8]) -> Written) -> Result<Vec<u8>, Refused> {
    let room = elements.iter().map(|e| e.data.len()).fold(0, usize::saturating_add);
    // As the library would refuse it, but without so much memory.
    if room > LONGEST {
        return Err(Refused { number: Refusal::InputTooLong.number(), place: 0 });
    }
    let mut input = Vec::with_capacity(room);
    let mut list = Vec::with_capacity(elements.len());
    for e in elements {
        // Without data there is no place.
        list.push(plain(e, if e.data.is_empty() { 0 } else { input.len() }));
        input.extend_from_slice(e.data);
    }
    // `N`, and `P` with two counts.
    filled(2 + COMMAND * list.len() + input.len() + 24, |out| of(&input, &list, out))
}
