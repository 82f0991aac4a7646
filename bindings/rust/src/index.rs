use crate::element::{element, Dots300, Element};
use crate::fill::filled;
use crate::raw::{self, Rectangle, Walk, Written};
use crate::walk::{labels_from, steps_from, Label, Steps};
use crate::Refused;
use std::iter::FusedIterator;
use std::ops::Range;

/// Where each label of a file stands, so that one can be opened and no other be read. It borrows the file. Labels are numbered from 0, in the order in which they are
/// printed; elements behind the last print line are no label.
///
/// ```
/// let file = b"LO1,1,9,9\nP1\nR10,20\nA0,0,0,2,1,1,N,\"Jar 2\"\nP3,2\n";
/// let index = laddertick::Index::of(file)?;
/// assert_eq!(index.len(), 2);
/// let entry = index.get(1).unwrap();
/// assert_eq!((entry.bytes(), entry.elements()), (13..48, 1));
/// let label = entry.label();
/// assert_eq!((label.sets, label.copies), (3, 2));
/// assert_eq!(label.elements[0].text().as_deref(), Some("Jar 2"));
/// # Ok::<(), laddertick::Refused>(())
/// ```
#[derive(Clone, Debug)]
pub struct Index<'a> {
    input: &'a [u8],
    entries: Vec<raw::Entry>,
}

impl<'a> Index<'a> {
    /// The index of a file, or the refusal of its earliest refused line. The whole file is read.
    pub fn of(input: &'a [u8]) -> Result<Index<'a>, Refused> {
        // Room for labels of a few lines; where there are more, 20 tells how many.
        let mut entries = vec![raw::Entry::default(); input.len() / 128];
        let mut written = raw::index(input, &mut entries);
        if written.number == Refused::TOO_MANY_LABELS as u32 {
            entries.resize(written.place, raw::Entry::default());
            written = raw::index(input, &mut entries);
        }
        if written.number != 0 {
            return Err(Refused { number: written.number as u8, place: written.place });
        }
        entries.truncate(written.place);
        Ok(Index { input, entries })
    }

    /// How many labels there are.
    pub fn len(&self) -> usize {
        self.entries.len()
    }

    /// There is no label.
    pub fn is_empty(&self) -> bool {
        self.entries.is_empty()
    }

    /// The label with this number, from 0; none past the last one.
    pub fn get(&self, number: usize) -> Option<Entry<'a>> {
        self.entries.get(number).map(|&entry| Entry { input: self.input, number, entry })
    }

    /// All labels, by their numbers. None of them is read before it is asked for.
    ///
    /// ```
    /// let file = b"LO1,1,9,9\nP\nLO2,2,9,9\nLO3,3,9,9\nP\n";
    /// let index = laddertick::Index::of(file)?;
    /// let counts: Vec<_> = index.iter().map(|entry| (entry.number(), entry.elements())).collect();
    /// assert_eq!(counts, [(0, 1), (1, 2)]);
    /// # Ok::<(), laddertick::Refused>(())
    /// ```
    pub fn iter(&self) -> impl DoubleEndedIterator<Item = Entry<'a>> + ExactSizeIterator + FusedIterator + '_ {
        self.entries.iter().enumerate().map(|(number, &entry)| Entry { input: self.input, number, entry })
    }

    /// One label as frames, one a line in hexadecimal: what [`list`](crate::list) has for it. A number past the last label is refused 21.
    ///
    /// ```
    /// let file = b"LO1,1,9,9\nP\nR10,20\nLO5,6,30,4\nP1\n";
    /// let index = laddertick::Index::of(file)?;
    /// assert_eq!(index.list(1)?, "00000000010000000100000001\n020000000f0000001a0000001e000000040000000400\n");
    /// assert_eq!(index.list(2).unwrap_err().number, 21);
    /// # Ok::<(), laddertick::Refused>(())
    /// ```
    pub fn list(&self, number: usize) -> Result<String, Refused> {
        let lines = filled(0, |out| raw::open(self.input, &self.entries, number, out))?;
        Ok(String::from_utf8(lines).expect("a listing is hexadecimal digits and LF"))
    }

    /// One label, set for 203 dots an inch, for 300: positions, sizes of boxes and diagonals and heights of bar codes become the nearest whole number to 300/203 of the
    /// old, and all else stays. A label with a graphic is refused 24, a new length beyond 32 bits 13 or 19, a number past the last label 21.
    ///
    /// ```
    /// use laddertick::{Dots300, Index, Kind};
    /// let file = b"LO-1,-2,7,5\nB1,2,0,1,2,5,30,B,\"x\"\nP2,3\n";
    /// let label = Index::of(file)?.to_300(0)?;
    /// assert_eq!((label.sets, label.copies), (2, 3));
    /// assert_eq!((label.elements[0].x, label.elements[0].y), (Dots300(-1), Dots300(-3)));
    /// assert!(matches!(label.elements[0].kind, Kind::Box { width: Dots300(10), height: Dots300(7), .. }));
    /// assert!(matches!(label.elements[1].kind, Kind::Code128 { bars, .. } if bars.narrow == 2 && bars.height == Dots300(44)));
    /// # Ok::<(), laddertick::Refused>(())
    /// ```
    pub fn to_300(&self, number: usize) -> Result<Label300<'a>, Refused> {
        let mut list = vec![raw::Element::default(); self.entries.get(number).map_or(0, |entry| entry.count)];
        let said = raw::to_300(self.input, &self.entries, number, &mut list);
        if said.number != 0 {
            return Err(Refused { number: said.number as u8, place: said.place });
        }
        list.truncate(said.place);
        let elements = list.into_iter().map(|e| element(self.input, e)).collect();
        Ok(Label300 { sets: said.sets, copies: said.copies, elements })
    }
}

/// A label at 300 dots an inch.
#[derive(Clone, Debug, PartialEq)]
#[non_exhaustive]
pub struct Label300<'a> {
    /// Label sets.
    pub sets: i32,
    /// Copies of each label.
    pub copies: i32,
    /// Its elements in file order.
    pub elements: Vec<Element<'a, Dots300>>,
}

impl Index<'_> {
    /// The numbers, from 0, of the elements of a label whose position lies in a rectangle, in file order. Refused 22 where the far corner is below the near one on
    /// either axis, then 21 past the last label.
    ///
    /// ```
    /// use laddertick::{Index, Rectangle};
    /// let index = Index::of(b"LO1,2,3,4\nLO50,60,7,8\nP\n")?;
    /// assert_eq!(index.inside(0, Rectangle { x1: 50, y1: 60, x2: 50, y2: 60 })?, [1]);
    /// assert_eq!(index.inside(9, Rectangle { x1: 2, y1: 0, x2: 1, y2: 0 }).unwrap_err().number, 22);
    /// # Ok::<(), laddertick::Refused>(())
    /// ```
    pub fn inside(&self, number: usize, r: Rectangle) -> Result<Vec<usize>, Refused> {
        found(|list| raw::inside(self.input, &self.entries, number, r, list))
    }

    /// Of its boxes and diagonals, those whose own rectangle, from position to position plus width and height, shares a point with another; likewise.
    ///
    /// ```
    /// use laddertick::{Index, Rectangle};
    /// let index = Index::of(b"LO1,2,3,4\nLO50,60,7,8\nP\n")?;
    /// assert_eq!(index.touching(0, Rectangle { x1: 4, y1: 6, x2: 49, y2: 99 })?, [0]);
    /// # Ok::<(), laddertick::Refused>(())
    /// ```
    pub fn touching(&self, number: usize, r: Rectangle) -> Result<Vec<usize>, Refused> {
        found(|list| raw::touching(self.input, &self.entries, number, r, list))
    }

    /// The number, from 0, of the element of a label whose position is nearest to a point, by the larger of the distances along x and y; of equals the earlier.
    ///
    /// ```
    /// let index = laddertick::Index::of(b"LO0,0,1,1\nLO200,0,1,1\nP\n")?;
    /// assert_eq!((index.nearest(0, 100, 0)?, index.nearest(0, 101, 90)?), (0, 1));
    /// # Ok::<(), laddertick::Refused>(())
    /// ```
    pub fn nearest(&self, number: usize, x: i32, y: i32) -> Result<usize, Refused> {
        let written = raw::nearest(self.input, &self.entries, number, x, y);
        if written.number != 0 {
            return Err(Refused { number: written.number as u8, place: written.place });
        }
        Ok(written.place)
    }
}

/// The numbers that `of` writes: it is lent no room first, and says how many there are.
fn found(of: impl Fn(&mut [usize]) -> Written) -> Result<Vec<usize>, Refused> {
    let mut list = Vec::new();
    let mut written = of(&mut list);
    if written.number == Refused::OUTPUT_TOO_SHORT as u32 {
        list.resize(written.place, 0);
        written = of(&mut list);
    }
    if written.number != 0 {
        return Err(Refused { number: written.number as u8, place: written.place });
    }
    Ok(list)
}

/// One label of an [`Index`]: where it stands, and the way to its elements, which reads its own bytes and no others.
#[derive(Clone, Copy, Debug)]
pub struct Entry<'a> {
    input: &'a [u8],
    number: usize,
    entry: raw::Entry,
}

impl<'a> Entry<'a> {
    /// Its number, from 0.
    pub fn number(&self) -> usize {
        self.number
    }

    /// Its bytes in the file: from just behind the print line before it, one that printed nothing included, or 0, to just behind its own.
    pub fn bytes(&self) -> Range<usize> {
        self.entry.first..self.entry.last
    }

    /// How many elements it has.
    pub fn elements(&self) -> usize {
        self.entry.count
    }

    /// The reference point at its first byte, which is what the labels before it left.
    pub fn reference(&self) -> (i32, i32) {
        (self.entry.x, self.entry.y)
    }

    /// Its elements, label sets and copies.
    pub fn label(&self) -> Label<'a> {
        labels_from(self.steps()).next().expect("an entry has a label").expect("a file that is indexed is not refused")
    }

    /// The steps over its own bytes: elements, clears, which drop the elements before them, and its print as the last.
    ///
    /// ```
    /// use laddertick::{Index, Step};
    /// let file = b"LO1,1,9,9\nP\nLO2,2,9,9\nN\nLO3,3,9,9\nP5\n";
    /// let index = Index::of(file)?;
    /// let mut steps = index.get(1).unwrap().steps();
    /// assert!(matches!(steps.next(), Some(Ok(Step::Element(e))) if e.x == 2));
    /// assert!(matches!(steps.next(), Some(Ok(Step::Clear))));
    /// assert!(matches!(steps.next(), Some(Ok(Step::Element(e))) if e.x == 3));
    /// assert!(matches!(steps.next(), Some(Ok(Step::Print(p))) if (p.count, p.sets) == (1, 5)));
    /// assert!(steps.next().is_none());
    /// # Ok::<(), laddertick::Refused>(())
    /// ```
    pub fn steps(&self) -> Steps<'a> {
        let walk = Walk { x: self.entry.x, y: self.entry.y, pending: 0, place: self.entry.first };
        steps_from(&self.input[..self.entry.last], walk)
    }
}
