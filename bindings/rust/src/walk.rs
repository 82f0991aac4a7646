use crate::element::{element, Element};
use crate::raw::{self, Walk};
use crate::Refused;
use std::fmt;
use std::iter::FusedIterator;

/// What a step of a walk answers.
#[derive(Clone, Debug, PartialEq)]
pub enum Step<'a> {
    /// An element of the label that is being drawn.
    Element(Element<'a>),
    /// The elements since the last clear or print are dropped.
    Clear,
    /// They are a label.
    Print(Print),
}

/// What a print says of its label.
#[derive(Clone, Copy, Debug, PartialEq, Eq)]
pub struct Print {
    /// How many elements it has.
    pub count: usize,
    /// Label sets: 0 or more, and 1 where the print line does not say.
    pub sets: i32,
    /// Copies of each label, likewise.
    pub copies: i32,
}

/// Elements behind the last print line of a file. They are no label: the file may have been sent by halves. In words: "2 elements behind the last print line:
/// no label".
#[derive(Clone, Copy, Debug, PartialEq, Eq)]
pub struct Unprinted {
    /// How many there are, at least 1.
    pub elements: usize,
}

impl fmt::Display for Unprinted {
    fn fmt(&self, f: &mut fmt::Formatter<'_>) -> fmt::Result {
        let word = if self.elements == 1 { "element" } else { "elements" };
        write!(f, "{} {word} behind the last print line: no label", self.elements)
    }
}

/// A walk over a file, a step at a time. It ends at the end of the file or behind a refusal.
#[derive(Clone, Debug)]
pub struct Steps<'a> {
    input: &'a [u8],
    walk: Walk,
    over: bool,
    unprinted: Option<Unprinted>,
}

/// The steps of a file.
pub fn steps(input: &[u8]) -> Steps<'_> {
    steps_from(input, raw::start())
}

pub(crate) fn steps_from(input: &[u8], walk: Walk) -> Steps<'_> {
    Steps { input, walk, over: false, unprinted: None }
}

impl Steps<'_> {
    /// Once the end of the file is reached: the elements that no print line printed, if there are any. Of a refused file none.
    pub fn unprinted(&self) -> Option<Unprinted> {
        self.unprinted
    }
}

impl<'a> Iterator for Steps<'a> {
    type Item = Result<Step<'a>, Refused>;

    fn next(&mut self) -> Option<Self::Item> {
        if self.over {
            return None;
        }
        let answer = raw::step(self.input, self.walk);
        self.walk = answer.next;
        match answer.kind {
            0 => Some(Ok(Step::Print(Print { count: answer.count, sets: answer.sets, copies: answer.copies }))),
            17 => Some(Ok(Step::Clear)),
            18 => {
                self.over = true;
                let elements = answer.next.pending;
                self.unprinted = (elements != 0).then_some(Unprinted { elements });
                None
            }
            255 => {
                self.over = true;
                Some(Err(Refused { number: answer.number, place: answer.place }))
            }
            _ => Some(Ok(Step::Element(element(self.input, answer.element)))),
        }
    }
}

impl FusedIterator for Steps<'_> {}

/// A label.
#[derive(Clone, Debug, PartialEq)]
pub struct Label<'a> {
    /// Its elements, in file order.
    pub elements: Vec<Element<'a>>,
    /// Label sets: 0 or more, and 1 where the print line does not say.
    pub sets: i32,
    /// Copies of each label, likewise.
    pub copies: i32,
}

/// The labels of a file, in the order in which they are printed. A refusal is the last item; the labels before it were printed before the refused line.
/// `labels(file).collect::<Result<Vec<_>, _>>()` gives all labels, or the refusal; a loop by `&mut labels` can ask for what is [`unprinted`](Labels::unprinted) then.
#[derive(Clone, Debug)]
pub struct Labels<'a> {
    steps: Steps<'a>,
}

/// The labels of a file.
pub fn labels(input: &[u8]) -> Labels<'_> {
    labels_from(steps(input))
}

pub(crate) fn labels_from(steps: Steps<'_>) -> Labels<'_> {
    Labels { steps }
}

impl Labels<'_> {
    /// Once the last label was given: the elements behind the last print line, if there are any.
    pub fn unprinted(&self) -> Option<Unprinted> {
        self.steps.unprinted()
    }
}

impl<'a> Iterator for Labels<'a> {
    type Item = Result<Label<'a>, Refused>;

    fn next(&mut self) -> Option<Self::Item> {
        let mut elements = Vec::new();
        for step in &mut self.steps {
            match step {
                Ok(Step::Element(element)) => elements.push(element),
                Ok(Step::Clear) => elements.clear(),
                Ok(Step::Print(Print { sets, copies, .. })) => return Some(Ok(Label { elements, sets, copies })),
                Err(refused) => return Some(Err(refused)),
            }
        }
        None
    }
}

impl FusedIterator for Labels<'_> {}
