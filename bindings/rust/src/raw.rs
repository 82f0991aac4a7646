//! The functions of the static library, as include/laddertick.h has them, and safe calls of them. It needs no other
//! file: tools/bench and tools/diff take it in as it stands, so that the structs are written down once for Rust.

/// Where a walk stands.
#[repr(C)]
#[derive(Clone, Copy, Debug, Default, PartialEq, Eq)]
pub struct Walk {
    pub x: i32,
    pub y: i32,
    pub pending: usize,
    pub place: usize,
}

/// Dots of 1/300 inch. Lengths of 1/203 inch are plain numbers, and neither passes for the other.
#[repr(transparent)]
#[derive(Clone, Copy, Debug, Default, PartialEq, Eq, PartialOrd, Ord)]
pub struct Dots300(pub i32);

/// What a command draws; a field that its kind does not name is 0. Its lengths are of type `L`.
#[repr(C)]
#[derive(Clone, Copy, Debug, Default, PartialEq)]
pub struct Element<L = i32> {
    pub kind: u8,
    pub rotation: u8,
    pub reverse: u8,
    pub colour: u8,
    pub direction: u8,
    pub line: u8,
    pub check: u8,
    pub truncate: u8,
    pub level: u8,
    pub x: L,
    pub y: L,
    pub width: L,
    pub height: L,
    pub thickness: L,
    pub row_bytes: i32,
    pub security: i32,
    pub columns: i32,
    pub rows: i32,
    pub magnification: i32,
    pub size: i32,
    pub mode: i32,
    pub font: i32,
    pub horizontal: i32,
    pub vertical: i32,
    pub wide: i32,
    pub text_height: f64,
    pub text_width: f64,
    pub ratio: f64,
    pub data_start: usize,
    pub data_len: usize,
}

/// One at 300 dots an inch.
pub type Element300 = Element<Dots300>;

/// What a step answers; a field that its kind does not name is 0.
#[repr(C)]
#[derive(Clone, Copy, Debug, Default, PartialEq)]
pub struct Answer {
    pub kind: u8,
    pub number: u8,
    pub place: usize,
    pub count: usize,
    pub sets: i32,
    pub copies: i32,
    pub next: Walk,
    pub element: Element,
}

/// Number 0: `place` bytes are written, or the index has so many labels. Else a refusal.
#[repr(C)]
#[derive(Clone, Copy, Debug, PartialEq, Eq)]
pub struct Written {
    pub number: u32,
    pub place: usize,
}

/// Number 0: the file is accepted by the well-site profile, and every field is 0. Else a refusal; of 17 and 18 also the field, from 1, and what it held.
#[repr(C)]
#[derive(Clone, Copy, Debug, Default, PartialEq, Eq)]
pub struct Checked {
    pub number: u32,
    pub field: u32,
    pub held: u32,
    pub place: usize,
}

/// Where a label stands in a file, how many elements it has, and the reference point at its first place.
#[repr(C)]
#[derive(Clone, Copy, Debug, Default, PartialEq, Eq)]
pub struct Entry {
    pub first: usize,
    pub last: usize,
    pub count: usize,
    pub x: i32,
    pub y: i32,
}

/// Number 0: `place` bytes are written. Else a refusal, and the file that was refused, 1 or 2; 0 where neither was.
#[repr(C)]
#[derive(Clone, Copy, Debug, PartialEq, Eq)]
pub struct Joined {
    pub number: u32,
    pub file: u32,
    pub place: usize,
}

/// A closed rectangle: its near corner and its far one. Its edges belong to it.
#[repr(C)]
#[derive(Clone, Copy, Debug, Default, PartialEq, Eq)]
pub struct Rectangle {
    /// The near corner: along x.
    pub x1: i32,
    /// And along y.
    pub y1: i32,
    /// The far corner: along x.
    pub x2: i32,
    /// And along y.
    pub y2: i32,
}

/// Number 0: `place` elements are written, with the sets and copies of their label. Else a refusal.
#[repr(C)]
#[derive(Clone, Copy, Debug, Default, PartialEq, Eq)]
pub struct Label300 {
    pub number: u32,
    pub place: usize,
    pub sets: i32,
    pub copies: i32,
}

extern "C" {
    fn laddertick_start() -> Walk;
    fn laddertick_step(input: *const u8, input_len: usize, walk: Walk) -> Answer;
    fn laddertick_data(input: *const u8, input_len: usize, start: usize, len: usize, out: *mut u8, out_len: usize) -> Written;
    fn laddertick_list(input: *const u8, input_len: usize, out: *mut u8, out_len: usize) -> Written;
    fn laddertick_normalise(input: *const u8, input_len: usize, out: *mut u8, out_len: usize) -> Written;
    fn laddertick_check(input: *const u8, input_len: usize) -> Checked;
    fn laddertick_strict_list(input: *const u8, input_len: usize, out: *mut u8, out_len: usize) -> Written;
    fn laddertick_index(input: *const u8, input_len: usize, entries: *mut Entry, entries_len: usize) -> Written;
    fn laddertick_inside(
        input: *const u8,
        input_len: usize,
        entries: *const Entry,
        entries_len: usize,
        number: usize,
        r: Rectangle,
        list: *mut usize,
        list_len: usize,
    ) -> Written;
    fn laddertick_touching(
        input: *const u8,
        input_len: usize,
        entries: *const Entry,
        entries_len: usize,
        number: usize,
        r: Rectangle,
        list: *mut usize,
        list_len: usize,
    ) -> Written;
    fn laddertick_nearest(input: *const u8, input_len: usize, entries: *const Entry, entries_len: usize, number: usize, x: i32, y: i32) -> Written;
    fn laddertick_open(input: *const u8, input_len: usize, entries: *const Entry, entries_len: usize, number: usize, out: *mut u8, out_len: usize) -> Written;
    fn laddertick_join(first: *const u8, first_len: usize, second: *const u8, second_len: usize, out: *mut u8, out_len: usize) -> Joined;
    fn laddertick_to_300(
        input: *const u8,
        input_len: usize,
        entries: *const Entry,
        entries_len: usize,
        number: usize,
        list: *mut Element300,
        list_len: usize,
    ) -> Label300;
    fn laddertick_write(input: *const u8, input_len: usize, element: Element, out: *mut u8, out_len: usize) -> Written;
    fn laddertick_write_label(
        input: *const u8,
        input_len: usize,
        elements: *const Element,
        elements_len: usize,
        sets: i32,
        copies: i32,
        out: *mut u8,
        out_len: usize,
    ) -> Written;
    fn laddertick_write_label_300(
        input: *const u8,
        input_len: usize,
        elements: *const Element300,
        elements_len: usize,
        sets: i32,
        copies: i32,
        out: *mut u8,
        out_len: usize,
    ) -> Written;
}

// Safe, all of them: the pointers and lengths are those of slices, which nobody writes meanwhile and which, one of them being `&mut`, do not overlap. An empty
// slice's pointer leads nowhere, and the library takes any, NULL too. It asks for nothing else and keeps no pointer.

pub fn start() -> Walk {
    unsafe { laddertick_start() }
}

pub fn step(input: &[u8], walk: Walk) -> Answer {
    unsafe { laddertick_step(input.as_ptr(), input.len(), walk) }
}

pub fn data(input: &[u8], start: usize, len: usize, out: &mut [u8]) -> Written {
    unsafe { laddertick_data(input.as_ptr(), input.len(), start, len, out.as_mut_ptr(), out.len()) }
}

pub fn list(input: &[u8], out: &mut [u8]) -> Written {
    unsafe { laddertick_list(input.as_ptr(), input.len(), out.as_mut_ptr(), out.len()) }
}

pub fn normalise(input: &[u8], out: &mut [u8]) -> Written {
    unsafe { laddertick_normalise(input.as_ptr(), input.len(), out.as_mut_ptr(), out.len()) }
}

pub fn check(input: &[u8]) -> Checked {
    unsafe { laddertick_check(input.as_ptr(), input.len()) }
}

pub fn strict_list(input: &[u8], out: &mut [u8]) -> Written {
    unsafe { laddertick_strict_list(input.as_ptr(), input.len(), out.as_mut_ptr(), out.len()) }
}

pub fn index(input: &[u8], entries: &mut [Entry]) -> Written {
    unsafe { laddertick_index(input.as_ptr(), input.len(), entries.as_mut_ptr(), entries.len()) }
}

pub fn open(input: &[u8], entries: &[Entry], number: usize, out: &mut [u8]) -> Written {
    unsafe { laddertick_open(input.as_ptr(), input.len(), entries.as_ptr(), entries.len(), number, out.as_mut_ptr(), out.len()) }
}

pub fn join(first: &[u8], second: &[u8], out: &mut [u8]) -> Joined {
    unsafe { laddertick_join(first.as_ptr(), first.len(), second.as_ptr(), second.len(), out.as_mut_ptr(), out.len()) }
}

pub fn inside(input: &[u8], entries: &[Entry], number: usize, r: Rectangle, list: &mut [usize]) -> Written {
    unsafe { laddertick_inside(input.as_ptr(), input.len(), entries.as_ptr(), entries.len(), number, r, list.as_mut_ptr(), list.len()) }
}

pub fn touching(input: &[u8], entries: &[Entry], number: usize, r: Rectangle, list: &mut [usize]) -> Written {
    unsafe { laddertick_touching(input.as_ptr(), input.len(), entries.as_ptr(), entries.len(), number, r, list.as_mut_ptr(), list.len()) }
}

pub fn nearest(input: &[u8], entries: &[Entry], number: usize, x: i32, y: i32) -> Written {
    unsafe { laddertick_nearest(input.as_ptr(), input.len(), entries.as_ptr(), entries.len(), number, x, y) }
}

pub fn to_300(input: &[u8], entries: &[Entry], number: usize, list: &mut [Element300]) -> Label300 {
    unsafe { laddertick_to_300(input.as_ptr(), input.len(), entries.as_ptr(), entries.len(), number, list.as_mut_ptr(), list.len()) }
}

pub fn write(input: &[u8], element: Element, out: &mut [u8]) -> Written {
    unsafe { laddertick_write(input.as_ptr(), input.len(), element, out.as_mut_ptr(), out.len()) }
}

pub fn write_label(input: &[u8], elements: &[Element], sets: i32, copies: i32, out: &mut [u8]) -> Written {
    unsafe { laddertick_write_label(input.as_ptr(), input.len(), elements.as_ptr(), elements.len(), sets, copies, out.as_mut_ptr(), out.len()) }
}

pub fn write_label_300(input: &[u8], elements: &[Element300], sets: i32, copies: i32, out: &mut [u8]) -> Written {
    unsafe { laddertick_write_label_300(input.as_ptr(), input.len(), elements.as_ptr(), elements.len(), sets, copies, out.as_mut_ptr(), out.len()) }
}
