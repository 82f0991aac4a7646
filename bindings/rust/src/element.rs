use crate::fill::filled;
use crate::raw;
pub use crate::raw::Dots300;
use std::borrow::Cow;
use std::str;

/// What a command draws. Its lengths `L` are dots as the file has them, or [`Dots300`].
#[derive(Clone, Debug, PartialEq)]
#[non_exhaustive]
pub struct Element<'a, L = i32> {
    /// The position in dots, the reference point added: along x.
    pub x: L,
    /// And along y.
    pub y: L,
    /// What it is, with its numbers.
    pub kind: Kind<L>,
    /// The bytes of its data as they stand in the file: a graphic's dots, row by row (the Rust that this is a port of draws a 1 bit black); all other
    /// data is text. Empty where a kind has none.
    pub data: &'a [u8],
}

impl<'a, L> Element<'a, L> {
    /// An element of a host's own making, for [`write`](crate::write) and [`write_label`](crate::write_label), which refuse 23 what no file yields.
    pub fn new(x: L, y: L, kind: Kind<L>, data: &'a [u8]) -> Element<'a, L> {
        Element { x, y, kind, data }
    }

    /// The data as text: UTF-8 as it stands, which is borrowed from the file; else decoded, with U+FFFD for what is none. A graphic has none.
    ///
    /// ```
    /// use std::borrow::Cow;
    /// let label = |file| laddertick::labels(file).next().unwrap().unwrap();
    /// let text = label("A1,2,0,1,1,1,N,\"S\u{fc}d 3\"\nP\n".as_bytes()).elements[0].text();
    /// assert!(matches!(text, Some(Cow::Borrowed("S\u{fc}d 3"))));
    /// let text = label(b"A1,2,0,1,1,1,N,\"S\xfcd 3\"\nP\n").elements[0].text();
    /// assert_eq!(text.as_deref(), Some("S\u{fffd}d 3"));
    /// ```
    pub fn text(&self) -> Option<Cow<'a, str>> {
        if self.data.is_empty() || matches!(self.kind, Kind::Graphic { .. }) {
            return None;
        }
        if let Ok(text) = str::from_utf8(self.data) {
            return Some(Cow::Borrowed(text));
        }
        let bytes = filled(self.data.len(), |out| raw::data(self.data, 0, self.data.len(), out));
        let bytes = bytes.expect("part of a file is no longer than the file");
        Some(Cow::Owned(String::from_utf8(bytes).expect("decoded data is UTF-8")))
    }
}

/// The kind of an element and its numbers. Sizes are in dots, rotations in quarter turns, 0 to 3. Later versions of the library may have more of them.
#[derive(Clone, Debug, PartialEq)]
#[non_exhaustive]
pub enum Kind<L = i32> {
    /// A text.
    Text {
        /// Quarter turns.
        rotation: u8,
        /// White on black.
        reverse: bool,
        /// What it is set from.
        scale: Scale,
        /// The height of its cell, which is the one that the scale gives.
        height: f64,
        /// The width of its cell, likewise.
        width: f64,
    },
    /// A box, or a line that is one.
    Box {
        /// Its width.
        width: L,
        /// Its height.
        height: L,
        /// How thick its sides are; of a line the smaller of width and height.
        thickness: L,
        /// How it is drawn.
        colour: Colour,
    },
    /// A diagonal.
    Diagonal {
        /// How far it goes along x.
        width: L,
        /// How far it goes along y.
        height: L,
        /// How thick it is.
        thickness: L,
        /// It falls from top left to bottom right (a point does too), or rises from bottom left to top right, or is horizontal or vertical.
        falls: bool,
    },
    /// A graphic; its dots are the element's data.
    Graphic {
        /// Bytes a row; 0 where there is no data.
        row_bytes: i32,
    },
    /// Code 128.
    Code128 {
        /// Its bars.
        bars: Bars<L>,
        /// Which of the three types the file names.
        mode: BarMode,
    },
    /// EAN-13.
    Ean13(Bars<L>),
    /// EAN-8.
    Ean8(Bars<L>),
    /// UPC-A.
    UpcA(Bars<L>),
    /// UPC-E.
    UpcE(Bars<L>),
    /// Interleaved 2 of 5.
    Interleaved2of5 {
        /// Its bars.
        bars: Bars<L>,
        /// With a check digit.
        check: bool,
        /// The wide bar: the file's number, 0 and below too.
        wide: i32,
        /// Wide bar to narrow bar, at least 2.
        ratio: f64,
    },
    /// Code 39.
    Code39 {
        /// Its bars.
        bars: Bars<L>,
        /// With a check digit.
        check: bool,
        /// The wide bar: the file's number, 0 and below too.
        wide: i32,
        /// Wide bar to narrow bar, at least 2.
        ratio: f64,
    },
    /// PDF417.
    Pdf417 {
        /// Quarter turns.
        rotation: u8,
        /// The height of a row.
        row_height: i32,
        /// Its security level, 1 to 8; -1 where the encoder chooses.
        security: i32,
        /// The file's number of columns; 0 where the encoder chooses.
        columns: i32,
        /// The file's number of rows; 0 where the encoder chooses.
        rows: i32,
        /// Truncated.
        truncate: bool,
        /// The width of a module.
        module_width: i32,
    },
    /// Aztec.
    Aztec {
        /// 1 to 55.
        magnification: i32,
        /// The file's number, which says error correction or layers; 0 where the encoder chooses.
        size: i32,
    },
    /// Data Matrix.
    DataMatrix {
        /// The height of a module.
        module: i32,
        /// The file's number of columns; 0 where the encoder chooses.
        columns: i32,
        /// The file's number of rows; 0 where the encoder chooses.
        rows: i32,
    },
    /// A QR code.
    Qr {
        /// 1 to 100.
        magnification: i32,
        /// Its error correction.
        level: QrLevel,
    },
    /// MaxiCode.
    Maxicode {
        /// 2, 3, 4 or 6.
        mode: i32,
    },
}

/// How a box is drawn.
#[derive(Clone, Copy, Debug, PartialEq, Eq)]
#[non_exhaustive]
pub enum Colour {
    /// `LO` and `X`.
    Black = 0,
    /// `LW`.
    White = 1,
    /// `LE`.
    ExclusiveOr = 2,
}

/// What a text is set from.
#[derive(Clone, Copy, Debug, PartialEq, Eq)]
pub struct Scale {
    /// The file's number; all but 2 to 5 have the sizes of font 1.
    pub font: i32,
    /// The horizontal multiplier, at least 1.
    pub horizontal: i32,
    /// The vertical multiplier, at least 1.
    pub vertical: i32,
}

impl Scale {
    /// Height and width of the cell of a text with this scale, as [`Kind::Text`] has them; none where no text has it: a multiplier is below 1, or a product is beyond
    /// 32 bits.
    ///
    /// ```
    /// use laddertick::Scale;
    /// assert_eq!(Scale { font: 3, horizontal: 4, vertical: 2 }.cell(), Some((40.0, 48.0)));
    /// assert_eq!(Scale { font: 3, horizontal: 0, vertical: 2 }.cell(), None);
    /// ```
    pub fn cell(self) -> Option<(f64, f64)> {
        let Scale { font, horizontal, vertical } = self;
        let e = drawn(&format!("A0,0,0,{font},{horizontal},{vertical},N,\"x\""))?;
        (self == scale(&e)).then_some((e.text_height, e.text_width))
    }
}

/// What all bar codes with bars have.
#[derive(Clone, Copy, Debug, PartialEq, Eq)]
pub struct Bars<L = i32> {
    /// Quarter turns.
    pub rotation: u8,
    /// The width of a narrow bar, in dots of whatever printer.
    pub narrow: i32,
    /// The height of the bars.
    pub height: L,
    /// With its text below.
    pub line: bool,
}

impl<L> Bars<L> {
    /// The ratio of a 2 of 5 or a Code 39 with these bars and this wide bar, as [`Kind`] has it; none where the narrow bar is below 1, which no bar code has.
    ///
    /// ```
    /// let bars = laddertick::Bars { rotation: 0, narrow: 2, height: 70, line: true };
    /// assert_eq!((bars.ratio(5), bars.ratio(-5)), (Some(2.5), Some(2.0)));
    /// ```
    pub fn ratio(&self, wide: i32) -> Option<f64> {
        let e = drawn(&format!("B0,0,0,3,{},{wide},1,N,\"x\"", self.narrow))?;
        (e.width == self.narrow).then_some(e.ratio)
    }
}

/// What the library reads a line as, if it is one element.
fn drawn(line: &str) -> Option<raw::Element> {
    let answer = raw::step(line.as_bytes(), raw::start());
    (answer.kind == answer.element.kind && answer.kind != 0).then_some(answer.element)
}

fn scale<L>(e: &raw::Element<L>) -> Scale {
    Scale { font: e.font, horizontal: e.horizontal, vertical: e.vertical }
}

/// The mode of a Code 128.
#[derive(Clone, Copy, Debug, PartialEq, Eq)]
pub enum BarMode {
    /// UCC.
    Ucc = 1,
    /// The encoder chooses.
    Automatic = 2,
    /// EAN.
    Ean = 3,
}

/// The error correction of a QR code, by its letter.
#[derive(Clone, Copy, Debug, PartialEq, Eq)]
pub enum QrLevel {
    /// The highest.
    H,
    /// The second.
    Q,
    /// The third.
    M,
    /// The lowest.
    L,
}

/// A length: so many dots.
pub(crate) trait Length: Copy + Default {
    fn of(dots: i32) -> Self;
    fn dots(self) -> i32;
}

impl Length for i32 {
    fn of(dots: i32) -> i32 {
        dots
    }

    fn dots(self) -> i32 {
        self
    }
}

impl Length for Dots300 {
    fn of(dots: i32) -> Dots300 {
        Dots300(dots)
    }

    fn dots(self) -> i32 {
        self.0
    }
}

/// The element of an answer of kind 1 to 16.
pub(crate) fn element<L: Length>(input: &[u8], e: raw::Element<L>) -> Element<'_, L> {
    let bars = Bars { rotation: e.rotation, narrow: e.width.dots(), height: e.height, line: e.line != 0 };
    let (check, wide, ratio) = (e.check != 0, e.wide, e.ratio);
    let kind = match e.kind {
        1 => Kind::Text { rotation: e.rotation, reverse: e.reverse != 0, scale: scale(&e), height: e.text_height, width: e.text_width },
        2 => Kind::Box { width: e.width, height: e.height, thickness: e.thickness, colour: colour(e.colour) },
        3 => Kind::Diagonal { width: e.width, height: e.height, thickness: e.thickness, falls: e.direction != 0 },
        4 => Kind::Graphic { row_bytes: e.row_bytes },
        5 => Kind::Code128 { bars, mode: bar_mode(e.mode) },
        6 => Kind::Ean13(bars),
        7 => Kind::Ean8(bars),
        8 => Kind::UpcA(bars),
        9 => Kind::Interleaved2of5 { bars, check, wide, ratio },
        10 => Kind::Code39 { bars, check, wide, ratio },
        11 => Kind::Pdf417 {
            rotation: e.rotation,
            row_height: e.height.dots(),
            security: e.security,
            columns: e.columns,
            rows: e.rows,
            truncate: e.truncate != 0,
            module_width: e.width.dots(),
        },
        12 => Kind::Aztec { magnification: e.magnification, size: e.size },
        13 => Kind::DataMatrix { module: e.height.dots(), columns: e.columns, rows: e.rows },
        14 => Kind::Qr { magnification: e.magnification, level: qr_level(e.level) },
        15 => Kind::Maxicode { mode: e.mode },
        16 => Kind::UpcE(bars),
        _ => unreachable!("the contract of laddertick_step names no other kind"),
    };
    Element { x: e.x, y: e.y, kind, data: &input[e.data_start..][..e.data_len] }
}

/// The element as the library has it, its data at a place in what is lent with it: the other way of `element`.
pub(crate) fn plain<L: Length>(e: &Element<'_, L>, data_start: usize) -> raw::Element<L> {
    let element = raw::Element { x: e.x, y: e.y, data_start, data_len: e.data.len(), ..raw::Element::default() };
    let barred =
        |kind, bars: &Bars<L>| raw::Element { kind, rotation: bars.rotation, width: L::of(bars.narrow), height: bars.height, line: bars.line as u8, ..element };
    let wide = |kind, bars, check, wide, ratio| raw::Element { check: check as u8, wide, ratio, ..barred(kind, bars) };
    match e.kind {
        Kind::Text { rotation, reverse, scale: Scale { font, horizontal, vertical }, height, width } => {
            raw::Element { kind: 1, rotation, reverse: reverse as u8, font, horizontal, vertical, text_height: height, text_width: width, ..element }
        }
        Kind::Box { width, height, thickness, colour } => raw::Element { kind: 2, width, height, thickness, colour: colour as u8, ..element },
        Kind::Diagonal { width, height, thickness, falls } => raw::Element { kind: 3, width, height, thickness, direction: falls as u8, ..element },
        Kind::Graphic { row_bytes } => raw::Element { kind: 4, row_bytes, ..element },
        Kind::Code128 { ref bars, mode } => raw::Element { mode: mode as i32, ..barred(5, bars) },
        Kind::Ean13(ref bars) => barred(6, bars),
        Kind::Ean8(ref bars) => barred(7, bars),
        Kind::UpcA(ref bars) => barred(8, bars),
        Kind::Interleaved2of5 { ref bars, check, wide: bar, ratio } => wide(9, bars, check, bar, ratio),
        Kind::Code39 { ref bars, check, wide: bar, ratio } => wide(10, bars, check, bar, ratio),
        Kind::Pdf417 { rotation, row_height, security, columns, rows, truncate, module_width } => raw::Element {
            kind: 11,
            rotation,
            height: L::of(row_height),
            security,
            columns,
            rows,
            truncate: truncate as u8,
            width: L::of(module_width),
            ..element
        },
        Kind::Aztec { magnification, size } => raw::Element { kind: 12, magnification, size, ..element },
        Kind::DataMatrix { module, columns, rows } => raw::Element { kind: 13, height: L::of(module), columns, rows, ..element },
        Kind::Qr { magnification, level } => raw::Element { kind: 14, magnification, level: letter(level), ..element },
        Kind::Maxicode { mode } => raw::Element { kind: 15, mode, ..element },
        Kind::UpcE(ref bars) => barred(16, bars),
    }
}

fn colour(flag: u8) -> Colour {
    match flag {
        0 => Colour::Black,
        1 => Colour::White,
        _ => Colour::ExclusiveOr,
    }
}

fn bar_mode(mode: i32) -> BarMode {
    match mode {
        1 => BarMode::Ucc,
        2 => BarMode::Automatic,
        _ => BarMode::Ean,
    }
}

fn qr_level(letter: u8) -> QrLevel {
    match letter {
        b'H' => QrLevel::H,
        b'Q' => QrLevel::Q,
        b'M' => QrLevel::M,
        _ => QrLevel::L,
    }
}

fn letter(level: QrLevel) -> u8 {
    match level {
        QrLevel::H => b'H',
        QrLevel::Q => b'Q',
        QrLevel::M => b'M',
        QrLevel::L => b'L',
    }
}
