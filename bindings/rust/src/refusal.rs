//! The refusals by name.

/// Why a call is refused. The name is that of the number that [`Refused`](crate::Refused) has; later versions of the library may have more of them.
///
/// Where nothing else is said, the place is the first byte of the refused line, its blanks included.
// refusals.txt writes these lines by tools/tables/run: refusals: begin
#[rustfmt::skip]
#[derive(Clone, Copy, Debug, PartialEq, Eq, Hash)]
#[non_exhaustive]
pub enum Refusal {
    /// 1, the author of the label: `A` with fewer than 7 fields before its data; empty fields right before the data are not counted.
    TextFields = 1,
    /// 2, the author of the label: `B` with fewer than 8, counted alike.
    BarcodeFields = 2,
    /// 3, the author of the label: `b` with fewer than 3, counted alike.
    Barcode2dFields = 3,
    /// 4, the author of the label: `LO`, `LW` or `LE` with fewer than 4 fields.
    LineFields = 4,
    /// 5, the author of the label: `LS` with fewer than 5.
    DiagonalFields = 5,
    /// 6, the author of the label: `X` with fewer than 5.
    BoxFields = 6,
    /// 7, the author of the label: `B` with a type that is not listed.
    BarcodeType = 7,
    /// 8, the author of the label: `b` with a type that is not listed.
    Barcode2dType = 8,
    /// 9, the author of the label: QR data of more than 9,999 bytes, counted after decoding.
    QrData = 9,
    /// 10, the sender of the graphic: `GW` with fewer than four commas on its line.
    GraphicFields = 10,
    /// 11, the sender of the graphic: `GW` with a negative width or number of lines.
    GraphicNegative = 11,
    /// 12, the sender of the graphic: `GW` whose data passes the end of the input.
    GraphicTruncated = 12,
    /// 13, the author of the label: a position outside 32 bits, the reference point added, or converted to 300 dots an inch.
    OutOfRange = 13,
    /// 14, the host: input of more than 16,777,216 bytes; in the programs `list` and `normalise` of more than 65,536. The place is 0.
    InputTooLong = 14,
    /// 15, the host: output longer than its buffer. The place is the length that is needed.
    OutputTooShort = 15,
    /// 16, the host: a walk whose place is past the end, or whose pending count is above its place; or an entry, when its label is opened, whose last place is past the end or before its first. The place is the walk's place, or the entry's last place, as given.
    StateOutside = 16,
    /// 17, the author of the label, by the well-site profile alone: a number field that holds no value: it is empty, no number, or a number beyond 32 bits.
    NoValue = 17,
    /// 18, the author of the label, by the well-site profile alone: a value that the profile does not allow.
    OutsideProfile = 18,
    /// 19, the author of the label: a difference of two corners, its absolute value, a font product or a length converted to 300 dots an inch outside 32 bits; directly after 13.
    SizeOutside = 19,
    /// 20, the host: more labels than entries are lent to the index. The place is the label count.
    TooManyLabels = 20,
    /// 21, the host: a number past the list, or an entry that yields no label, when it is opened. The place is the number.
    NoSuchLabel = 21,
    /// 22, the host: a rectangle whose far corner is below its near one on either axis. The place is 0.
    RectangleTurned = 22,
    /// 23, the host: an element that no single line or block, read at reference 0,0, yields, when it is written. The place is its number in the label, 0 if alone.
    NotReadable = 23,
    /// 24, the author of the label, in a conversion to 300 dots an inch alone: a label with a graphic; the line is that of its first block.
    GraphicInLabel = 24,
    /// 25, the host: two files whose joined text has more than 16,777,216 bytes. The place is the joined length.
    JoinedTooLong = 25,
}

/// Each refusal with its words.
#[rustfmt::skip]
const ALL: &[(Refusal, &str)] = &[
    (Refusal::TextFields, "a text (A) needs 7 fields before its data, the last not empty: x, y, rotation, font, two multipliers, reverse"),
    (Refusal::BarcodeFields, "a bar code (B) needs 8 fields before its data, the last not empty: x, y, rotation, type, narrow, wide, height, line"),
    (Refusal::Barcode2dFields, "a 2D bar code (b) needs 3 fields before its data, the last not empty: x, y, type"),
    (Refusal::LineFields, "a line (LO, LW, LE) needs 4 fields: x, y, width, height"),
    (Refusal::DiagonalFields, "a diagonal (LS) needs 5 fields: x, y, thickness, x, y"),
    (Refusal::BoxFields, "a box (X) needs 5 fields: x, y, thickness, x, y"),
    (Refusal::BarcodeType, "no such type of bar code (B)"),
    (Refusal::Barcode2dType, "no such type of 2D bar code (b)"),
    (Refusal::QrData, "more than 9,999 bytes of QR data"),
    (Refusal::GraphicFields, "a graphic (GW) needs four fields, each closed by a comma: x, y, bytes a row, rows"),
    (Refusal::GraphicNegative, "a graphic (GW) of negative size"),
    (Refusal::GraphicTruncated, "the graphic's data passes the end of the file"),
    (Refusal::OutOfRange, "a position outside 32 bits, the reference point added"),
    (Refusal::InputTooLong, "more than 16,777,216 bytes"),
    (Refusal::OutputTooShort, "the buffer is too short"),
    (Refusal::StateOutside, "a walk whose place is past the end or whose pending count is above its place, or an entry whose last place is past the end or before its first"),
    (Refusal::NoValue, "a field holds no value, which the well-site profile asks for"),
    (Refusal::OutsideProfile, "a value outside the well-site profile"),
    (Refusal::SizeOutside, "a size outside 32 bits: of a diagonal, a box or a text"),
    (Refusal::TooManyLabels, "more labels than the list has entries"),
    (Refusal::NoSuchLabel, "no such label"),
    (Refusal::RectangleTurned, "the far corner is below the near one"),
    (Refusal::NotReadable, "an element that no line or block says by itself"),
    (Refusal::GraphicInLabel, "a label with a graphic, which cannot be set for another resolution"),
    (Refusal::JoinedTooLong, "a joined text of more than 16,777,216 bytes"),
];

/// The place of the refusal with this number is the first byte of a line.
pub(crate) fn is_of_line(number: u8) -> bool {
    matches!(number, 1..=13 | 17..=19 | 24)
}
// refusals: end

impl Refusal {
    /// The refusal with this number, if there is one.
    pub fn from_number(number: u8) -> Option<Refusal> {
        ALL.iter().map(|&(refusal, _)| refusal).find(|refusal| refusal.number() == number)
    }

    /// Its number, as the library and the frame ff have it.
    pub fn number(self) -> u8 {
        self as u8
    }

    /// What it means, in the words that `laddertick` prints.
    pub fn meaning(self) -> &'static str {
        ALL.iter().find(|&&(refusal, _)| refusal == self).map_or("unknown", |&(_, words)| words)
    }

    /// The place is the first byte of a line.
    pub fn is_of_line(self) -> bool {
        is_of_line(self.number())
    }
}
