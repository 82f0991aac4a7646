"""Refusals: their numbers by name, and the exceptions that carry them."""

from enum import IntEnum, unique
from typing import Optional

from ._library import meaning


# refusals.txt writes these lines by tools/tables/run: refusals: begin
@unique
class Refusal(IntEnum):
    """Why a call is refused. Where nothing else is said, the place is the first byte of the refused line, its blanks included."""

    TEXT_FIELDS = 1
    """The author of the label: `A` with fewer than 7 fields before its data; empty fields right before the data are not counted."""
    BARCODE_FIELDS = 2
    """The author of the label: `B` with fewer than 8, counted alike."""
    BARCODE_2D_FIELDS = 3
    """The author of the label: `b` with fewer than 3, counted alike."""
    LINE_FIELDS = 4
    """The author of the label: `LO`, `LW` or `LE` with fewer than 4 fields."""
    DIAGONAL_FIELDS = 5
    """The author of the label: `LS` with fewer than 5."""
    BOX_FIELDS = 6
    """The author of the label: `X` with fewer than 5."""
    BARCODE_TYPE = 7
    """The author of the label: `B` with a type that is not listed."""
    BARCODE_2D_TYPE = 8
    """The author of the label: `b` with a type that is not listed."""
    QR_DATA = 9
    """The author of the label: QR data of more than 9,999 bytes, counted after decoding."""
    GRAPHIC_FIELDS = 10
    """The sender of the graphic: `GW` with fewer than four commas on its line."""
    GRAPHIC_NEGATIVE = 11
    """The sender of the graphic: `GW` with a negative width or number of lines."""
    GRAPHIC_TRUNCATED = 12
    """The sender of the graphic: `GW` whose data passes the end of the input."""
    OUT_OF_RANGE = 13
    """The author of the label: a position outside 32 bits, the reference point added, or converted to 300 dots an inch."""
    INPUT_TOO_LONG = 14
    """The host: input of more than 16,777,216 bytes; in the programs `list` and `normalise` of more than 65,536. The place is 0."""
    OUTPUT_TOO_SHORT = 15
    """The host: output longer than its buffer. The place is the length that is needed."""
    STATE_OUTSIDE = 16
    """The host: a walk whose place is past the end, or whose pending count is above its place; or an entry, when its label is opened, whose last place is past the end or before its first. The place is the walk's place, or the entry's last place, as given."""
    NO_VALUE = 17
    """The author of the label, by the well-site profile alone: a number field that holds no value: it is empty, no number, or a number beyond 32 bits."""
    OUTSIDE_PROFILE = 18
    """The author of the label, by the well-site profile alone: a value that the profile does not allow."""
    SIZE_OUT_OF_RANGE = 19
    """The author of the label: a difference of two corners, its absolute value, a font product or a length converted to 300 dots an inch outside 32 bits; directly after 13."""
    TOO_MANY_LABELS = 20
    """The host: more labels than entries are lent to the index. The place is the label count."""
    NO_SUCH_LABEL = 21
    """The host: a number past the list, or an entry that yields no label, when it is opened. The place is the number."""
    RECTANGLE_TURNED = 22
    """The host: a rectangle whose far corner is below its near one on either axis. The place is 0."""
    NOT_READABLE = 23
    """The host: an element that no single line or block, read at reference 0,0, yields, when it is written. The place is its number in the label, 0 if alone."""
    GRAPHIC_IN_LABEL = 24
    """The author of the label, in a conversion to 300 dots an inch alone: a label with a graphic; the line is that of its first block."""
    JOINED_TOO_LONG = 25
    """The host: two files whose joined text has more than 16,777,216 bytes. The place is the joined length."""


def is_of_line(number: int) -> bool:
    """Whether the place of the refusal with this number is the first byte of a line."""
    return 1 <= number <= 13 or 17 <= number <= 19 or number == 24
# refusals: end


class Refused(ValueError):
    """A file or a call that is refused: the number of the refusal, its place and, where that is one of a line, the line."""

    # As it is imported, and as a traceback should name it; of those below too.
    __module__ = "laddertick"

    number: int
    """The number, as the library gives it; `refusal` has its name."""

    place: int
    """The first byte of the refused line, its blanks included, counted from 0; of some refusals something else, which `Refusal` says."""

    line: Optional[int]
    """The number of the refused line, counted from 1 by the LFs before it; None where the place is not of a line."""

    def __init__(self, number: int, place: int, line: Optional[int] = None) -> None:
        super().__init__(number, place, line)
        self.number = number
        self.place = place
        self.line = line

    @property
    def refusal(self) -> Optional[Refusal]:
        """Its name; None where the library is newer than this module and has given a number that is not known here."""
        try:
            return Refusal(self.number)
        except ValueError:
            return None

    @property
    def meaning(self) -> str:
        """What the number means, in the words that `laddertick` prints."""
        return meaning(self.number)

    def __str__(self) -> str:
        said = f"refused ({self.number}): {self.meaning}"
        return said if self.line is None else f"{said}, line {self.line}, offset {self.place} (from 0)"


@unique
class Held(IntEnum):
    """What a field held that the well-site profile objects to."""

    EMPTY = 1
    """Nothing but blanks."""
    NO_NUMBER = 2
    """Something else than an optional sign and digits."""
    BEYOND = 3
    """A number outside 32 bits."""
    OUTSIDE = 4
    """A value outside the profile."""


_HELD = {Held.EMPTY: "empty", Held.NO_NUMBER: "no number", Held.BEYOND: "beyond 32 bits", Held.OUTSIDE: "outside the profile"}


class Unfit(Refused):
    """A file that the well-site profile refuses."""

    __module__ = "laddertick"

    field: Optional[int]
    """Of 17 and 18 the field, counted from 1 (of `R` everything behind the first comma is field 2); any other refusal is that of the plain reading."""

    held: Optional[Held]
    """And what it held."""

    def __init__(self, number: int, place: int, line: Optional[int] = None, field: Optional[int] = None, held: Optional[Held] = None) -> None:
        super().__init__(number, place, line)
        self.args = (number, place, line, field, held)
        self.field = field
        self.held = held

    def __str__(self) -> str:
        said = super().__str__()
        return said if self.held is None else f"{said}, field {self.field}: {_HELD[self.held]}"


class Unjoined(Refused):
    """Two files that are not joined."""

    __module__ = "laddertick"

    file: Optional[int]
    """Which one was refused, 1 or 2, and has the place and the line; None where both are accepted and their joined text is too long (25)."""

    def __init__(self, number: int, place: int, line: Optional[int] = None, file: Optional[int] = None) -> None:
        super().__init__(number, place, line)
        self.args = (number, place, line, file)
        self.file = file

    def __str__(self) -> str:
        said = super().__str__()
        return said if self.file is None else f"the {'first' if self.file == 1 else 'second'} file: {said}"


def line_of(file: bytes, number: int, place: int) -> Optional[int]:
    """The line that a refusal names, counted from 1; None where it names none."""
    return file.count(b"\n", 0, place) + 1 if is_of_line(number) else None


def refused(file: bytes, number: int, place: int) -> Refused:
    """The refusal of a file or of a call over it."""
    return Refused(number, place, line_of(file, number, place))
