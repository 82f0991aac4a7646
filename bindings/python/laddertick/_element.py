"""What commands draw: a class for each kind."""

from dataclasses import dataclass
from enum import Enum, IntEnum, unique
from typing import Callable, ClassVar, Generic, Optional, TypeVar, Union

from . import _structs as raw
from ._library import given, laddertick_data
from ._room import written


@dataclass(frozen=True, order=True)
class Dots300:
    """Dots of 1/300 inch. Lengths of 1/203 inch are plain numbers, and neither passes for the other: they are not equal, not ordered and not added."""

    dots: int

    def __int__(self) -> int:
        return self.dots

    def __str__(self) -> str:
        return str(self.dots)


L = TypeVar("L", int, Dots300)
"""A length: dots as the file has them, or `Dots300`."""


@unique
class Kind(IntEnum):
    """What an element is; its number is that of the frame."""

    TEXT = 1
    BOX = 2
    DIAGONAL = 3
    GRAPHIC = 4
    CODE_128 = 5
    EAN_13 = 6
    EAN_8 = 7
    UPC_A = 8
    INTERLEAVED_2_OF_5 = 9
    CODE_39 = 10
    PDF417 = 11
    AZTEC = 12
    DATA_MATRIX = 13
    QR = 14
    MAXICODE = 15
    UPC_E = 16


@unique
class Colour(IntEnum):
    """How a box is drawn."""

    BLACK = 0
    """`LO` and `X`."""
    WHITE = 1
    """`LW`."""
    EXCLUSIVE_OR = 2
    """`LE`."""


@unique
class BarMode(IntEnum):
    """The mode of a Code 128."""

    UCC = 1
    AUTOMATIC = 2
    """The encoder chooses."""
    EAN = 3


@unique
class QrLevel(Enum):
    """The error correction of a QR code by its letter, the highest first."""

    H = "H"
    Q = "Q"
    M = "M"
    L = "L"


def decode(data: bytes) -> str:
    """The text of an element's data: UTF-8 as it stands, U+FFFD for what is none."""
    data = given(data)
    try:
        return data.decode("utf-8")
    except UnicodeDecodeError:
        pass
    return written(data, lambda out, room: laddertick_data(data, len(data), 0, len(data), out, room), len(data)).decode("utf-8")


@dataclass(frozen=True)
class Element(Generic[L]):
    """What a command draws, at a position in dots, the reference point added. `kind` tells which of the classes below it is."""

    kind: ClassVar[Kind]

    x: L
    y: L

    @property
    def text(self) -> Optional[str]:
        """Its data as text, decoded; None where it has none, as a box or a graphic."""
        data: Optional[bytes] = getattr(self, "data", None)
        return None if data is None else decode(data)


@dataclass(frozen=True)
class Text(Element[L]):
    """A text (`A`). Height and width are those of the cell that font and multipliers give."""

    kind: ClassVar[Kind] = Kind.TEXT

    rotation: int
    """Quarter turns, 0 to 3; of bar codes too."""
    reverse: bool
    """White on black."""
    font: int
    """The file's number; all but 2 to 5 have the cell of font 1."""
    horizontal: int
    """The multipliers, at least 1."""
    vertical: int
    height: float
    width: float
    data: bytes
    """The bytes as they stand in the file; of bar codes too. `text` is what they say."""


@dataclass(frozen=True)
class Box(Element[L]):
    """A box (`X`), or a line that is one (`LO`, `LW`, `LE`)."""

    kind: ClassVar[Kind] = Kind.BOX

    width: L
    height: L
    thickness: L
    """How thick its sides are; of a line the smaller of width and height."""
    colour: Colour


@dataclass(frozen=True)
class Diagonal(Element[L]):
    """A diagonal (`LS`)."""

    kind: ClassVar[Kind] = Kind.DIAGONAL

    width: L
    height: L
    thickness: L
    falls: bool
    """From top left to bottom right (a point does too); else it rises from bottom left to top right, or is horizontal or vertical."""


@dataclass(frozen=True)
class Graphic(Element[L]):
    """A graphic (`GW`)."""

    kind: ClassVar[Kind] = Kind.GRAPHIC

    row_bytes: int
    """Bytes a row; it may be 0, and there are no dots then."""
    data: bytes
    """Its dots, row by row, as the file has them (the Rust that this is a port of draws a 1 bit black)."""

    @property
    def text(self) -> Optional[str]:
        """None."""
        return None


@dataclass(frozen=True)
class Bars(Element[L]):
    """What all bar codes with bars have (`B`)."""

    rotation: int
    narrow: int
    """The width of a narrow bar, in dots of whatever printer."""
    height: L
    line: bool
    """With its text below."""


@dataclass(frozen=True)
class Code128(Bars[L]):
    """Code 128."""

    kind: ClassVar[Kind] = Kind.CODE_128

    mode: BarMode
    data: bytes


@dataclass(frozen=True)
class Ean13(Bars[L]):
    """EAN-13."""

    kind: ClassVar[Kind] = Kind.EAN_13

    data: bytes


@dataclass(frozen=True)
class Ean8(Bars[L]):
    """EAN-8."""

    kind: ClassVar[Kind] = Kind.EAN_8

    data: bytes


@dataclass(frozen=True)
class UpcA(Bars[L]):
    """UPC-A."""

    kind: ClassVar[Kind] = Kind.UPC_A

    data: bytes


@dataclass(frozen=True)
class UpcE(Bars[L]):
    """UPC-E."""

    kind: ClassVar[Kind] = Kind.UPC_E

    data: bytes


@dataclass(frozen=True)
class Interleaved2of5(Bars[L]):
    """Interleaved 2 of 5."""

    kind: ClassVar[Kind] = Kind.INTERLEAVED_2_OF_5

    check: bool
    """With a check digit."""
    wide: int
    """The wide bar: the file's number, 0 and below too."""
    ratio: float
    """Wide bar to narrow bar, at least 2."""
    data: bytes


@dataclass(frozen=True)
class Code39(Bars[L]):
    """Code 39."""

    kind: ClassVar[Kind] = Kind.CODE_39

    check: bool
    """With a check digit."""
    wide: int
    """The wide bar: the file's number, 0 and below too."""
    ratio: float
    """Wide bar to narrow bar, at least 2."""
    data: bytes


@dataclass(frozen=True)
class Pdf417(Element[L]):
    """PDF417 (`b`, as all below)."""

    kind: ClassVar[Kind] = Kind.PDF417

    rotation: int
    row_height: int
    security: int
    """Its level, 1 to 8; -1 where the encoder chooses."""
    columns: int
    """The file's number; 0 where the encoder chooses. Rows likewise."""
    rows: int
    truncate: bool
    module_width: int
    data: bytes


@dataclass(frozen=True)
class Aztec(Element[L]):
    """Aztec."""

    kind: ClassVar[Kind] = Kind.AZTEC

    magnification: int
    """1 to 55."""
    size: int
    """The file's number, which says error correction or layers; 0 where the encoder chooses."""
    data: bytes


@dataclass(frozen=True)
class DataMatrix(Element[L]):
    """Data Matrix."""

    kind: ClassVar[Kind] = Kind.DATA_MATRIX

    module: int
    """The height of a module."""
    columns: int
    """The file's number; 0 where the encoder chooses. Rows likewise."""
    rows: int
    data: bytes


@dataclass(frozen=True)
class Qr(Element[L]):
    """A QR code."""

    kind: ClassVar[Kind] = Kind.QR

    magnification: int
    """1 to 100."""
    level: QrLevel
    data: bytes


@dataclass(frozen=True)
class Maxicode(Element[L]):
    """MaxiCode."""

    kind: ClassVar[Kind] = Kind.MAXICODE

    mode: int
    """2, 3, 4 or 6."""
    data: bytes


def element(file: bytes, e: Union[raw.Element, raw.Element300], dots: Callable[[int], L]) -> Element[L]:
    """The element of an answer of kind 1 to 16, its lengths as `dots` makes them."""
    x, y, data = dots(e.x), dots(e.y), file[e.data_start : e.data_start + e.data_len]
    kind = e.kind
    if kind == Kind.TEXT:
        return Text(x, y, e.rotation, e.reverse != 0, e.font, e.horizontal, e.vertical, e.text_height, e.text_width, data)
    if kind == Kind.BOX:
        return Box(x, y, dots(e.width), dots(e.height), dots(e.thickness), Colour(e.colour))
    if kind == Kind.DIAGONAL:
        return Diagonal(x, y, dots(e.width), dots(e.height), dots(e.thickness), e.direction != 0)
    if kind == Kind.GRAPHIC:
        return Graphic(x, y, e.row_bytes, data)
    if kind == Kind.CODE_128:
        return Code128(x, y, e.rotation, e.width, dots(e.height), e.line != 0, BarMode(e.mode), data)
    if kind == Kind.EAN_13:
        return Ean13(x, y, e.rotation, e.width, dots(e.height), e.line != 0, data)
    if kind == Kind.EAN_8:
        return Ean8(x, y, e.rotation, e.width, dots(e.height), e.line != 0, data)
    if kind == Kind.UPC_A:
        return UpcA(x, y, e.rotation, e.width, dots(e.height), e.line != 0, data)
    if kind == Kind.UPC_E:
        return UpcE(x, y, e.rotation, e.width, dots(e.height), e.line != 0, data)
    if kind == Kind.INTERLEAVED_2_OF_5:
        return Interleaved2of5(x, y, e.rotation, e.width, dots(e.height), e.line != 0, e.check != 0, e.wide, e.ratio, data)
    if kind == Kind.CODE_39:
        return Code39(x, y, e.rotation, e.width, dots(e.height), e.line != 0, e.check != 0, e.wide, e.ratio, data)
    if kind == Kind.PDF417:
        return Pdf417(x, y, e.rotation, e.height, e.security, e.columns, e.rows, e.truncate != 0, e.width, data)
    if kind == Kind.AZTEC:
        return Aztec(x, y, e.magnification, e.size, data)
    if kind == Kind.DATA_MATRIX:
        return DataMatrix(x, y, e.height, e.columns, e.rows, data)
    if kind == Kind.QR:
        return Qr(x, y, e.magnification, QrLevel(chr(e.level)), data)
    if kind == Kind.MAXICODE:
        return Maxicode(x, y, e.mode, data)
    raise NotImplementedError(f"an element of kind {kind}, which this module does not know")
