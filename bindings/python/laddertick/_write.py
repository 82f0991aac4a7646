"""Elements and labels written as EPL."""

from dataclasses import replace
from typing import Any, Callable, Iterable, List, Tuple, TypeVar, Union

from . import _structs as raw
from ._element import (
    Aztec,
    Bars,
    Box,
    Code39,
    Code128,
    DataMatrix,
    Diagonal,
    Dots300,
    Element,
    Graphic,
    Interleaved2of5,
    Maxicode,
    Pdf417,
    Qr,
    Text,
)
from ._library import given, int32, laddertick_write, laddertick_write_label, laddertick_write_label_300, uint8
from ._room import written
from ._walk import Label, Label300, steps

# More than a command has besides its data. A guess that is too small costs a second call, and nothing else.
_COMMAND = 80


def _dots_203(name: str, length: Any) -> int:
    if isinstance(length, Dots300):
        raise TypeError(f"{name} is in dots of 1/300 inch: {length!r}; write_label_300 writes it")
    return int32(name, length)


def _dots_300(name: str, length: Any) -> int:
    if not isinstance(length, Dots300):
        raise TypeError(f"{name} is not in dots of 1/300 inch: {length!r}; write_label writes it")
    return int32(name, length.dots)


S = TypeVar("S", raw.Element, raw.Element300)


def _flat(e: Element[Any], to: S, dots: Callable[[str, Any], int], at: int) -> bytes:
    """Fills a struct with the element's fields, its data at a place of the input; gives the data."""
    if type(e) is Element or type(e) is Bars or not isinstance(e, Element):
        raise TypeError(f"no element that can be written: {e!r}")
    to.kind = e.kind
    to.x, to.y = dots("x", e.x), dots("y", e.y)
    if isinstance(e, (Text, Bars, Pdf417)):
        to.rotation = uint8("rotation", e.rotation)
    if isinstance(e, Text):
        to.reverse = uint8("reverse", e.reverse)
        to.font = int32("font", e.font)
        to.horizontal, to.vertical = int32("horizontal", e.horizontal), int32("vertical", e.vertical)
        to.text_height, to.text_width = e.height, e.width
    elif isinstance(e, (Box, Diagonal)):
        to.width, to.height, to.thickness = dots("width", e.width), dots("height", e.height), dots("thickness", e.thickness)
        if isinstance(e, Box):
            to.colour = uint8("colour", e.colour)
        else:
            to.direction = uint8("falls", e.falls)
    elif isinstance(e, Graphic):
        to.row_bytes = int32("row_bytes", e.row_bytes)
    elif isinstance(e, Bars):
        to.width, to.height, to.line = int32("narrow", e.narrow), dots("height", e.height), uint8("line", e.line)
        if isinstance(e, Code128):
            to.mode = int32("mode", e.mode)
        elif isinstance(e, (Interleaved2of5, Code39)):
            to.check, to.wide, to.ratio = uint8("check", e.check), int32("wide", e.wide), e.ratio
    elif isinstance(e, Pdf417):
        to.height, to.width = int32("row_height", e.row_height), int32("module_width", e.module_width)
        to.security, to.columns, to.rows = int32("security", e.security), int32("columns", e.columns), int32("rows", e.rows)
        to.truncate = uint8("truncate", e.truncate)
    elif isinstance(e, Aztec):
        to.magnification, to.size = int32("magnification", e.magnification), int32("size", e.size)
    elif isinstance(e, DataMatrix):
        to.height, to.columns, to.rows = int32("module", e.module), int32("columns", e.columns), int32("rows", e.rows)
    elif isinstance(e, Qr):
        to.magnification, to.level = int32("magnification", e.magnification), ord(e.level.value)
    elif isinstance(e, Maxicode):
        to.mode = int32("mode", e.mode)
    if not hasattr(e, "data"):
        return b""
    data = given(e.data)
    to.data_start, to.data_len = at, len(data)
    return data


def _all(elements: Iterable[Element[Any]], struct: Any, dots: Callable[[str, Any], int]) -> Tuple[Any, bytes]:
    """The elements as a list, and an input that has their data end to end."""
    elements = tuple(elements)
    flat = (struct * len(elements))()
    parts: List[bytes] = []
    at = 0
    for e, to in zip(elements, flat):
        parts.append(_flat(e, to, dots, at))
        at += len(parts[-1])
    return flat, b"".join(parts)


def write(element: Element[int]) -> bytes:
    """One command, with its LF, that is read as this element at the reference 0,0.

    There is one spelling for each element. Refused 23 where no single line or block is read so, as a box of negative width, a text whose sizes are not those of its font (`sized`)
    or one without data.
    """
    flat = raw.Element()
    data = _flat(element, flat, _dots_203, 0)
    return written(data, lambda out, room: laddertick_write(data, len(data), flat, out, room), _COMMAND + len(data))


def write_label(label: Label) -> bytes:
    """A label as a file: a line `N`, its elements, its print line. Reading it yields this label.

    Refused 23 with the number, from 0, of the first element that nothing is read as; behind them with the element count, of a label without elements or with negative sets or copies.
    """
    if not isinstance(label, Label):
        raise TypeError(f"no label for 203 dots an inch: {label!r}")
    return _label(label, raw.Element, _dots_203, laddertick_write_label)


def write_label_300(label: Label300) -> bytes:
    """A label for 300 dots an inch as a file for such a printer, likewise. Its lengths are read back as plain numbers: a file does not say what dots it is for."""
    if not isinstance(label, Label300):
        raise TypeError(f"no label for 300 dots an inch: {label!r}")
    return _label(label, raw.Element300, _dots_300, laddertick_write_label_300)


def _label(label: Union[Label, Label300], struct: Any, dots: Callable[[str, Any], int], function: Callable[..., Any]) -> bytes:
    flat, data = _all(label.elements, struct, dots)
    sets, copies = int32("sets", label.sets), int32("copies", label.copies)
    guess = _COMMAND * (len(flat) + 1) + len(data)
    return written(data, lambda out, room: function(data, len(data), flat, len(flat), sets, copies, out, room), guess)


E = TypeVar("E", bound=Element[Any])


def sized(element: E) -> E:
    """The element with the sizes that its own numbers give: height and width of a text by its font and multipliers, the ratio of wide to narrow bar.

    For elements that were changed by `dataclasses.replace`; the library reads them from a line with these numbers. One that has no such sizes is given back as it is.
    """
    if isinstance(element, Text):
        numbers = int32("font", element.font), int32("horizontal", element.horizontal), int32("vertical", element.vertical)
        read = next(steps(b'A0,0,0,%d,%d,%d,N,"x"' % numbers))
        if isinstance(read, Text):
            return replace(element, height=read.height, width=read.width)
    elif isinstance(element, (Interleaved2of5, Code39)):
        read = next(steps(b'B0,0,0,3,%d,%d,1,N,"x"' % (int32("narrow", element.narrow), int32("wide", element.wide))))
        if isinstance(read, Code39):
            return replace(element, ratio=read.ratio)
    return element
