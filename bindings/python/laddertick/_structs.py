"""The structs of include/laddertick.h, field by field.

tools/layout/run takes this file in alone and holds names, types and places against those that the library is made with.
"""

from ctypes import Structure, c_double, c_int32, c_size_t, c_uint8, c_uint32
from typing import Any, List, Tuple


class Walk(Structure):
    x: int
    y: int
    pending: int
    place: int
    _fields_ = [("x", c_int32), ("y", c_int32), ("pending", c_size_t), ("place", c_size_t)]


_ELEMENT: List[Tuple[str, Any]] = [
    ("kind", c_uint8),
    ("rotation", c_uint8),
    ("reverse", c_uint8),
    ("colour", c_uint8),
    ("direction", c_uint8),
    ("line", c_uint8),
    ("check", c_uint8),
    ("truncate", c_uint8),
    ("level", c_uint8),
    ("x", c_int32),
    ("y", c_int32),
    ("width", c_int32),
    ("height", c_int32),
    ("thickness", c_int32),
    ("row_bytes", c_int32),
    ("security", c_int32),
    ("columns", c_int32),
    ("rows", c_int32),
    ("magnification", c_int32),
    ("size", c_int32),
    ("mode", c_int32),
    ("font", c_int32),
    ("horizontal", c_int32),
    ("vertical", c_int32),
    ("wide", c_int32),
    ("text_height", c_double),
    ("text_width", c_double),
    ("ratio", c_double),
    ("data_start", c_size_t),
    ("data_len", c_size_t),
]


class _Element(Structure):
    kind: int
    rotation: int
    reverse: int
    colour: int
    direction: int
    line: int
    check: int
    truncate: int
    level: int
    x: int
    y: int
    width: int
    height: int
    thickness: int
    row_bytes: int
    security: int
    columns: int
    rows: int
    magnification: int
    size: int
    mode: int
    font: int
    horizontal: int
    vertical: int
    wide: int
    text_height: float
    text_width: float
    ratio: float
    data_start: int
    data_len: int


class Element(_Element):
    _fields_ = _ELEMENT


class Element300(_Element):
    """As in C a type of its own, so that neither list is taken for the other."""

    _fields_ = _ELEMENT


class Answer(Structure):
    kind: int
    number: int
    place: int
    count: int
    sets: int
    copies: int
    next: Walk
    element: Element
    _fields_ = [
        ("kind", c_uint8),
        ("number", c_uint8),
        ("place", c_size_t),
        ("count", c_size_t),
        ("sets", c_int32),
        ("copies", c_int32),
        ("next", Walk),
        ("element", Element),
    ]


class Written(Structure):
    number: int
    place: int
    _fields_ = [("number", c_uint32), ("place", c_size_t)]


class Checked(Structure):
    number: int
    field: int
    held: int
    place: int
    _fields_ = [("number", c_uint32), ("field", c_uint32), ("held", c_uint32), ("place", c_size_t)]


class Entry(Structure):
    first: int
    last: int
    count: int
    x: int
    y: int
    _fields_ = [("first", c_size_t), ("last", c_size_t), ("count", c_size_t), ("x", c_int32), ("y", c_int32)]


class Joined(Structure):
    number: int
    file: int
    place: int
    _fields_ = [("number", c_uint32), ("file", c_uint32), ("place", c_size_t)]


class Rectangle(Structure):
    x1: int
    y1: int
    x2: int
    y2: int
    _fields_ = [("x1", c_int32), ("y1", c_int32), ("x2", c_int32), ("y2", c_int32)]


class Label(Structure):
    number: int
    place: int
    sets: int
    copies: int
    _fields_ = [("number", c_uint32), ("place", c_size_t), ("sets", c_int32), ("copies", c_int32)]
