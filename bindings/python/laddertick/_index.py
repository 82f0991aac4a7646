"""The label index: one label of a file at a time, what lies where on it, and how it is for 300 dots an inch."""

from ctypes import c_size_t
from typing import Any, Callable, Iterable, List, NamedTuple, Sequence, Tuple, Union, overload

from . import _structs as raw
from ._element import Dots300, element
from ._library import (
    Bytes,
    given,
    int32,
    laddertick_index,
    laddertick_inside,
    laddertick_nearest,
    laddertick_open,
    laddertick_to_300,
    laddertick_touching,
    size,
)
from ._refusal import Refusal, refused
from ._room import text
from ._walk import Label, Label300, Labels, Steps, Walk


class Entry(NamedTuple):
    """Where a label stands in its file. Plain numbers, which can be kept and handed to `Index` again with the same file."""

    first: int
    """Its first byte: just behind the print line before it, one that printed nothing included, or 0."""
    last: int
    """Just past its own print line."""
    count: int
    """How many elements it has."""
    x: int
    """The reference point at `first`, which is what the labels before it left."""
    y: int


class Rectangle(NamedTuple):
    """A closed rectangle: its near corner and its far one. Its edges belong to it."""

    x1: int
    y1: int
    x2: int
    y2: int


class Index(Sequence[Entry]):
    """Where each label of a file stands, so that one can be opened and no other be read.

    It is a sequence of entries, in the order in which the labels are printed. The methods take a label's number, from 0, and read that label's bytes alone; a number past
    the last label is refused 21. Entries that were kept, or made otherwise, are answered or refused like any others.
    """

    def __init__(self, file: Bytes, entries: Iterable[Entry]) -> None:
        self._file = given(file)
        made = [
            raw.Entry(size("first", e.first), size("last", e.last), size("count", e.count), int32("x", e.x), int32("y", e.y)) for e in entries
        ]
        self._entries: Any = (raw.Entry * len(made))(*made)

    @classmethod
    def of(cls, file: Bytes) -> "Index":
        """The index of a file, which is read whole once; or the refusal of its earliest refused line is raised."""
        file = given(file)
        # Room for labels of a few lines; where there are more, 20 tells how many.
        entries = (raw.Entry * (len(file) // 128))()
        said = laddertick_index(file, len(file), entries, len(entries))
        if said.number == Refusal.TOO_MANY_LABELS:
            entries = (raw.Entry * said.place)()
            said = laddertick_index(file, len(file), entries, len(entries))
        if said.number != 0:
            raise refused(file, said.number, said.place)
        index = cls(file, ())
        index._entries = (raw.Entry * said.place).from_buffer(entries)
        return index

    def __len__(self) -> int:
        return len(self._entries)

    @overload
    def __getitem__(self, number: int) -> Entry: ...

    @overload
    def __getitem__(self, number: slice) -> Tuple[Entry, ...]: ...

    def __getitem__(self, number: Union[int, slice]) -> Union[Entry, Tuple[Entry, ...]]:
        if isinstance(number, slice):
            return tuple(_entry(e) for e in self._entries[number])
        return _entry(self._entries[number])

    def _call(self, function: Callable[..., Any], number: int, *more: Any) -> Any:
        return function(self._file, len(self._file), self._entries, len(self._entries), size("number", number), *more)

    def open(self, number: int) -> str:
        """One label as frames, one a line in hexadecimal: what `listing` has for it."""
        return text(self._file, lambda out, room: self._call(laddertick_open, number, out, room))

    def steps(self, number: int) -> Steps:
        """The steps over one label's own bytes: elements, clears, which drop the elements before them, and its print as the last."""
        said = self._call(laddertick_open, number, None, 0)
        # All that can be said against the entry comes before 15.
        if said.number != Refusal.OUTPUT_TOO_SHORT:
            raise refused(self._file, said.number, said.place)
        e = self[number]
        return Steps(self._file, Walk(e.x, e.y, 0, e.first), e.last)

    def label(self, number: int) -> Label:
        """One label: its elements, sets and copies."""
        return next(Labels(self.steps(number)))

    def inside(self, number: int, rectangle: Tuple[int, int, int, int]) -> List[int]:
        """The numbers, from 0, of a label's elements whose position lies in a `Rectangle`, in file order. One whose far corner is below its near one is refused 22."""
        return self._found(laddertick_inside, number, rectangle)

    def touching(self, number: int, rectangle: Tuple[int, int, int, int]) -> List[int]:
        """Of its boxes and diagonals, those whose own rectangle, from position to position plus width and height, shares a point with another; likewise."""
        return self._found(laddertick_touching, number, rectangle)

    def _found(self, function: Callable[..., Any], number: int, rectangle: Tuple[int, int, int, int]) -> List[int]:
        r = raw.Rectangle(*(int32(name, value) for name, value in zip(Rectangle._fields, Rectangle(*rectangle))))
        numbers: Any = (c_size_t * 0)()
        said = self._call(function, number, r, numbers, 0)
        if said.number == Refusal.OUTPUT_TOO_SHORT:
            numbers = (c_size_t * said.place)()
            said = self._call(function, number, r, numbers, len(numbers))
        if said.number != 0:
            raise refused(self._file, said.number, said.place)
        return list(numbers[: said.place])

    def nearest(self, number: int, x: int, y: int) -> int:
        """The number, from 0, of the element of a label whose position is nearest to a point, by the larger of the distances along x and y; of equals the earlier."""
        said = self._call(laddertick_nearest, number, int32("x", x), int32("y", y))
        if said.number != 0:
            raise refused(self._file, said.number, said.place)
        return int(said.place)

    def to_300(self, number: int) -> Label300:
        """One label, set for 203 dots an inch, for 300.

        Positions, sizes of boxes and diagonals and heights of bar codes become the nearest whole number to 300/203 of the old, and all else stays. A label with a graphic is
        refused 24, a new length beyond 32 bits 13 or 19.
        """
        # An entry's count may be anybody's, so it is not taken for the room: 15 tells it.
        elements: Any = (raw.Element300 * 0)()
        said = self._call(laddertick_to_300, number, elements, 0)
        if said.number == Refusal.OUTPUT_TOO_SHORT:
            elements = (raw.Element300 * said.place)()
            said = self._call(laddertick_to_300, number, elements, len(elements))
        if said.number != 0:
            raise refused(self._file, said.number, said.place)
        return Label300(tuple(element(self._file, e, Dots300) for e in elements[: said.place]), said.sets, said.copies)


def _entry(e: raw.Entry) -> Entry:
    return Entry(e.first, e.last, e.count, e.x, e.y)
