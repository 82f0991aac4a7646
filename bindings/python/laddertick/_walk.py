"""A file a step at a time, and its labels."""

from dataclasses import dataclass
from typing import Iterator, List, NamedTuple, Optional, Tuple, Union

from . import _structs as raw
from ._element import Dots300, Element, element
from ._library import Bytes, given, int32, laddertick_start, laddertick_step, size
from ._refusal import refused

_PRINT, _CLEAR, _END, _REFUSED = 0, 17, 18, 255


class Walk(NamedTuple):
    """Where a walk stands: the reference point, how many elements are pending since the last clear or print, and the first byte that is not yet read."""

    x: int = 0
    y: int = 0
    pending: int = 0
    place: int = 0


@dataclass(frozen=True)
class Clear:
    """The elements since the last clear or print are dropped (`N`)."""


@dataclass(frozen=True)
class Print:
    """The elements since the last clear or print are a label (`P`)."""

    count: int
    """How many elements it has."""
    sets: int
    """Label sets: 0 or more, and 1 where the print line does not say. Copies of each label likewise."""
    copies: int


Step = Union[Element[int], Clear, Print]
"""What a step of a walk answers."""


def _dots(dots: int) -> int:
    return dots


class Steps(Iterator[Step]):
    """A walk over a file, a step at a time. It ends at the end of the file, or at the place `end` in it; a refused line raises `Refused`, and nothing comes behind it."""

    unprinted: int
    """Once the end is reached: how many elements stand behind the last print line. They are no label, and the file may have been sent by halves."""

    def __init__(self, file: Bytes, walk: Optional[Walk] = None, end: Optional[int] = None) -> None:
        self._file = given(file)
        self._end = len(self._file) if end is None else size("end", end)
        if self._end > len(self._file):
            raise ValueError(f"end is past the {len(self._file)} bytes of the file: {self._end}")
        self._over = False
        self.unprinted = 0
        if walk is None:
            self._walk: raw.Walk = laddertick_start()
        else:
            self._walk = raw.Walk(int32("x", walk.x), int32("y", walk.y), size("pending", walk.pending), size("place", walk.place))

    @property
    def walk(self) -> Walk:
        """Where the walk stands: behind what was answered last. `steps(file, walk)` goes on from there."""
        return Walk(self._walk.x, self._walk.y, self._walk.pending, self._walk.place)

    def __next__(self) -> Step:
        if self._over:
            raise StopIteration
        answer: raw.Answer = laddertick_step(self._file, self._end, self._walk)
        self._walk = answer.next
        if answer.kind == _PRINT:
            return Print(answer.count, answer.sets, answer.copies)
        if answer.kind == _CLEAR:
            return Clear()
        if answer.kind == _END:
            self._over = True
            self.unprinted = answer.next.pending
            raise StopIteration
        if answer.kind == _REFUSED:
            self._over = True
            raise refused(self._file, answer.number, answer.place)
        return element(self._file, answer.element, _dots)


def steps(file: Bytes, walk: Optional[Walk] = None) -> Steps:
    """The steps of a file, from its first byte or from where a walk stands. A walk that does not stand in the file is refused 16."""
    return Steps(file, walk)


@dataclass(frozen=True)
class Label:
    """A label: its elements in file order, how many sets, and how many copies of each label."""

    elements: Tuple[Element[int], ...]
    sets: int
    copies: int


@dataclass(frozen=True)
class Label300:
    """A label for a printer of 300 dots an inch, in a type of its own."""

    elements: Tuple[Element[Dots300], ...]
    sets: int
    copies: int


class Labels(Iterator[Label]):
    """The labels of a file, in the order in which they are printed. A refused line raises `Refused` behind the labels that were printed before it."""

    def __init__(self, steps: Steps) -> None:
        self._steps = steps

    @property
    def unprinted(self) -> int:
        """Once the last label was given: how many elements stand behind the last print line. They are no label, and the file may have been sent by halves."""
        return self._steps.unprinted

    def __next__(self) -> Label:
        elements: List[Element[int]] = []
        for step in self._steps:
            if isinstance(step, Element):
                elements.append(step)
            elif isinstance(step, Clear):
                elements.clear()
            else:
                return Label(tuple(elements), step.sets, step.copies)
        raise StopIteration


def labels(file: Bytes) -> Labels:
    """The labels of a file. `list(labels(file))` is all of them, or raises the refusal of the earliest refused line."""
    return Labels(Steps(file))
