"""Room for what a function writes."""

from ctypes import c_uint8, string_at
from typing import Any, Callable

from ._refusal import Refusal, refused


def written(file: bytes, of: Callable[[Any, int], Any], guess: int = 0) -> bytes:
    """What a function writes: into room for as many bytes as guessed, or as 15 then says that it needs."""
    room = (c_uint8 * guess)()
    said = of(room, guess)
    if said.number == Refusal.OUTPUT_TOO_SHORT:
        room = (c_uint8 * said.place)()
        said = of(room, said.place)
    if said.number != 0:
        raise refused(file, said.number, said.place)
    return string_at(room, said.place)


def text(file: bytes, of: Callable[[Any, int], Any]) -> str:
    """A listing, which is hexadecimal digits and LF."""
    return written(file, of).decode("ascii")
