"""What is asked of a whole file, or of two."""

from ctypes import c_uint8, string_at

from ._library import Bytes, given, laddertick_check, laddertick_join, laddertick_list, laddertick_normalise, laddertick_strict_list
from ._refusal import Held, Unfit, Unjoined, line_of
from ._room import text, written

LONGEST = 16_777_216
"""The longest file; a longer one is refused 14."""


def normalise(file: Bytes) -> bytes:
    """The file with blanks and empty lines taken away and graphics copied whole. Only a file over `LONGEST` is refused."""
    file = given(file)
    return written(file, lambda out, room: laddertick_normalise(file, len(file), out, room), _normalised_room(file))


def _normalised_room(file: bytes) -> int:
    # LADDERTICK_NORMALISE_ROOM: always enough, so there is nothing to measure. A file that is too long gets none, and its refusal.
    return len(file) + len(file) // 6 + 1 if len(file) <= LONGEST else 0


def listing(file: Bytes) -> str:
    """The labels of a file as frames, one a line in hexadecimal (docs/FRAMES.md), and behind them frame fe if elements are pending at the end."""
    file = given(file)
    return text(file, lambda out, room: laddertick_list(file, len(file), out, room))


def strict_listing(file: Bytes) -> str:
    """As `listing`, under the well-site profile (`check`): the same, or the refusal of the earliest line that either reading refuses."""
    file = given(file)
    return text(file, lambda out, room: laddertick_strict_list(file, len(file), out, room))


def check(file: Bytes) -> None:
    """Raises `Unfit` where the well-site profile refuses a file typed by hand.

    Every number field that has a default must hold a value, and rotations, fonts, multipliers and the width of a graphic one in their range. A file that it accepts has the labels
    that `labels` answers; so check first, and then walk.
    """
    file = given(file)
    said = laddertick_check(file, len(file))
    if said.number != 0:
        line = line_of(file, said.number, said.place)
        field, held = (said.field, Held(said.held)) if said.held != 0 else (None, None)
        raise Unfit(said.number, said.place, line, field, held)


def join(first: Bytes, second: Bytes) -> bytes:
    """Two files in one: the first normalised, a line `N`, the second normalised. Elements that no print line of the first prints are dropped there.

    Raises `Unjoined`, which says which of the two is refused.
    """
    files = given(first), given(second)
    # LADDERTICK_JOIN_ROOM.
    room = (c_uint8 * (_normalised_room(files[0]) + 2 + _normalised_room(files[1])))()
    said = laddertick_join(files[0], len(files[0]), files[1], len(files[1]), room, len(room))
    if said.number != 0:
        if said.file == 0:
            raise Unjoined(said.number, said.place)
        raise Unjoined(said.number, said.place, line_of(files[said.file - 1], said.number, said.place), said.file)
    return string_at(room, said.place)
