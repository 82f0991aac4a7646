"""The shared object: where it is found, and its functions as include/laddertick.h declares them."""

import ctypes
import os
import subprocess
from ctypes import POINTER, c_char_p, c_int32, c_size_t, c_uint8, c_uint32
from operator import index
from pathlib import Path
from typing import Any, Callable, Dict, Iterator, List, Tuple, Union

from ._structs import Answer, Checked, Element, Element300, Entry, Joined, Label, Rectangle, Walk, Written

# VERSION writes this line by tools/tables/run: version: begin
VERSION = "1.0.0"
# version: end

_MAJOR = VERSION.split(".")[0]
_SONAME = "libladdertick.so." + _MAJOR

# Of what `make install` puts in place the part for the repository is left out, and this line is in:
# installed: _BESIDE = Path('@LIBDIR@') / _SONAME
# repository: begin
_BESIDE = Path(__file__).resolve().parents[3] / "target" / "lib" / ("libladdertick.so." + VERSION)
# repository: end


def _told() -> Iterator[str]:
    """The folder that pkg-config names, if it is there and knows the library."""
    program = os.environ.get("PKG_CONFIG") or "pkg-config"
    try:
        said = subprocess.run([program, "--variable=libdir", "laddertick"], stdout=subprocess.PIPE, stderr=subprocess.DEVNULL, check=True).stdout
    except (OSError, subprocess.CalledProcessError):
        return
    if said.strip():
        yield os.path.join(os.fsdecode(said.strip()), _SONAME)


def _places() -> Iterator[str]:
    named = os.environ.get("LADDERTICK_LIBRARY")
    if named:
        # Whoever names one means that one.
        yield named
        return
    yield str(_BESIDE)
    # The loader's own search: LD_LIBRARY_PATH, and what ldconfig has seen.
    yield _SONAME
    yield from _told()


def _load() -> ctypes.CDLL:
    tried: List[str] = []
    for place in _places():
        try:
            library = ctypes.CDLL(place)
            version = library.laddertick_version
        except (OSError, AttributeError) as why:
            tried.append(f"\n  {place}: {why}")
            continue
        version.restype = c_char_p
        said = version().decode("ascii")
        if said.split(".")[0] == _MAJOR:
            return library
        tried.append(f"\n  {place}: it has version {said}, and this module is for {_MAJOR}")
    raise ImportError("no libladdertick is found: install it (make install), or set LADDERTICK_LIBRARY to the shared object" + "".join(tried))


_library = _load()

SIGNATURES: Dict[str, Tuple[Any, Tuple[Any, ...]]] = {}
"""What each function answers and takes, by its name in C."""


def _bound(name: str, answers: Any, *takes: Any) -> Callable[..., Any]:
    """The function. Where the shared object is older than this module and lacks it, a call says so."""
    SIGNATURES[name] = (answers, takes)
    try:
        function = getattr(_library, name)
    except AttributeError:

        def absent(*_: Any) -> Any:
            raise NotImplementedError(f"libladdertick {version()} has no {name}")

        return absent
    function.restype = answers
    function.argtypes = takes
    bound: Callable[..., Any] = function
    return bound


def has(name: str) -> bool:
    """Whether the shared object has a function of this name."""
    return hasattr(_library, name)


_FILE = (c_char_p, c_size_t)
_ROOM = (POINTER(c_uint8), c_size_t)
_ENTRIES = (POINTER(Entry), c_size_t)
_NUMBERS = (POINTER(c_size_t), c_size_t)

# A `bytes` is lent as it stands and nobody can write it; the GIL is free during a call.
laddertick_version = _bound("laddertick_version", c_char_p)
laddertick_meaning = _bound("laddertick_meaning", c_char_p, c_uint32)
laddertick_start = _bound("laddertick_start", Walk)
laddertick_step = _bound("laddertick_step", Answer, *_FILE, Walk)
laddertick_data = _bound("laddertick_data", Written, *_FILE, c_size_t, c_size_t, *_ROOM)
laddertick_list = _bound("laddertick_list", Written, *_FILE, *_ROOM)
laddertick_normalise = _bound("laddertick_normalise", Written, *_FILE, *_ROOM)
laddertick_check = _bound("laddertick_check", Checked, *_FILE)
laddertick_strict_list = _bound("laddertick_strict_list", Written, *_FILE, *_ROOM)
laddertick_index = _bound("laddertick_index", Written, *_FILE, *_ENTRIES)
laddertick_open = _bound("laddertick_open", Written, *_FILE, *_ENTRIES, c_size_t, *_ROOM)
laddertick_join = _bound("laddertick_join", Joined, *_FILE, *_FILE, *_ROOM)
laddertick_inside = _bound("laddertick_inside", Written, *_FILE, *_ENTRIES, c_size_t, Rectangle, *_NUMBERS)
laddertick_touching = _bound("laddertick_touching", Written, *_FILE, *_ENTRIES, c_size_t, Rectangle, *_NUMBERS)
laddertick_nearest = _bound("laddertick_nearest", Written, *_FILE, *_ENTRIES, c_size_t, c_int32, c_int32)
laddertick_to_300 = _bound("laddertick_to_300", Label, *_FILE, *_ENTRIES, c_size_t, POINTER(Element300), c_size_t)
laddertick_write = _bound("laddertick_write", Written, *_FILE, Element, *_ROOM)
laddertick_write_label = _bound("laddertick_write_label", Written, *_FILE, POINTER(Element), c_size_t, c_int32, c_int32, *_ROOM)
laddertick_write_label_300 = _bound("laddertick_write_label_300", Written, *_FILE, POINTER(Element300), c_size_t, c_int32, c_int32, *_ROOM)


def version() -> str:
    """The version of the library that is loaded; it may be later than that of this module, `VERSION`."""
    said: bytes = laddertick_version()
    return said.decode("ascii")


def meaning(number: int) -> str:
    """What the number of a refusal means, in words that an operator can be told."""
    said: bytes = laddertick_meaning(uint32("number", number))
    return said.decode("ascii")


Bytes = Union[bytes, bytearray, memoryview]
"""What a file is handed over as; any other object that lends its bytes will do, as an `mmap` does."""


def given(file: Bytes) -> bytes:
    """The bytes of a file. What can be written is copied, for nobody may write it during a call; so is a subclass of `bytes`, which may say another length than it has."""
    if type(file) is bytes:
        return file
    if isinstance(file, str):
        raise TypeError("a label file is bytes and not str: open it with mode 'rb'")
    return bytes(memoryview(file))


# ctypes cuts a number that is too large for its field, and would look at other bytes than those that are meant.
def _within(name: str, number: int, least: int, most: int) -> int:
    # Before Python 3.10 `index` gives a subclass of int back as it is, and that may compare as it likes.
    number = int.__index__(index(number))
    if not least <= number <= most:
        raise OverflowError(f"{name} is not within {least} to {most}: {number}")
    return number


def uint8(name: str, number: int) -> int:
    return _within(name, number, 0, 0xFF)


def uint32(name: str, number: int) -> int:
    return _within(name, number, 0, 0xFFFFFFFF)


def int32(name: str, number: int) -> int:
    return _within(name, number, -0x80000000, 0x7FFFFFFF)


def size(name: str, number: int) -> int:
    return _within(name, number, 0, 0xFFFFFFFFFFFFFFFF)
