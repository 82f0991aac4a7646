"""What the tests share: the repository, frames and words made from Python's elements, as docs/FRAMES.md and `./laddertick explain` have them."""

import struct
from pathlib import Path

import laddertick
from laddertick import Kind, Refused

REPOSITORY = Path(__file__).resolve().parents[3]
SAMPLES = REPOSITORY / "samples"
EXPECTED = SAMPLES / "expected"

_BARS = ("rotation:flag", "narrow:number", "height:number", "line:flag")
_WIDE = ("check:flag", "wide:number", "ratio:double")
FIELDS = {
    Kind.TEXT: ("rotation:flag", "reverse:flag", "font:number", "horizontal:number", "vertical:number", "height:double", "width:double", "data:text"),
    Kind.BOX: ("width:number", "height:number", "thickness:number", "colour:flag"),
    Kind.DIAGONAL: ("width:number", "height:number", "thickness:number", "falls:flag"),
    Kind.GRAPHIC: ("row_bytes:number", "data:length", "data:dots"),
    Kind.CODE_128: (*_BARS, "mode:flag", "data:text"),
    Kind.EAN_13: (*_BARS, "data:text"),
    Kind.EAN_8: (*_BARS, "data:text"),
    Kind.UPC_A: (*_BARS, "data:text"),
    Kind.UPC_E: (*_BARS, "data:text"),
    Kind.INTERLEAVED_2_OF_5: (*_BARS, *_WIDE, "data:text"),
    Kind.CODE_39: (*_BARS, *_WIDE, "data:text"),
    Kind.PDF417: (
        "rotation:flag",
        "row_height:number",
        "security:number",
        "columns:number",
        "rows:number",
        "truncate:flag",
        "module_width:number",
        "data:text",
    ),
    Kind.AZTEC: ("magnification:number", "size:number", "data:text"),
    Kind.DATA_MATRIX: ("module:number", "columns:number", "rows:number", "data:text"),
    Kind.QR: ("magnification:number", "level:letter", "data:text"),
    Kind.MAXICODE: ("mode:number", "data:text"),
}
"""The fields of docs/FRAMES.md behind x and y, by their names here."""


def number(n):
    return struct.pack(">i", n)


def part(e, field):
    name, form = field.split(":")
    value = getattr(e, name)
    if form == "number":
        return number(value)
    if form == "flag":
        return struct.pack(">B", value)
    if form == "double":
        return struct.pack(">d", value)
    if form == "letter":
        return value.value.encode("ascii")
    if form == "length":
        return number(len(value))
    data = e.text.encode("utf-8") if form == "text" else value
    return number(len(data)) + data


def frame(e):
    """The frame of an element, from the fields that Python gives."""
    return bytes([e.kind]) + number(e.x) + number(e.y) + b"".join(part(e, field) for field in FIELDS[e.kind])


def lines(frames):
    return "".join(f.hex() + "\n" for f in frames)


def label_lines(label):
    head = b"\0" + number(len(label.elements)) + number(label.sets) + number(label.copies)
    return lines([head, *map(frame, label.elements)])


def listed(file):
    """What `laddertick list` prints of a file, made from its labels; of a refused one the frame ff alone."""
    labels = laddertick.labels(file)
    try:
        all_lines = "".join(map(label_lines, labels))
    except Refused as refused:
        return lines([b"\xff" + bytes([refused.number]) + number(refused.place)])
    return all_lines + (lines([b"\xfe" + number(labels.unprinted)]) if labels.unprinted else "")


_NAMES = ",text,box,diagonal,graphic,Code 128,EAN-13,EAN-8,UPC-A,2 of 5,Code 39,PDF417,Aztec,Data Matrix,QR,MaxiCode,UPC-E".split(",")


def words(e, n):
    """The line of `explain` for element n, from 1, whatever its lengths are of."""
    said = f"  {n:2}. {_NAMES[e.kind]} at {e.x},{e.y}"
    if getattr(e, "rotation", 0):
        said += f", turned {90 * e.rotation}"
    if e.kind == Kind.TEXT:
        said += f", font {e.font}, {e.horizontal} by {e.vertical}, height {e.height:.17g}, width {e.width:.17g}" + ", white on black" * e.reverse
    elif e.kind == Kind.BOX:
        said += f", {e.width} by {e.height}, thickness {e.thickness}" + ("", ", white", ", exclusive-OR")[e.colour]
    elif e.kind == Kind.DIAGONAL:
        slope = "" if 0 in (int(e.width), int(e.height)) else ", falling" if e.falls else ", rising"
        said += f", {e.width} by {e.height}, thickness {e.thickness}{slope}"
    elif e.kind == Kind.GRAPHIC:
        return said + f", {e.row_bytes} bytes a row, {len(e.data)} bytes\n"
    elif e.kind == Kind.PDF417:
        said += f", row height {e.row_height}, security {e.security}, columns {e.columns}, rows {e.rows}, module {e.module_width}" + ", truncated" * e.truncate
    elif e.kind == Kind.AZTEC:
        said += f", magnification {e.magnification}, size {e.size}"
    elif e.kind == Kind.DATA_MATRIX:
        said += f", module {e.module}, columns {e.columns}, rows {e.rows}"
    elif e.kind == Kind.QR:
        said += f", magnification {e.magnification}, level {e.level.value}"
    elif e.kind == Kind.MAXICODE:
        said += f", mode {e.mode}"
    else:
        said += f", narrow {e.narrow}, height {e.height}"
        if e.kind == Kind.CODE_128:
            said += ", mode " + ("", "UCC", "automatic", "EAN")[e.mode]
        if e.kind in (Kind.INTERLEAVED_2_OF_5, Kind.CODE_39):
            said += f", wide {e.wide}, ratio {e.ratio:.17g}" + ", check digit" * e.check
        said += ", with text below" * e.line
    if e.text:
        escaped = e.text.replace("\\", "\\\\").replace('"', '\\"')
        said += f': "{escaped}"'
    return said + "\n"


def counted(n, word, words=None):
    return f"{n} {word if n == 1 else words or word + 's'}"


def label_words(label, n, where=""):
    head = f"label {n}{where}: {counted(len(label.elements), 'element')}, {counted(label.sets, 'set')}, {counted(label.copies, 'copy', 'copies')}\n"
    return head + "".join(words(e, i) for i, e in enumerate(label.elements, 1))


def sample(name):
    return (SAMPLES / (name + ".epl")).read_bytes()


def expected(name):
    return (EXPECTED / name).read_text(encoding="utf-8")
