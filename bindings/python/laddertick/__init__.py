"""EPL label files: a file's labels, its normalised text, and what lies where.

    >>> import laddertick
    >>> labels = laddertick.labels(b'R10,20\\nLO5,6,30,4\\nA5,40,0,2,1,1,N,"Bag 7"\\nP1\\n')
    >>> for label in labels:
    ...     for element in label.elements:
    ...         print(element.kind.name, element.x, element.y, element.text)
    BOX 15 26 None
    TEXT 15 60 Bag 7
    >>> labels.unprinted
    0

A file is bytes, as `open(name, "rb").read()` gives them. What is refused raises `Refused`, which has the number, the place, the line and the meaning. `Index` opens single labels
of a long file: it is read whole once, and then each label by its own bytes.

The work is done by a shared object, in which every function is proved to meet its contract, to return, and to touch only what it was lent; this package allocates and translates. It
needs the standard library of Python 3.8 or later and that object, libladdertick.so.1: the file that the environment variable LADDERTICK_LIBRARY names; or else the one that was
installed with this package, the one that the loader finds, or the one of `pkg-config laddertick`.
"""

from ._element import (
    Aztec,
    BarMode,
    Bars,
    Box,
    Code39,
    Code128,
    Colour,
    DataMatrix,
    Diagonal,
    Dots300,
    Ean8,
    Ean13,
    Element,
    Graphic,
    Interleaved2of5,
    Kind,
    Maxicode,
    Pdf417,
    Qr,
    QrLevel,
    Text,
    UpcA,
    UpcE,
    decode,
)
from ._file import LONGEST, check, join, listing, normalise, strict_listing
from ._index import Entry, Index, Rectangle
from ._library import VERSION, Bytes, meaning, version
from ._refusal import Held, Refusal, Refused, Unfit, Unjoined
from ._walk import Clear, Label, Label300, Labels, Print, Step, Steps, Walk, labels, steps
from ._write import sized, write, write_label, write_label_300

__version__ = VERSION

__all__ = [
    "Aztec",
    "BarMode",
    "Bars",
    "Box",
    "Bytes",
    "Clear",
    "Code128",
    "Code39",
    "Colour",
    "DataMatrix",
    "Diagonal",
    "Dots300",
    "Ean13",
    "Ean8",
    "Element",
    "Entry",
    "Graphic",
    "Held",
    "Index",
    "Interleaved2of5",
    "Kind",
    "LONGEST",
    "Label",
    "Label300",
    "Labels",
    "Maxicode",
    "Pdf417",
    "Print",
    "Qr",
    "QrLevel",
    "Rectangle",
    "Refusal",
    "Refused",
    "Step",
    "Steps",
    "Text",
    "Unfit",
    "Unjoined",
    "UpcA",
    "UpcE",
    "VERSION",
    "Walk",
    "check",
    "decode",
    "join",
    "labels",
    "listing",
    "meaning",
    "normalise",
    "sized",
    "steps",
    "strict_listing",
    "version",
    "write",
    "write_label",
    "write_label_300",
]
