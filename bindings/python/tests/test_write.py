"""Elements and labels written as EPL, and read back."""

import ctypes
import dataclasses
import sys
import unittest
from ctypes import c_uint8
from common import sample
from test_stored import READ, distinct, replayed

import laddertick
from laddertick import (
    Aztec,
    BarMode,
    Box,
    Code39,
    Code128,
    Colour,
    DataMatrix,
    Diagonal,
    Dots300,
    Ean8,
    Ean13,
    Element,
    Graphic,
    Index,
    Interleaved2of5,
    Kind,
    Label,
    Label300,
    Maxicode,
    Pdf417,
    Qr,
    QrLevel,
    Refused,
    Text,
    UpcA,
    UpcE,
    _library,
    _structs,
    _write,
)

FUNCTIONS = ("laddertick_write", "laddertick_write_label", "laddertick_write_label_300")
MISSING = [name for name in FUNCTIONS if not _library.has(name)]


def setUpModule():
    if MISSING:
        print(f"\nNOT TESTED: libladdertick {laddertick.version()} has no {', '.join(MISSING)}, so nothing is written and read back here", file=sys.stderr)


written = unittest.skipIf(MISSING, "the library has no " + ", ".join(MISSING))

# Each kind with all its numbers different, and its one spelling.
SPELLED = (
    (Text(101, 202, 3, True, 4, 5, 6, 144.0, 70.0, b'se"ven\xff'), b'A101,202,3,4,5,6,R,"se"ven\xff"\n'),
    (Box(1, -2, 30, 4, 4, Colour.BLACK), b"LO1,-2,30,4\n"),
    (Box(1, 2, 3, 40, 3, Colour.WHITE), b"LW1,2,3,40\n"),
    (Box(1, 2, 30, 4, 4, Colour.EXCLUSIVE_OR), b"LE1,2,30,4\n"),
    (Box(1, 2, 30, 40, 7, Colour.BLACK), b"X1,2,7,31,42\n"),
    (Box(1, 2, 0, 40, 7, Colour.BLACK), b"X1,2,7,1,42\n"),
    (Diagonal(1, 2, 30, 40, 7, True), b"LS1,2,7,31,42\n"),
    (Diagonal(1, 2, 30, 40, 7, False), b"LS1,42,7,31,2\n"),
    (Graphic(1, 2, 3, b"ab\ndef"), b"GW1,2,3,2,ab\ndef\n"),
    (Graphic(1, 2, 0, b""), b"GW1,2,0,0,\n"),
    (Code128(1, 2, 3, 4, 5, True, BarMode.UCC, b"x"), b'B1,2,3,0,4,2,5,B,"x"\n'),
    (Code128(1, 2, 3, 4, 5, False, BarMode.AUTOMATIC, b"x"), b'B1,2,3,1,4,2,5,N,"x"\n'),
    (Code128(1, 2, 3, 4, 5, False, BarMode.EAN, b"x"), b'B1,2,3,1E,4,2,5,N,"x"\n'),
    (Ean13(1, 2, 3, 4, 5, True, b"x"), b'B1,2,3,E30,4,2,5,B,"x"\n'),
    (Ean8(1, 2, 3, 4, 5, True, b"x"), b'B1,2,3,E80,4,2,5,B,"x"\n'),
    (UpcA(1, 2, 3, 4, 5, True, b"x"), b'B1,2,3,UA0,4,2,5,B,"x"\n'),
    (UpcE(1, 2, 3, 4, 5, True, b"x"), b'B1,2,3,UE0,4,2,5,B,"x"\n'),
    (Interleaved2of5(1, 2, 3, 4, 5, False, True, 14, 3.5, b"x"), b'B1,2,3,2C,4,14,5,N,"x"\n'),
    (Code39(1, 2, 3, 4, 5, True, False, -7, 2.0, b"x"), b'B1,2,3,3,4,-7,5,B,"x"\n'),
    (Pdf417(1, 2, 3, 17, 4, 5, 6, True, 8, b"x"), b'b1,2,P,o3,x8,y17,l5,r6,t1,s4,"x"\n'),
    (Pdf417(1, 2, 3, 17, -1, 5, 6, False, 8, b"x"), b'b1,2,P,o3,x8,y17,l5,r6,t0,"x"\n'),
    (Aztec(1, 2, 44, 99, b"x"), b'b1,2,A,d44,e99,"x"\n'),
    (DataMatrix(1, 2, 6, 4, 7, b"x"), b'b1,2,D,h6,c4,r7,"x"\n'),
    (Qr(1, 2, 44, QrLevel.H, b"x"), b'b1,2,Q,s44,eH,"x"\n'),
    (Maxicode(1, 2, 3, b"x"), b'b1,2,M,m3,"x"\n'),
)


def at_300(e):
    """The element with its lengths as dots of 1/300 inch."""
    names = {"x", "y", "thickness"} | ({"height"} if not isinstance(e, Text) else set()) | ({"width"} if isinstance(e, (Box, Diagonal)) else set())
    return dataclasses.replace(e, **{name: Dots300(getattr(e, name)) for name in names if hasattr(e, name)})


def labels_of_all_files():
    cases, _ = replayed()
    for file in [*map(sample, READ), *(b"R100,200\n" + command + b"\nP11,12\n" for command, _ in distinct()), *cases]:
        try:
            yield from laddertick.labels(file)
        except Refused:
            pass


class Flat(unittest.TestCase):
    """What is handed to the library, which can be seen without it: the struct of a step's answer, filled again from Python's element."""

    def test_every_field_as_it_was_answered(self):
        kinds = set()
        for e, spelled in SPELLED:
            answer = _library.laddertick_step(spelled, len(spelled), _library.laddertick_start())
            self.assertEqual(answer.kind, e.kind, spelled)
            for struct, dots, element in ((_structs.Element, _write._dots_203, e), (_structs.Element300, _write._dots_300, at_300(e))):
                flat = struct()
                self.assertEqual(_write._flat(element, flat, dots, answer.element.data_start), getattr(e, "data", b""))
                for field, _ in struct._fields_:
                    self.assertEqual(getattr(flat, field), getattr(answer.element, field), (spelled, field))
            kinds.add(e.kind)
        self.assertEqual(kinds, set(Kind))

    def test_what_does_not_fit_its_field(self):
        text, box = SPELLED[0][0], SPELLED[1][0]
        for e, change in ((text, {"rotation": 256}), (text, {"rotation": -1}), (text, {"font": 2**31}), (box, {"x": -(2**31) - 1}), (box, {"width": 2**32})):
            self.assertRaises(OverflowError, laddertick.write, dataclasses.replace(e, **change))
        for wrong in (Element(1, 2), laddertick.Bars(1, 2, 3, 4, 5, True), "LO1,2,3,4", None, dataclasses.replace(box, x=0.5), dataclasses.replace(text, data="x")):
            self.assertRaises(TypeError, laddertick.write, wrong)
        for sets, copies in ((2**31, 1), (1, -(2**31) - 1)):
            self.assertRaises(OverflowError, laddertick.write_label, Label((box,), sets, copies))

    def test_neither_resolution_passes_for_the_other(self):
        for e, _ in SPELLED:
            other = at_300(e)
            self.assertRaises(TypeError, laddertick.write, other)
            self.assertRaises(TypeError, laddertick.write_label, Label((other,), 1, 1))
            self.assertRaises(TypeError, laddertick.write_label_300, Label300((e,), 1, 1))
            self.assertRaises(TypeError, laddertick.write_label, Label300((other,), 1, 1))
            self.assertRaises(TypeError, laddertick.write_label_300, Label((e,), 1, 1))
        # Also of labels that have no length to look at; and it is said what would write it.
        self.assertRaises(TypeError, laddertick.write_label, Label300((), 1, 1))
        self.assertRaises(TypeError, laddertick.write_label_300, Label((), 1, 1))
        self.assertRaisesRegex(TypeError, "x is in dots of 1/300 inch: .*; write_label_300 writes it", laddertick.write, at_300(SPELLED[0][0]))
        self.assertRaisesRegex(TypeError, "x is not in dots of 1/300 inch: .*; write_label writes it", laddertick.write_label_300, Label300((SPELLED[0][0],), 1, 1))
        # One length that is not like the others is enough.
        self.assertRaises(TypeError, laddertick.write, dataclasses.replace(SPELLED[1][0], thickness=Dots300(4)))
        self.assertRaises(TypeError, laddertick.write_label_300, Label300((dataclasses.replace(at_300(SPELLED[1][0]), thickness=4),), 1, 1))

    def test_sized(self):
        text = SPELLED[0][0]
        larger = laddertick.sized(dataclasses.replace(text, font=5, horizontal=2, vertical=3))
        self.assertEqual((larger.height, larger.width, larger.font, larger.data), (144.0, 64.0, 5, text.data))
        self.assertEqual(laddertick.sized(dataclasses.replace(text, height=1.0, width=2.0)), text)
        for bars in (e for e, _ in SPELLED if isinstance(e, (Interleaved2of5, Code39))):
            self.assertEqual(laddertick.sized(dataclasses.replace(bars, wide=9, ratio=0.0)).ratio, 2.25)
            self.assertEqual(laddertick.sized(dataclasses.replace(bars, wide=-9, ratio=0.0)).ratio, 2.0)
        self.assertEqual(laddertick.sized(at_300(text)), at_300(text))
        self.assertEqual(laddertick.sized(SPELLED[1][0]), SPELLED[1][0])
        with self.assertRaises(Refused) as caught:
            laddertick.sized(dataclasses.replace(text, vertical=2**31 - 1))
        self.assertEqual(caught.exception.number, 19)


@written
class Written(unittest.TestCase):
    def assertRefused(self, number, place, call, *arguments):
        with self.assertRaises(Refused) as caught:
            call(*arguments)
        self.assertEqual((caught.exception.number, caught.exception.place, caught.exception.line), (number, place, None))
        self.assertNotEqual(caught.exception.meaning, "")

    def test_one_spelling(self):
        for e, spelled in SPELLED:
            self.assertEqual(laddertick.write(e), spelled)
            self.assertEqual(next(laddertick.steps(spelled)), e)

    def test_a_label(self):
        elements = tuple(e for e, _ in SPELLED)
        due = b"N\n" + b"".join(spelled for _, spelled in SPELLED) + b"P5,6\n"
        self.assertEqual(laddertick.write_label(Label(elements, 5, 6)), due)
        self.assertEqual(laddertick.write_label_300(Label300(tuple(map(at_300, elements)), 5, 6)), due)
        self.assertEqual(laddertick.write_label(Label(elements[1:2], 0, 2**31 - 1)), b"N\n" + SPELLED[1][1] + b"P0,2147483647\n")

    def test_what_is_read_is_written_and_read(self):
        count = 0
        for label in labels_of_all_files():
            file = laddertick.write_label(label)
            labels = laddertick.labels(file)
            self.assertEqual((list(labels), labels.unprinted), ([label], 0))
            self.assertEqual(file, b"N\n" + b"".join(map(laddertick.write, label.elements)) + b"P%d,%d\n" % (label.sets, label.copies))
            if Kind.GRAPHIC not in {e.kind for e in label.elements}:
                try:
                    moved = Index.of(file).to_300(0)
                except Refused as refused:
                    self.assertIn(refused.number, (13, 19))
                else:
                    try:
                        (back,) = laddertick.labels(laddertick.write_label_300(moved))
                    except Refused as refused:
                        # A far corner that passes 32 bits, which no line has.
                        self.assertEqual(refused.number, 23)
                    else:
                        self.assertEqual((tuple(map(at_300, back.elements)), back.sets, back.copies), (moved.elements, moved.sets, moved.copies))
            count += 1
        self.assertGreater(count, 500)

    def test_edited(self):
        (label,) = laddertick.labels(sample("bag"))
        elements = list(label.elements)
        elements[3] = laddertick.sized(dataclasses.replace(elements[3], data=b"118.5 - 119.0 m", font=4))
        edited = Label(tuple(elements), label.sets, 7)
        self.assertEqual(list(laddertick.labels(laddertick.write_label(edited))), [edited])

    def test_what_no_line_yields(self):
        text, box, graphic = SPELLED[0][0], SPELLED[4][0], SPELLED[8][0]
        bad = (
            dataclasses.replace(text, data=b""),
            dataclasses.replace(text, data=b"a\nb"),
            dataclasses.replace(text, height=145.0),
            dataclasses.replace(text, rotation=4),
            dataclasses.replace(text, horizontal=0),
            dataclasses.replace(box, width=-1),
            dataclasses.replace(box, colour=Colour.WHITE),
            dataclasses.replace(box, x=2**31 - 1),
            dataclasses.replace(graphic, data=b"abcd"),
            dataclasses.replace(SPELLED[-1][0], mode=5),
        )
        for e in bad:
            self.assertRefused(23, 0, laddertick.write, e)
            self.assertRefused(23, 2, laddertick.write_label, Label((text, box, e), -1, 1))
            self.assertRefused(23, 1, laddertick.write_label_300, Label300((at_300(text), at_300(e)), 1, 1))
        self.assertRefused(23, 0, laddertick.write_label, Label((), 1, 1))
        self.assertRefused(23, 0, laddertick.write_label_300, Label300((), 1, 1))
        self.assertRefused(23, 2, laddertick.write_label, Label((text, box), -1, 1))
        self.assertRefused(23, 2, laddertick.write_label, Label((text, box), 1, -1))
        self.assertRefused(14, 0, laddertick.write, dataclasses.replace(text, data=b"x" * (laddertick.LONGEST + 1)))

    def test_room(self):
        text = SPELLED[0][0]
        flat, data = _write._all([text, SPELLED[1][0]], _structs.Element, _write._dots_203)
        due = laddertick.write(text)
        whole = laddertick.write_label(Label((text, SPELLED[1][0]), 1, 2))
        for of, due in (
            (lambda out, room: _library.laddertick_write(data, len(data), flat[0], out, room), due),
            (lambda out, room: _library.laddertick_write_label(data, len(data), flat, 2, 1, 2, out, room), whole),
        ):
            self.assertEqual((of(None, 0).number, of(None, 0).place), (15, len(due)))
            for lent in (len(due) - 1, len(due)):
                room = (c_uint8 * (len(due) + 9)).from_buffer_copy(b"\xa5" * (len(due) + 9))
                said = of(room, lent)
                self.assertEqual((said.number, said.place), (15 if lent < len(due) else 0, len(due)))
                self.assertEqual(bytes(room), (b"\xa5" * len(due) if lent < len(due) else due) + b"\xa5" * 9)
        # The data of a second element stands behind the first's, and data outside the input is nobody's.
        outside = _structs.Element.from_buffer_copy(flat[0])
        outside.data_start = len(data)
        said = _library.laddertick_write(data, len(data), outside, None, 0)
        self.assertEqual((said.number, said.place), (23, 0))
        outside.data_start = ctypes.c_size_t(-1).value
        said = _library.laddertick_write(data, len(data), outside, None, 0)
        self.assertEqual((said.number, said.place), (23, 0))


if __name__ == "__main__":
    unittest.main()
