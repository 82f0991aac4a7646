"""Every function of the package, by answers that docs/SCOPE.md and include/laddertick.h give."""

import copy
import dataclasses
import doctest
import inspect
import mmap
import pickle
import tempfile
import typing
import unittest
from common import REPOSITORY

import laddertick
from laddertick import (
    Aztec,
    BarMode,
    Box,
    Clear,
    Code128,
    Colour,
    DataMatrix,
    Diagonal,
    Dots300,
    Ean13,
    Element,
    Entry,
    Graphic,
    Held,
    Index,
    Interleaved2of5,
    Kind,
    Label,
    Maxicode,
    Pdf417,
    Print,
    Qr,
    QrLevel,
    Rectangle,
    Refusal,
    Refused,
    Text,
    Unfit,
    Unjoined,
    Walk,
)


class Case(unittest.TestCase):
    def assertRefused(self, number, place, line, call, *arguments):
        with self.assertRaises(Refused) as caught:
            call(*arguments)
        refused = caught.exception
        self.assertEqual((refused.number, refused.place, refused.line), (number, place, line))
        return refused


class Reading(Case):
    def test_every_field_by_its_name(self):
        # As tools/layout/answers.c has them: all values of an element different.
        before = b"R100,200\nLO1,1,1,1\nLO1,1,1,1\n"
        there = Walk(100, 200, 2, 29)
        for line, due in (
            (b'A1,2,3,4,5,6,R,"seven77"\n', Text(101, 202, 3, True, 4, 5, 6, 144.0, 70.0, b"seven77")),
            (b"LW1,2,4,3\n", Box(101, 202, 4, 3, 3, Colour.WHITE)),
            (b"LE1,2,4,3\n", Box(101, 202, 4, 3, 3, Colour.EXCLUSIVE_OR)),
            (b"X1,2,7,31,42\n", Box(101, 202, 30, 40, 7, Colour.BLACK)),
            (b"LS1,2,7,31,42\n", Diagonal(101, 202, 30, 40, 7, True)),
            (b"GW5,6,3,2,ab\ndef", Graphic(105, 206, 3, b"ab\ndef")),
            (b'B1,2,2,1E,4,5,6,B,"hello"\n', Code128(101, 202, 2, 4, 6, True, BarMode.EAN, b"hello")),
            (b'B1,2,3,E30,4,5,6,B,"hello"\n', Ean13(101, 202, 3, 4, 6, True, b"hello")),
            (b'B1,2,3,E80,4,5,6,B,"hello"\n', laddertick.Ean8(101, 202, 3, 4, 6, True, b"hello")),
            (b'B1,2,3,UA0,4,5,6,B,"hello"\n', laddertick.UpcA(101, 202, 3, 4, 6, True, b"hello")),
            (b'B1,2,3,UE0,4,5,6,B,"hello"\n', laddertick.UpcE(101, 202, 3, 4, 6, True, b"hello")),
            (b'B1,2,3,2C,4,10,6,N,"hello"\n', Interleaved2of5(101, 202, 3, 4, 6, False, True, 10, 2.5, b"hello")),
            (b'B1,2,3,3,4,14,6,B,"hello"\n', laddertick.Code39(101, 202, 3, 4, 6, True, False, 14, 3.5, b"hello")),
            (b'b1,2,P,o3,y17,s4,l5,r6,t1,x8"seven77"\n', Pdf417(101, 202, 3, 17, 4, 5, 6, True, 8, b"seven77")),
            (b'b1,2,A,d44,e99"hello"\n', Aztec(101, 202, 44, 99, b"hello")),
            (b'b1,2,D,c4,r7,h6"hello"\n', DataMatrix(101, 202, 6, 4, 7, b"hello")),
            (b'b1,2,Q,s44,eH"hello"\n', Qr(101, 202, 44, QrLevel.H, b"hello")),
            (b'b1,2,M,m3"hello"\n', Maxicode(101, 202, 3, b"hello")),
        ):
            steps = laddertick.steps(before + line, there)
            self.assertEqual(next(steps), due, line)
            self.assertEqual(steps.walk, Walk(100, 200, 3, 29 + len(line)), line)
            self.assertEqual(list(steps), [])
            self.assertEqual(steps.unprinted, 3)

    def test_steps_clear_and_print(self):
        file = b"N\nLO1,1,1,1\nN\nLO2,2,2,2\nP5,7\nP\nLO3,3,3,3"
        steps = laddertick.steps(file)
        self.assertEqual(steps.walk, Walk(0, 0, 0, 0))
        box = [Box(n, n, n, n, n, Colour.BLACK) for n in range(4)]
        self.assertEqual(list(steps), [Clear(), box[1], Clear(), box[2], Print(1, 5, 7), box[3]])
        self.assertEqual((steps.unprinted, steps.walk), (1, Walk(0, 0, 1, len(file))))
        # Behind the end there is nothing, however often one asks; a walk can be taken up anywhere.
        self.assertRaises(StopIteration, next, steps)
        self.assertEqual(list(laddertick.steps(file, Walk(7, 9, 0, 14))), [Box(9, 11, 2, 2, 2, Colour.BLACK), Print(1, 5, 7), Box(10, 12, 3, 3, 3, Colour.BLACK)])
        self.assertEqual(list(laddertick.labels(file)), [Label((box[2],), 5, 7)])

    def test_a_walk_outside(self):
        self.assertRefused(16, 4, None, next, laddertick.steps(b"N\n", Walk(0, 0, 0, 4)))
        self.assertRefused(16, 1, None, next, laddertick.steps(b"N\n", Walk(0, 0, 2, 1)))
        most = 2**64 - 1
        self.assertRefused(16, most, None, next, laddertick.steps(b"N\n", Walk(0, 0, most, most)))
        for walk in (Walk(place=-1), Walk(pending=2**64), Walk(x=2**31), Walk(y=-(2**31) - 1)):
            self.assertRaises(OverflowError, laddertick.steps, b"N\n", walk)

    def test_no_print_line_no_label(self):
        for file, count, unprinted in ((b"LO1,1,1,1\nP\nLO2,2,2,2\nLO3,3,3,3\n", 1, 2), (b"LO1,1,1,1", 0, 1), (b"LO1,1,1,1\nN\n", 0, 0), (b"", 0, 0)):
            labels = laddertick.labels(file)
            self.assertEqual(labels.unprinted, 0)
            self.assertEqual((len(list(labels)), labels.unprinted), (count, unprinted))

    def test_labels_before_a_refused_line(self):
        labels = laddertick.labels(b"LO1,1,1,1\nP\nLO2,2,2,2\nX\nP\n")
        self.assertEqual(len(next(labels).elements), 1)
        self.assertRefused(6, 22, 4, next, labels)
        self.assertEqual((list(labels), labels.unprinted), ([], 0))

    def test_text(self):
        def text(data):
            (label,) = laddertick.labels(b'A1,2,0,1,1,1,N,"' + data + b'"\nP\n')
            self.assertEqual(label.elements[0].data, data)
            return label.elements[0].text

        self.assertEqual(text("Süd 3".encode()), "Süd 3")
        self.assertEqual(text(b"S\xfcd 3"), "S\ufffdd 3")
        # One mark for each maximal part of a sequence.
        self.assertEqual(text(b"\xf0\x9f\x98x\xed\xa0\x80\0\""), "\ufffdx\ufffd\ufffd\ufffd\0\"")
        self.assertEqual(laddertick.decode(b""), "")
        self.assertEqual(laddertick.decode(bytearray(b"\xff" * 5)), "\ufffd" * 5)
        self.assertRefused(14, 0, None, laddertick.decode, b"\xff" * (laddertick.LONGEST + 1))
        (label,) = laddertick.labels(b"GW0,0,1,1,xLO1,1,1,1\nP")
        self.assertEqual([e.text for e in label.elements], [None, None])

    def test_normalise(self):
        self.assertEqual(laddertick.normalise(b" N \r\n\n"), b"N\n")
        self.assertEqual(laddertick.normalise(b"GW,,,," * 50), b"GW,,,,\n" * 50)
        self.assertEqual(laddertick.normalise(b""), b"")
        self.assertEqual(laddertick.normalise(b" LO1\n"), b"LO1\n")
        self.assertEqual(laddertick.normalise(b"\n" * laddertick.LONGEST), b"")
        self.assertRefused(14, 0, None, laddertick.normalise, b"\n" * (laddertick.LONGEST + 1))

    def test_listing(self):
        file = b"R10,20\nLO5,6,30,4\nP1\n"
        lines = "00000000010000000100000001\n020000000f0000001a0000001e000000040000000400\n"
        self.assertEqual((laddertick.listing(file), laddertick.strict_listing(file)), (lines, lines))
        self.assertEqual(laddertick.listing(b""), "")
        self.assertRefused(4, 2, 2, laddertick.listing, b"N\nLO1\n")
        self.assertRefused(17, 2, 2, laddertick.strict_listing, b"N\nR1,\n")

    def test_check(self):
        for file, number, place, line, field, held in (
            (b'N\nA1,2,0,1,,1,N,"x"\nP', 17, 2, 2, 5, Held.EMPTY),
            (b'A1,2,0,1,12O,1,N,"x"\nP', 17, 0, 1, 5, Held.NO_NUMBER),
            (b"N\n\n LO1,99999999999,3,4\nP", 17, 3, 3, 2, Held.BEYOND),
            (b'A1,2,0,1,7,1,N,"x"\nP', 18, 0, 1, 5, Held.OUTSIDE),
            (b'N\nB0,0,0,1D,2,2,9,B,"x"\nP', 7, 2, 2, None, None),
            (b"LO1,2\nR1,\n", 4, 0, 1, None, None),
            (bytes(laddertick.LONGEST + 1), 14, 0, None, None, None),
        ):
            with self.assertRaises(Unfit) as caught:
                laddertick.check(file)
            unfit = caught.exception
            self.assertEqual((unfit.number, unfit.place, unfit.line, unfit.field, unfit.held), (number, place, line, field, held))
        with self.assertRaises(Unfit) as caught:
            laddertick.check(b"N\nR1,\n")
        self.assertEqual(
            str(caught.exception), "refused (17): a field holds no value, which the well-site profile asks for, line 2, offset 2 (from 0), field 2: empty"
        )

    def test_join(self):
        first, second = b" LO1,2,3,4\r\nLO5", b"P1\n\nLO1"
        self.assertEqual(laddertick.join(first[:12], second[:3]), b"LO1,2,3,4\nN\nP1\n")
        self.assertEqual(laddertick.join(b"", b""), b"N\n")
        blank = b"\n" * laddertick.LONGEST
        self.assertEqual(laddertick.join(blank, blank), b"N\n")
        long = b"x" * laddertick.LONGEST
        for pair, number, place, line, file in (
            ((first, second), 4, 12, 2, 1),
            ((first[:10], second), 4, 4, 3, 2),
            ((blank + b"\n", second), 14, 0, None, 1),
            ((b"", blank + b"\n"), 14, 0, None, 2),
            ((long, b""), 25, laddertick.LONGEST + 3, None, None),
        ):
            with self.assertRaises(Unjoined) as caught:
                laddertick.join(*pair)
            unjoined = caught.exception
            self.assertEqual((unjoined.number, unjoined.place, unjoined.line, unjoined.file), (number, place, line, file))
        self.assertEqual(str(caught.exception), "refused (25): a joined text of more than 16,777,216 bytes")


class Indexed(Case):
    # Print lines that print nothing; N and R start no label; the reference is that at the first byte.
    FILE = b"R5,6\nP\nR10,20\nLO1,2,4,3\nLE1,2,7,8\nLO3,3,3,3\nP1\nR100,100\nLW1,2,7,8\nLO3,3,3,3\nP2,3\nLO,,,\n"

    def test_entries(self):
        index = Index.of(self.FILE)
        self.assertEqual(list(index), [Entry(7, 47, 3, 5, 6), Entry(47, 81, 2, 10, 20)])
        self.assertEqual((len(index), index[-1], index[:1]), (2, Entry(47, 81, 2, 10, 20), (Entry(7, 47, 3, 5, 6),)))
        self.assertRaises(IndexError, index.__getitem__, 2)
        self.assertIn(Entry(7, 47, 3, 5, 6), index)
        self.assertEqual([index.label(n) for n in range(2)], list(laddertick.labels(self.FILE)))
        self.assertEqual(index.label(1), Label((Box(101, 102, 7, 8, 7, Colour.WHITE), Box(103, 103, 3, 3, 3, Colour.BLACK)), 2, 3))
        self.assertEqual("".join(map(index.open, range(2))) + "fe00000001\n", laddertick.listing(self.FILE))
        self.assertEqual(list(index.steps(1)), [*index.label(1).elements, Print(2, 2, 3)])

    def test_no_such_label(self):
        index = Index.of(self.FILE)
        for call in (index.open, index.steps, index.label, index.to_300, lambda n: index.nearest(n, 0, 0), lambda n: index.inside(n, Rectangle(0, 0, 0, 0))):
            self.assertRefused(21, 2, None, call, 2)
            self.assertRefused(21, 2**64 - 1, None, call, 2**64 - 1)
            self.assertRaises(OverflowError, call, -1)
            self.assertRaises(OverflowError, call, 2**64)
            self.assertRaises(TypeError, call, 0.5)
        self.assertRefused(21, 0, None, Index.of(b"").label, 0)

    def test_kept_entries(self):
        index = Index(self.FILE, [Entry(*map(int, ",".join(map(str, entry)).split(","))) for entry in Index.of(self.FILE)])
        self.assertEqual([index.label(n) for n in range(2)], list(laddertick.labels(self.FILE)))

    def test_entries_that_no_index_made(self):
        n, most = len(self.FILE), 2**64 - 1
        for entry, number, place, line in (
            (Entry(84, 83, 1, 0, 0), 16, 83, None),
            (Entry(81, n + 1, 1, 0, 0), 16, n + 1, None),
            (Entry(most, most, most, 0, 0), 16, most, None),
            (Entry(81, n, 1, 0, 0), 21, 1, None),
            (Entry(0, 0, 0, 0, 0), 21, 1, None),
            (Entry(7, 47, 3, 2**31 - 1, 0), None, None, None),
            (Entry(47, 81, 2, 2**31 - 1, 0), None, None, None),
            # It begins inside a line, which is passed over, and at a reference that is too far for the next.
            (Entry(15, 47, 3, 2**31 - 1, 0), 13, 24, 5),
        ):
            index = Index(self.FILE, [Entry(0, 0, 0, 0, 0), entry])
            for call in (index.open, index.steps, index.label, index.to_300, lambda n: index.nearest(n, 0, 0)):
                if number is None:
                    self.assertIsNotNone(call(1))
                else:
                    self.assertRefused(number, place, line, call, 1)
        # A count is nobody's promise: room is not taken by it.
        index = Index(self.FILE, [Entry(47, 81, most, 10, 20)])
        self.assertEqual((len(index.label(0).elements), len(index.to_300(0).elements), index[0].count), (2, 2, most))
        for entry in (Entry(-1, 0, 0, 0, 0), Entry(0, 2**64, 0, 0, 0), Entry(0, 0, 0, 2**31, 0), Entry(0, 0, 0, 0, -(2**31) - 1)):
            self.assertRaises(OverflowError, Index, self.FILE, [entry])

    def test_many_labels(self):
        # More than the first guess has room for, the shortest that there are.
        file = b"X,,,,\nP\n" * 1000
        index = Index.of(file)
        self.assertEqual((len(index), index[999]), (1000, Entry(7992, 8000, 1, 0, 0)))
        self.assertEqual(len(index.label(999).elements), 1)
        self.assertRefused(6, 12, 3, Index.of, b"LO1,1,1,1\nP\nX1\n")
        self.assertRefused(14, 0, None, Index.of, bytes(laddertick.LONGEST + 1))

    def test_what_lies_where(self):
        file = b'LO1,2,3,4\nP\nLO5,6,7,8\nN\nLO11,22,33,44\nA100,200,0,1,1,1,N,"a"\nLS300,410,5,350,470\nLO2147483000,9,2147483647,1\nP\n'
        index = Index.of(file)
        most = 2**31 - 1
        self.assertEqual(index.inside(1, Rectangle(12, 22, 300, 410)), [1, 2])
        self.assertEqual(index.inside(1, Rectangle(11, 9, 300, 410)), [0, 1, 2])
        self.assertEqual(index.inside(1, (11, 22, 11, 22)), [0])
        self.assertEqual(index.inside(1, Rectangle(1, 1, 2, 2)), [])
        self.assertEqual(index.touching(1, Rectangle(44, 66, 300, 410)), [0, 2])
        self.assertEqual(index.touching(1, Rectangle(most, 10, most, 10)), [3])
        self.assertEqual(index.touching(1, Rectangle(45, 67, 46, 68)), [])
        self.assertRefused(22, 0, None, index.inside, 7, Rectangle(2, 1, 1, 3))
        self.assertRefused(22, 0, None, index.touching, 7, Rectangle(1, 3, 2, 1))
        self.assertRefused(21, 7, None, index.touching, 7, Rectangle(1, 1, 1, 1))
        points = ((290, 900), (900, 290), (-most - 1, -7), (101, 150))
        self.assertEqual([index.nearest(1, x, y) for x, y in points], [2, 2, 0, 1])
        self.assertRaises(OverflowError, index.nearest, 1, most + 1, 0)
        self.assertRaises(OverflowError, index.inside, 1, Rectangle(0, 0, 0, most + 1))
        self.assertRaises(TypeError, index.inside, 1, (1, 2, 3))
        self.assertRaises(TypeError, index.nearest, 1, 0.5, 0)


class Dots(Case):
    def test_to_300(self):
        # As tools/layout/answers.c has it: 101 becomes 149, 202 299, 30 44, 40 59, 7 10, 6 9, and all else stays.
        file = (
            b'R100,200\nA1,2,3,4,5,6,R,"seven77"\nX1,2,7,31,42\nLS1,2,7,31,42\nB1,2,3,2C,4,10,6,N,"hello"\nb1,2,P,o3,y17,s4,l5,r6,t1,x8"seven77"\n'
            b'b1,2,A,d44,e99"hello"\nb1,2,D,c4,r7,h6"hello"\nb1,2,Q,s44,eH"hello"\nb1,2,M,m3"hello"\nP5,6\n'
        )
        d = Dots300
        x, y = d(149), d(299)
        label = Index.of(file).to_300(0)
        self.assertEqual((label.sets, label.copies), (5, 6))
        self.assertEqual(
            label.elements,
            (
                Text(x, y, 3, True, 4, 5, 6, 144.0, 70.0, b"seven77"),
                Box(x, y, d(44), d(59), d(10), Colour.BLACK),
                Diagonal(x, y, d(44), d(59), d(10), True),
                Interleaved2of5(x, y, 3, 4, d(9), False, True, 10, 2.5, b"hello"),
                Pdf417(x, y, 3, 17, 4, 5, 6, True, 8, b"seven77"),
                Aztec(x, y, 44, 99, b"hello"),
                DataMatrix(x, y, 6, 4, 7, b"hello"),
                Qr(x, y, 44, QrLevel.H, b"hello"),
                Maxicode(x, y, 3, b"hello"),
            ),
        )
        bars = Index.of(b'B1,2,0,E30,2,5,30,B,"x"\nLO-1,-2,7,5\nP').to_300(0).elements
        self.assertEqual(bars, (Ean13(d(1), d(3), 0, 2, d(44), True, b"x"), Box(d(-1), d(-3), d(10), d(7), d(7), Colour.BLACK)))

    def test_refused(self):
        for file, number, place, line in (
            (b"LO1453130602,0,1453130602,1\nP", 13, 0, 1),
            (b"LO0,0,1,1\n LO0,0,1,1453130602\nLO1453130602,0,1,1\nP", 19, 10, 2),
            (b"LO1453130602,0,1,1\n GW0,0,1,1,zP", 24, 19, 2),
        ):
            self.assertRefused(number, place, line, Index.of(file).to_300, 0)

    def test_neither_passes_for_the_other(self):
        self.assertNotEqual(Dots300(7), 7)
        self.assertFalse(isinstance(Dots300(7), int))
        for wrong in (lambda: Dots300(7) < 8, lambda: Dots300(7) + 1, lambda: 1 + Dots300(7), lambda: Dots300(7) * 1.0, lambda: range(Dots300(7))):
            self.assertRaises(TypeError, wrong)
        self.assertLess(Dots300(7), Dots300(8))
        self.assertEqual((int(Dots300(-7)), str(Dots300(-7)), len({Dots300(1), Dots300(1), 1})), (-7, "-7", 2))
        index = Index.of(b"LO0,0,1,1\nP")
        self.assertNotEqual(index.label(0).elements, index.to_300(0).elements)
        self.assertNotEqual(type(index.label(0)), type(index.to_300(0)))
        self.assertRaises(TypeError, index.nearest, 0, Dots300(1), Dots300(1))


class Refusals(Case):
    def test_by_name(self):
        rows = []
        for row in (REPOSITORY / "refusals.txt").read_text(encoding="utf-8").splitlines():
            if not row.startswith("#"):
                number, _, _, place, meaning, _ = row.split(" | ")
                rows.append(int(number))
                refused = Refused(int(number), 7, 3 if place == "line" else None)
                self.assertEqual(refused.refusal, Refusal(int(number)))
                self.assertEqual((refused.meaning, laddertick.meaning(int(number))), (meaning, meaning))
                self.assertEqual(str(refused), f"refused ({number}): {meaning}" + ", line 3, offset 7 (from 0)" * (place == "line"))
                self.assertEqual(laddertick._refusal.is_of_line(int(number)), place == "line")
        self.assertEqual(rows, list(Refusal))
        self.assertEqual((Refused(255, 7).refusal, str(Refused(255, 7)), laddertick.meaning(0)), (None, "refused (255): unknown", "no refusal"))
        self.assertEqual((Refusal.TEXT_FIELDS, Refusal.SIZE_OUT_OF_RANGE, Refusal.JOINED_TOO_LONG), (1, 19, 25))

    def test_are_exceptions_that_travel(self):
        for refused in (Refused(4, 2, 1), Unfit(17, 2, 1, 5, Held.EMPTY), Unjoined(25, 3), Unjoined(4, 2, 9, 2)):
            self.assertIsInstance(refused, ValueError)
            for same in (pickle.loads(pickle.dumps(refused)), copy.copy(refused)):
                self.assertEqual((type(same), same.args, str(same), vars(same)), (type(refused), refused.args, str(refused), vars(refused)))
        self.assertEqual(str(Unjoined(4, 2, 9, 2)), f"the second file: refused (4): {laddertick.meaning(4)}, line 9, offset 2 (from 0)")


class Handling(Case):
    def test_what_a_file_may_be(self):
        file = b'LO1,1,1,1\nA1,2,0,1,1,1,N,"x"\nP\n'
        due = list(laddertick.labels(file))
        with tempfile.TemporaryFile() as on_disk:
            on_disk.write(file)
            on_disk.flush()
            with mmap.mmap(on_disk.fileno(), 0, access=mmap.ACCESS_READ) as mapped:
                for same in (file, bytearray(file), memoryview(file), memoryview(b"." + file + b".")[1:-1], mapped):
                    self.assertEqual(list(laddertick.labels(same)), due)
                    self.assertEqual(laddertick.normalise(same), file)
                    self.assertEqual(len(Index.of(same)), 1)
        for call in (laddertick.labels, laddertick.steps, laddertick.listing, laddertick.strict_listing, laddertick.normalise, laddertick.check, Index.of):
            for wrong in ("LO1,1,1,1\nP\n", 12, None, [1, 2]):
                self.assertRaises(TypeError, call, wrong)
        self.assertRaises(TypeError, laddertick.join, file, "x")
        with self.assertRaisesRegex(TypeError, "mode 'rb'"):
            laddertick.labels("LO1,1,1,1")

    def test_elements_are_values(self):
        (label,) = laddertick.labels(b'A1,2,0,1,1,1,N,"x"\nP\n')
        text = label.elements[0]
        with self.assertRaises(dataclasses.FrozenInstanceError):
            text.x = 7
        moved = dataclasses.replace(text, x=7)
        self.assertEqual((moved.x, moved.y, moved.data, moved == text), (7, 2, b"x", False))
        self.assertEqual(len({label, pickle.loads(pickle.dumps(label))}), 1)
        self.assertEqual(dataclasses.asdict(text)["data"], b"x")
        self.assertEqual({cls.kind for cls in vars(laddertick).values() if isinstance(cls, type) and issubclass(cls, Element) and hasattr(cls, "kind")}, set(Kind))

    def test_versions(self):
        version = (REPOSITORY / "VERSION").read_text().strip()
        self.assertEqual((laddertick.VERSION, laddertick.__version__, laddertick.version()), (version, version, version))

    def test_names_and_types(self):
        self.assertEqual(laddertick.__all__, sorted(laddertick.__all__))
        public = {name for name, value in vars(laddertick).items() if not name.startswith("_") and not inspect.ismodule(value)}
        self.assertEqual(public, set(laddertick.__all__))
        looked_at = 0
        for name in laddertick.__all__:
            value = getattr(laddertick, name)
            if inspect.isclass(value) and value.__module__.startswith("laddertick"):
                members = [value, *(member for member in vars(value).values() if inspect.isfunction(member))]
                self.assertTrue(value.__doc__ and not value.__doc__.startswith(name + "("), name)
            elif inspect.isfunction(value):
                members = [value]
                self.assertTrue(value.__doc__, name)
            else:
                continue
            for member in members:
                if inspect.isfunction(member) and member.__module__ and member.__module__.startswith("laddertick") and member.__name__ != "__new__":
                    hints = typing.get_type_hints(member)
                    asked = set(inspect.signature(member).parameters) - {"self"}
                    generated = member.__code__.co_filename == "<string>"
                    self.assertTrue(generated or asked <= set(hints), f"{name}: {member} has no types")
                    looked_at += 1
                elif inspect.isclass(member):
                    typing.get_type_hints(member)
        self.assertGreater(looked_at, 40)

    def test_examples_of_the_docstrings(self):
        tried = doctest.testmod(laddertick)
        self.assertEqual((tried.failed, tried.attempted > 2), (0, True))


if __name__ == "__main__":
    unittest.main()
