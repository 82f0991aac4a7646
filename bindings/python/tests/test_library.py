"""The shared object as it is called: declarations beside the header's, room to the byte, hostile bytes and counts, and where it is found."""

import ctypes
import dataclasses
import os
import random
import re
import shutil
import subprocess
import sys
import tempfile
import unittest
from ctypes import POINTER, c_char_p, c_int32, c_size_t, c_uint8, c_uint32
from pathlib import Path
from common import REPOSITORY, label_lines, listed, sample

import laddertick
from laddertick import Entry, Index, Rectangle, Refused, Walk, _library, _structs

MOST = 2**64 - 1


class Declarations(unittest.TestCase):
    TYPES = {
        "const char *": c_char_p,
        "const uint8_t *": c_char_p,
        "uint8_t *": POINTER(c_uint8),
        "size_t *": POINTER(c_size_t),
        "size_t": c_size_t,
        "int32_t": c_int32,
        "uint32_t": c_uint32,
    }

    def of(self, declared):
        """The type of a declaration in C, its name taken off."""
        declared = re.sub(r"\b\w+$", "", declared.strip()).strip() if not declared.endswith("*") else declared
        if declared in self.TYPES:
            return self.TYPES[declared]
        name = declared.replace("const ", "").replace(" *", "").replace("laddertick_", "")
        struct = getattr(_structs, "".join(word.capitalize() for word in name.split("_")))
        return POINTER(struct) if declared.endswith("*") else struct

    def test_are_those_of_the_header(self):
        header = (REPOSITORY / "include" / "laddertick.h").read_text(encoding="utf-8")
        header = re.sub(r"/\*.*?\*/", "", header, flags=re.S)
        declared = re.findall(r"^((?:const )?\w+(?: \*| ))(laddertick_\w+)\(([^;{]*)\);", header, flags=re.M)
        self.assertGreaterEqual(len(declared), 16)
        here = dict(_library.SIGNATURES)
        for answers, name, takes in declared:
            takes = [] if takes == "void" else [self.of(" ".join(one.split())) for one in takes.split(",")]
            answers = self.of(answers.strip() + " x") if not answers.endswith("*") else self.of(answers)
            self.assertEqual(here.pop(name), (answers, tuple(takes)), name)
        # What a later version of the library adds may be known here, and not yet there.
        self.assertFalse([name for name in here if _library.has(name)])


class Room(unittest.TestCase):
    """Each function that writes, lent one byte or one entry less than it needs, and exactly as many: 15 or 20 says how many, and nothing else is written."""

    FILE = b' N \r\nLO1,2,3,4\nLS5,6,7,8,9\nA1,2,0,1,1,1,N,"\xffx"\nP2,3\nLO1,1,1,1\nP\n'

    def held(self, of, items, number=15):
        """`of` is called with a list of that type and how long it is."""
        said = of(None, 0)
        self.assertEqual(said.number, number)
        needed = said.place
        self.assertGreater(needed, 0)
        mark = b"\xa5" * ctypes.sizeof(items)
        for lent in (needed - 1, needed):
            room = (items * (needed + 1)).from_buffer_copy(mark * (needed + 1))
            said = of(room, lent)
            self.assertEqual((said.number, said.place), (number if lent < needed else 0, needed))
            untouched = bytes(room)[len(mark) * (0 if lent < needed else needed) :]
            self.assertEqual(untouched, b"\xa5" * len(untouched))
        return bytes(room)[: len(mark) * needed]

    def test_bytes(self):
        file, n = self.FILE, len(self.FILE)
        entries = Index.of(file)._entries
        at = file.index(b"\xff")
        self.assertEqual(self.held(lambda out, room: _library.laddertick_list(file, n, out, room), c_uint8).decode(), laddertick.listing(file))
        self.assertEqual(self.held(lambda out, room: _library.laddertick_strict_list(file, n, out, room), c_uint8).decode(), laddertick.listing(file))
        self.assertEqual(self.held(lambda out, room: _library.laddertick_normalise(file, n, out, room), c_uint8), laddertick.normalise(file))
        self.assertEqual(self.held(lambda out, room: _library.laddertick_data(file, n, at, 2, out, room), c_uint8), b"\xef\xbf\xbdx")
        self.assertEqual(self.held(lambda out, room: _library.laddertick_open(file, n, entries, 2, 0, out, room), c_uint8).decode(), Index.of(file).open(0))
        self.assertEqual(self.held(lambda out, room: _library.laddertick_join(file, n, file, n, out, room), c_uint8), laddertick.join(file, file))

    def test_lists(self):
        file, n = self.FILE, len(self.FILE)
        entries = Index.of(file)._entries
        self.assertEqual(self.held(lambda to, room: _library.laddertick_index(file, n, to, room), _structs.Entry, 20), bytes(entries))
        everywhere = _structs.Rectangle(-9, -9, 99, 99)
        for function, count in ((_library.laddertick_inside, 3), (_library.laddertick_touching, 2)):
            numbers = self.held(lambda to, room: function(file, n, entries, 2, 0, everywhere, to, room), c_size_t)
            self.assertEqual(numbers, bytes((c_size_t * count)(*range(count))))
        self.held(lambda to, room: _library.laddertick_to_300(file, n, entries, 2, 0, to, room), _structs.Element300)


class Hostile(unittest.TestCase):
    WORDS = (b"A", b"B", b"b", b"LO", b"LW", b"LE", b"LS", b"X", b"GW", b"R", b"P", b"N", b"\n", b"\n", b",", b",", b'"', b'"', b"Q", b"M", b"P1\n", b"E30")
    WORDS += (b"0", b"1", b"7", b"-1", b"2147483647", b"99999999999", b" ", b"\t", b"\r", b"\0", b"\xff", b"\xc2\xa0", b"\xf0\x9f", b"\x0b")
    LINES = (b"LO1,2,3,4\n", b'A1,2,0,1,1,1,N,"x"\n', b"GW1,2,1,2,\n\n\n", b"R3,-4\n", b"P\n", b"P2,3\n", b"N\n", b"LS1,2,3,4,5\n", b'b1,2,Q,"\xff"\n', b"X1,2,3,4,5\n")

    def files(self):
        dice = random.Random(203300)
        yield b""
        for length in range(40):
            for _ in range(20):
                yield bytes(dice.randrange(256) for _ in range(length))
                yield b"".join(dice.choice(self.WORDS) for _ in range(length))
                yield b"".join(dice.choice(self.LINES) for _ in range(length // 4)) + b"".join(dice.choice(self.WORDS) for _ in range(length // 8))

    def test_any_bytes(self):
        accepted = refused_at_all = 0
        kept = b"LO9,9,9,9\nP\n"
        for file in self.files():
            normal = laddertick.normalise(file)
            self.assertEqual(laddertick.normalise(normal), normal)
            try:
                lines = laddertick.listing(file)
            except Refused as refused:
                refused_at_all += 1
                self.assertEqual(listed(file), f"ff{refused.number:02x}{refused.place:08x}\n")
                self.assertEqual(refused.line, file[: refused.place].count(b"\n") + 1)
                for call in (laddertick.check, Index.of, lambda file: laddertick.join(kept, file)):
                    with self.assertRaises(Refused) as caught:
                        call(file)
                    if call is not laddertick.check or caught.exception.number not in (17, 18):
                        self.assertEqual((caught.exception.number, caught.exception.place, caught.exception.line), (refused.number, refused.place, refused.line))
                continue
            accepted += 1
            self.assertEqual(listed(file), lines)
            self.assertEqual(laddertick.listing(normal), lines)
            index = Index.of(file)
            self.assertEqual([index.label(n) for n in range(len(index))], list(laddertick.labels(file)))
            self.assertEqual(laddertick.listing(laddertick.join(kept, file)), laddertick.listing(kept) + lines)
            for number, entry in enumerate(index):
                label = index.label(number)
                self.assertEqual((index.open(number), entry.count), (label_lines(label), len(label.elements)))
                far = [max(abs(e.x - 5), abs(e.y - 7)) for e in label.elements]
                self.assertEqual(index.nearest(number, 5, 7), far.index(min(far)))
                due = [i for i, e in enumerate(label.elements) if -2 <= e.x <= 4 and -1 <= e.y <= 3]
                self.assertEqual(index.inside(number, Rectangle(-2, -1, 4, 3)), due)
        # Neither side is empty.
        self.assertGreater(accepted, 300)
        self.assertGreater(refused_at_all, 300)

    def test_any_entries_and_walks(self):
        dice = random.Random(16)
        file = sample("tray")
        numbers = (0, 1, 2, 100, 240, 241, 341, 342, 343, 2**31, 2**32, 2**63, MOST)
        points = (-(2**31), -1, 0, 1, 2**31 - 1)
        answered = 0
        for _ in range(2000):
            entry = Entry(*(dice.choice(numbers) for _ in range(3)), *(dice.choice(points) for _ in range(2)))
            index = Index(file, [entry])
            try:
                self.assertEqual(index.open(0), label_lines(index.label(0)))
                answered += 1
                index.nearest(0, dice.choice(points), dice.choice(points))
                index.touching(0, Rectangle(-(2**31), -(2**31), 2**31 - 1, 2**31 - 1))
                index.to_300(0)
            except Refused as refused:
                self.assertIn(refused.number, {*range(1, 14), 16, 19, 21, 24})
            walk = Walk(dice.choice(points), dice.choice(points), dice.choice(numbers), dice.choice(numbers))
            try:
                list(laddertick.steps(file, walk))
                self.assertLessEqual(walk.pending, walk.place)
            except Refused as refused:
                self.assertIn(refused.number, {*range(1, 14), 16, 19})
        self.assertGreater(answered, 50)


class Lying(bytes):
    """Bytes that say another length, and other bytes, than they have."""

    def __len__(self):
        return 1 << 20

    def __getitem__(self, _):
        return 0

    def decode(self, *_):
        return "lies"

    count = __getitem__


class Larger(int):
    """A number that says of itself that it is within any bounds."""

    def __ge__(self, _):
        return True

    __le__ = __gt__ = __lt__ = __ge__


class Lengths(unittest.TestCase):
    """No public name of the package lends the library a length that is not that of the bytes."""

    FILE = b'LO1,2,3,4\nA1,2,0,1,1,1,N,"\xffx"\nP2,3\nLO5,6,7,8\nP\n'

    def test_an_end_is_within_the_file(self):
        for file in (b"LO", b"", self.FILE):
            for end in (len(file) + 1, 1 << 20, MOST):
                self.assertRaisesRegex(ValueError, f"end is past the {len(file)} bytes of the file: {end}", laddertick.Steps, file, None, end)
                self.assertRaises(ValueError, laddertick.Steps, file, None, Larger(end))
            for end in (-1, MOST + 1):
                self.assertRaises(OverflowError, laddertick.Steps, file, None, end)
                self.assertRaises(OverflowError, laddertick.Steps, file, None, Larger(end))
            self.assertRaises(TypeError, laddertick.Steps, file, None, 0.5)
        # A file cut at its end is walked as those bytes are alone.
        for end in range(len(self.FILE) + 1):
            self.assertEqual(self.walked(self.FILE, end), self.walked(self.FILE[:end], None), end)

    def walked(self, file, end):
        steps = laddertick.Steps(file, None, end)
        answers = []
        try:
            answers.extend(steps)
        except Refused as refused:
            answers.append((refused.number, refused.place, refused.line))
        return answers, steps.walk, steps.unprinted

    def test_a_subclass_of_bytes_is_its_bytes(self):
        lying = Lying(self.FILE)
        self.assertEqual((len(lying), type(_library.given(lying)), _library.given(lying)), (1 << 20, bytes, self.FILE))
        for call in (laddertick.listing, laddertick.strict_listing, laddertick.normalise, laddertick.check, lambda file: laddertick.join(file, file)):
            self.assertEqual(call(lying), call(self.FILE))
        for call in (laddertick.labels, laddertick.steps, laddertick.Steps, Index.of, lambda file: [Index(file, Index.of(self.FILE)).label(1)]):
            self.assertEqual(list(call(lying)), list(call(self.FILE)))
        self.assertEqual(laddertick.decode(Lying(b"\xffx")), "\ufffdx")
        text = next(laddertick.labels(self.FILE)).elements[1]
        changed = dataclasses.replace(text, data=Lying(text.data))
        self.assertEqual((changed.text, laddertick.write(changed)), (text.text, laddertick.write(text)))
        self.assertEqual(laddertick.write_label(laddertick.Label((changed, text), 1, 1)), laddertick.write_label(laddertick.Label((text, text), 1, 1)))
        with self.assertRaises(Refused) as caught:
            laddertick.listing(Lying(b"N\nLO1"))
        self.assertEqual((caught.exception.number, caught.exception.line), (4, 2))

    def test_a_number_is_not_cut(self):
        self.assertEqual(laddertick.meaning(2**32 - 1), "unknown")
        for number in (2**32, 2**32 + 1, -1, 2**64 + 1, Larger(2**32 + 1)):
            self.assertRaises(OverflowError, laddertick.meaning, number)
        self.assertRaises(TypeError, laddertick.meaning, 1.0)


class Found(unittest.TestCase):
    """Where the shared object is looked for, in processes of their own."""

    def run_with(self, change, expression="laddertick.version()", folder=REPOSITORY / "bindings" / "python"):
        environment = {**os.environ, "PYTHONPATH": str(folder), **change}
        environment = {name: value for name, value in environment.items() if value is not None}
        script = f"import laddertick; print({expression})"
        return subprocess.run([sys.executable, "-W", "error", "-c", script], env=environment, stdout=subprocess.PIPE, stderr=subprocess.PIPE, universal_newlines=True)

    def test_named(self):
        named = os.environ["LADDERTICK_LIBRARY"]
        self.assertEqual(self.run_with({"LADDERTICK_LIBRARY": named}).stdout, laddertick.VERSION + "\n")
        self.assertEqual(self.run_with({"LADDERTICK_LIBRARY": named}, "laddertick._library._library._name").stdout, named + "\n")

    def test_named_and_not_there(self):
        # Then no other is taken, and it is said which was meant.
        ran = self.run_with({"LADDERTICK_LIBRARY": "/no/such/libladdertick.so"})
        self.assertEqual((ran.returncode, ran.stdout), (1, ""))
        said = ran.stderr.splitlines()
        self.assertIn("ImportError: no libladdertick is found: install it (make install), or set LADDERTICK_LIBRARY to the shared object", said)
        self.assertTrue(said[-1].startswith("  /no/such/libladdertick.so: "), said[-1])

    def test_of_the_repository(self):
        ran = self.run_with({"LADDERTICK_LIBRARY": None}, "laddertick._library._library._name")
        self.assertEqual(ran.stdout, str(REPOSITORY / "target" / "lib" / ("libladdertick.so." + laddertick.VERSION)) + "\n")

    def test_by_the_loader_and_pkg_config(self):
        with tempfile.TemporaryDirectory() as room:
            there = Path(room, "lib")
            there.mkdir()
            soname = "libladdertick.so." + laddertick.VERSION.split(".")[0]
            shutil.copytree(str(REPOSITORY / "bindings" / "python" / "laddertick"), str(Path(room, "a", "b", "c", "laddertick")), ignore=shutil.ignore_patterns("__pycache__"))
            shutil.copy(os.environ["LADDERTICK_LIBRARY"], str(there / soname))
            told = Path(room, "told")
            told.write_text(f'#!/bin/sh\n[ "$*" = "--variable=libdir laddertick" ] && echo "{there}"\n')
            told.chmod(0o755)
            alone = {"LADDERTICK_LIBRARY": None, "LD_LIBRARY_PATH": None, "PKG_CONFIG": "/no/such/program"}
            folder = Path(room, "a", "b", "c")
            for change, name in (({"LD_LIBRARY_PATH": str(there)}, soname), ({"PKG_CONFIG": str(told)}, str(there / soname))):
                ran = self.run_with({**alone, **change}, "laddertick._library._library._name", folder)
                # The loader comes first, where one is installed for all.
                self.assertIn(ran.stdout, (name + "\n", soname + "\n"), ran.stderr)
            # Another major version is not taken, and what is no libladdertick neither.
            self.made(there / "other.so", 'const char *laddertick_version(void) { return "2.0.0"; }')
            self.made(there / "none.so", "int none;")
            for name, why in (("other.so", f"it has version 2.0.0, and this module is for {laddertick.VERSION.split('.')[0]}"), ("none.so", "undefined symbol")):
                ran = self.run_with({"LADDERTICK_LIBRARY": str(there / name)})
                self.assertEqual(ran.returncode, 1)
                self.assertIn(why, ran.stderr)
            # An older one of the same major version serves, and what it lacks is said when it is asked for.
            older = laddertick.VERSION.split(".")[0] + ".0.0"
            self.made(there / "older.so", 'const char *laddertick_version(void) { return "%s"; }' % older)
            ran = self.run_with({"LADDERTICK_LIBRARY": str(there / "older.so")}, "laddertick.listing(b'')")
            self.assertIn(f"NotImplementedError: libladdertick {older} has no laddertick_list", ran.stderr)

    def made(self, to, text):
        source = Path(str(to) + ".c")
        source.write_text(text + "\n")
        subprocess.run([os.environ.get("CC", "cc"), "-shared", "-fPIC", "-o", str(to), str(source)], check=True)


if __name__ == "__main__":
    unittest.main()
