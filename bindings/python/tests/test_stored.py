"""Python's answers beside answers that are stored: the oracle's, those of the C examples, and the table with all fields distinct."""

import re
import unittest
from common import EXPECTED, REPOSITORY, expected, frame, label_lines, label_words, listed, sample, words

import laddertick
from laddertick import Index, Kind, Rectangle, Refused

READ = ("jar", "bag", "tray", "halfsent")


def replayed():
    """The cases of crates/replay: each is its length in 4 bytes and its bytes; the answers end in a line with a full stop."""
    folder = REPOSITORY / "crates" / "replay"
    cases, at, stored = [], 0, (folder / "stdin").read_bytes()
    while at < len(stored):
        length = int.from_bytes(stored[at : at + 4], "big")
        cases.append(stored[at + 4 : at + 4 + length])
        at += 4 + length
    answers = (folder / "stdout").read_text(encoding="ascii").split(".\n")
    return cases, answers[:-1]


def distinct():
    """The rows of crates/laddertick/specs/Distinct.antt that are one command at 100,200 and its frame."""
    text = (REPOSITORY / "crates" / "laddertick" / "specs" / "Distinct.antt").read_text(encoding="utf-8")
    for command, row in re.findall(r'alone "((?:[^"\\]|\\.)*)"\s+"([0-9a-f ]+)"', text):
        # A character of the table is a byte, some by their hexadecimal numbers.
        command = re.sub(r"\\u\{([0-9a-f]+)\}", lambda number: chr(int(number[1], 16)), command)
        yield command.replace('\\"', '"').encode("latin-1"), row.replace(" ", "")


class Replayed(unittest.TestCase):
    def test_every_case_has_the_oracles_answer(self):
        cases, answers = replayed()
        self.assertEqual(len(cases), len(answers))
        self.assertGreater(len(cases), 1000)
        kinds, refusals = set(), set()
        for case, answer in zip(cases, answers):
            self.assertEqual(listed(case), answer, case)
            kinds.update(answer[i : i + 2] for i in [0, *(m.end() for m in re.finditer("\n", answer))])
            if answer.startswith("ff"):
                refusals.add(int(answer[2:4], 16))
                with self.assertRaises(Refused):
                    laddertick.listing(case)
            else:
                self.assertEqual(laddertick.listing(case), answer)
        # All kinds of elements, labels, what is pending, and refusals are among them.
        self.assertEqual(kinds - {""}, {"00", "fe", "ff", *(f"{kind:02x}" for kind in Kind)})
        self.assertGreaterEqual(refusals, {*range(1, 14), 19})

    def test_all_fields_distinct(self):
        seen = set()
        for command, row in distinct():
            (label,) = laddertick.labels(b"R100,200\n" + command + b"\nP11,12\n")
            (element,) = label.elements
            self.assertEqual((label.sets, label.copies), (11, 12))
            self.assertEqual(frame(element).hex(), row, command)
            seen.add(element.kind)
        self.assertEqual(seen, set(Kind))


def in_words(name):
    """What the command says, without the lines of the file and the columns."""
    text = re.sub(r"(?m), printed by line \d+$", "", expected(name))
    return re.sub(r"(?m)^([a-z]*:? *\d+\. )line +\d+  (\S.*?) +at (-?\d+,-?\d+) +", r"\1\2 at \3, ", text)


class Samples(unittest.TestCase):
    def test_listing_and_normalised_text(self):
        for name in READ:
            with self.subTest(name):
                file = sample(name)
                self.assertEqual(laddertick.listing(file), expected(name + ".list.out"))
                self.assertEqual(listed(file), expected(name + ".list.out"))
                self.assertEqual(laddertick.strict_listing(file), expected(name + ".list.out"))
                self.assertEqual(laddertick.normalise(file), (EXPECTED / (name + ".normalise.out")).read_bytes())
        self.assertEqual(listed(sample("refused")), expected("refused.list.out"))

    def test_labels_in_words(self):
        for name in READ:
            with self.subTest(name):
                labels = list(laddertick.labels(sample(name)))
                self.assertEqual("".join(label_words(label, n) for n, label in enumerate(labels, 1)), in_words(name + ".explain.out"))

    def test_half_sent(self):
        labels = laddertick.labels(sample("halfsent"))
        self.assertEqual((len(list(labels)), labels.unprinted), (1, 2))
        self.assertIn(f"{labels.unprinted} elements behind the last print line", expected("halfsent.explain.err"))

    def test_index(self):
        for name in READ:
            with self.subTest(name):
                file = sample(name)
                index = Index.of(file)
                rows = [re.match(r" +(\d+) +(\d+) +(\d+) +(\d+) +(\d+) +(\d+) +(\d+)  (.*)$", line) for line in expected(name + ".index.out").splitlines()[1:]]
                self.assertEqual(len(index), len(rows))
                for number, (entry, row) in enumerate(zip(index, rows)):
                    label = index.label(number)
                    texts = [e.text for e in label.elements if e.kind == Kind.TEXT]
                    due = (number + 1, entry.first, entry.last, file.count(b"\n", 0, entry.first) + 1, entry.count, label.sets, label.copies)
                    self.assertEqual(tuple(map(int, row.groups()[:7])), due)
                    self.assertEqual(row[8], f'"{texts[0]}"')
                    self.assertEqual(label_lines(label), index.open(number))
                self.assertEqual("".join(map(index.open, range(len(index)))), re.sub("(?m)^fe.*\n", "", expected(name + ".list.out")))

    def test_what_lies_where(self):
        index = Index.of(sample("jar"))
        elements = index.label(0).elements
        number = index.nearest(0, 260, 100)
        self.assertEqual("nearest:" + words(elements[number], number + 1), in_words("jar.at.out"))
        rectangle = Rectangle(0, 60, 100, 100)
        said = "".join("inside:  " + words(elements[i], i + 1) for i in index.inside(0, rectangle))
        said += "".join("touching:" + words(elements[i], i + 1) for i in index.touching(0, rectangle))
        self.assertEqual(said, in_words("jar.in.out"))

    def test_300_dots(self):
        for name in ("jar", "tray"):
            with self.subTest(name):
                label = Index.of(sample(name)).to_300(0)
                self.assertEqual(label_words(label, 1, " at 300 dots"), in_words(name + ".to300.1.out"))

    def test_joined(self):
        self.assertEqual(laddertick.join(sample("halfsent"), sample("bag")), (EXPECTED / "halfsent.join.out").read_bytes())


class Words(unittest.TestCase):
    """What the C examples say of refused files: number, meaning, line and offset."""

    # As examples/c/test has them, in its order.
    REFUSED = (
        b'N\n A1,2,0,1,1,1,,"x"\n',
        b'B1,2,0,1,2,2,9,,"x"\n',
        b'\n\nb1,2,,"x"\n',
        b"LO1,2,3\n",
        b"LS1,2,3,4\n",
        b"X1,2,3,4\n",
        b'B0,0,0,1D,2,2,9,B,"x"\n',
        b'b0,0,X,"x"\n',
        b'b0,0,Q,"%10000s"\n' % b"x",
        b"GW1,2,3\n",
        b"GW0,0,-1,1,\n",
        b"LO1,2,3,4\nGW0,0,1,1,",
        b"R1\nLO2147483647,0,1,1\n",
        b"N\nX2147483647,0,1,-1,0\n",
        bytes(laddertick.LONGEST + 1),
    )

    def said(self, name):
        """Number, meaning, line, offset, field and what it held, of each refusal in a stored output."""
        pattern = r"laddertick: [^\n]*: refused \((\d+)\): (.*)\n(?:  line (\d+), offset (\d+) \(from 0\): .*\n)?(?:  line \d+, field (\d+) .*: (.*)\n)?"
        return [m.groups() for m in re.finditer(pattern, expected(name))]

    def held(self, refused, said):
        number, meaning, line, offset, _, _ = said
        self.assertEqual((refused.number, refused.meaning), (int(number), meaning))
        self.assertEqual(refused.line, line and int(line))
        self.assertEqual(refused.place, int(offset or 0))
        in_words = f"refused ({number}): {meaning}" + (f", line {line}, offset {offset} (from 0)" if line else "")
        self.assertEqual(Refused.__str__(refused), in_words)

    def test_refusals_of_files(self):
        said = self.said("refusals.err")
        self.assertEqual([int(one[0]) for one in said], [*range(1, 14), 19, 14])
        for file, one in zip(self.REFUSED, said):
            for call in (laddertick.listing, Index.of, lambda file: list(laddertick.labels(file)), laddertick.check):
                with self.assertRaises(Refused) as caught:
                    call(file)
                self.held(caught.exception, one)

    def test_the_profile(self):
        (one,) = self.said("mistyped.check.err")
        with self.assertRaises(laddertick.Unfit) as caught:
            laddertick.check(sample("mistyped"))
        self.held(caught.exception, one)
        self.assertEqual((caught.exception.field, caught.exception.held), (int(one[4]), laddertick.Held.NO_NUMBER))
        self.assertIn("is no number", one[5])
        for name in ("jar", "bag", "tray", "halfsent", "typed"):
            self.assertIsNone(laddertick.check(sample(name)))

    def test_joined(self):
        for files, name, file in ((("refused", "mistyped"), "refused", 1), (("bag", "refused"), "second", 2)):
            with self.assertRaises(laddertick.Unjoined) as caught:
                laddertick.join(*map(sample, files))
            (one,) = self.said(name + ".join.err")
            self.held(caught.exception, one)
            self.assertEqual(caught.exception.file, file)
            self.assertIn(str(caught.exception).split(" file: ")[0] + " file is refused", expected(name + ".join.err"))

    def test_calls(self):
        tray = Index.of(sample("tray"))
        for call, name in (
            (lambda: tray.inside(2, Rectangle(1, 0, 0, 0)), "tray.in.turned"),
            (lambda: tray.nearest(2, 0, 0), "tray.at.3"),
            (lambda: tray.open(2), "tray.list.3"),
            (lambda: tray.to_300(2), "tray.to300.3"),
            (lambda: Index.of(sample("bag")).to_300(0), "bag.to300.1"),
        ):
            number, meaning, line, offset, _, _ = self.said(name + ".err")[0]
            with self.assertRaises(Refused) as caught:
                call()
            self.assertEqual((caught.exception.number, caught.exception.meaning, caught.exception.line), (int(number), meaning, line and int(line)))
            if offset:
                self.assertEqual(caught.exception.place, int(offset))


if __name__ == "__main__":
    unittest.main()
