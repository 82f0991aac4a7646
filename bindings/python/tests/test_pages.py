"""The examples of the pages: the lines of README.md that make a CSV, exactly as they stand there, and those of bindings/python/README.md."""

import doctest
import os
import subprocess
import sys
import tempfile
import unittest
from pathlib import Path
from common import EXPECTED, REPOSITORY, SAMPLES


def lines_of_the_readme():
    """The indented block of README.md that begins with its imports."""
    block = []
    for line in (REPOSITORY / "README.md").read_text(encoding="utf-8").splitlines():
        if line.startswith("    import csv") or (block and line.startswith("    ")):
            block.append(line[4:])
        elif block:
            break
    return block


class Table(unittest.TestCase):
    def made(self, name):
        """Exit status, standard error and the CSV of a sample."""
        with tempfile.TemporaryDirectory() as room:
            table = Path(room, "table.csv")
            script = "\n".join(lines_of_the_readme()) + "\n"
            ran = subprocess.run(
                [sys.executable, "-W", "error", "-c", script, str(SAMPLES / (name + ".epl")), str(table)],
                stdout=subprocess.PIPE,
                stderr=subprocess.PIPE,
                universal_newlines=True,
                env=os.environ,
            )
            self.assertEqual(ran.stdout, "")
            return ran.returncode, ran.stderr, table.read_bytes()

    def test_ten_lines(self):
        self.assertEqual(len(lines_of_the_readme()), 10)

    def test_the_csv(self):
        for name in ("bag", "tray", "halfsent"):
            with self.subTest(name):
                status, said, table = self.made(name)
                # The stored one has LF where csv writes CR LF.
                self.assertEqual(table, (EXPECTED / (name + ".csv")).read_bytes().replace(b"\n", b"\r\n"))
                half = name == "halfsent"
                self.assertEqual(status, 1 if half else 0)
                self.assertEqual(said, f"{SAMPLES / 'halfsent.epl'}: 2 elements behind the last print line: no label\n" if half else "")

    def test_a_refused_file(self):
        status, said, _ = self.made("refused")
        self.assertEqual(status, 1)
        self.assertTrue(said.endswith("laddertick.Refused: refused (7): no such type of bar code (B), line 3, offset 28 (from 0)\n"), said)


class Page(unittest.TestCase):
    def test_examples(self):
        tried = doctest.testfile(str(REPOSITORY / "bindings" / "python" / "README.md"), module_relative=False)
        self.assertEqual((tried.failed, tried.attempted > 5), (0, True))


if __name__ == "__main__":
    unittest.main()
