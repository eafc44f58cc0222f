"""Tests tools/explain: the line and the caret, what passes through, and words that don't fit."""
import tempfile
import unittest
from pathlib import Path

from support import PROGRAM, TOOLS, TOP, ToolCase, call, needs_program

import columns
import refusals

# A source, the column of a refusal in its first line, and the two lines that show it. Tabs go to every fourth cell, a
# wide character takes two, a mark that combines takes none.
PLACES = [
    (b"x $0; y $0;", 7, "1 | x $0; y $0;", "  |       ^"),
    (b"y", 1, "1 | y", "  | ^"),
    (b"y", 2, "1 | y", "  |  ^"),
    (b"", 1, "1 | ", "  | ^"),
    (b"\ty;", 2, "1 |     y;", "  |     ^"),
    (b"ab\ty;", 4, "1 | ab  y;", "  |     ^"),
    (b"abcd\ty;", 6, "1 | abcd    y;", "  |         ^"),
    ("/* 漢字 */ y".encode(), 10, "1 | /* 漢字 */ y", "  |            ^"),
    ("漢\ty".encode(), 3, "1 | 漢  y", "  |     ^"),
    ("//e\u0301 ?".encode(), 6, "1 | //e\u0301 ?", "  |     ^"),
    ("e\u0301 $0;".encode(), 2, "1 | e\u25cc\u0301 $0;", "  |  ^"),
    ("\u0301 $0;".encode(), 1, "1 | \u25cc\u0301 $0;", "  | ^"),
    ("x\u00a0$0;".encode(), 2, "1 | x<U+00A0>$0;", "  |  ^"),
    ("\ufeffx".encode(), 1, "1 | <U+FEFF>x", "  | ^"),
    ("\ufeffx".encode(), 2, "1 | <U+FEFF>x", "  |         ^"),
    (b"x \xff y", 3, "1 | x <FF> y", "  |   ^"),
    (b"x \xe2\x82 y", 3, "1 | x <E2><82> y", "  |   ^"),
    (b"x \xff \xfe y", 7, "1 | x <FF> <FE> y", "  |             ^"),
    (b"x;\r\ny", 2, "1 | x;", "  |  ^"),
    (b"x;\r?", 4, "1 | x;<U+000D>?", "  |           ^"),
    (b"x;\r\n", 3, "1 | x;<U+000D>", "  |   ^"),
    (b"\x00\x1b[31m", 2, "1 | <U+0000><U+001B>[31m", "  |         ^"),
    (b"a" * 500, 1, "1 | " + "a" * 100 + "...", "  | ^"),
    (b"a" * 500, 300, "1 | ..." + "a" * 100 + "...", "  | " + " " * 63 + "^"),
    (b"a" * 500, 500, "1 | ..." + "a" * 61, "  | " + " " * 63 + "^"),
]


def explain(words, data=b"", **how):
    """Runs tools/explain."""
    return call([TOOLS / "explain", *words], data, **how)


class Explained(ToolCase):
    """Refusals at their places."""

    def setUp(self):
        holder = tempfile.TemporaryDirectory()
        self.addCleanup(holder.cleanup)
        self.file = Path(holder.name) / "F"

    def test_the_line_and_the_caret(self):
        for source, column, line, caret in PLACES:
            with self.subTest(source[:40], column=column):
                shown = columns.show(source.split(b"\n")[0], column)
                self.assertEqual(shown, (line[4:], caret[4:]))

    def test_where_they_stand(self):
        for source, column, line, caret in PLACES[:8:7]:
            self.file.write_bytes(source)
            refusal = f"refused 199 1:{column} NotBuilt\n"
            done = explain([self.file], refusal.encode())
            self.assertEqual((done.returncode, done.stderr), (1, b""))
            lines = done.stdout.decode("utf-8").split("\n")
            self.assertEqual(lines[:5], [refusal[:-1], "", line, caret, ""])

    def test_a_later_line(self):
        self.file.write_bytes(b"x $0;\n" * 11 + b"\ty;\n")
        said = explain([self.file], b"refused 199 12:2 NotBuilt\n").stdout
        self.assertIn(b"\n12 |     y;\n   |     ^\n", said)

    def test_the_refusal_as_words(self):
        self.file.write_bytes(b"?")
        by_input = explain([self.file], b"refused 102 1:1 BadChar\n")
        for words in (["refused 102 1:1 BadChar"], ["refused", "102", "1:1", "BadChar"]):
            done = explain([self.file, *words])
            self.assertEqual((done.returncode, done.stdout), (1, by_input.stdout))

    def test_a_refusal_without_a_line_feed(self):
        self.file.write_bytes(b"?")
        self.assertEqual(explain([self.file], b"refused 102 1:1 BadChar").returncode, 1)

    def test_a_refusal_without_a_place(self):
        done = explain(["no such file"], b"refused 10 FileTooLong no such file\n")
        self.assertEqual((done.returncode, done.stderr), (3, b""))
        self.assertIn(b"1,048,577 blanks", done.stdout)

    def test_a_refusal_with_more_words(self):
        self.file.write_bytes(b"x; qreg q[2];")
        done = explain([self.file], b"refused 113 1:4 Unsupported qreg\n")
        self.assertEqual(done.returncode, 1)
        self.assertIn(b"\n1 | x; qreg q[2];\n  |    ^\n", done.stdout)

    def test_a_place_that_the_source_lacks(self):
        self.file.write_bytes(b"x $0;\n")
        for place in ("1:7", "2:2", "0:1", "9999999:9999999"):
            done = explain([self.file], f"refused 199 {place} NotBuilt\n".encode())
            self.assertEqual(done.returncode, 2)
            self.assertRegex(done.stderr, rb"\Aexplain: [^\n]*was it changed since\?\n\Z")
            self.assertIn(b"y $0;", done.stdout)

    def test_a_source_that_is_not_there(self):
        done = explain([self.file], b"refused 199 1:1 NotBuilt\n")
        self.assertEqual(done.returncode, 2)
        self.assertRegex(done.stderr, rb"\Aexplain: can't read the source [^\n]*\n\Z")
        self.assertTrue(done.stdout.startswith(b"refused 199 1:1 NotBuilt\n"))

    def test_a_code_without_a_text(self):
        self.file.write_bytes(b"?")
        done = explain([self.file], b"refused 998 1:1 Unknown\n")
        self.assertEqual((done.returncode, done.stderr), (2, b"explain: there is no text for the code 998 yet\n"))
        self.assertTrue(done.stdout.startswith(b"refused 998 1:1 Unknown\n\n1 | ?\n"))

    def test_an_output_that_is_no_terminal_of_ours(self):
        self.file.write_bytes("/* π */ ?".encode())
        done = explain([self.file], b"refused 102 1:9 BadChar\n", env={"LC_ALL": "C", "PYTHONIOENCODING": "ascii"})
        self.assertIn("1 | /* π */ ?".encode(), done.stdout)

    @needs_program
    def test_the_programs_refusals(self):
        for source, column in ((b"\t\tx $0;\t\ty", 10), ("漢 ?".encode(), 3), (b"x $0; \xff", 7), (b"x;\r\n?", 1)):
            self.file.write_bytes(source)
            said = call([PROGRAM, "step", self.file])
            self.assertEqual(said.returncode, 1)
            done = explain([self.file], said.stdout)
            self.assertEqual((done.returncode, done.stderr), (1, b""))
            if column > 1:
                self.assertIn(f" 1:{column} ".encode(), said.stdout)


class PassedThrough(ToolCase):
    """All that is no refusal."""

    def test_what_is_no_refusal(self):
        texts = refusals.load()
        for data in (
            b"\n",
            b"read failed F\n",
            b"usage: check F [M]\n",
            b"refused",
            b"refused \xff\n",
            b"refused 102 1:1 BadChar\n\n",
            b"refused 102 1:1 BadChar\nrefused 102 1:1 BadChar\n",
            b"refused 102 1:1 BadChars\n",
            b"refused 102 1:1 BadChar\r\n",
            b"refused 102 one BadChar\n",
            b"refused 102 1:1 badchar\n",
            b" refused 102 1:1 BadChar\n",
        ):
            with self.subTest(data):
                self.assertIsNone(refusals.parse(data, texts))

    def test_it_comes_out_unchanged(self):
        megabyte = 1_048_576
        for data in (
            b"",
            b"pulse 0 d0 w4 0 5000000000\nend 4 done\nsteps 1 waits 0\n",
            b"refused 102 1:1 BadChar\n\n",
            b"refused 10 FileTooLong " + b"n" * megabyte,
            b"\xff" * (3 * megabyte),
        ):
            with self.subTest(data[:40]):
                done = explain(["no such file"], data)
                self.assertEqual((done.returncode, done.stderr), (0, b""))
                self.assertEqual(done.stdout, data)


class Codes(ToolCase):
    """The text of a code, and words that don't fit."""

    def test_a_code_alone(self):
        done = explain(["103"])
        self.assertEqual((done.returncode, done.stderr), (0, b""))
        for wanted in (b"103 OpenComment\n", b"\n    /*\n    refused 103 1:1 OpenComment\n", b"\n    /**/\n"):
            self.assertIn(wanted, done.stdout)

    def test_codes_that_are_none(self):
        for word in ("0", "999", "1" * 5000):
            done = explain([word])
            self.assertEqual((done.returncode, done.stdout), (2, b""))
            self.assertRegex(done.stderr, rb"\Aexplain: there is no text for the code [^\n]*\n\Z")

    def test_words_that_are_no_refusal(self):
        for words in (["F", "pulse 0"], ["F", ""], ["F", "refused 102 1:1 Foo"], ["F", b"\xff".decode("utf-8", "surrogateescape")]):
            done = call([TOOLS / "explain", *words])
            self.refused("explain", done)

    def test_no_words(self):
        self.assertEqual(explain([]).returncode, 2)
        self.assertEqual(explain(["--help"]).returncode, 0)

    def test_a_reader_that_takes_no_more(self):
        for words in ("explain 10", "draw --help", f"draw {TOP}/tests/tools/drawings/two_qubits.txt"):
            done = call(["bash", "-c", f"set -o pipefail; {TOOLS}/{words} | head -c 1 >/dev/null"])
            self.assertEqual(done.stderr, b"")


if __name__ == "__main__":
    unittest.main()
