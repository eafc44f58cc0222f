"""Tests the file of texts: each has all its parts, those of codes that the program can print are true of the program,
and no code that a row wants is left out."""
import json
import re
import tempfile
import unittest
from pathlib import Path

from support import PROGRAM, TOP, call, needs_program

import refusals

TEXTS = refusals.load()
PRINTED = [str(code) for code in TEXTS["printed"]]
PARTS = {"name", "rule", "example", "line", "instead", "better"}


def answer(source):
    """What the program answers to a source in a file F, and its status."""
    with tempfile.TemporaryDirectory() as folder:
        (Path(folder) / "F").write_bytes(source)
        done = call([PROGRAM, "step", "F"], cwd=folder)
    return done.stdout.decode("utf-8"), done.returncode


class Texts(unittest.TestCase):
    """The texts by themselves."""

    def test_each_has_its_parts(self):
        for code, text in TEXTS["refusals"].items():
            with self.subTest(code):
                shown = {part for part in ("example", "better") if not isinstance(text[part], str)}
                words = {{"example": "shown", "better": "better_shown"}[part] for part in shown}
                self.assertEqual(set(text), PARTS | words)
                self.assertEqual(len(re.findall(r"[.](?= |$)", text["rule"])), 2)
                self.assertEqual(len(re.findall(r"[.](?= |$)", text["instead"])), 1)

    def test_each_line_is_a_refusal_of_its_code(self):
        for code, text in TEXTS["refusals"].items():
            found = refusals.parse(text["line"].encode(), TEXTS)
            self.assertEqual((found.code, found.name), (code, text["name"]))

    def test_codes_stand_in_order(self):
        self.assertEqual(TEXTS["printed"], sorted(set(TEXTS["printed"])))
        self.assertEqual(list(TEXTS["refusals"]), sorted(TEXTS["refusals"], key=int))

    def test_each_code_that_is_printed_has_its_text(self):
        self.assertLessEqual(set(PRINTED), set(TEXTS["refusals"]))

    def test_the_rows_want_the_codes_that_are_printed(self):
        wanted = set()
        for path in (TOP / "tests" / "rows").glob("*.jsonl"):
            for line in path.read_text(encoding="utf-8").splitlines():
                case = json.loads(line) if line.strip() else {}
                texts = [case.get("stdout", ""), *map(str, case.get("lines", []))]
                wanted.update(re.findall(r"^refused ([0-9]+) ", "\n".join(texts), re.M))
        self.assertEqual(sorted(wanted, key=int), PRINTED)


@needs_program
class Examples(unittest.TestCase):
    """What the program says to the examples of the codes that it can print."""

    def test_each_example_is_refused_with_its_line(self):
        for code in PRINTED:
            with self.subTest(code):
                text = TEXTS["refusals"][code]
                status = 1 if int(code) > 100 else 3
                self.assertEqual(answer(refusals.source_of(text["example"])), (text["line"] + "\n", status))

    def test_what_stands_in_its_place_is_not_refused_so(self):
        for code in PRINTED:
            with self.subTest(code):
                said, _ = answer(refusals.source_of(TEXTS["refusals"][code]["better"]))
                self.assertFalse(said.startswith(f"refused {code} "), said)


if __name__ == "__main__":
    unittest.main()
