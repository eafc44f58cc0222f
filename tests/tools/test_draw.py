"""Tests tools/draw: stored drawings, what a drawing says, long runs, and input that is no report."""
import json
import re
import tempfile
import unittest
from pathlib import Path
from xml.etree import ElementTree

from support import PROGRAM, TOOLS, TOP, ToolCase, call, needs_program

import machine
import report
from errors import BadInput

DRAWINGS = Path(__file__).resolve().parent / "drawings"
SVG = "{http://www.w3.org/2000/svg}"
STORED = {
    "two_qubits": [],
    "phases": [],
    "feedback": ["--machine", "-"],
    "loop": ["--from", "0", "--to", "310"],
}
LENGTHS = {"w4": 4, "w8": 8, "r20": 20}
PULSE = b"pulse 0 d0 w4 0 5000000000\n"
TABLE = {
    "dt": 500,
    "ports": [{"name": "out"}, {"name": "in"}],
    "waveforms": [{"name": "long", "samples": [[1, 0]] * 3000}, {"name": "w4", "samples": [[1, 0]] * 6}],
}


def draw(data, *words):
    """Draws the report that the bytes are."""
    return call([TOOLS / "draw", *words], data)


def report_of(name):
    """A stored report."""
    return (DRAWINGS / f"{name}.txt").read_bytes()


class Drawn(ToolCase):
    """Drawings of reports."""

    def drawn(self, data, *words):
        """The root of a report's drawing."""
        done = draw(data, *words)
        self.assertEqual((done.returncode, done.stderr), (0, b""))
        return ElementTree.fromstring(done.stdout)

    def boxes(self, root):
        """The title and the frame of each box."""
        groups = root.findall(f"{SVG}g")
        for group in groups:
            self.assertEqual(group[0].tag, f"{SVG}title")
        return [(group[0].text, group.find(f"{SVG}rect")) for group in groups]

    def texts(self, root):
        """All texts that are seen."""
        return [text.text for text in root.iter(f"{SVG}text")]

    def test_drawings_are_the_stored_ones(self):
        for name, words in STORED.items():
            with self.subTest(name):
                done = draw(report_of(name), *words)
                self.assertEqual(done.stdout.decode("utf-8"), (DRAWINGS / f"{name}.svg").read_text(encoding="utf-8"))

    def test_a_drawing_is_text_alone(self):
        allowed = {SVG + tag for tag in ("svg", "title", "style", "rect", "line", "text", "g")}
        for name in STORED:
            drawing = (DRAWINGS / f"{name}.svg").read_text(encoding="utf-8")
            self.assertLessEqual({element.tag for element in ElementTree.fromstring(drawing).iter()}, allowed)
            self.assertNotRegex(drawing, r"url\(|href|@import")

    def test_each_entry_has_its_box(self):
        """A box stands from its tick to its waveform's end, on the scale on which the run takes the lane."""
        for name in ("two_qubits", "phases", "feedback"):
            lines = [line.split() for line in report_of(name).decode().splitlines()]
            played = sorted((line[2], int(line[1]), line[3]) for line in lines if line[0] in ("pulse", "capture"))
            end = next(int(line[1]) for line in lines if line[0] == "end")
            root = self.drawn(report_of(name))
            lane = next(rect for rect in root.findall(f"{SVG}rect") if rect.get("class") == "lane")
            left, scale = float(lane.get("x")), float(lane.get("width")) / end
            found = []
            for title, rect in self.boxes(root):
                wave, port, first, last = re.search(r": (\w+) on (\w+)\nfrom tick (\d+) to (\d+)", title).groups()
                found.append((port, int(first), wave))
                self.assertEqual(int(last) - int(first), LENGTHS[wave])
                self.assertAlmostEqual(float(rect.get("x")), left + int(first) * scale, delta=0.1)
                self.assertAlmostEqual(float(rect.get("width")), LENGTHS[wave] * scale - 1, delta=0.1)
            self.assertEqual(sorted(found), played)

    def test_differences_from_the_first_of_a_port(self):
        texts = self.texts(self.drawn(report_of("phases")))
        self.assertEqual(texts.count("φ 0.75, 4.999 GHz"), 1)
        self.assertEqual(texts.count("4.999 GHz"), 1)
        self.assertEqual(texts.count("5 GHz, φ 0.25"), 1)

    def test_captures_outputs_end_and_counts(self):
        root = self.drawn(report_of("feedback"), "--machine", "-")
        texts = self.texts(root)
        for wanted in ("r20 → 1", "c = 1", "end 34 (34 ns), done", "7 steps, 5 waits", "ns"):
            self.assertIn(wanted, texts)
        ports = [text for text in texts if re.fullmatch(r"[ad]\d", text)]
        self.assertEqual(ports, ["d0", "d1", "d2", "a0", "a1", "a2"])

    def test_all_endings_and_values(self):
        for ending in ("done", "ended", "budget"):
            data = PULSE + f"out b 0101\nout n -12\nout π 3\nend 4 {ending}\n".encode()
            texts = self.texts(self.drawn(data))
            self.assertIn(f"end 4, {ending}", texts)
            self.assertIn("b = 0101, n = -12, π = 3", texts)

    def test_an_empty_run(self):
        root = self.drawn(b"end 0 done\nsteps 0 waits 0\n")
        self.assertEqual(self.boxes(root), [])
        self.assertIn("end 0, done", self.texts(root))

    def test_a_long_run_is_merged_and_counted(self):
        count = 65_536
        lines = b"".join(b"pulse %d d%d w4 0 5000000000\n" % (i // 3 * 4, i % 3) for i in range(count))
        done = draw(lines + b"end 87384 done\n")
        self.assertLess(len(done.stdout), 20_000)
        titles = [title for title, _ in self.boxes(ElementTree.fromstring(done.stdout))]
        self.assertEqual(sum(int(re.match(r"(\d+) pulses on d\d\n", title)[1]) for title in titles), count)

    def test_a_part_of_a_run(self):
        root = self.drawn(report_of("loop"), "--from", "95", "--to", "160")
        starts = [int(re.search(r"tick (\d+)", title)[1]) for title, _ in self.boxes(root)]
        self.assertEqual(starts, [90, 120, 150])
        self.assertIn("ticks 95 to 160; end 3030, budget", self.texts(root))

    def test_the_greatest_ticks(self):
        data = b"pulse 2305843009213693951 d0 w4 4294967295 1099511627775\nend 2305843009213693955 done\n"
        self.assertEqual(len(self.boxes(self.drawn(data))), 1)
        title = self.boxes(self.drawn(data, "--from", "2305843009213693950", "--to", "2305843009213693956"))[0][0]
        self.assertIn("from tick 2305843009213693951 to 2305843009213693955", title)

    def test_a_waveform_of_unknown_length(self):
        root = self.drawn(b"pulse 3 p own 0 7\nend 9 done\n")
        self.assertIn("of unknown length: give --machine", self.boxes(root)[0][0])
        self.assertEqual(root.find(f"{SVG}g").get("class"), "pulse guess")

    def test_a_machine_of_a_file(self):
        data = b"pulse 0 in w4 0 999\npulse 3000 out long 0 1000000\nend 6000 done\n"
        with tempfile.TemporaryDirectory() as folder:
            table = Path(folder) / "M"
            table.write_text(json.dumps(TABLE), encoding="utf-8")
            root = self.drawn(data, "--machine", table)
            self.refused("draw", draw(PULSE + b"end 4 done\n", "--machine", table))
            self.refused("draw", draw(b"pulse 0 in w8 0 1\nend 4 done\n", "--machine", table))
        self.assertEqual([text for text in self.texts(root) if text in ("in", "out")], ["out", "in"])
        self.assertIn("from tick 3000 (1500 ns) to 6000 (3000 ns)", self.boxes(root)[0][0])
        self.assertIn("from tick 0 (0 ns) to 6 (3 ns)", self.boxes(root)[1][0])
        self.assertIn("end 6000 (3000 ns), done", self.texts(root))

    def test_a_report_in_a_file(self):
        file = DRAWINGS / "two_qubits.txt"
        self.assertEqual(draw(b"", file).stdout, draw(file.read_bytes()).stdout)

    def test_the_picture_of_the_first_page(self):
        picture = (TOP / "docs" / "two_qubits.svg").read_bytes()
        self.assertEqual(draw(report_of("two_qubits")).stdout, picture)

    @needs_program
    def test_the_program_writes_the_report_of_the_first_page(self):
        done = call([PROGRAM, "step", TOP / "examples" / "two_qubits.qasm"])
        self.assertEqual(done.stdout, report_of("two_qubits"))
        self.assertEqual((TOP / "README.md").read_text(encoding="utf-8").count(done.stdout.decode()), 1)


class Refused(ToolCase):
    """Input that is no report, and words that don't fit."""

    def no_report(self, data):
        """The bytes are refused in one clear line."""
        with self.subTest(data[:40]), self.assertRaisesRegex(BadInput, r"\A[^\n]{1,300}\Z"):
            report.parse(data)

    def no_machine(self, text):
        """The text of a table is refused in one clear line."""
        with self.subTest(text[:40]), tempfile.TemporaryDirectory() as folder:
            table = Path(folder) / "M"
            table.write_text(text, encoding="utf-8")
            with self.assertRaisesRegex(BadInput, r"\A[^\n]{1,300}\Z"):
                machine.read(table)

    def test_what_is_no_report(self):
        for data in (
            b"\n",
            PULSE + b"\xc3\x28\nend 4 done\n",
            b"refused 199 1:1 NotBuilt\n",
            b"read failed F\n",
            b"usage: check F [M]\n",
            b"make 4 bytes 89 pulses 3 captures 1\nend 42 done\nsteps 10 waits 4\n",
            b"accepted\n",
            PULSE,
            PULSE + b"\nend 4 done\n",
            b"end 4 done\n" + PULSE,
            b"end 4 done\nend 4 done\n",
            b"steps 1 waits 0\n",
            b"out c 1\n" + PULSE + b"end 4 done\n",
            b"end 4 done\nsteps 1 waits 0\nsteps 1 waits 0\n",
            b"pulse 4 d0 w4 0 5\n" + PULSE + b"end 8 done\n",
            b"pulse 0 d0 w4 0\nend 4 done\n",
            b"pulse 0 d0 w4 0 5 1\nend 4 done\n",
            b"capture 0 a0 r20 0 5 2\nend 20 done\n",
            b"pulse -1 d0 w4 0 5\nend 4 done\n",
            b"pulse 0 d0\x00 w4 0 5\nend 4 done\n",
            b"pulse 0 <d> w4 0 5\nend 4 done\n",
            b"pulse  0 d0 w4 0 5\nend 4 done\n",
            b"end 4 stopped\n",
            b"end " + b"9" * 5000 + b" done\n",
            b"end \xd9\xa3 done\n",
        ):
            self.no_report(data)

    def test_a_megabyte_that_is_no_report(self):
        for piece in (b"a", b"\n", b"\x00", b"pulse ", PULSE):
            self.no_report(piece * (1_048_576 // len(piece)))

    def test_how_the_tool_ends(self):
        for data in (b"", b"\xff", b"refused 199 1:1 NotBuilt\n", b"a" * 1_048_576):
            self.refused("draw", draw(data))

    def test_what_is_no_machine(self):
        for text in (
            "",
            "{",
            "[" * 1_000_000,
            "1" * 5000,
            "[]",
            "{}",
            json.dumps({**TABLE, "dt": True}),
            json.dumps({**TABLE, "dt": 0}),
            json.dumps({**TABLE, "ports": 3}),
            json.dumps({**TABLE, "ports": [{"name": 3}]}),
            json.dumps({**TABLE, "waveforms": [{"name": "w4"}]}),
            json.dumps({**TABLE, "waveforms": [{"name": "w4", "samples": []}]}),
        ):
            self.no_machine(text)
        self.refused("draw", draw(PULSE + b"end 4 done\n", "--machine", "/dev/null"))

    def test_files_that_are_not_there(self):
        self.refused("draw", draw(b"", "no such file"))
        self.refused("draw", draw(b"", TOP))
        self.refused("draw", draw(PULSE + b"end 4 done\n", "--machine", "no such file"))

    def test_parts_that_are_none(self):
        good = PULSE + b"end 4 done\n"
        self.refused("draw", draw(good, "--from", "3", "--to", "3"))
        self.refused("draw", draw(good, "--from", "5", "--to", "6"))
        for words in (["--from", "x"], ["--to", "9" * 5000], ["a", "b"]):
            done = draw(good, *words)
            self.assertEqual((done.returncode, done.stdout), (2, b""))
            self.assertNotIn(b"Traceback", done.stderr)


if __name__ == "__main__":
    unittest.main()
