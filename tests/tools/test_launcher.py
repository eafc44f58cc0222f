"""Tests the launcher over a repository of its own, with a stand-in for the kit's command rt that proves nothing."""
import os
import pty
import shutil
import signal
import subprocess
import tempfile
import time
import unittest
from pathlib import Path

from support import SECONDS, TOP

# Writes what it is called for into `calls` at the top. A crate with a file `broken` fails, one with `slow` takes long,
# and one with `changes` gets a later source while it is proved. A tried program reads its file, as the real one does.
STAND_IN = r"""#!/usr/bin/env python3
import os, pathlib, sys, time
crate, words = pathlib.Path.cwd(), sys.argv[1:]
with open(crate.parent.parent / "calls", "a") as calls:
    calls.write(f"{crate.name} {words[0]}\n")
if (crate / "broken").exists():
    print("error: line 7 isn't proved")
    sys.exit(1)
if (crate / "slow").exists():
    time.sleep(60)
if (crate / "changes").exists():
    time.sleep(0.05)
    (crate / "src" / "main.rt").touch()
if words[0] == "run":
    (crate / "out").mkdir(exist_ok=True)
    program = crate / "out" / crate.name
if words[0] == "try":
    program = pathlib.Path(os.environ["TMPDIR"]) / "a" / "program"
    program.parent.mkdir()
if words[0] in ("run", "try"):
    program.write_text(f'#!/bin/sh\necho "{words[0]}: $*"\nexit 3\n')
    program.chmod(0o755)
    pathlib.Path(words[-1]).read_bytes()
"""
CRATES = "# the crates\nqasm_main: above below thiserror\nbelow: unicode\nabove: below\nunused: below\n"
ALL = ["below lib", "above lib", "qasm_main run"]


class Launcher(unittest.TestCase):
    """The launcher in a repository of three crates that the program needs, and one that it doesn't."""

    def setUp(self):
        holder = tempfile.TemporaryDirectory()
        self.addCleanup(holder.cleanup)
        self.top = Path(holder.name) / "a repository"
        shutil.copytree(TOP / "tools", self.top / "tools")
        shutil.copy(TOP / "faultcanvas", self.top)
        (self.top / "crates.txt").write_text(CRATES, encoding="utf-8")
        for crate in ("below", "above", "unused", "qasm_main"):
            (self.top / "crates" / crate / "src").mkdir(parents=True)
            (self.top / "crates" / crate / "specs").mkdir()
            (self.top / "crates" / crate / "src" / "main.rt").touch()
        rt = self.top / "bin" / "rt"
        rt.parent.mkdir()
        rt.write_text(STAND_IN, encoding="utf-8")
        rt.chmod(0o755)
        self.environment = {**os.environ, "PATH": f"{rt.parent}:{os.environ['PATH']}", "TMPDIR": holder.name}
        self.environment.pop("FAULTCANVAS_UNPROVED", None)

    def call(self, *words, **more):
        """Runs the launcher from another folder."""
        return subprocess.run(
            [self.top / "faultcanvas", *words],
            cwd="/",
            env={**self.environment, **more},
            capture_output=True,
            text=True,
            timeout=SECONDS,
        )

    def calls(self):
        """What rt was called for since this was last asked."""
        file = self.top / "calls"
        said = file.read_text(encoding="utf-8").splitlines() if file.exists() else []
        file.write_text("", encoding="utf-8")
        return said

    def kept(self):
        """The programs that are kept."""
        folder = self.top / "out"
        return sorted(path.name for path in folder.iterdir()) if folder.exists() else []

    def mark(self, crate, name):
        """Puts a file into a crate that tells the stand-in what to do."""
        file = self.top / "crates" / crate / name
        file.touch()
        return file

    def test_it_builds_and_says_so(self):
        done = self.call("step", "F G")
        self.assertEqual((done.stdout, done.returncode), ("run: step F G\n", 3))
        self.assertEqual(self.calls(), ALL)
        lines = done.stderr.splitlines()
        for number, crate in enumerate(("below", "above", "qasm_main"), 1):
            self.assertRegex(lines[number], rf"\Afaultcanvas: proving {number} of 3: {crate}, \d+ s\Z")
        self.assertRegex(lines[4], r"\Afaultcanvas: proved and built 3 crates, \d+ s\Z")
        self.assertEqual((len(lines), self.kept()), (5, ["faultcanvas"]))

    def test_it_builds_once(self):
        self.call()
        self.calls()
        for name in ("crates/below/README.md", "crates/unused/src/main.rt", "README.md"):
            (self.top / name).touch()
        done = self.call("step")
        self.assertEqual((done.stdout, done.stderr, self.calls()), ("run: step\n", "", []))

    def test_it_builds_again_after_a_change(self):
        self.call()
        for name in ("crates/below/src/main.rt", "crates/above/specs/New.antt", "crates.txt"):
            self.calls()
            time.sleep(0.02)
            (self.top / name).touch()
            self.call()
            self.assertEqual(self.calls(), ALL, name)
        self.calls()
        time.sleep(0.02)
        (self.top / "crates/above/specs/New.antt").unlink()
        self.call()
        self.assertEqual(self.calls(), ALL)

    def test_a_change_during_the_build(self):
        mark = self.mark("qasm_main", "changes")
        self.call()
        mark.unlink()
        self.calls()
        self.call()
        self.assertEqual(self.calls(), ALL)

    def test_a_crate_that_is_not_proved(self):
        self.mark("above", "broken")
        done = self.call("step")
        self.assertEqual((done.stdout, done.returncode, self.kept()), ("", 70, []))
        self.assertIn("error: line 7 isn't proved\n", done.stderr)
        self.assertTrue(done.stderr.endswith("no program was built: rt lib failed in crates/above, as said above\n"))

    def test_an_older_program_does_not_stand_in(self):
        self.call()
        time.sleep(0.02)
        self.mark("above", "broken")
        (self.top / "crates/above/src/main.rt").touch()
        done = self.call("step")
        self.assertEqual((done.stdout, done.returncode), ("", 70))

    def test_without_the_kit(self):
        (self.top / "bin" / "rt").unlink()
        path = f"{Path(shutil.which('python3')).parent}:/usr/bin:/bin"
        if shutil.which("rt", path=path):
            self.skipTest("the kit stands beside Python")
        done = self.call("step", PATH=path)
        self.assertEqual((done.stdout, done.returncode), ("", 70))
        self.assertIn("the Rattle kit's command rt isn't on the PATH\n", done.stderr)

    def test_an_interrupt_and_going_on(self):
        slow = self.mark("above", "slow")
        command = subprocess.Popen(
            [self.top / "faultcanvas"], env=self.environment, stderr=subprocess.PIPE, text=True, start_new_session=True
        )
        while "2 of 3" not in command.stderr.readline():
            pass
        os.killpg(command.pid, signal.SIGINT)
        said = command.communicate(timeout=SECONDS)[1]
        self.assertIn("interrupted; the next call goes on", said)
        self.assertNotIn("Traceback", said)
        self.assertIn(command.returncode, (130, -signal.SIGINT))
        self.assertEqual(self.kept(), [])
        slow.unlink()
        self.assertEqual(self.call("step").stdout, "run: step\n")

    def test_a_line_is_rewritten_on_a_terminal(self):
        try:
            main, terminal = pty.openpty()
        except OSError:
            self.skipTest("there are no terminals here")
        subprocess.run(
            [self.top / "faultcanvas"], env=self.environment, stderr=terminal, stdout=subprocess.PIPE, timeout=SECONDS
        )
        os.close(terminal)
        said = os.read(main, 65_536).decode()
        os.close(main)
        self.assertRegex(said, r"\r\x1b\[Kfaultcanvas: proving 1 of 3: below, \d+ s\r\x1b\[K")
        self.assertEqual(said.count("\n"), 2)

    def test_without_the_proofs(self):
        done = self.call("step", "F", FAULTCANVAS_UNPROVED="1")
        self.assertEqual((done.stdout, done.returncode), ("try: step F\n", 3))
        self.assertEqual((self.calls(), self.kept()), (["qasm_main try"], ["faultcanvas-unproved"]))
        again = self.call("step", "F", FAULTCANVAS_UNPROVED="1")
        self.assertEqual((again.stdout, self.calls()), ("try: step F\n", []))
        self.assertEqual(again.stderr.count("\n"), 1)
        self.assertIn("this is not the proved program", again.stderr)
        self.assertIn("without FAULTCANVAS_UNPROVED=1", again.stderr)

    def test_the_proved_one_alone_without_the_word(self):
        self.call("step", FAULTCANVAS_UNPROVED="1")
        for word in ("", "0", "yes"):
            self.assertEqual(self.call("step", FAULTCANVAS_UNPROVED=word).stdout, "run: step\n")
        self.assertEqual(self.kept(), ["faultcanvas", "faultcanvas-unproved"])

    def test_a_program_that_does_not_compile(self):
        self.mark("qasm_main", "broken")
        done = self.call("step", FAULTCANVAS_UNPROVED="1")
        self.assertEqual((done.stdout, done.returncode, self.kept()), ("", 70, []))
        self.assertIn("error: line 7 isn't proved\n", done.stderr)


if __name__ == "__main__":
    unittest.main()
