"""What the tests of the tools share."""
import os
import subprocess
import sys
import unittest
from pathlib import Path

TOP = Path(__file__).resolve().parent.parent.parent
TOOLS = TOP / "tools"
PROGRAM = os.environ.get("FAULTCANVAS_TESTED")
SECONDS = 60

sys.path.insert(0, str(TOOLS / "lib"))

needs_program = unittest.skipUnless(PROGRAM, "no program was given")


def call(words, data=b"", **how):
    """Runs a command with the bytes as its standard input."""
    return subprocess.run([str(word) for word in words], input=data, capture_output=True, timeout=SECONDS, **how)


class ToolCase(unittest.TestCase):
    """A test that looks at how a tool ends."""

    def refused(self, name, done):
        """The tool wrote one clear line on standard error and nothing else, and ended with status 2."""
        said = done.stderr.decode("utf-8")
        self.assertEqual((done.returncode, done.stdout), (2, b""), said)
        self.assertRegex(said, rf"\A{name}: [^\n]{{1,300}}\n\Z")
