"""Builds the program: with its proofs, crate by crate, or without them. Needs the Rattle kit's command rt, which keeps
what it has proved, so that an interrupted build goes on where it stopped.

A built program is copied to `out/` at the top, under a name that says which of the two it is, and with the time at
which its build began: a source that changed after that is newer than the program.
"""
import contextlib
import fcntl
import os
import shutil
import subprocess
import sys
import tempfile
import time
from pathlib import Path

PROGRAM = "qasm_main"
PROVED = "faultcanvas"
UNPROVED = "faultcanvas-unproved"
LINES_OF_A_FAULT = 40


class Failed(Exception):
    """A build that failed. Its message is one line."""


def crates_below(text, name):
    """The repository's crates that a crate stands on, lowest first, and then the crate itself, by crates.txt."""
    lines = [line.split("#")[0].partition(":") for line in text.splitlines()]
    listed = {head.split()[0]: rest.split() for head, _, rest in lines if head.strip()}
    seen, order = set(), []

    def visit(crate):
        if crate in listed and crate not in seen:
            seen.add(crate)
            for below in listed[crate]:
                visit(below)
            order.append(crate)

    visit(name)
    return order


def newest(top, crates, folders):
    """The time, in ns, of the latest change in these folders of the crates, or in crates.txt."""
    found = [(top / "crates.txt").stat().st_mtime_ns]
    for crate in crates:
        for folder in folders:
            for path, _, files in os.walk(top / "crates" / crate / folder):
                found += [os.stat(place).st_mtime_ns for place in (path, *(os.path.join(path, it) for it in files))]
    return max(found)


def keep(built, kept, began):
    """Copies a program into its place in one step, so that nobody runs a half of it, with the time of its beginning."""
    kept.parent.mkdir(exist_ok=True)
    with tempfile.TemporaryDirectory(dir=kept.parent, prefix=".new-") as folder:
        new = Path(folder) / kept.name
        shutil.copyfile(built, new)
        new.chmod(0o755)
        os.utime(new, ns=(began, began))
        new.replace(kept)


class Progress:
    """Says on standard error what is done, and for how long. On a terminal a line is rewritten each second."""

    def __init__(self):
        self.began = time.monotonic()
        self.is_terminal = sys.stderr.isatty()
        self.written = None

    def seconds(self):
        """The seconds since the beginning."""
        return int(time.monotonic() - self.began)

    def say(self, text, is_last=False):
        """Writes what is done now. Elsewhere than on a terminal a text is written when it begins, and not again."""
        line = f"faultcanvas: {text}, {self.seconds()} s"
        if self.is_terminal:
            print(f"\r\033[K{line}", end="\n" if is_last else "", file=sys.stderr, flush=True)
        elif self.written != text:
            print(line, file=sys.stderr, flush=True)
        self.written = None if is_last else text

    def stop(self):
        """Ends a line that would have been rewritten."""
        if self.is_terminal and self.written:
            print(file=sys.stderr, flush=True)
        self.written = None


@contextlib.contextmanager
def started(words, folder, log, environment=None):
    """A command of the kit at work, with what it says in a log. It is ended where the caller goes on without it."""
    try:
        command = subprocess.Popen(
            words, cwd=folder, stdin=subprocess.DEVNULL, stdout=log, stderr=log, env=environment
        )
    except FileNotFoundError:
        raise Failed("the Rattle kit's command rt isn't on the PATH") from None
    try:
        yield command
    finally:
        if command.poll() is None:
            command.terminate()
        command.wait()


def new_log():
    """A file to which a command writes, always at its end, wherever it is read meanwhile."""
    return tempfile.TemporaryFile("a+b")


def last_lines(log):
    """The last lines of a log."""
    log.seek(0)
    return log.read().decode("utf-8", "replace").splitlines()[-LINES_OF_A_FAULT:]


def run(words, folder, progress, text):
    """Runs a command of the kit to its end, and says so each second. A command that fails is a build that failed."""
    with new_log() as log, started(words, folder, log) as command:
        while True:
            waits = [line for line in last_lines(log)[-1:] if line.startswith("rt: waiting for another rt")]
            progress.say(text + ", waiting for another build" * bool(waits))
            with contextlib.suppress(subprocess.TimeoutExpired):
                command.wait(1 if progress.is_terminal else 5)
                break
        if command.returncode:
            progress.stop()
            print(*last_lines(log), sep="\n", file=sys.stderr)
            raise Failed(f"{' '.join(words[:2])} failed in crates/{folder.name}, as said above")


@contextlib.contextmanager
def locked(crate, progress):
    """Keeps other commands of the kit out of a crate, by the lock on its folder that they take too."""
    folder = os.open(crate, os.O_RDONLY)
    try:
        while True:
            try:
                fcntl.flock(folder, fcntl.LOCK_EX | fcntl.LOCK_NB)
                break
            except BlockingIOError:
                progress.say(f"waiting for another build in crates/{crate.name}")
                time.sleep(0.5)
        yield
    finally:
        os.close(folder)


def prove(top, kept):
    """Proves each crate, lowest first, and then the program, which is run once on an empty source."""
    began, progress = time.time_ns(), Progress()
    crates = crates_below((top / "crates.txt").read_text(encoding="utf-8"), PROGRAM)
    print(
        "faultcanvas: proving and building, which takes long the first time; an interrupted build goes on where it "
        "stopped, and FAULTCANVAS_UNPROVED=1 compiles without proofs in about a minute",
        file=sys.stderr,
    )
    try:
        for number, crate in enumerate(crates, 1):
            words = ["rt", "run", "--", "step", os.devnull] if crate == PROGRAM else ["rt", "lib"]
            run(words, top / "crates" / crate, progress, f"proving {number} of {len(crates)}: {crate}")
        with locked(top / "crates" / PROGRAM, progress):
            keep(top / "crates" / PROGRAM / "out" / PROGRAM, kept, began)
        progress.say(f"proved and built {len(crates)} crates", is_last=True)
    finally:
        progress.stop()


def compiled_in(folder):
    """The program that stands somewhere in a folder."""
    found = [path for path in folder.rglob("*") if path.is_file() and os.access(path, os.X_OK)]
    if len(found) != 1:
        raise Failed("rt try didn't leave one program where it was told to work; is the kit another one?")
    return found[0]


def wait_for_reader(pipe, command, progress):
    """Waits until the program that the command compiles has opened the pipe to read, or the command has ended. Then
    the pipe can be opened to write, too, and is."""
    while command.poll() is None:
        with contextlib.suppress(OSError):
            return os.open(pipe, os.O_WRONLY | os.O_NONBLOCK)
        progress.say("compiling without proofs")
        time.sleep(0.2)
    return None


def compile_unproved(top, kept):
    """Compiles the program without proofs. `rt try` does that and keeps nothing, so the program is given a pipe to read,
    and is copied while it waits there."""
    began, progress = time.time_ns(), Progress()
    with tempfile.TemporaryDirectory(prefix="faultcanvas-") as folder, new_log() as log:
        work, pipe, copy = Path(folder) / "work", Path(folder) / "pipe", Path(folder) / "copy"
        work.mkdir()
        os.mkfifo(pipe)
        words = ["rt", "try", "--", "step", str(pipe)]
        try:
            with started(words, top / "crates" / PROGRAM, log, {**os.environ, "TMPDIR": str(work)}) as command:
                writer = wait_for_reader(pipe, command, progress)
                if writer is not None:
                    shutil.copyfile(compiled_in(work), copy)
                    os.close(writer)
                command.wait()
            if command.returncode == 0 and copy.exists():
                keep(copy, kept, began)
                progress.say("compiled without proofs", is_last=True)
                return
        finally:
            progress.stop()
        print(*last_lines(log), sep="\n", file=sys.stderr)
        raise Failed("rt try didn't compile the program, as said above")


def program(top, is_proved):
    """The path of the program, which is built first where it is missing or older than its sources."""
    kept = top / "out" / (PROVED if is_proved else UNPROVED)
    crates = crates_below((top / "crates.txt").read_text(encoding="utf-8"), PROGRAM)
    folders = ("src", "specs", "proofs") if is_proved else ("src",)
    if not kept.exists() or kept.stat().st_mtime_ns < newest(top, crates, folders):
        (prove if is_proved else compile_unproved)(top, kept)
    return kept
