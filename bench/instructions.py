"""Counts the instructions of a run by valgrind's callgrind, where it is there: the same count in every run."""
import re
import shutil
import subprocess
import tempfile
from pathlib import Path

# The functions that allocate and give back memory, in the program and in the C library.
ALLOCATIONS = re.compile(r"(rattle_(de)?alloc|(_int_)?(malloc|free|realloc|calloc)|malloc_consolidate|unlink_chunk|alloc_perturb|free_perturb|sysmalloc)\b")
COST = re.compile(r"(?:0x[0-9a-f]+|[+-]\d+|\d+|\*)(?: (?:[+-]?\d+|\*))* (\d+)$")


def costs(profile):
    """The instructions in all, and of them those of allocations, that a profile has."""
    names, function, called = {}, "", False
    whole = allocations = 0
    for line in profile.splitlines():
        if line.startswith("fn="):
            number, _, name = line[3:].partition(" ")
            function = names.setdefault(number, name)
        elif line.startswith("cfn="):
            number, _, name = line[4:].partition(" ")
            names.setdefault(number, name)
        elif line.startswith("calls="):
            called = True
        elif found := COST.match(line):
            if called:
                called = False
                continue
            cost = int(found.group(1))
            whole += cost
            if ALLOCATIONS.match(function):
                allocations += cost
    return whole, allocations


def counted(program, source):
    """The instructions of `step` on a source, in all and of allocations; None where valgrind isn't there."""
    if shutil.which("valgrind") is None:
        return None
    with tempfile.TemporaryDirectory() as folder:
        profile = Path(folder) / "profile"
        subprocess.run(["valgrind", "--tool=callgrind", f"--callgrind-out-file={profile}", program, "step", source], stdout=subprocess.DEVNULL, stderr=subprocess.DEVNULL)
        return costs(profile.read_text())
