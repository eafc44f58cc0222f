"""The texts of the refusals, and the lines in which the program tells them. `refusals.json` says of what a text
consists."""
from __future__ import annotations

import json
import re
from dataclasses import dataclass
from pathlib import Path

TEXTS = Path(__file__).resolve().parent.parent / "refusals.json"
# The greatest line that is looked at: a name of a file may be long, but no longer than a path.
LONGEST = 8192
LINE = re.compile(r"refused ([0-9]{2,3}) (?:([0-9]{1,7}):([0-9]{1,7}) )?([A-Z][A-Za-z0-9]*)(?: ([^\n]+))?")


@dataclass(frozen=True)
class Refusal:
    """A refusal's line: its code and name, its line and column in the source where it has a place, and what follows."""

    code: str
    name: str
    place: tuple | None
    more: str | None


def load():
    """The file of texts."""
    return json.loads(TEXTS.read_text(encoding="utf-8"))


def parse(data, texts):
    """The refusal that the bytes are, with or without a line feed, or None where they are anything else."""
    if len(data) > LONGEST:
        return None
    try:
        text = data.decode("utf-8")
    except UnicodeDecodeError:
        return None
    found = LINE.fullmatch(text[:-1] if text.endswith("\n") else text)
    if not found:
        return None
    code, line, column, name, more = found.groups()
    if code in texts["refusals"] and texts["refusals"][code]["name"] != name:
        return None
    return Refusal(code, name, (int(line), int(column)) if line else None, more)


def source_of(example):
    """The bytes of an example."""
    if isinstance(example, str):
        return example.encode("utf-8")
    if "hex" in example:
        return bytes.fromhex(example["hex"])
    text, times, last = example["repeat"]
    return (text * times + last).encode("utf-8")


def shown(example, words):
    """An example as a reader sees it: the text itself, or what is said of it in words."""
    return example if isinstance(example, str) else words
