"""Reads the report of a run, as `step` and `run` write it.

A report has its pulses and captures in order of their ticks, then its outputs, then its end, and then, from `step`
alone, the counts:

    pulse TICK PORT WAVE PHASE FREQUENCY
    capture TICK PORT WAVE PHASE FREQUENCY BIT
    out NAME VALUE
    end TICK done|ended|budget
    steps S waits W
"""
from __future__ import annotations

import re
from dataclasses import dataclass, field
from typing import NamedTuple

from errors import BadInput, decode, excerpt

NAME = r"([^\W\d]\w*)"
TICK = r"([0-9]{1,19})"
COUNT = r"([0-9]{1,20})"
PLAYED = rf"{TICK} {NAME} {NAME} ([0-9]{{1,10}}) ([0-9]{{1,13}})"
FORMS = {
    "pulse": re.compile(rf"pulse {PLAYED}"),
    "capture": re.compile(rf"capture {PLAYED} ([01])"),
    "out": re.compile(rf"out {NAME} (-?[0-9]+)"),
    "end": re.compile(rf"end {TICK} (done|ended|budget)"),
    "steps": re.compile(rf"steps {COUNT} waits {COUNT}"),
}
# A line may come after one of its own part or of an earlier one; the end and the counts come once.
PART = {"pulse": 0, "capture": 0, "out": 1, "end": 2, "steps": 3}


class Entry(NamedTuple):
    """A pulse, or a capture where it has a bit. Phases are in 2^32-ths of a turn, frequencies in Hz."""

    tick: int
    port: str
    wave: str
    phase: int
    frequency: int
    bit: str | None = None


@dataclass
class Report:
    """A whole report. Outputs are pairs of name and value; `counts` are steps and waits, where it has them."""

    entries: list = field(default_factory=list)
    outputs: list = field(default_factory=list)
    end: int = 0
    ending: str = ""
    counts: tuple | None = None


def add(report, kind, words):
    """Puts the words of a line into the report."""
    if kind in ("pulse", "capture"):
        tick, port, wave, phase, frequency, *bit = words
        report.entries.append(Entry(int(tick), port, wave, int(phase), int(frequency), *bit))
    elif kind == "out":
        report.outputs.append(words)
    elif kind == "end":
        report.end, report.ending = int(words[0]), words[1]
    else:
        report.counts = (int(words[0]), int(words[1]))


def is_in_order(kind, before):
    """Whether a line of this kind may come after one of the kind before."""
    first, second = PART[before], PART[kind]
    return first < second or (first == second and kind in ("pulse", "capture", "out"))


def lines_of(text):
    """The lines of a text, the last with or without a line feed."""
    return (text[:-1] if text.endswith("\n") else text).split("\n")


def parse(data):
    """The report that the bytes are."""
    text = decode(data, "the report")
    if not text:
        raise BadInput("the report is empty")
    report, before = Report(), "pulse"
    for number, line in enumerate(lines_of(text), 1):
        kind = line.split(" ", 1)[0]
        found = FORMS[kind].fullmatch(line) if kind in FORMS else None
        if not found:
            raise BadInput(f"line {number} is no line of a report: {excerpt(line)}")
        if not is_in_order(kind, before):
            raise BadInput(f"line {number} can't stand after the one before it: {excerpt(line)}")
        add(report, kind, found.groups())
        if len(report.entries) > 1 and report.entries[-1].tick < report.entries[-2].tick:
            raise BadInput(f"line {number} has an earlier tick than the line before it: {excerpt(line)}")
        before = kind
    if not report.ending:
        raise BadInput("the report has no line 'end TICK done', 'ended' or 'budget': it was cut short")
    return report
