"""Lays a report out on lanes: which boxes stand where, and which are too narrow to stand alone."""
from dataclasses import dataclass
from typing import NamedTuple

from errors import BadInput
from report import Entry

# In pixels: what is narrower, and nearer to the one before it, is merged with it.
NARROWEST = 4


@dataclass(frozen=True)
class Window:
    """The ticks that are drawn, and the pixels from the left that they take."""

    start: int
    stop: int
    left: float
    width: float

    def x(self, tick):
        """The place of a tick, which may be a fraction."""
        return self.left + (tick - self.start) / (self.stop - self.start) * self.width

    def clip(self, tick):
        """The place of a tick, or of the edge beyond which it lies."""
        return self.x(min(max(tick, self.start), self.stop))


class Span(NamedTuple):
    """An entry from its tick to its end. The end is a guess where the length of its waveform isn't known."""

    entry: Entry
    stop: int
    is_known: bool


@dataclass
class Box:
    """The spans that one box shows, and its place from x to right."""

    spans: list
    x: float
    right: float


@dataclass
class Lane:
    """A port, its spans, and its first entry in the report, with which the later ones are compared."""

    port: str
    spans: list
    first: object


def ports_of(report, machine):
    """The ports in order of the machine's table, or of their first use."""
    used = dict.fromkeys(entry.port for entry in report.entries)
    if machine is None:
        return list(used)
    for port in used:
        if port not in machine.ports:
            raise BadInput(f"the machine's table lacks the port {port}: is the report of another machine?")
    return list(machine.ports)


def spans_of(entries, lengths, end):
    """A port's entries with their ends. One of unknown length is drawn up to the next one, or to the run's end."""
    spans = []
    for index, entry in enumerate(entries):
        length = lengths.get(entry.wave)
        following = entries[index + 1].tick if index + 1 < len(entries) else max(end, entry.tick + 1)
        stop = following if length is None else entry.tick + length
        spans.append(Span(entry, stop, length is not None))
    return spans


def lanes_of(report, machine, built_in):
    """A lane for each port. Without a machine the lengths are those of the built-in machine's waveforms."""
    lengths = (machine or built_in).lengths
    by_port = {port: [] for port in ports_of(report, machine)}
    for entry in report.entries:
        if machine is not None and entry.wave not in lengths:
            raise BadInput(f"the machine's table lacks the waveform {entry.wave}: is the report of another machine?")
        by_port[entry.port].append(entry)
    return [
        Lane(port, spans_of(entries, lengths, report.end), entries[0] if entries else None)
        for port, entries in by_port.items()
    ]


def limits(report, lanes, start, stop):
    """The first and the last tick to draw: those that are asked for, else the whole run."""
    last = max([report.end, *(span.stop for lane in lanes for span in lane.spans if span.is_known)])
    start = 0 if start is None else start
    stop = max(last, start + 1) if stop is None else stop
    if start >= stop:
        raise BadInput(f"there is nothing from tick {start} to tick {stop}")
    if start > last:
        raise BadInput(f"tick {start} lies after the run's end at tick {report.end}")
    return start, stop


def boxes_of(lane, window):
    """The boxes of a lane: one for each span, but spans too narrow and too near to stand apart share one."""
    boxes, is_narrow = [], False
    for span in lane.spans:
        if span.stop <= window.start or span.entry.tick >= window.stop:
            continue
        x, right = window.clip(span.entry.tick), window.clip(span.stop)
        was_narrow, is_narrow = is_narrow, right - x < NARROWEST
        if is_narrow and was_narrow and x - boxes[-1].right < NARROWEST:
            boxes[-1].spans.append(span)
            boxes[-1].right = max(boxes[-1].right, right)
        else:
            boxes.append(Box([span], x, right))
    return boxes


def round_step(least):
    """The least of 1, 2, 5, 10, 20, 50 and so on that is no less than a number."""
    power = 1
    while True:
        for digit in (1, 2, 5):
            if digit * power >= least:
                return digit * power
        power *= 10


def marks(window, scale, pixels):
    """The axis' marks, as pairs of a place and a number: multiples of a round step, at least so many pixels apart.
    A tick is `scale` of the numbers."""
    least = (window.stop - window.start) * scale * pixels / window.width
    step = round_step(least)
    first = -(-window.start * scale // step) * step
    return [(window.x(number / scale), number) for number in range(first, window.stop * scale + 1, step)]
