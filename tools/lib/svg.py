"""Writes lanes as one SVG, with its colours for light and dark, and a title for each box. It has no script and needs
nothing else."""
import unicodedata
from xml.sax.saxutils import escape

from timeline import Window, boxes_of, marks

# All in pixels; a letter is taken to be no wider than this.
WIDTH = 960
RIGHT = 24
HEAD = 34
LANE = 48
BOX = 32
LINE = 18
LETTER = 7.2
SMALL_LETTER = 6

# Blue and orange are told apart by all readers; captures also have round ends, and their bit.
STYLE = """
text { font: 12px ui-sans-serif, system-ui, "DejaVu Sans", sans-serif; fill: #1b1f24 }
.small { font-size: 10px } .muted { fill: #57606a }
.paper { fill: #ffffff } .lane { fill: #f1f4f7 } .grid { stroke: #c8d1da } .end { stroke: #1b1f24; stroke-width: 2 }
.pulse rect { fill: #0072b2 } .pulse text { fill: #ffffff }
.capture rect { fill: #e69f00 } .capture text { fill: #000000 }
.several rect { fill: #57606a } .several text { fill: #ffffff }
.guess rect { stroke: #1b1f24; stroke-dasharray: 4 3; fill-opacity: .75 }
@media (prefers-color-scheme: dark) {
text { fill: #e6edf3 } .muted { fill: #9da7b1 }
.paper { fill: #0d1117 } .lane { fill: #1a2029 } .grid { stroke: #3a434d } .end { stroke: #e6edf3 }
.pulse rect { fill: #56b4e9 } .pulse text { fill: #000000 }
.several rect { fill: #9da7b1 } .several text { fill: #000000 }
.guess rect { stroke: #e6edf3 }
}
"""


def decimal(number, power):
    """A number over 10^power, in decimals without zeros at the end."""
    whole, part = divmod(number, 10**power)
    digits = str(part).zfill(power).rstrip("0") if power else ""
    return f"{whole}.{digits}" if digits else str(whole)


def hertz(frequency):
    """A frequency with its unit."""
    for power, unit in ((9, "GHz"), (6, "MHz"), (3, "kHz")):
        if frequency >= 10**power:
            return f"{decimal(frequency, power)} {unit}"
    return f"{frequency} Hz"


def turns(phase):
    """A phase in turns, to four digits."""
    return f"{phase / 2**32:.4g}"


def short(name, length=24):
    """A name, cut where it is long."""
    return name if len(name) <= length else name[: length - 1] + "…"


def width_of(text, letter=LETTER):
    """About how many pixels a text takes."""
    return letter * sum(2 if unicodedata.east_asian_width(sign) in "WF" else 1 for sign in text)


def text(x, y, words, anchor="start", kind=None):
    """A text at a place."""
    extra = f' class="{kind}"' if kind else ""
    middle = "" if anchor == "start" else f' text-anchor="{anchor}"'
    return f'<text x="{x:.1f}" y="{y:.1f}"{middle}{extra}>{escape(words)}</text>'


def rect(x, y, width, height, kind=None, round_by=None):
    """A rectangle, with round corners where it has a radius."""
    extra = (f' class="{kind}"' if kind else "") + (f' rx="{round_by:g}"' if round_by else "")
    return f'<rect x="{x:.1f}" y="{y:.1f}" width="{width:.1f}" height="{height:.1f}"{extra}/>'


def line(x, top, bottom, kind):
    """A line downwards."""
    return f'<line x1="{x:.1f}" x2="{x:.1f}" y1="{top:.1f}" y2="{bottom:.1f}" class="{kind}"/>'


def plural(count, word):
    """A count of things, in words."""
    return f"{count} {word}" if count == 1 else f"{count} {word}s"


def counts(spans):
    """How many pulses and captures there are, in words."""
    captures = sum(span.entry.bit is not None for span in spans)
    parts = [plural(len(spans) - captures, "pulse")] * (captures < len(spans))
    return " and ".join(parts + [plural(captures, "capture")] * (captures > 0))


class Drawing:
    """One drawing of a report. The machine is None where none was given; then times are in ticks."""

    def __init__(self, report, lanes, machine, start, stop):
        self.report, self.lanes, self.machine = report, lanes, machine
        names = [width_of(short(lane.port)) for lane in lanes]
        firsts = [width_of(self.firsts(lane), SMALL_LETTER) for lane in lanes]
        left = 28 + max([36, *names, *firsts])
        self.window = Window(start, stop, left, WIDTH - RIGHT - left)
        self.bottom = HEAD + LANE * len(lanes)
        self.parts = []

    def time(self, tick):
        """A tick in words, in ns too where the machine is known."""
        if self.machine is None:
            return str(tick)
        return f"{tick} ({decimal(tick * self.machine.picoseconds, 3)} ns)"

    def firsts(self, lane):
        """The port's first frequency and phase, with which its boxes are compared."""
        if lane.first is None:
            return ""
        phase = f", φ {turns(lane.first.phase)}" if lane.first.phase else ""
        return hertz(lane.first.frequency) + phase

    def differences(self, entry, first):
        """Where an entry's phase and frequency differ from the port's first."""
        found = [f"φ {turns(entry.phase)}"] * (entry.phase != first.phase)
        found += [hertz(entry.frequency)] * (entry.frequency != first.frequency)
        return ", ".join(found)

    def title(self, spans):
        """What the mouse shows of a box."""
        first, stop = spans[0].entry, spans[-1].stop
        if len(spans) > 1:
            stop = max(span.stop for span in spans)
            return f"{counts(spans)} on {first.port}\nfrom tick {self.time(first.tick)} to {self.time(stop)}"
        what = "pulse" if first.bit is None else f"capture of bit {first.bit}"
        until = f"to {self.time(stop)}" if spans[0].is_known else "of unknown length: give --machine"
        return (
            f"{what}: {short(first.wave, 64)} on {first.port}\nfrom tick {self.time(first.tick)} {until}\n"
            f"phase {first.phase} of 2^32 ({turns(first.phase)} turns), {first.frequency} Hz"
        )

    def labels(self, box, first):
        """The texts that may stand in a box, the longest first: each is a line, and perhaps a second one."""
        entry = box.spans[0].entry
        if len(box.spans) > 1:
            return [(counts(box.spans), ""), (str(len(box.spans)), ""), ("", "")]
        bit = "" if entry.bit is None else f" → {entry.bit}"
        name, differs = short(entry.wave) + bit, self.differences(entry, first)
        return [(name, differs), (name, ""), (entry.bit or "", ""), ("", "")]

    def add_label(self, box, first, top):
        """Writes the longest text that fits into a box."""
        middle, room = (box.x + box.right) / 2, box.right - box.x - 6
        for upper, lower in self.labels(box, first):
            if max(width_of(upper), width_of(lower, SMALL_LETTER)) <= room:
                if upper:
                    self.parts.append(text(middle, top + (14 if lower else 20), upper, "middle"))
                if lower:
                    self.parts.append(text(middle, top + 26, lower, "middle", "small"))
                return

    def add_box(self, box, first, top):
        """Draws a box with its title and its text."""
        entry = box.spans[0].entry
        kind = "several" if len(box.spans) > 1 else "pulse" if entry.bit is None else "capture"
        guess = "" if all(span.is_known for span in box.spans) else " guess"
        width = max(box.right - box.x - 1, 1)
        round_by = min(12 if kind == "capture" else 3, width / 2)
        self.parts.append(f'<g class="{kind}{guess}"><title>{escape(self.title(box.spans))}</title>')
        self.parts.append(rect(box.x, top, width, BOX, round_by=round_by))
        self.add_label(box, first, top)
        self.parts.append("</g>")

    def add_lane(self, lane, top):
        """Draws a port's strip and name."""
        self.parts.append(rect(self.window.left, top + 2, self.window.width, LANE - 4, "lane"))
        self.parts.append(text(16, top + (21 if lane.first else 28), short(lane.port)))
        if lane.first:
            self.parts.append(text(16, top + 36, self.firsts(lane), kind="small muted"))

    def add_axis(self):
        """Draws the marks of time: in ns where the machine is known, and else in ticks."""
        scale, power = (self.machine.picoseconds, 3) if self.machine else (1, 0)
        longest = width_of(decimal(self.window.stop * scale, power), SMALL_LETTER)
        for x, number in marks(self.window, scale, max(64, longest + 16)):
            self.parts.append(line(x, HEAD, self.bottom + 5, "grid"))
            self.parts.append(text(x, self.bottom + 18, decimal(number, power), "middle", "small muted"))
        self.parts.append(text(16, self.bottom + 18, "ns" if self.machine else "ticks", kind="small muted"))

    def add_end(self):
        """Draws where the run ends, and in which way."""
        end, window = self.report.end, self.window
        words = f"end {self.time(end)}, {self.report.ending}"
        if not window.start <= end <= window.stop:
            words = f"ticks {window.start} to {window.stop}; {words}"
            self.parts.append(text(WIDTH - RIGHT, 22, words, "end"))
            return
        x = window.x(end)
        self.parts.append(line(x, HEAD - 4, self.bottom + 5, "end"))
        is_left = x - window.left > width_of(words)
        self.parts.append(text(x, 22, words, "end" if is_left else "start"))

    def footer(self):
        """The lines below the axis: the outputs, as many on a line as fit, and the counts."""
        lines, most = [], int((WIDTH - 32) / LETTER)
        for name, value in self.report.outputs:
            words = f"{short(name)} = {short(value, 72)}"
            if lines and len(lines[-1]) + len(words) + 2 <= most:
                lines[-1] += ", " + words
            else:
                lines.append(words)
        if self.report.counts:
            lines.append(f"{plural(self.report.counts[0], 'step')}, {plural(self.report.counts[1], 'wait')}")
        return lines

    def write(self):
        """The whole SVG."""
        tops = [HEAD + LANE * index for index in range(len(self.lanes))]
        for lane, top in zip(self.lanes, tops):
            self.add_lane(lane, top)
        self.add_axis()
        for lane, top in zip(self.lanes, tops):
            for box in boxes_of(lane, self.window):
                self.add_box(box, lane.first, top + (LANE - BOX) / 2)
        self.add_end()
        footer = self.footer()
        for index, words in enumerate(footer):
            self.parts.append(text(16, self.bottom + 40 + LINE * index, words))
        return "\n".join([self.head(self.bottom + 30 + LINE * len(footer)), *self.parts, "</svg>", ""])

    def head(self, height):
        """The beginning of the SVG: its size, its title, its colours and its ground."""
        played = counts([span for lane in self.lanes for span in lane.spans]) or "nothing"
        return (
            f'<svg xmlns="http://www.w3.org/2000/svg" width="{WIDTH}" height="{height}" '
            f'viewBox="0 0 {WIDTH} {height}" role="img">\n'
            f"<title>Timeline of a run: {played}, {self.report.ending} at tick {self.report.end}</title>\n"
            f"<style>{STYLE}</style>\n" + rect(0, 0, WIDTH, height, "paper")
        )
