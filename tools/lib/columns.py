"""Shows a line of a source as a terminal does, and finds the cell at which a column of the program begins.

The program's columns count characters from 1, each as one. On a terminal a tab goes to the next stop, a wide character
takes two cells and a combining mark none. What can't be seen is shown by its number, as <U+FEFF>, and a byte that
belongs to no character as <FF>.
"""
import unicodedata

TAB = 4
# Of a longer line so many characters are shown, with so many before the column.
LONGEST = 100
BEFORE = 60


def is_combining(sign):
    """Whether a character is drawn over the one before it."""
    return unicodedata.category(sign) in ("Mn", "Me")


def width(text):
    """The cells that a text takes."""
    return sum(
        0 if is_combining(sign) else 2 if unicodedata.east_asian_width(sign) in "WF" else 1 for sign in text
    )


def shown(sign, cell, is_alone):
    """What is shown of a character at a cell. A mark that stands alone gets a dotted circle to stand on."""
    if sign == "\t":
        return " " * (TAB - cell % TAB)
    if "\udc80" <= sign <= "\udcff":
        return f"<{ord(sign) - 0xDC00:02X}>"
    if not sign.isprintable():
        return f"<U+{ord(sign):04X}>"
    return "\u25cc" + sign if is_alone and is_combining(sign) else sign


def lay_out(line, column):
    """The text that is shown of a line, and the cell, from 0, at which a column begins."""
    text, cell, at = "", 0, None
    for number, sign in enumerate(line, 1):
        at = cell if number == column else at
        part = shown(sign, cell, number in (1, column))
        text, cell = text + part, cell + width(part)
    return text, cell if at is None else at


def show(data, column):
    """The bytes of a line as text, and the line below it, with a caret at the column."""
    line = data.decode("utf-8", "surrogateescape")
    if line.endswith("\r") and column < len(line):
        line = line[:-1]
    first = max(column - 1 - BEFORE, 0) if len(line) > LONGEST else 0
    text, cell = lay_out(line[first : first + LONGEST], column - first)
    front = "..." if first else ""
    rest = "..." if first + LONGEST < len(line) else ""
    return front + text + rest, " " * (len(front) + cell) + "^"
