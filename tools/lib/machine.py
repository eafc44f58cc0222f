"""Reads what a drawing needs of a machine's table: the ports in order, the waveforms' lengths, the time of a tick."""
import json
from dataclasses import dataclass

from errors import BadInput, read_file

# The machine that the program has built in.
BUILT_IN = {
    "dt": 1000,
    "ports": [{"name": name} for name in ("d0", "d1", "d2", "a0", "a1", "a2")],
    "waveforms": [
        {"name": "w4", "samples": [[1000, 0]] * 4},
        {"name": "w8", "samples": [[1000, 0]] * 8},
        {"name": "r20", "samples": [[1000, 0]] * 20},
    ],
}


@dataclass(frozen=True)
class Machine:
    """A machine: its ports' names in order, ticks by waveform, and the picoseconds of a tick."""

    ports: tuple
    lengths: dict
    picoseconds: int


def entries(table, field):
    """The objects with names that a field of the table lists."""
    found = table.get(field)
    if not isinstance(found, list):
        raise BadInput(f"the machine's table has no list '{field}'")
    for number, entry in enumerate(found):
        if not (isinstance(entry, dict) and isinstance(entry.get("name"), str)):
            raise BadInput(f"entry {number} of '{field}' in the machine's table has no name")
    return found


def from_table(table):
    """The machine of a table's JSON value."""
    if not isinstance(table, dict):
        raise BadInput("the machine's table is no JSON object")
    picoseconds = table.get("dt")
    if type(picoseconds) is not int or not 1 <= picoseconds <= 1_000_000:
        raise BadInput("'dt' in the machine's table is no whole number from 1 to 1000000")
    lengths = {}
    for number, entry in enumerate(entries(table, "waveforms")):
        samples = entry.get("samples")
        if not (isinstance(samples, list) and samples):
            raise BadInput(f"entry {number} of 'waveforms' in the machine's table has no samples")
        lengths[entry["name"]] = len(samples)
    return Machine(tuple(entry["name"] for entry in entries(table, "ports")), lengths, picoseconds)


def read(path):
    """The machine of the table in a file, or the built-in one for `-`."""
    if path == "-":
        return from_table(BUILT_IN)
    data = read_file(path, "the machine's table")
    try:
        table = json.loads(data)
    except (ValueError, RecursionError):
        raise BadInput(f"the machine's table {path} is no JSON") from None
    return from_table(table)
