"""Draws the tables of docs/evidence as pictures, which stand there beside them.

    python3 bench/pictures.py [--look]

Each number of a picture is read from its table, so that both say the same. With --look nothing is drawn: the status is 1 where a picture isn't its table's.
"""

import sys

sys.dont_write_bytecode = True

import os
import re

from plots import Series, Value, dots, lines, picture

FOLDER = os.path.join(os.path.dirname(os.path.dirname(os.path.abspath(__file__))), "docs", "evidence")
CELL = re.compile(r"^(-?[\d,]+(?:\.\d+)?)(?: \((-?[\d,]+(?:\.\d+)?) to (-?[\d,]+(?:\.\d+)?)\))?$")


def value_of(cell: str):
    """The number of a cell, with its quartiles where it has them; None where it has no number."""
    match = CELL.match(cell)
    if match is None:
        return None
    middle, low, high = (found and float(found.replace(",", "")) for found in match.groups())
    return Value(middle, middle if low is None else low, middle if high is None else high, match[1])


class Table:
    """A table of a page: the names of its columns, and its rows of cells."""

    def __init__(self, listed: list):
        self.head, _, *self.rows = [[cell.strip() for cell in line.strip().strip("|").split("|")] for line in listed]

    def column(self, name: str, which: int = 0) -> list:
        """The cells of the column of this name, of several the one that is meant."""
        at = [at for at, head in enumerate(self.head) if head == name][which]
        return [row[at] for row in self.rows]

    def series(self, name: str, column: str, which: int = 0) -> Series:
        """A column over the first one, under a name; without the places at which it isn't above zero, which no logarithm has."""
        points = [(value_of(place).middle, value_of(cell)) for place, cell in zip(self.column(self.head[0]), self.column(column, which))]
        return Series(name, [(place, value) for place, value in points if value and value.low > 0])


class Missing(Exception):
    """A table that isn't there yet."""


def tables(page: str, section: str, column: str) -> list:
    """The tables of a section that have a column of this name."""
    path = os.path.join(FOLDER, page)
    if not os.path.isfile(path):
        raise Missing(f"{page} isn't there")
    with open(path, encoding="utf-8") as file:
        text = file.read()
    part = re.search(rf"^#+ {re.escape(section)}\n(.*?)(?=^#+ |\Z)", text, re.M | re.S)
    found, listed = [], []
    for line in [*(part[1].split("\n") if part else ()), ""]:
        if line.startswith("|"):
            listed.append(line)
        elif listed:
            found.append(Table(listed))
            listed = []
    found = [one for one in found if column in one.head]
    if not found:
        raise Missing(f"{page}, {section} has no table with the column {column}")
    return found


def growth() -> str:
    ring, grid = tables("BENCHMARKS.md", "Growth", "slots")[0], tables("BENCHMARKS.md", "Growth", "blocks")[0]
    of_ring = [ring.series("an append of 128 bytes, with its reply", "an append, instructions"),
               ring.series("an open of the full ring", "an open, instructions")]
    of_grid = [grid.series(name, column) for name, column in (
        ("a block", "a block"), ("the begin", "the begin"), ("a step", "a step, answered `working`"), ("the last step", "the last step"),
        ("an open", "an open"))]
    return picture([lines("By the ring", "slots of the ring", "instructions", of_ring),
                    lines("By the grid, full, blocks of 4,096 bytes", "blocks", "instructions", of_grid)])


def appends() -> str:
    section = "An append beyond its calls"
    memory, disk = tables("BENCHMARKS.md", section, "of that SHA-256")[0], tables("BENCHMARKS.md", section, "clock: program")[0]
    spent = [memory.series(name, column) for name, column in (
        ("program", "program"), ("the calls alone", "the calls alone"), ("SHA-256", "of that SHA-256"), ("digits", "digits"))]
    clock = [disk.series("program", "clock: program"), disk.series("the calls alone", "the calls alone")]
    return picture([lines("In memory: the processor's time", "bytes of the body", "microseconds", spent, each=True),
                    lines("On a disk: by the clock", "bytes of the body", "microseconds", clock, each=True)])


def groups() -> str:
    names = (("N appends", "appends"), ("one flush of N", "`flush`"), ("with its stages", "with its `stage`"))
    return picture([lines(f"{where}, bodies of 128 bytes", "how many", "microseconds by the clock",
                          [one.series(name, column) for name, column in names], by_logarithm=False, each=True)
                    for where, one in zip(("In memory", "On a disk"), tables("BENCHMARKS.md", "Groups", "how many"))])


def others() -> str:
    puts, opens = tables("OTHERS.md", "Durable puts", "at once")[0], tables("OTHERS.md", "An open", "rows")[0]
    rows = [(f"{name}, {count} at once" if count != "1" else name, value_of(durable), value_of(rate)) for name, count, durable, rate in zip(
        *(puts.column(column) for column in (puts.head[0], "at once", "us until they are durable", "puts a second, in all")))]
    of_opens = [(f"{name}, {count} rows", [value_of(closed), value_of(killed)]) for name, count, closed, killed in zip(
        *(opens.column(column) for column in (opens.head[0], "rows", "after a close", "after a kill")))]
    longest = max(len(name) for name, *_ in [*rows, *of_opens])
    return picture([
        dots("Until a put, or a group, is durable", "microseconds by the clock", [""], [(name, [durable]) for name, durable, _ in rows], longest),
        dots("Puts a second, with all that goes with them", "puts a second", [""], [(name, [rate]) for name, _, rate in rows], longest),
        dots("An open, up to the first answer", "milliseconds by the clock", ["after a close", "after a kill"], of_opens, longest)], 1)


def batches() -> str:
    one = tables("OTHERS.md", "Batches", "puts in a body")[0]
    names = [name for name in dict.fromkeys(one.column("what keeps them")) if not name.startswith("nothing")]

    def of(column: str) -> list:
        cells = list(zip(one.column(one.head[0]), one.column("what keeps them"), one.column(column)))
        return [Series(name, [(value_of(size).middle, value_of(cell)) for size, kept, cell in cells if kept == name]) for name in names]

    return picture([lines("Puts a second, with all that goes with them", "puts in a body", "puts a second", of("puts a second, in all"), each=True),
                    lines("Until a body is durable", "puts in a body", "microseconds by the clock", of("us until they are durable"), each=True)])


PICTURES = {"growth.svg": growth, "appends.svg": appends, "groups.svg": groups, "others.svg": others, "batches.svg": batches}


def drawn_before(path: str) -> str:
    """The picture that stands there, or none."""
    if not os.path.isfile(path):
        return ""
    with open(path, encoding="utf-8") as file:
        return file.read()


def main() -> int:
    status = 0
    for name, draw in PICTURES.items():
        path = os.path.join(FOLDER, name)
        try:
            drawn = draw()
        except Missing as missing:
            print(f"{name} isn't drawn: {missing}")
            continue
        if drawn == drawn_before(path):
            continue
        if sys.argv[1:] == ["--look"]:
            print(f"{name} isn't what its table says")
            status = 1
        else:
            with open(path, "w", encoding="utf-8") as file:
                file.write(drawn)
    return status


if __name__ == "__main__":
    sys.exit(main())
