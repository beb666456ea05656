#!/usr/bin/env python3
"""Plays transcripts, texts that say what the programs print over disks in memory, with the independent model in the place of the programs.

    python3 model/transcripts.py FILE.. [--bugs]

Prints for each file how many cases and answers it has, or each line that the model doesn't confirm and what came; ends with status 1 then.
With `--bugs` it says of each of the model's own bugs which file finds it first, if one does. A bug is tried on the cases in which the model
without a bug asks whether it has this one: the others go on as without it. With BUG in the environment the model has that bug. See
docs/evidence/MODEL-TRIES.md.
"""

import sys

sys.dont_write_bytecode = True

import argparse
import os
import re
from typing import NamedTuple, Optional

from served import PROGRAMS, Memory, serve
from tries import bugs
from tries.disks import Disk
from tries.form import SECTOR
from tries.played import Line, Lines, Wrong, hexed, number, said, span, words_of

# So much is told of a text that came.
LONGEST = 160


class Wanted:
    """One of the texts that a run may print, and how it ends then."""

    def __init__(self):
        self.lines, self.status = [], "Done"

    def is_so(self, text: bytes, status: str) -> bool:
        parts = (rb".*" if line == "..." else re.escape(said(line)) for line in self.lines)
        return status == self.status and re.fullmatch(b"".join(parts), text, re.DOTALL) is not None

    def count(self) -> int:
        return sum(said(line).count(b"\n") for line in self.lines if line != "...")


class Run:
    """A run that is told: its words, its script, and the texts that it may print."""

    def __init__(self, number: int, words: list):
        self.number, self.words, self.script, self.wanted = number, words, b"", [Wanted()]
        # Whether something else comes than what is told.
        self.wrong = False


class Player:
    """The player of one file: its cases and its answers, and what the model doesn't confirm."""

    def __init__(self):
        self.cases = self.answers = 0
        self.failures: list = []
        self.title, self.disks, self.run = "", {}, None
        self.source = self.sink = frozenset()

    def play(self, lines, first: bool = False) -> None:
        """Plays all lines; or up to the first failure alone."""
        at = 1
        while True:
            try:
                for line in lines:
                    at = line.number
                    self.take(line)
                    if first and self.failures:
                        return
                self.finish()
                return
            except Wrong as why:
                self.fail(at, str(why))

    def fail(self, at: int, what: str) -> None:
        self.failures.append(f"line {at}, {self.title}: {what}")

    def take(self, line: Line) -> None:
        """One line."""
        sign, _, rest = line.text.partition(" ")
        if sign in ("<", ">", "or", "ends") or line.text == "wrong":
            self.more(sign, rest)
            return
        self.finish()
        words = words_of(line.text)
        if sign == "==":
            self.cases += 1
            self.title, self.disks = rest, {}
            self.source = self.sink = frozenset()
        elif sign in PROGRAMS:
            self.run = Run(line.number, words)
        elif sign in ("source", "sink"):
            setattr(self, sign, frozenset(map(number, words[1:])))
        else:
            self.act(line, words)

    def more(self, sign: str, rest: str) -> None:
        """More of the run that is told."""
        if self.run is None:
            raise Wrong("no run is told")
        if sign == "<":
            self.run.script += said(rest)
        elif sign == ">":
            self.run.wanted[-1].lines.append(rest)
        elif sign == "or":
            self.run.wanted.append(Wanted())
        elif sign == "wrong":
            self.run.wrong = True
        else:
            self.run.wanted[-1].status = rest

    def finish(self) -> None:
        """Runs what is told, if something is."""
        run, self.run = self.run, None
        if run is None:
            return
        program, *words = run.words
        count = PROGRAMS[program].files
        disks, words = [self.disk(name) for name in words[:count]], words[count:]
        streams = Memory(run.script, self.source, self.sink)
        self.source = self.sink = frozenset()
        for disk in self.disks.values():
            disk.begin_run()
        status = serve(program, disks, words, streams)
        for disk in disks:
            disk.end_run()
        if any(wanted.is_so(streams.printed, status) for wanted in run.wanted) != run.wrong:
            self.answers += run.wanted[-1].count() + 1
        else:
            self.fail(run.number, f"ended {status}, and printed\n{shortened(streams.printed)}")

    def disk(self, name: str) -> Disk:
        if name not in self.disks:
            raise Wrong(f"no disk: {name}")
        return self.disks[name]

    def act(self, line: Line, words: list) -> None:
        """A line that acts on a disk, or says what one was asked or shows, or what isn't so."""
        wrong, words = words[0] == "wrong", words[words[0] == "wrong":]
        call = getattr(self, f"do_{words[0]}", None)
        if call is None:
            raise Wrong(f"no such line: {words[0]}")
        try:
            what = call(*words[1:])
        except TypeError:
            raise Wrong("other words are wanted") from None
        if isinstance(what, str) != wrong:
            self.fail(line.number, what if isinstance(what, str) else "that is so")
        elif what:
            self.answers += 1

    def do_disk(self, name: str) -> None:
        self.disks[name] = Disk()

    def do_copy(self, name: str, other: str, count: str) -> None:
        self.disks[name] = self.disk(other).copy(number(count))

    def do_fail(self, name: str, *calls) -> None:
        self.disk(name).fail(map(number, calls))

    def do_lose(self, name: str, *writes) -> None:
        self.disk(name).lost = frozenset(map(number, writes))

    def do_stop(self, name: str, *words) -> None:
        fates = [(sector, fate) for spanned, fate in zip(words[::2], words[1::2], strict=True) for sector in span(spanned)]
        self.disk(name).stop(fates)

    def do_mark(self, name: str) -> None:
        disk = self.disk(name)
        disk.mark = len(disk.log)

    def do_strike(self, name: str, sectors: str, how: str, what: str = "") -> None:
        disk = self.disk(name)
        shown = {
            "fill": lambda _: hexed([what]) * SECTOR, "earlier": lambda sector: disk.leaves(sector, number(what)),
            "settled": lambda sector: disk.leaves(sector, disk.mark + number(what)), "like": lambda _: disk.shows(number(what)),
            "heal": lambda _: None,
        }
        if how not in shown:
            raise Wrong(f"no strike: {how}")
        for sector in span(sectors):
            disk.strike(sector, shown[how](sector))

    def do_put(self, name: str, sector: str, at: str, *words) -> None:
        self.disk(name).put(number(sector), number(at), hexed(words))

    def do_paste(self, name: str, sector: str, at: str, length: str, other: str, place: str) -> None:
        disk = self.disk(name)
        disk.put(number(sector), number(at), disk.part(number(other), number(place), number(length)))

    def do_seal(self, name: str, sector: str, kind: str, at: str = "0") -> None:
        self.disk(name).seal(number(sector), kind, number(at))

    def do_calls(self, name: str, count: str) -> Optional[str]:
        disk = self.disk(name)
        return same("calls", disk.calls - disk.began[0], number(count))

    def do_events(self, name: str, count: str) -> Optional[str]:
        disk = self.disk(name)
        return same("events", len(disk.log) - disk.began[1], number(count))

    def do_loose(self, name: str, *words) -> Optional[str]:
        wanted = sorted(sector for word in words for sector in span(word))
        return same("loose sectors", sorted(self.disk(name).before), wanted)

    def do_bytes(self, name: str, sector: str, at: str, *words) -> Optional[str]:
        wanted = hexed(words)
        return same("bytes", self.disk(name).part(number(sector), number(at), len(wanted)).hex(), wanted.hex())

    def do_same(self, name: str, other: str, count: str) -> Optional[str]:
        one, two = self.disk(name), self.disk(other)
        differ = [sector for sector in range(number(count)) if one.shows(sector) != two.shows(sector)]
        return same("sectors that differ", differ, [])


def same(what: str, came, wanted):
    """True where the two are equal; else what is told of them."""
    return True if came == wanted else f"{what}: {came}"


def shortened(text: bytes) -> str:
    """A text with its long lines cut."""
    lines = text.decode(errors="replace").split("\n")
    return "\n".join(line if len(line) <= LONGEST else f"{line[:LONGEST]} .. ({len(line)} letters)" for line in lines)


def text_of(path: str) -> str:
    with open(path, encoding="utf-8") as file:
        return file.read()


def told(paths: list) -> int:
    """Plays each file, and tells what came of it."""
    wrong = 0
    for path in paths:
        player = Player()
        player.play(Lines(text_of(path)))
        for failure in player.failures:
            print(f"{os.path.basename(path)}, {failure}")
        print(f"{os.path.basename(path)}: {player.cases} cases, {player.answers} answers", flush=True)
        wrong += len(player.failures)
    return 1 if wrong else 0


class Case(NamedTuple):
    """A case: its file, its lines with definitions unfolded, and the bugs that the model is asked about in it."""

    name: str
    lines: list
    asked: frozenset


def cases_of(path: str) -> list:
    """The cases of a file, each played once without a bug."""
    parts: list = []
    for line in Lines(text_of(path)):
        if line.text.startswith("== "):
            parts.append([])
        parts[-1].append(line)
    cases = []
    for lines in parts:
        bugs.ASKED.clear()
        if failed(lines):
            raise SystemExit(f"{path}: the model without a bug doesn't confirm it")
        cases.append(Case(os.path.basename(path), lines, frozenset(bugs.ASKED)))
    return cases


def failed(lines: list) -> str:
    """The first failure of these lines; nothing where there is none."""
    player = Player()
    try:
        player.play(lines, True)
    except Exception as error:
        # A bug may also break the model.
        return type(error).__name__
    return player.failures[0].splitlines()[0] if player.failures else ""


def told_bugs(paths: list) -> int:
    """Tells of each bug of the model which file finds it first, and where, or that none does."""
    bugs.BUG = ""
    cases = [case for path in paths for case in cases_of(path)]
    for bugs.BUG in bugs.ALL:
        asked = [case for case in cases if bugs.BUG in case.asked]
        where = next((f"{case.name}, {why}" for case in asked if (why := failed(case.lines))), "not found")
        print(f"{bugs.BUG}: {where} (asked in {len(asked)} cases)", flush=True)
    return 0


def main() -> int:
    parser = argparse.ArgumentParser(description="Plays transcripts with the independent model in the place of the programs.")
    parser.add_argument("files", nargs="+", help="the transcripts")
    parser.add_argument("--bugs", action="store_true", help="say which of the model's own bugs are found")
    given = parser.parse_args()
    bugs.refuse_unknown()
    return told_bugs(given.files) if given.bugs else told(given.files)


if __name__ == "__main__":
    sys.exit(main())
