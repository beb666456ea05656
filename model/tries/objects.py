"""What a script does to the table of a file, as docs/OBJECTTABLE.md has it: rows, refusals, answers, and what is written."""

import re
from typing import Optional, Union

from . import recovery, script, units
from .form import CLIENT_REPLIES, GRID, WAL_PREPARES, Image, Layout, Place
from .grid import SYNC, Event, answer, refused
from .machine import Machine, opens
from .script import BODY, DONE, NUMBER_OF_LINE, REFUSED, SCRIPT, WORDS, Outcome
from .units import BLOCK, PREPARE

USAGE = b"usage: objecttable FILE table\n"
CLIENT, LONGEST, MOST, ROW, KEY = 1, 47, 65_536, 64, 16
LINES = {
    "put": re.compile(rb"put %s %s" % (NUMBER_OF_LINE, BODY)),
    "drop": re.compile(rb"drop %s" % NUMBER_OF_LINE),
    "get": re.compile(rb"get %s" % NUMBER_OF_LINE),
    "count": re.compile(rb"count"),
}


def rows_in_block(layout: Layout) -> int:
    return layout.block_max() // ROW


def blocks_of_table(layout: Layout) -> int:
    return (layout.blocks - 4) // 3


def most_rows(layout: Layout) -> int:
    return min(MOST, rows_in_block(layout) * blocks_of_table(layout))


def parse(line: bytes, layout: Layout) -> Optional[tuple]:
    """The word of a line, its key and its value."""
    if len(line) > layout.line_max():
        return None
    for word, pattern in LINES.items():
        match = pattern.fullmatch(line)
        if match is None:
            continue
        found = match.groups()
        key = [int(digits) if len(digits) <= 39 else 2**128 for digits in found[:1]]
        if key and key[0] >= 2**128:
            return None
        return word, *key, *(b"" if body == b"-" else bytes.fromhex(body.decode()) for body in found[1:])
    return None


def row_of(key: int, value: bytes) -> bytes:
    """The 64 bytes of a row."""
    return key.to_bytes(KEY, "little") + bytes([len(value)]) + value + bytes(LONGEST - len(value))


def rows_in(body: bytes) -> Optional[list]:
    """The rows that the body of a block is, or None where it isn't whole rows."""
    if len(body) % ROW:
        return None
    rows = []
    for at in range(0, len(body), ROW):
        key, size = int.from_bytes(body[at : at + KEY], "little"), body[at + KEY]
        if size > LONGEST:
            return None
        value = body[at + KEY + 1 : at + KEY + 1 + size]
        if row_of(key, value) != body[at : at + ROW]:
            return None
        rows.append((key, value))
    return rows


def command_in(body: bytes) -> Optional[tuple]:
    """The put or the drop that the body of a prepare is."""
    if body[:1] == b"\1" and 1 + KEY <= len(body) <= 1 + KEY + LONGEST:
        return "put", int.from_bytes(body[1 : 1 + KEY], "little"), body[1 + KEY :]
    if body[:1] == b"\2" and len(body) == 1 + KEY:
        return "drop", int.from_bytes(body[1:], "little")
    return None


def body_of(command: tuple) -> bytes:
    """The body of a put or a drop."""
    number = {"put": b"\1", "drop": b"\2"}[command[0]]
    return number + command[1].to_bytes(KEY, "little") + b"".join(command[2:])


def apply(rows: dict, command: tuple) -> None:
    """What a put or a drop does to a map."""
    if command[0] == "put":
        rows[command[1]] = command[2]
    else:
        rows.pop(command[1], None)


def found(machine: Machine) -> Union[dict, str]:
    """The table of an opened file, or why it has none."""
    layout = machine.layout
    for place, session in enumerate(machine.sessions):
        if session.client != CLIENT:
            return f"NotTable {Place(CLIENT_REPLIES, place)}"
    rows: dict = {}
    for number, address in enumerate(sorted(machine.live)):
        place = Place(GRID, address)
        what = machine.look(place)
        if not units.known(what, BLOCK, machine.live[address]):
            return f"Damaged {place} {units.class_of(what)}"
        if number >= blocks_of_table(layout) or not take(rows, rows_in(what.body), most_rows(layout)):
            return f"NotTable {place}"
    for one in machine.tail:
        place = Place(WAL_PREPARES, one.op % layout.slots)
        what = machine.look(place)
        if not units.known(what, PREPARE, one.checksum):
            return f"Damaged {place} {units.class_of(what)}"
        command = command_in(what.body)
        if command is None or (command[0] == "put" and is_full(rows, command[1], most_rows(layout))):
            return f"NotTable {place}"
        apply(rows, command)
    return rows


def take(rows: dict, more: Optional[list], most: int) -> bool:
    """Puts the rows of a block, where there are any, their keys are new and there is room."""
    for key, value in more or ():
        if key in rows or len(rows) >= most:
            return False
        rows[key] = value
    return more is not None


def is_full(rows: dict, key: int, most: int) -> bool:
    return key not in rows and len(rows) >= most


def refusal(rows: dict, line: tuple, most: int) -> Optional[str]:
    """Why a line is refused: the first of these that holds."""
    if line[0] == "put":
        if len(line[2]) > LONGEST:
            return f"ValueTooLong max {LONGEST}"
        return f"TableFull max {most}" if is_full(rows, line[1], most) else None
    return "NoKey" if line[0] in ("drop", "get") and line[1] not in rows else None


def quietly(machine: Machine, *line) -> list:
    """The events of one call, without its answer."""
    return [event for event in machine.line(line) if event.kind != "answer"]


def bodies_of(rows: dict, layout: Layout) -> list:
    """The bodies of the blocks of a table: its rows in order of key."""
    listed, per = sorted(rows.items()), rows_in_block(layout)
    return [b"".join(row_of(*row) for row in listed[at : at + per]) for at in range(0, len(listed), per)]


class Session:
    """A script over the table of an opened file: its events, and the map after each that changes it."""

    def __init__(self, machine: Machine, events: list, rows: Union[dict, str]):
        self.machine, self.events, self.rows = machine, events, rows
        # The map of the opening and that after each put or drop, with the numbers of events from which it may be found after
        # a stop, and from which it is durable.
        self.spans = [(dict(self.rows), 0, 0)] if isinstance(self.rows, dict) else []

    def catch_up(self) -> None:
        """Replies to what waits."""
        while self.machine.replies < self.machine.head():
            self.events += quietly(self.machine, "reply", self.machine.replies + 1, b"")

    def make_room(self) -> None:
        """Writes the table where the ring has no slot for the next prepare."""
        machine = self.machine
        if machine.head() + 1 <= machine.durable.op + machine.layout.slots:
            return
        for address in sorted(machine.live):
            quietly(machine, "release", address)
        for body in bodies_of(self.rows, machine.layout):
            self.events += quietly(machine, "block", 1, body)
        quietly(machine, "checkpoint", b"")
        while machine.running:
            self.events += quietly(machine, "step")

    def change(self, command: tuple) -> int:
        """A put or a drop; gives its op."""
        self.make_room()
        machine = self.machine
        request = machine.sessions[0].request + 1 if machine.sessions else 1
        first = len(self.events)
        self.events += quietly(machine, "append", CLIENT, request, body_of(command))
        self.events += quietly(machine, "reply", machine.head(), b"")
        apply(self.rows, command)
        self.spans.append((dict(self.rows), first + 1, first + 2))
        return machine.head()

    def line(self, line: tuple) -> None:
        """One line of the script."""
        why = refusal(self.rows, line, most_rows(self.machine.layout))
        if why:
            self.events += refused(why)
        elif line[0] == "count":
            self.events.append(answer(f"count {len(self.rows)}"))
        elif line[0] == "get":
            self.events.append(answer(f"{line[1]} {self.rows[line[1]].hex() or '-'}"))
        else:
            word = {"put": "put", "drop": "dropped"}[line[0]]
            self.events.append(answer(f"{word} {self.change(line)}"))


class Ran(Outcome):
    """What a run of the program came to. Its spans are of maps."""


def run(data: Optional[bytes], text: bytes) -> Ran:
    """`objecttable FILE table` over a file of these bytes, or none, where no call fails."""
    data = data or b""
    opened = recovery.found(data)
    if opened.refusal:
        return Ran(data, REFUSED, ([] if opened.early else [SYNC]) + [answer(f"refused {opened.refusal}")])
    machine = Machine(opened, Image(data))
    events = opens(opened, machine)
    return execute(data, Session(machine, events, found(machine)), text)


def execute(data: bytes, session: Session, text: bytes) -> Ran:
    """A script over the table of an opened file, or the refusal of one that has none."""
    if isinstance(session.rows, str):
        return Ran(data, REFUSED, session.events + [answer(f"refused {session.rows}")], (), session.machine)
    session.catch_up()
    taken = 0
    for index, (line, ended) in enumerate(script.lines(text), 1):
        taken += len(line) + ended
        parsed = parse(line, session.machine.layout) if taken <= script.BUDGET else None
        if parsed is None:
            return Ran(data, SCRIPT, session.events + [answer(f"script {index}")], session.spans, session.machine)
        session.line(parsed)
    return Ran(data, DONE, session.events, session.spans, session.machine)


def command(data: Optional[bytes], words: list, text: bytes = b"") -> Ran:
    """The same with any words."""
    if words != ["table"]:
        return Ran(data, WORDS, [Event("answer", data=USAGE)])
    return run(data, text)


def table_of(data: bytes) -> Union[dict, str]:
    """The table of the file, or why it isn't opened or has none."""
    opened = recovery.found(data)
    return opened.refusal or found(Machine(opened, Image(data)))
