"""What `format` and a script do to a file, as docs/SCRIPT.md has it: lines, outcomes, statuses."""

import re
from functools import cached_property
from typing import Optional

from . import form, recovery, superblock, units
from .form import COPIES, Home, Image, Layout
from .grid import SYNC, Event, answer, copy_of
from .knows import knows
from .machine import Machine, opens

BUDGET = 2**32
NUMBER_OF_LINE, BODY = rb"(0|[1-9][0-9]*)", rb"(-|(?:[0-9a-fA-F]{2})+)"
# Each line's words, and how many bits each of its numbers has.
LINES = {
    "append": (re.compile(rb"append %s %s %s" % (NUMBER_OF_LINE, NUMBER_OF_LINE, BODY)), (128, 64)),
    "reply": (re.compile(rb"reply %s %s" % (NUMBER_OF_LINE, BODY)), (64,)),
    "prepare": (re.compile(rb"prepare %s" % NUMBER_OF_LINE), (64,)),
    "lookup": (re.compile(rb"lookup %s" % NUMBER_OF_LINE), (128,)),
}
if knows("blocks"):
    LINES |= {
        "block": (re.compile(rb"block %s %s" % (NUMBER_OF_LINE, BODY)), (8,)),
        "release": (re.compile(rb"release %s" % NUMBER_OF_LINE), (64,)),
        "checkpoint": (re.compile(rb"checkpoint %s" % BODY), ()),
        "step": (re.compile(rb"step"), ()),
        "read": (re.compile(rb"read %s" % NUMBER_OF_LINE), (64,)),
    }
if knows("reports"):
    LINES |= {"scrub": (re.compile(rb"scrub"), ()), "recent": (re.compile(rb"recent"), ())}
if knows("groups"):
    LINES |= {
        "stage": (re.compile(rb"stage %s %s %s" % (NUMBER_OF_LINE, NUMBER_OF_LINE, BODY)), (128, 64)),
        "flush": (re.compile(rb"flush"), ()),
    }
KEEPS = ("append", "flush", "reply", "step")
DONE, FOUND, WORDS, SCRIPT, REFUSED = 0, 1, 2, 3, 4


class Outcome:
    """What a list of words, perhaps with a script, came to over a file of these bytes, or over none."""

    def __init__(self, before: Optional[bytes], status: int, events: list, spans=(), machine: Optional[Machine] = None):
        self.before, self.status, self.events = before, status, events
        self.text = answers(events)
        # The view of the opening and that after each line that changes it, with the numbers of events from which it may be
        # found after a stop, and from which it is durable.
        self.spans = list(spans)
        # What was read after the open, as offsets.
        self.reads = machine.reads if machine else []

    @cached_property
    def data(self) -> Optional[bytes]:
        """The file at the end; None where there is still none."""
        made = any(event.kind == "write" for event in self.events)
        return state(self.before or b"", self.events) if made or self.before is not None else None

    def kept(self, upto: int) -> list:
        """The views that a stop after the first `upto` events may leave: of all lines that are durable, or of the next one."""
        return [view for at, (view, may, _) in enumerate(self.spans)
                if may <= upto and (at + 1 == len(self.spans) or upto < self.spans[at + 1][2])]

    @property
    def views(self) -> list:
        """The view of the opening and that after each line that changes it."""
        return [view for view, _, _ in self.spans]


def refused(data: Optional[bytes], words: str, before: list) -> Outcome:
    """A refusal after these events, which write nothing."""
    return Outcome(data, REFUSED, before + [answer(f"refused {words}")])


def make(data: Optional[bytes], home: Home) -> Outcome:
    """The word `format`: reserved headers, a sync, then the four copies of a first superblock, each with its sync."""
    if home.cluster == 0:
        # The file isn't opened for this, and so isn't made.
        return refused(data, "ClusterZero", [])
    for copy in range(COPIES):
        if any(form.sector(data or b"", copy)):
            # A file that is there is opened for this.
            return refused(data, f"NotBlank copy {copy}", [])
    events = [header_sector(home, first) for first in range(0, home.layout.slots, form.HEADERS)] + [SYNC]
    events += [event for copy in range(COPIES) for event in copy_of(superblock.first(home), copy)]
    events.append(answer(f"formatted {home.layout.sectors()}"))
    return Outcome(data, DONE, events)


def header_sector(home: Home, first: int) -> Event:
    """The write of a sector of reserved headers."""
    headers = (units.reserved(home, slot) for slot in range(first, first + form.HEADERS))
    return Event("write", home.layout.header_sector(first), b"".join(headers))


def fresh(home: Home) -> bytes:
    """A new file."""
    return make(None, home).data


def lines(text: bytes) -> list:
    """The lines of a script, each with whether it had its byte 10."""
    pieces = text.split(b"\n")
    ended = [(piece, True) for piece in pieces[:-1]]
    return ended + ([(pieces[-1], False)] if pieces[-1] else [])


def parse(line: bytes, layout: Layout) -> Optional[tuple]:
    """The word, the numbers and the body of a line."""
    if len(line) > layout.line_max():
        return None
    for word, (pattern, widths) in LINES.items():
        match = pattern.fullmatch(line)
        if match is None:
            continue
        # No number that means something has more than 39 digits.
        numbers = [int(digits) if len(digits) <= 39 else 2**128 for digits in match.groups()[: len(widths)]]
        if any(value >= 2**width for value, width in zip(numbers, widths)):
            return None
        bodies = match.groups()[len(widths) :]
        return word, *numbers, *(b"" if body == b"-" else bytes.fromhex(body.decode()) for body in bodies)
    return None


def apply(data: bytes, event: Event) -> bytes:
    """The file after an event."""
    return state(data, [event])


def state(data: bytes, events: list) -> bytes:
    """The file after these events."""
    image = bytearray(data)
    for event in events:
        if event.kind == "write":
            image += bytes(max(0, event.at - len(image)))
            image[event.at : event.at + len(event.data)] = event.data
    return bytes(image)


def run(data: Optional[bytes], text: bytes, pace: tuple = (0, 0, 0)) -> Outcome:
    """The word `run`, or `paced`: the copies are read, the barrier, the file is found and mended, its boot is raised, and then the script
    is executed."""
    data = data or b""
    opened = recovery.found(data)
    if opened.refusal:
        return refused(data, opened.refusal, [] if opened.early else [SYNC])
    machine = Machine(opened, Image(data))
    return execute(data, opens(opened, machine), machine, text, pace)


def execute(data: bytes, events: list, machine: Machine, text: bytes, pace: tuple = (0, 0, 0)) -> Outcome:
    """A script after the events of an open, with work of this pace after each of its lines."""
    spans, taken, events = [(machine.view(), 0, 0)], 0, list(events)
    accepted = 0
    for index, (line, ended) in enumerate(lines(text), 1):
        taken += len(line) + ended
        parsed = parse(line, machine.layout) if taken <= BUDGET else None
        if parsed is None:
            return Outcome(data, SCRIPT, events + [answer(f"script {index}")], spans, machine)
        head = machine.head()
        does(machine, parsed, events, spans)
        accepted = works(machine, pace, accepted + machine.head() - head, events, spans)
    return Outcome(data, DONE, events, spans, machine)


def works(machine: Machine, pace: tuple, accepted: int, events: list, spans: list) -> int:
    """The work after a line, of which nothing is printed: a checkpoint with the durable root is begun once this many prepares were
    accepted since the last begin here, then come its steps, then those of the scrubber. Gives how many prepares count then."""
    scrub, every, steps = pace
    if every and accepted >= every and not machine.running:
        accepted = 0 if quietly(machine, ("checkpoint", machine.durable.root), events, spans).startswith(b"begun") else accepted
    for _ in range(steps):
        if machine.running:
            quietly(machine, ("step",), events, spans)
    for _ in range(scrub):
        quietly(machine, ("scrub",), events, spans)
    return accepted


def quietly(machine: Machine, line: tuple, events: list, spans: list) -> bytes:
    """One line whose answer, which comes last, isn't printed; gives the answer."""
    does(machine, line, events, spans)
    return events.pop().data


def found_with(word: str, events: list) -> int:
    """With how many of a line's events what it keeps may be found after a stop; it is durable with one more: prepares and a reply with
    all of their own writes and the sync after them, a checkpoint with copy 1."""
    return 4 if word == "step" else events.index(SYNC)


def does(machine: Machine, line: tuple, events: list, spans: list) -> list:
    """One line: its events go after those before it, and the view after it where it changes what is kept."""
    more = machine.line(line)
    if line[0] in KEEPS and len(more) > 2:
        first = found_with(line[0], more)
        spans.append((machine.view(), len(events) + first, len(events) + first + 1))
    events += more
    return more


def partly(events: list, upto: int, printed: bytes) -> bool:
    """Whether the first `upto` events print this, or this with a part of the next answer after it."""
    whole = answers(events[:upto])
    following = next(iter(events[upto:]), SYNC)
    return printed.startswith(whole) and following.data.startswith(printed[len(whole) :]) and (
        printed == whole or following.kind == "answer"
    )


def answers(events: list) -> bytes:
    """The text that these events print."""
    return b"".join(event.data for event in events if event.kind == "answer")
