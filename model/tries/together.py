"""One file under all five programs: runs of each, ended at any moment, against the plain history of the file."""

import signal
from typing import NamedTuple, Optional

import reader

from . import filecopies, filemirrors, form, lives, noting, objects, plain, plain_read, script, stops, words, workload
from .binary import Binary, Result, expect, has_strace, require
from .common import Try, same_bytes
from .form import GRID, SECTOR, Place
from .grid import Event, answer
from .pairs import Pair
from .plain import Plain, State

NAMES = ("datafile", "objecttable", "filecopy", "filemirror", "notes")
# This many earlier files of a life are kept, of which damage may bring sectors back.
EARLIER = 24


class Built(Binary):
    """A program over the file, or over the file and another one."""

    def pair(self, one: Optional[bytes], two: Optional[bytes], listed: list) -> tuple:
        """A run over two files: what it printed, its status, and both files."""
        pair = Pair(self)
        pair.put(one, two)
        return pair.run(listed), *pair.get()


class Stand:
    """The model in the place of a program, so that the plain history alone is tried beside it."""

    shared: dict = {}

    def __init__(self, name: str):
        self.name, self.runs = name, 0

    def put(self, data: Optional[bytes]) -> None:
        self.shared["file"] = data

    def get(self) -> Optional[bytes]:
        return self.shared["file"]

    def run(self, text: bytes, listed: list) -> Result:
        self.runs += 1
        wanted = outcome(self.name, self.get(), listed, text)
        self.put(wanted.data)
        return Result(wanted.text, wanted.status)

    def pair(self, one: Optional[bytes], two: Optional[bytes], listed: list) -> tuple:
        self.runs += 1
        if self.name == "filecopy":
            copied = filecopies.command(one, two, listed)
            return Result(copied.text, copied.status), copied.data, copied.copy
        mirrored = filemirrors.command(one, two, listed)
        return Result(mirrored.text, mirrored.status), mirrored.data, two


class Life:
    """A file as the disk shows it and as it was written, what it has, each state that it had since the last open that raised its boot, some of the
    files that it was, and the copies that were taken of it."""

    def __init__(self, programs: dict, kind: str, data: bytes, since: list):
        self.programs, self.kind = programs, kind
        self.begins(data, since)

    def begins(self, data: bytes, since: list, good: Optional[bytes] = None, raised: bool = True) -> None:
        """The file is another one from here on, of which these states were had: a copy, or one that was upgraded."""
        self.state, self.since = since[-1], list(since)
        self.home, self.data, self.good, self.earlier = self.state.home, data, good or data, [data]
        # Its boot, and whether the last run came as far as raising it, so that nothing of an earlier one can come back.
        self.boot, self.raised = plain_read.read(data)[1], raised
        # Whether a run came to its end since it was damaged or ended, so that nothing is to be mended.
        self.tidy = False
        # What the answered puts and drops made, as long as nothing but the table appends.
        self.rows = plain.rows_of(self.state)
        self.copies: list = []
        self.copied()

    def copied(self) -> None:
        """A copy is taken, beside what is known of the file then."""
        since = [one for one in self.since if one != self.state] + [self.state]
        self.copies = (self.copies + [(self.data, since, self.good, self.raised)])[-6:]

    def is_hurt(self, image: bytes, place: Place) -> bool:
        """Whether a place doesn't show all that was written there."""
        return any(form.sector(image, at) != form.sector(self.good, at) for at in plain_read.sectors_of(self.home.layout, place))

    def hurt(self, place: Place) -> bool:
        return self.is_hurt(self.data, place)

    def takes(self, t: Try, data: bytes, events: list, state: State) -> None:
        """The file after these events. Of the state's blocks what was hurt and isn't written stays hurt; all else counts as it is shown."""
        written = {(event.at + at) // SECTOR for event in events if event.kind == "write" for at in range(0, len(event.data), SECTOR)}
        kept = [at for address, _ in state.blocks for at in plain_read.sectors_of(self.home.layout, Place(GRID, address)) if at not in written]
        old = [Event("write", SECTOR * at, form.sector(self.good, at)) for at in kept if SECTOR * at < len(self.good)]
        self.earlier = (self.earlier + lives.settled(t, self.data, events) + [data])[-EARLIER:]
        self.data, self.good, self.state = data, script.state(data, [one for one in old if any(one.data)]), state


class Told(NamedTuple):
    """A run as the plain history has it: the states and the answers in order, and the status."""

    events: list
    status: int

    def states(self) -> list:
        return [event.data for event in self.events if event.kind == "state"]

    def after(self, answers: int) -> list:
        """The states that a stop after this many answers may leave: it keeps each answered line, and of the next one what was begun."""
        listed, seen = [], 0
        for event in self.events:
            if event.kind == "answer":
                seen += 1
                if seen > answers:
                    break
            else:
                listed = [event.data] if seen < answers else listed + [event.data]
        return listed


def outcome(name: str, data: Optional[bytes], listed: list, text: bytes):
    """What the model has of a run over one file."""
    if name == "datafile":
        return words.command(data, listed, text)
    return objects.command(data, listed, text) if name == "objecttable" else noting.run(data, text)


def told_of(state: State, name: str, listed: list, text: bytes) -> Told:
    """What the plain history has of it."""
    first, now = [Event("state", data=state)], Plain(state)
    if name == "objecttable":
        ran = objects.execute(b"", objects.Session(now, first, plain.rows_of(state)), text)
        return Told(ran.events, ran.status)
    if name == "notes":
        fits = state.home.layout == form.SMALL
        events, status = noting.keep(now, text) if fits else ([], script.REFUSED)
        return Told(first + events, status)
    if listed[0] in ("run", "paced"):
        ran = script.execute(b"", first, now, text, tuple(map(int, listed[1:])) or (0, 0, 0))
        return Told(ran.events, ran.status)
    if listed[0] == "workload":
        lines = workload.counted(now, int(listed[1]), int(listed[2]), first, [])
    elif listed[0] == "scrub":
        lines = [f"tour {len(now.known())}"]
    else:
        lines = {"recover": state.summary(), "inspect": state.report()}.get(listed[0], ["refused"])
    return Told(first + [answer(line) for line in lines], script.REFUSED if lines == ["refused"] else script.DONE)


def says(life: Life, what: str, wanted: Told, text: bytes, status: int) -> None:
    """What was printed is what the plain history has; of a block whose place is hurt it may be said that it isn't shown."""
    # A note may hold any byte, in a file to which others wrote.
    told, got = (one.decode("latin-1").split("\n")[:-1] for one in (script.answers(wanted.events), text))
    hurt = [line.split() for line in got if line.startswith(("failing", "refused Damaged Grid"))]
    for one in hurt:
        require(f"{what}: {' '.join(one)}: this place is hurt", life.hurt(Place(GRID, int(one[1 if one[0] == "failing" else 3]))))
    if what.split()[0] == "objecttable" and hurt:
        return
    if what == "datafile inspect" and life.tidy:
        require(f"{what}: nothing is to be mended: {got[-1]}", got[-1] == "findings 0" and status == script.DONE)
    got = [line for line in got if not line.startswith(("failing", "mend ", "findings "))]
    require(f"{what}: {len(told)} lines are printed, but there are {len(got)}", len(told) == len(got))
    for one, two in zip(told, got):
        require(f"{what}: `{one}` is printed, but not `{two}`", is_said(life, one, two))
    found = status == script.FOUND and wanted.status == script.DONE
    require(f"{what}: the status is {wanted.status}, but not {status}", found or status == wanted.status)


def is_said(life: Life, told: str, got: str) -> bool:
    """Whether a line is the one that the plain history has. Why a line is refused is the model's."""
    if told == got:
        return True
    one, two = told.split(), got.split()
    if one[:1] == ["checked"]:
        return one[:2] == two[:2] and life.hurt(Place(GRID, int(one[1])))
    if one[:1] in (["tour"], ["recent"], ["refused"]):
        return two[: len(one)] == one
    return one[:1] == ["block"] and two[:3] == ["refused", "Damaged", "Grid"] and one[1] == two[3]


def went(t: Try, life: Life, what: str, events: list, image: bytes, wanted: Told, answers: Optional[int], opens: bool = True) -> None:
    """The file that a run left, at its end or ended after this many answers: it has a state that the plain history has then. A run that opens it raises
    its boot."""
    try:
        found, now = plain_read.read(image)
    except reader.Refused as why:
        require(f"{what}: the file opens, but it is refused {why}", False)
    require(f"{what}: the boot is {now} after {life.boot}", now == life.boot + opens or answers is not None and now == life.boot)
    require(f"{what}: nothing is to be mended after it", answers is not None or not opens or plain_read.is_tidy(image))
    states = wanted.states()
    listed = states[-1:] if answers is None else wanted.after(answers)
    life.takes(t, image, events, found)
    fits = [one for one in listed if plain_read.is_read_as(one, found, life.hurt)]
    require(f"{what}: the file has head {found.head()}, {found.replies} replies and sequence {found.sequence}, and should have one of "
            f"{[(one.head(), one.replies, one.sequence) for one in listed]}; or else what it has differs", bool(fits))
    life.state = fits[-1]
    if answers is not None:
        t.counts["stops"] += 1
        t.counts["stops that kept the answered ones" if fits[-1] == listed[0] else "stops that kept more"] += 1
    had = states[: 1 + max(at for at, one in enumerate(states) if one == life.state)]
    life.since = list(dict.fromkeys(had if now > life.boot else life.since + had))
    wrote = any(event.kind == "write" for event in events)
    life.raised = now > life.boot or life.raised and not wrote
    life.boot, life.tidy = now, answers is None and opens or life.tidy and not wrote


def ended(t: Try, life: Life, name: str, listed: list, text: bytes, wanted) -> tuple:
    """A run that is ended at a moment: with how many of its events, and the file that the disk then has. Sometimes the program itself is killed."""
    upto = stops.moment(t, wanted.events)
    binary = life.programs[name]
    event = wanted.events[upto] if upto < len(wanted.events) else None
    if isinstance(binary, Built) and has_strace() and event and event.kind in ("write", "sync") and t.random.random() < 0.25:
        call = {"write": "pwrite64", "sync": "fdatasync"}[event.kind]
        number = sum(one.kind == event.kind for one in wanted.events[: upto + 1])
        binary.put(life.data)
        got, _ = binary.trace(text, [f"{call}:signal=SIGKILL:when={number}"], words=listed)
        expect(f"{name} killed at {call} {number}: status", -signal.SIGKILL, got.status)
        expect(f"{name} killed at {call} {number}: text", script.answers(wanted.events[:upto]), got.text)
        same_bytes(f"{name} killed at {call} {number}", script.state(life.data, wanted.events[:upto]), binary.get())
        t.counts["programs that were killed"] += 1
    return upto, stops.stop(t, life.data, wanted.events, upto)


def folded(life: Life, text: bytes, told: Told) -> list:
    """The map after each line of a table's script, by its answers; without any where the file is no table's."""
    if not isinstance(life.rows, dict):
        return []
    maps, answers = [life.rows], [event.data for event in told.events if event.kind == "answer"]
    for (line, _), one in zip(script.lines(text), answers):
        rows = dict(maps[-1])
        if one.startswith((b"put ", b"dropped ")):
            objects.apply(rows, objects.parse(line, life.home.layout))
        maps.append(rows)
    return maps


def keeps_table(life: Life, what: str, maps: list, answers: Optional[int]) -> None:
    """The file is a table with just the rows of the answered lines, or of one more. What is no call but a read leaves it as it is."""
    rows = plain.rows_of(life.state)
    if maps:
        fits = maps[-1:] if answers is None else maps[answers : answers + 2]
        require(f"{what}: the table has the rows of {'all' if answers is None else answers} answered lines, or of one more", rows in fits)
    life.rows = rows


def run(t: Try, life: Life, name: str, listed: list, text: bytes = b"", stopped: float = 0.35) -> None:
    """A run of a program of one file."""
    what = " ".join([name, *listed])
    # Of what isn't the table, the words that only read leave the table as it is; what others do to it the plain history tells.
    reads = listed[:1] in (["recover"], ["inspect"], ["scrub"])
    opens = listed[:1] not in (["inspect"], ["format"], ["upgrade"]) and (name != "notes" or life.home.layout == form.SMALL)
    wanted, told = outcome(name, life.data, listed, text), told_of(life.state, name, listed, text)
    if wanted.events and t.random.random() < stopped:
        upto, image = ended(t, life, name, listed, text, wanted)
        answers = sum(event.kind == "answer" for event in wanted.events[:upto])
        t.counts[f"runs of {name} that were ended"] += 1
        went(t, life, f"{what}, ended after {upto} events", wanted.events[:upto], image, told, answers, opens)
        keeps_table(life, what, [life.rows] if reads else folded(life, text, told) if name == "objecttable" else [], None if reads else answers)
        return
    binary = life.programs[name]
    binary.put(life.data)
    got = binary.run(text, listed)
    expect(f"{what}: text", wanted.text, got.text)
    expect(f"{what}: status", wanted.status, got.status)
    same_bytes(what, wanted.data, binary.get())
    says(life, what, told, got.text, got.status)
    t.counts[f"runs of {' '.join([name, *listed[:1]]) if name == 'datafile' else name}, status {got.status}"] += 1
    if name == "objecttable" and got.text.startswith((b"refused", b"count 0")):
        t.counts[f"tables: {' '.join(got.text.decode().split()[:3])}"] += 1
    # Of a block of rows that isn't shown the plain history knows nothing: nothing is put then.
    whole = Told(told.events[:1], got.status) if name == "objecttable" and got.text.startswith(b"refused Damaged") else told
    went(t, life, what, wanted.events, binary.get(), whole, None, opens)
    keeps_table(life, what, [life.rows] if reads else folded(life, text, whole) if name == "objecttable" else [], None)
