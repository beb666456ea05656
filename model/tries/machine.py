"""What each line of a script does to an opened file, as docs/SCRIPT.md has it: its answer or refusal, and what it writes."""

from typing import Optional, Union

from . import form, recovery, units
from .form import CLIENT_REPLIES, LIMIT, WAL_PREPARES, Image, Place
from .grid import SYNC, Event, Grid, answer, copy_of, refused
from .recovery import PIPELINE, Found, View
from .superblock import Recorded
from .units import PREPARE, REPLY, Unit


class Machine(Grid):
    """An opened file. Each line is a call that gives its events; what is read comes from `image`, and is noted in `reads`."""

    def __init__(self, opened: Found, image: Image):
        view = opened.view
        self.home, self.layout = view.home, view.home.layout
        self.tail, self.replies = list(view.tail), view.replies
        self.sessions, self.stored = list(view.sessions), dict(view.stored)
        self.table, self.waiting = list(opened.table), dict(opened.waiting)
        # That of the superblock as it was found; an open raises it, and in the next one units are made.
        self.boot = self.found_boot = opened.content.boot
        self.image = image
        # The requests that the next flush appends: client, request and body of each.
        self.staged: list = []
        # The offsets that were read, in order.
        self.reads: list = []
        self.start(view.checkpoint)

    def view(self) -> View:
        """What is kept now."""
        stored = tuple((place, self.stored[place]) for place in self.places_stored())
        return View(self.home, self.durable, tuple(self.tail), self.replies, tuple(self.sessions), stored)

    def recorded(self) -> Recorded:
        """What a superblock that is written now records."""
        stored = tuple((place, self.stored[place].checksum) for place in self.places_stored())
        return Recorded(self.boot, self.head(), self.last_checksum(), self.replies, stored)

    def raised(self) -> list:
        """The boot update: the next boot, beside the same checkpoint and the state that was found."""
        self.boot += 1
        return self.copies()

    def places_stored(self) -> list:
        """The places of the sessions whose last request has a stored reply."""
        return [place for place, session in enumerate(self.sessions) if session.op <= self.replies]

    def head(self) -> int:
        return self.durable.op + len(self.tail)

    def last_checksum(self) -> bytes:
        """The checksum of the last prepare, zeros where there is none."""
        return self.tail[-1].checksum if self.tail else self.durable.op_checksum

    def place_of(self, client: int) -> Optional[int]:
        """The place of a client's session."""
        return next((place for place, session in enumerate(self.sessions) if session.client == client), None)

    def line(self, line: tuple) -> list:
        """The events of one line."""
        events = getattr(self, line[0])(*line[1:])
        self.writes(events)
        return events

    def writes(self, events: list) -> None:
        """The image shows from now on what these events write."""
        for event in events:
            if event.kind == "write":
                self.image.write(event.at, event.data)

    def too_long(self, body: bytes) -> bool:
        return len(body) > self.layout.body_max()

    def counted(self) -> tuple:
        """The head and the sessions, as if what is staged were appended."""
        head, sessions = self.head(), {one.client: one for one in self.sessions}
        for client, request, _ in self.staged:
            head += 1
            sessions[client] = recovery.Session(client, request, head)
        return head, sessions

    def append_refusal(self, client: int, request: int, body: bytes) -> Optional[str]:
        """Why an append is refused: the first of these that holds."""
        why = self.request_refusal(self.head(), {one.client: one for one in self.sessions}, client, request, body)
        return why or (f"Staged count {len(self.staged)}" if self.staged else None)

    def request_refusal(self, head: int, sessions: dict, client: int, request: int, body: bytes) -> Optional[str]:
        """Why a request isn't taken after this head and these sessions."""
        last = sessions.get(client)
        if client == 0:
            return "ClientZero"
        if self.too_long(body):
            return f"BodyTooLong max {self.layout.body_max()}"
        if last is None and len(sessions) == self.layout.clients:
            return f"ClientsFull max {self.layout.clients}"
        if last and last.op <= self.replies and request == last.request:
            return f"Repeated op {last.op}"
        if last and last.op > self.replies:
            return f"ReplyPending op {last.op}"
        expected = last.request + 1 if last else 1
        if request != expected:
            return f"RequestOrder expected {expected}"
        if head - self.replies == PIPELINE:
            return f"PipelineFull waiting {PIPELINE}"
        if head + 1 > self.durable.op + self.layout.slots:
            return f"WalFull op {head + 1} checkpoint_op {self.durable.op}"
        return "OpsSpent" if head == LIMIT or request > LIMIT else None

    def append(self, client: int, request: int, body: bytes) -> list:
        """The prepare is written and synced, then its header's sector, then it is answered."""
        why = self.append_refusal(client, request, body)
        if why:
            return refused(why)
        return self.grouped([(client, request, body)]) + [answer(f"appended {self.head()}")]

    def stage(self, client: int, request: int, body: bytes) -> list:
        """The request is kept for the next flush."""
        why = self.request_refusal(*self.counted(), client, request, body)
        if why:
            return refused(why)
        self.staged.append((client, request, body))
        return [answer(f"staged {self.head() + len(self.staged)}")]

    def flush(self) -> list:
        """What is staged is appended as one group."""
        if not self.staged:
            return refused("NothingStaged")
        requests, self.staged = self.staged, []
        return self.grouped(requests) + [answer(f"flushed {len(requests)}")]

    def grouped(self, requests: list) -> list:
        """The prepares of a group are written, in order of op, and synced, and then the sectors of their headers."""
        first, writes, slots = self.head() + 1, [], []
        for client, request, body in requests:
            op = self.head() + 1
            one = units.prepare(self.home, self.boot, self.last_checksum(), client, op, request, body, self.replies,
                                self.durable.sequence, (first, first + len(requests) - 1))
            self.tail.append(one)
            self.waiting[op] = one.checksum
            self.sessions = recovery.after(self.sessions, one)
            slots.append(op % self.layout.slots)
            self.table[slots[-1]] = one.header
            writes.append(Event("write", self.layout.place(op), form.whole_sectors(one.encode())))
        sectors = list(dict.fromkeys(slot // form.HEADERS for slot in slots))
        return [*writes, SYNC, *(self.header_sector(sector * form.HEADERS) for sector in sectors), SYNC]

    def header_sector(self, slot: int) -> Event:
        """The write of the sector that has a slot's header, whole from the table."""
        first = slot // form.HEADERS * form.HEADERS
        return Event("write", self.layout.header_sector(slot), b"".join(self.table[first : first + form.HEADERS]))

    def reply_refusal(self, op: int, body: bytes) -> Optional[str]:
        """Why a reply is refused: the first of these that holds."""
        if self.replies == self.head():
            return f"NothingPending head {self.head()}"
        if op != self.replies + 1:
            return f"ReplyOrder expected {self.replies + 1}"
        return f"BodyTooLong max {self.layout.body_max()}" if self.too_long(body) else None

    def reply(self, op: int, body: bytes) -> list:
        """The reply is written into its client's slot and synced, then it is answered."""
        why = self.reply_refusal(op, body)
        if why:
            return refused(why)
        place = next(place for place, session in enumerate(self.sessions) if session.op == op)
        parent, sequence = self.waiting.pop(op), self.durable.sequence
        one = units.reply(self.home, self.boot, parent, self.sessions[place], place, body, self.head(), sequence)
        self.replies, self.stored[place] = op, one
        at = self.layout.at(Place(CLIENT_REPLIES, place))
        return [Event("write", at, form.whole_sectors(one.encode())), SYNC, answer(f"replied {op}")]

    def prepare(self, op: int) -> list:
        """The prepare of an op is read."""
        first = self.durable.op + 1
        if not first <= op <= self.head():
            return refused(f"NotKept first {first} last {self.head()}")
        return self.told(PREPARE, self.tail[op - first], Place(WAL_PREPARES, op % self.layout.slots))

    def lookup(self, client: int) -> list:
        """The reply to a client's last request is read."""
        place = self.place_of(client)
        if place is None:
            return refused("NoClient")
        if self.sessions[place].op > self.replies:
            return refused(f"ReplyPending op {self.sessions[place].op}")
        return self.told(REPLY, self.stored[place], Place(CLIENT_REPLIES, place))

    def look(self, place: Place) -> Union[Unit, str]:
        """What a place shows."""
        self.reads.append(self.layout.at(place))
        return units.shown(self.image, self.home, place)

    def told(self, kind: int, one: Unit, place: Place) -> list:
        """The answer of a read: the unit that is known, or why it can't be had."""
        what = self.look(place)
        if not units.known(what, kind, one.checksum):
            return refused(f"Damaged {place} {units.class_of(what)}")
        f = one.fields()
        word = "prepare" if kind == PREPARE else "reply"
        return [answer(f"{word} {one.op} client {one.client} request {one.request} mark {one.mark} "
                       f"checkpoint {f['checkpoint']} body {one.body.hex() or '-'}")]


def opens(opened: Found, machine: Machine) -> list:
    """The events of an open: the barrier, the mending, and the boot update."""
    events = [SYNC, *mends(opened), *machine.raised()]
    machine.writes(events)
    return events


def mends(opened: Found) -> list:
    """The events of mending: each header sector that is needed, one sync after them, then each copy with its sync."""
    slots = [place.index for place, _ in opened.to_mend if place.zone == form.WAL_HEADERS]
    machine = Machine(opened, Image(b""))
    sectors = sorted({slot // form.HEADERS for slot in slots})
    events = [machine.header_sector(sector * form.HEADERS) for sector in sectors] + [SYNC] * bool(sectors)
    for place, _ in opened.to_mend:
        if place.zone == form.SUPERBLOCK:
            events += copy_of(opened.content, place.index)
    return events
