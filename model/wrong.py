"""The model's choice, rules and machine for `imitation.py`, with the one bug that is named."""

from typing import Optional, Union

import wrong_grid
import wrong_scrub
from tries import form, grid, recovery, superblock, units
from tries.bugs import has
from tries.form import HEADER, SECTOR, Place
from tries.grid import SYNC, Event
from tries.units import Unit


def read(raw: bytes, home: form.Home, place: Place) -> Union[Unit, str]:
    """What the bytes of a place show."""
    what = units.read(raw, home, place)
    f = units.decode(raw[:HEADER])
    if has("bodies aren't checked") and what == units.GARBLED and f and place.zone != form.WAL_HEADERS:
        what = units.read(units.seal(f, raw[HEADER : f["size"]]), home, place)
        return Unit(raw[:HEADER], what.body) if isinstance(what, Unit) else what
    if has("a unit elsewhere is garbled") and isinstance(what, str) and what.startswith("Elsewhere"):
        return units.GARBLED
    if has("a unit of another cluster is elsewhere") and what == units.GARBLED and f:
        other = home._replace(cluster=int.from_bytes(f["cluster"], "little"))
        return units.read(raw, other, place)
    return units.GARBLED if has("a blank slot is garbled") and what == units.BLANK else what


def seen_copies(sectors: list) -> list:
    """What the four sectors of copies show."""
    if has("a copy counts at any place"):
        decoded = [superblock.decode(sector) for sector in sectors]
        return [each[1] if each else superblock.seen(sector, 0) for each, sector in zip(decoded, sectors)]
    if has("bytes after the number aren't tested"):
        sectors = [sector[:20] + bytes(12) + sector[32:] for sector in sectors]
    if has("a copy is blank by its front"):
        sectors = [sector if any(sector[:256]) else bytes(SECTOR) for sector in sectors]
    if has("a number of 4 counts"):
        sectors = [sector[:16] + bytes([place]) + sector[17:] if sector[16] == 4 else sector
                   for place, sector in enumerate(sectors)]
    return [superblock.seen(sector, place) for place, sector in enumerate(sectors)]


def choose(copies: list):
    if has("one vote is enough"):
        return max((c for c in copies if not isinstance(c, str)), key=lambda c: c.sequence, default=None)
    agreed = [c for c in copies if not isinstance(c, str) and copies.count(c) >= 2]
    if has("boots aren't compared"):
        return max(agreed, key=lambda c: c.sequence, default=None)
    if has("boots are compared before sequences"):
        return max(agreed, key=lambda c: (c.boot, c.sequence), default=None)
    if has("boots are compared in version 1 alone"):
        return max(agreed, key=lambda c: (c.sequence, c.boot if c.version == 1 else 0), default=None)
    if has("the last of equals is chosen"):
        copies = copies[::-1]
    if has("the sequence isn't looked at"):
        return next((c for c in copies if not isinstance(c, str) and copies.count(c) >= 2), None)
    if has("three votes are needed"):
        return next((c for c in copies if not isinstance(c, str) and copies.count(c) >= 3), None)
    return superblock.choose(copies)


class Rules(wrong_grid.Rules):
    """The rules of an open."""

    def decision(self, header, prepare, op: int, boot: int) -> str:
        there = isinstance(prepare, Unit) and prepare.op == op
        if has("a prepare of an earlier boot is taken") and there:
            boot = prepare.boot
        if has("a header of an earlier boot counts") and isinstance(header, Unit) and header.op == op:
            boot = header.boot
        what = super().decision(header, prepare, op, boot)
        if has("headers aren't looked at"):
            return "Take" if there else "Empty" if isinstance(header, Unit) else "Empty mend"
        if has("another prepare with the header's op is taken") and what == "Lost" and there:
            return "Take mend"
        if has("a torn header ends the tail") and what == "Take mend" and isinstance(header, str):
            return "Empty mend"
        return what

    def fits(self, one, before, sessions, content) -> bool:
        if has("parents aren't compared"):
            fields = dict(one.fields(), parent=before[-1].checksum if before else bytes(16))
            one = Unit(units.seal(fields, one.body)[:HEADER], one.body)
        if has("marks aren't compared with those before") and before:
            least = one.op - recovery.PIPELINE if one.op > recovery.PIPELINE else 0
            return one.parent == before[-1].checksum and least <= one.mark and self.follows(one, sessions, content)
        if has("a mark may be 9 below") and one.mark == one.op - 9:
            chained = one.parent == before[-1].checksum and one.mark >= before[-1].mark
            return chained and self.follows(one, sessions, content)
        return super().fits(one, before, sessions, content)

    def follows(self, one, sessions, content) -> bool:
        session = next((session for session in sessions if session.client == one.client), None)
        if has("requests aren't compared"):
            return session is not None and session.op <= one.mark or session is None and len(sessions) < content.clients
        if has("a client may have a request that waits") and session:
            return one.request == session.request + 1
        if has("a client without a place fits") and session is None:
            return one.request == 1
        return super().follows(one, sessions, content)

    def reach(self, rings, content, sessions: tuple) -> list:
        self.clients = content.clients
        return super().reach(rings, content, sessions)

    def tail(self, reached: list, sessions: tuple) -> tuple:
        tail, sessions = super().tail(reached, sessions)
        return tail, sessions[: self.clients]

    def takes(self, rings, op: int, content) -> bool:
        one = rings.prepares[op % content.slots]
        if has("a named prepare is known by its op") and op <= content.pin():
            return isinstance(one, Unit) and one.op == op
        if has("a named prepare is known by its header") and op <= content.pin():
            return isinstance(one, Unit) and one.op == op and self.decision(
                rings.headers[op % content.slots], one, op, one.boot).startswith("Take")
        return super().takes(rings, op, content)

    def unknown(self, rings, content) -> Optional[int]:
        if has("what is named isn't asked for"):
            return None
        lacking = super().unknown(rings, content)
        if lacking is not None and has("the last of the named ones is blamed"):
            return content.pin()
        one = rings.prepares[lacking % content.slots] if lacking is not None else None
        return None if isinstance(one, Unit) and one.op == lacking and has("a named prepare is known by its op") else lacking

    def answers(self, one, place: int, session, content) -> bool:
        if has("a named reply is known by its request"):
            content = content._replace(replies=0, boot=one.boot if isinstance(one, Unit) else 0)
        if has("an unnamed reply of any boot is taken") and isinstance(one, Unit):
            content = content if one.op <= content.named() else content._replace(boot=one.boot)
        return super().answers(one, place, session, content)

    def planned(self, header, one, op: int, head: int, content) -> str:
        if has("another header of a named prepare stays") and op <= content.pin() and isinstance(header, Unit) and header.op == op:
            return "Take"
        return super().planned(header, one, op, head, content)

    def behind(self, rings, content) -> bool:
        if has("stamps of sequences are ignored"):
            return any(one.op > content.op + content.slots for one in rings.logged())
        if has("a unit of a later boot is passed over"):
            return super().behind(rings, content._replace(boot=form.LIMIT))
        if has("stamps of replies are ignored"):
            return super().behind(rings._replace(replies=[]), content)
        if has("an op beyond the slots is lost"):
            return any(one.fields()["checkpoint"] > content.sequence for one in rings.all())
        return super().behind(rings, content)

    def lost(self, rings, content, head: int) -> bool:
        def without(listed: list, replies: list) -> bool:
            return super(Rules, self).lost(rings._replace(**{name: [] for name in listed}, replies=replies), content, head)
        shown = [one for one in rings.replies if isinstance(one, Unit)]
        if has("later prepares are ignored"):
            return without(["prepares"], rings.replies)
        if has("later headers are ignored"):
            return without(["headers"], rings.replies)
        if has("the superblock's head is ignored"):
            return super().lost(rings, content._replace(head=0), head)
        if has("ops of replies don't count for the head"):
            return without([], []) or any(one.mark > head for one in shown if one.op <= head)
        if has("marks of replies don't count for the head"):
            return without([], []) or any(one.op > head for one in shown)
        if has("places without a session are ignored"):
            clients = {one.client for one in rings.logged()}
            return without([], [one for one in shown if one.client in clients])
        return super().lost(rings, content, head)

    def replies(self, rings, content, tail: list) -> int:
        if has("replies of an earlier boot count"):
            shown = [one.op for one in rings.replies if isinstance(one, Unit)]
            return max([super().replies(rings, content, tail), *shown])
        if has("the superblock's replies are ignored"):
            return super().replies(rings, content._replace(replies=0), tail)
        if has("the last mark is ignored"):
            return super().replies(rings, content, [])
        if has("ops of replies don't count for the replies"):
            return super().replies(rings._replace(replies=[]), content, tail)
        return super().replies(rings, content, tail)

    def missing(self, rings, content, sessions: list, replies: int) -> Optional[tuple]:
        missing = super().missing(rings, content, sessions, replies)
        if missing is None:
            return None
        other = isinstance(rings.replies[missing[0]], Unit)
        taken = has("a lost reply opens") or has("a reply of another request is taken") and other
        return None if taken else missing

    def mended(self, rings, home, content, members: list, head: int) -> tuple:
        table, to_mend = super().mended(rings, home, content, members, head)
        if has("an old header of an empty slot is written anew"):
            old = [slot for slot, one in enumerate(rings.headers) if isinstance(one, Unit) and not one.op]
            to_mend += [(Place(form.WAL_HEADERS, slot), units.STALE) for slot in old]
        if has("mending writes reserved headers alone"):
            slots = {place.index for place, _ in to_mend if place.zone == form.WAL_HEADERS}
            table = tuple(units.reserved(home, slot) if slot in slots else one for slot, one in enumerate(table))
        return table, to_mend


class Machine(wrong_scrub.Machine):
    """An opened file whose reads are those of the file."""

    file = None

    def look(self, place: Place) -> Union[Unit, str]:
        if self.seen is not None:
            # What a bug has looked at isn't read twice.
            seen, self.seen = self.seen, None
            return seen
        return read(self.file.read(self.layout.at(place), units.length(place, self.layout)), self.home, place)

    def told(self, kind: int, one: Unit, place: Place) -> list:
        if has("a read doesn't look at the checksum"):
            what = self.seen = self.look(place)
            one = what if isinstance(what, Unit) else one
        text = super().told(kind, one, place)[0].data
        if has("bodies are printed in upper case"):
            front, space, body = text.rpartition(b" ")
            text = front + space + body.upper()
        if has("an empty body is printed as nothing"):
            text = text.replace(b"body -", b"body ")
        return [Event("answer", data=text)]

    def too_long(self, body: bytes) -> bool:
        return len(body) > self.layout.body_max() + has("a body may have one byte more")

    def append_refusal(self, client: int, request: int, body: bytes) -> Optional[str]:
        why = super().append_refusal(client, request, body)
        word = (why or "").split()[0] if why else ""
        skipped = {
            "Repeated": "a repeated request is appended", "ReplyPending": "a client may have two requests",
            "PipelineFull": "a ninth prepare may wait", "ClientsFull": "one client too many",
        }.get(word)
        if has("a long body comes before client 0") and word == "ClientZero" and self.too_long(body):
            return f"BodyTooLong max {self.layout.body_max()}"
        if has("a new client's request may be any") and word == "RequestOrder" and self.place_of(client) is None:
            return None
        if has("an append passes over what is staged") and word == "Staged":
            return None
        if has("the ring is full at 32") and not why and self.head() == 32:
            return "WalFull op 33 checkpoint_op 0"
        return None if skipped and has(skipped) else why

    def request_refusal(self, head: int, sessions: dict, client: int, request: int, body: bytes) -> Optional[str]:
        if has("a staged client may stage again") and any(client == one[0] for one in self.staged):
            return None
        return super().request_refusal(head, sessions, client, request, body)

    def flush(self) -> list:
        if has("nothing is flushed without a word") and not self.staged:
            return [Event("answer", data=b"flushed 0\n")]
        return super().flush()

    def grouped(self, requests: list) -> list:
        if len(requests) > 1 and has("a flush appends one by one"):
            one_by_one = super().grouped
            return [event for request in requests for event in one_by_one([request])]
        events = super().grouped(requests)
        synced = events.index(SYNC)
        writes, headers = events[:synced], events[synced + 1 : -1]
        if len(requests) > 1 and has("a group has one sync"):
            return [*writes, *headers, SYNC]
        if len(requests) > 1 and has("the headers of a group come first"):
            return [*headers, SYNC, *writes, SYNC]
        if len(headers) > 1 and has("the last header sector of a group isn't written"):
            return [*writes, SYNC, *headers[:-1], SYNC]
        return events

    def append(self, client: int, request: int, body: bytes) -> list:
        marked, durable = self.replies, self.durable
        if has("a prepare's mark is 0") and not self.append_refusal(client, request, body):
            self.replies = 0
        self.durable = durable._replace(sequence=1) if has("a stamp is always 1") else durable
        events = super().append(client, request, body)
        self.replies, self.durable = marked, durable
        if len(events) == 1:
            return events
        prepare, first, header, second, answer = events
        if has("the header isn't written"):
            return [prepare, first, answer]
        if has("the header is written before the prepare"):
            return [header, first, prepare, second, answer]
        if has("the header isn't synced"):
            return [prepare, first, header, answer]
        if has("an append isn't synced"):
            return [prepare, header, answer]
        if has("an answer comes before its sync"):
            return [prepare, first, header, answer, second]
        if has("one header is written into a blank sector"):
            at = self.head() % self.layout.slots % form.HEADERS * HEADER
            blank = bytes(at) + header.data[at : at + HEADER]
            header = header._replace(data=blank + bytes(SECTOR - len(blank)))
        return [prepare, first, header, second, answer]

    def reply_refusal(self, op: int, body: bytes) -> Optional[str]:
        why, late = super().reply_refusal(op, body), self.replies == self.head()
        order = bool(why) and why.startswith("ReplyOrder")
        if has("a reply of a later op is stored") and order and self.replies + 1 < op <= self.head():
            return None
        if has("a long reply comes before its order") and order and self.too_long(body):
            return f"BodyTooLong max {self.layout.body_max()}"
        return f"ReplyOrder expected {self.replies + 1}" if has("nothing pending is an order") and late else why

    def reply(self, op: int, body: bytes) -> list:
        if self.reply_refusal(op, body):
            return super().reply(op, body)
        place = next(place for place, session in enumerate(self.sessions) if session.op == op)
        events = super().reply(op, body)
        one = dict(self.stored[place].fields())
        if has("a reply has the session's number for its mark"):
            one["mark"] = max(op, self.sessions[place].op)
        if has("a reply has no parent"):
            one["parent"] = bytes(16)
        if has("a reply goes to the first place"):
            one["slot"] = 0
        if has("a stamp is always 1"):
            one["checkpoint"] = 1
        whole = units.seal(one, body)
        self.stored[place] = Unit(whole[:HEADER], body)
        at = self.layout.at(Place(form.CLIENT_REPLIES, one["slot"]))
        write = Event("write", at, form.whole_sectors(whole))
        return [write, events[-1]] if has("a reply isn't synced") else [write, SYNC, events[-1]]

    def lookup(self, client: int) -> list:
        place = self.place_of(client)
        waits = place is not None and self.sessions[place].op > self.replies
        if has("a lookup of what waits says no client") and waits:
            return grid.refused("NoClient")
        return super().lookup(client)

