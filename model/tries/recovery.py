"""What an open finds in a file: the slots of both rings, the tail, the replies, what is mended, and its refusals in order.

The rules are methods of `Rules`, so that `imitation.py` can have one of them wrong.
"""

from typing import NamedTuple, Optional, Union

from . import form, superblock, trailer, units
from .form import CLIENT_REPLIES, GRID, SUPERBLOCK, WAL_HEADERS, WAL_PREPARES, Home, Place
from .trailer import Checkpoint, Session
from .units import NO_BYTES, STALE, Unit

# How many prepares may wait for their replies.
PIPELINE = 8


class View(NamedTuple):
    """The state that a file stands for, without what its superblock records beside the checkpoint. The tail has every prepare after the
    checkpoint."""

    home: Home
    checkpoint: Checkpoint
    tail: tuple
    replies: int
    sessions: tuple
    # The stored reply of each session that has one, by its place.
    stored: tuple

    def head(self) -> int:
        return self.checkpoint.op + len(self.tail)


class Rings(NamedTuple):
    """What every slot of both rings and every reply slot shows: a unit, or a class."""

    headers: list
    prepares: list
    replies: list

    def all(self) -> list:
        """The valid units."""
        return [one for one in self.headers + self.prepares + self.replies if isinstance(one, Unit)]

    def logged(self) -> list:
        """The valid units of the two rings."""
        return [one for one in self.headers + self.prepares if isinstance(one, Unit)]


class Found(NamedTuple):
    """What an open finds: why it refuses, or the view, the table of headers after mending, and what is mended."""

    refusal: Optional[str]
    # Whether it refuses before the barrier.
    early: bool = False
    content: Optional[superblock.Content] = None
    view: Optional[View] = None
    # The 256 bytes of each header slot.
    table: tuple = ()
    # The places that are mended, copies first, each with the class of what stands there.
    to_mend: tuple = ()
    # The checksum of each waiting op's prepare, zeros where that isn't shown.
    waiting: dict = {}


def rings_of(data: bytes, home: Home) -> Rings:
    """What a file shows."""
    def every(zone: str, count: int) -> list:
        return [units.shown(data, home, Place(zone, index)) for index in range(count)]
    layout = home.layout
    return Rings(every(WAL_HEADERS, layout.slots), every(WAL_PREPARES, layout.slots), every(CLIENT_REPLIES, layout.clients))


def op_of(slot: int, content: superblock.Content) -> int:
    """The one op above the checkpoint's, and at most as many above it as there are slots, that belongs to a slot."""
    return content.op + 1 + (slot - content.op - 1) % content.slots


def seen(what: Union[Unit, str], op: int, boot: int) -> str:
    """What a ring shows of a slot's op in a boot. A reserved header has op 0, and a unit of another boot proves nothing."""
    if isinstance(what, str):
        return "Nothing"
    if what.op == op:
        return "Now" if what.boot == boot else "Old"
    return "Old" if what.op < op else "Far"


def is_own(one: Union[Unit, str], content: superblock.Content) -> bool:
    """Whether a unit of the superblock's boot is shown."""
    return isinstance(one, Unit) and one.boot == content.boot


def is_cut(one: Unit, head: int) -> bool:
    """Whether a prepare is of a group of several right above the head, which counts as a whole alone."""
    first, last = one.group()
    return one.boot > 0 and first == head + 1 and first < last and one.op > head


class Rules(trailer.Trailers):
    """The rules of an open."""

    def decision(self, header: Union[Unit, str], prepare: Union[Unit, str], op: int, boot: int) -> str:
        """What is decided of a slot: `Behind`, `Lost`, `Take` or `Empty`, with `mend` after it where its header is mended."""
        h, p = seen(header, op, boot), seen(prepare, op, boot)
        if "Far" in (h, p):
            return "Behind"
        if h == "Now":
            return "Take" if p == "Now" and prepare.checksum == header.checksum else "Lost"
        if p == "Now":
            return "Take mend"
        return "Empty" if h == "Old" else "Empty mend"

    def fits(self, one: Unit, before: list, sessions: list, content: superblock.Content) -> bool:
        """Whether a prepare fits those before it."""
        parent = before[-1].checksum if before else content.op_checksum
        least = max(before[-1].mark if before else 0, one.op - PIPELINE if one.op > PIPELINE else 0)
        if one.parent != parent or not least <= one.mark < one.op or not self.grouped(one, before, content):
            return False
        return self.follows(one, sessions, content)

    def grouped(self, one: Unit, before: list, content: superblock.Content) -> bool:
        """Whether a prepare's group goes with those before it: it goes on with one that isn't over, and else begins one. No group
        goes past the ops that the superblock names."""
        goes_on = before and not before[-1].ends_group()
        fits = one.group() == before[-1].group() if goes_on else one.group()[0] == one.op
        return fits and (one.op != content.pin() or one.ends_group())

    def unknown(self, rings: Rings, content: superblock.Content) -> Optional[int]:
        """The greatest op that the superblock names and whose prepare isn't shown."""
        wanted = content.pin_checksum()
        for op in range(content.pin(), content.op, -1):
            one = rings.prepares[op % content.slots]
            if not isinstance(one, Unit) or one.checksum != wanted:
                return op
            wanted = one.parent
        return None

    def follows(self, one: Unit, sessions: list, content: superblock.Content) -> bool:
        """Whether a prepare's client may make this request."""
        session = next((session for session in sessions if session.client == one.client), None)
        if session is None:
            return one.request == 1 and len(sessions) < content.clients
        return one.request == session.request + 1 and session.op <= one.mark

    def behind(self, rings: Rings, content: superblock.Content) -> bool:
        """Whether the file had a later superblock than the chosen one."""
        later = any(one.fields()["checkpoint"] > content.sequence or one.boot > content.boot for one in rings.all())
        return later or any(one.op > content.op + content.slots for one in rings.logged())

    def lost(self, rings: Rings, content: superblock.Content, head: int) -> bool:
        """Whether something of the superblock's boot is seen that the tail doesn't reach."""
        tops = [one.op for one in rings.headers if is_own(one, content)] + [content.head]
        tops += [one.op for one in rings.prepares if is_own(one, content) and not is_cut(one, head)]
        for one in rings.replies:
            tops += [one.op, one.mark] if is_own(one, content) else []
        return max(tops) > head

    def replies(self, rings: Rings, content: superblock.Content, tail: list) -> int:
        """How many replies are stored."""
        shown = [one.op for one in rings.replies if is_own(one, content)]
        return max([content.replies, tail[-1].mark if tail else 0, *shown])

    def missing(self, rings: Rings, content: superblock.Content, sessions: list, replies: int) -> Optional[tuple]:
        """The least place whose session has a stored reply that its slot doesn't show, with the class."""
        for place, session in enumerate(sessions):
            one = rings.replies[place]
            if session.op <= replies and not self.answers(one, place, session, content):
                return place, units.class_of(one)
        return None

    def answers(self, one: Union[Unit, str], place: int, session: Session, content: superblock.Content) -> bool:
        """Whether what a reply slot shows answers a session: by the recorded checksum, where the superblock names the op."""
        if not isinstance(one, Unit) or Session(one.client, one.request, one.op) != session:
            return False
        if one.op <= content.named():
            return one.checksum == content.reply_checksums()[place]
        return one.boot == content.boot

    def takes(self, rings: Rings, op: int, content: superblock.Content) -> bool:
        """Whether this op's prepare is taken from its slot; up to the pin its checksum is known."""
        slot = op % content.slots
        one = rings.prepares[slot]
        if op <= content.pin():
            return isinstance(one, Unit) and one.op == op
        return self.decision(rings.headers[slot], one, op, content.boot).startswith("Take")

    def reach(self, rings: Rings, content: superblock.Content, sessions: tuple) -> list:
        """How far taken prepares go on after a checkpoint with these sessions."""
        reached, sessions = [], list(sessions)
        for op in range(content.op + 1, content.op + content.slots + 1):
            one = rings.prepares[op % content.slots]
            if not self.takes(rings, op, content) or not self.fits(one, reached, sessions, content):
                break
            reached.append(one)
            sessions = after(sessions, one)
        return reached

    def tail(self, reached: list, sessions: tuple) -> tuple:
        """The tail, which ends where the last whole group does, and the sessions after it."""
        whole = max((at for at, one in enumerate(reached, 1) if one.ends_group()), default=0)
        sessions = list(sessions)
        for one in reached[:whole]:
            sessions = after(sessions, one)
        return reached[:whole], sessions

    def planned(self, header: Union[Unit, str], one: Union[Unit, str], op: int, head: int, content: superblock.Content) -> str:
        """What is decided of a slot once the head is known: a named prepare is taken, and above the head one is cut off."""
        if op <= content.pin():
            return "Take" if isinstance(header, Unit) and header.checksum == one.checksum else "Take mend"
        what = self.decision(header, one, op, content.boot)
        if op > head and what == "Take mend":
            return "Empty" if seen(header, op, content.boot) == "Old" else "Empty mend"
        return what

    def mended(self, rings: Rings, home: Home, content: superblock.Content, members: list, head: int) -> tuple:
        """The headers' table after mending, and what is mended."""
        to_mend = [(Place(SUPERBLOCK, copy), None) for copy in range(form.COPIES) if copy not in members]
        table = []
        for slot in range(content.slots):
            header, one = rings.headers[slot], rings.prepares[slot]
            what = self.planned(header, one, op_of(slot, content), head, content)
            if what.endswith("mend"):
                to_mend.append((Place(WAL_HEADERS, slot), units.class_of(header)))
            if what.startswith("Take"):
                table.append(one.header)
            else:
                table.append(units.reserved(home, slot) if what.endswith("mend") else header.header)
        return tuple(table), to_mend


def after(sessions: list, one: Unit) -> list:
    """The sessions after a prepare: a known client's is replaced, a new client's goes last."""
    new = Session(one.client, one.request, one.op)
    if any(session.client == one.client for session in sessions):
        return [new if session.client == one.client else session for session in sessions]
    return sessions + [new]


def found(data: Optional[bytes], rules: Rules = Rules(), version: int = 2) -> Found:
    """What an open finds in a file, where this version is asked for."""
    opened = superblock.opened(data or b"", version)
    if opened.refusal:
        return Found(opened.refusal, opened.early, opened.content)
    home = opened.content.home()
    checkpoint = rules.checkpoint(lambda address: units.shown(data, home, Place(GRID, address)), opened.content)
    if isinstance(checkpoint, str):
        return Found(checkpoint, False, opened.content)
    return found_in(rings_of(data, home), opened, copy_classes(data), rules, checkpoint)


def copy_classes(data: bytes) -> list:
    """The class of each copy, were it not the one wanted."""
    copies = superblock.all_seen(data)
    return [copy if isinstance(copy, str) else STALE for copy in copies]


def found_in(rings: Rings, opened: superblock.Opened, classes: list, rules: Rules, checkpoint: Checkpoint) -> Found:
    """What an open finds in the slots, once the superblock has been chosen and its checkpoint read."""
    content = opened.content
    home = content.home()
    if rules.behind(rings, content):
        return Found(f"Damaged Superblock {opened.members[0]} Stale", False, content)
    unknown = rules.unknown(rings, content)
    if unknown is not None:
        return Found(blamed(rings, content, unknown), False, content)
    reached = rules.reach(rings, content, checkpoint.sessions)
    behind = content.op + len(reached) + 1
    if behind <= content.pin():
        return Found(blamed(rings, content, behind), False, content)
    tail, sessions = rules.tail(reached, checkpoint.sessions)
    head = content.op + len(tail)
    if rules.lost(rings, content, head):
        return Found(blamed(rings, content, behind), False, content)
    replies = rules.replies(rings, content, tail)
    missing = rules.missing(rings, content, sessions, replies)
    if missing:
        return Found(f"Damaged ClientReplies {missing[0]} {missing[1]}", False, content)
    if content.boot == form.LIMIT:
        return Found("BootSpent", False, content)
    stored = tuple((place, rings.replies[place]) for place, session in enumerate(sessions) if session.op <= replies)
    view = View(home, checkpoint, tuple(tail), replies, tuple(sessions), stored)
    table, to_mend = rules.mended(rings, home, content, opened.members, head)
    to_mend = [(place, classes[place.index] if place.zone == SUPERBLOCK else name) for place, name in to_mend]
    waiting = {op: waiting_checksum(rings, content, op) for op in range(replies + 1, head + 1)}
    return Found(None, False, content, view, table, tuple(to_mend), waiting)


def blamed(rings: Rings, content: superblock.Content, op: int) -> str:
    """The refusal that blames an op's prepare slot: a prepare with the wanted op that isn't taken or doesn't fit is stale too."""
    slot = op % content.slots
    return f"Damaged WalPrepares {slot} {units.class_of(rings.prepares[slot])}"


def waiting_checksum(rings: Rings, content: superblock.Content, op: int) -> bytes:
    """The checksum of a waiting op's prepare; one that a checkpoint covers may not be shown any more."""
    one = rings.prepares[op % content.slots]
    return one.checksum if isinstance(one, Unit) and one.op == op else NO_BYTES


def view_of(data: Optional[bytes]) -> Optional[View]:
    """The view of a file that opens."""
    return found(data).view

