"""What a copy to another layout does to its two files, as docs/FILECOPY.md has it: refusals, what is written, and the text."""

from typing import NamedTuple, Optional

from . import form, recovery, script, superblock, trailer, units, words
from .form import CLIENT_REPLIES, COPIES, GRID, HEADER, Home, Image, Layout, Place
from .grid import SYNC, Event, answer, copy_of, refused
from .machine import Machine, opens
from .script import DONE, REFUSED, WORDS
from .trailer import Checkpoint
from .units import BLOCK, REPLY, Unit

USAGE = b"usage: filecopy FROM TO LAYOUT\n"


class Copied(NamedTuple):
    """What a run of the program came to: what it did to each file, what it printed, and its status."""

    before: Optional[bytes]
    blank: Optional[bytes]
    status: int
    source: list
    target: list
    printed: list

    @property
    def text(self) -> bytes:
        return script.answers(self.printed)

    @property
    def data(self) -> Optional[bytes]:
        """The source after it."""
        return after(self.before, self.source)

    @property
    def copy(self) -> Optional[bytes]:
        """The target after it."""
        return after(self.blank, self.target)


def after(data: Optional[bytes], events: list) -> Optional[bytes]:
    made = any(event.kind == "write" for event in events)
    return script.state(data or b"", events) if made or data is not None else None


def text_size(layout: Layout, checkpoint: Checkpoint, references: int) -> int:
    """Bytes of the text of a trailer of this layout, also where that has fewer blocks."""
    return 4 + len(checkpoint.root) + 4 + 32 * len(checkpoint.sessions) + (layout.blocks + 7) // 8 + 16 * references


def resting(m: Machine, layout: Layout) -> Optional[str]:
    """Why an opened source isn't copied, of what needs no read."""
    if not m.durable.op == m.head() == m.replies:
        return f"NotAtRest checkpoint_op {m.durable.op} head {m.head()} replies {m.replies}"
    if len(m.sessions) > layout.clients:
        return f"TooFewClients sessions {len(m.sessions)} clients {layout.clients}"
    references = len(m.durable.references)
    size = text_size(layout, m.durable, references) if m.durable.chain else 0
    needed = references - -size // layout.block_max()
    return f"TooFewBlocks needed {needed} blocks {layout.blocks}" if needed > layout.blocks else None


def put(home: Home, place: Place, unit: Unit) -> Event:
    """The write of a unit into its place."""
    return Event("write", home.layout.at(place), form.whole_sectors(unit.encode()))


def moved(unit: Unit, address: int) -> Unit:
    """The same block at another address: its kind, body, version and boot stay."""
    whole = units.seal(dict(unit.fields(), op=address), unit.body)
    return Unit(whole[:HEADER], unit.body)


class Copy:
    """A copy of an opened source, as far as it has come: the events of the target."""

    def __init__(self, m: Machine, layout: Layout):
        self.m, self.home = m, Home(layout, m.home.cluster)
        self.events: list = []

    def ring(self) -> None:
        """The header ring."""
        self.events += [script.header_sector(self.home, first) for first in range(0, self.home.layout.slots, form.HEADERS)]

    def replies(self) -> Optional[str]:
        """Each session's reply; or why the copy ends there."""
        for place in range(len(self.m.sessions)):
            at = Place(CLIENT_REPLIES, place)
            what = self.m.look(at)
            if not units.known(what, REPLY, self.m.stored[place].checksum):
                return f"Damaged {at} {units.class_of(what)}"
            size = HEADER + len(what.body)
            if size > self.home.layout.message_size:
                return f"ReplyTooLong place {place} size {size}"
            self.events.append(put(self.home, at, what))
        return None

    def blocks(self) -> Optional[str]:
        """The referenced blocks, from address 1 on; or why the copy ends there."""
        self.references = []
        for number, (address, checksum) in enumerate(self.m.durable.references, 1):
            at = Place(GRID, address)
            what = self.m.look(at)
            if not units.known(what, BLOCK, checksum):
                return f"Damaged {at} {units.class_of(what)}"
            size = HEADER + len(what.body)
            if size > self.home.layout.block_size:
                return f"BlockTooLong address {address} size {size}"
            unit = moved(what, number)
            self.events.append(put(self.home, Place(GRID, number), unit))
            self.references.append((number, unit.checksum))
        return None

    def checkpoint(self) -> Checkpoint:
        """The source's checkpoint with the new references, and its trailer after the blocks."""
        durable = self.m.durable._replace(references=tuple(self.references), chain=())
        if not self.m.durable.chain:
            return durable
        first = len(self.references) + 1
        text = durable.text(self.home.layout)
        count = len(trailer.pieces(text, self.home.layout))
        chain = trailer.sealed(self.home, self.m.boot, text, list(range(first, first + count)), durable.sequence)
        self.events += [put(self.home, Place(GRID, unit.op), unit) for unit in chain]
        return durable._replace(chain=tuple((unit.op, unit.checksum) for unit in chain))

    def superblock(self, checkpoint: Checkpoint) -> None:
        """A sync, and the four copies, each with its own."""
        content = checkpoint.content(self.home, self.m.recorded())
        self.events.append(SYNC)
        self.events += [event for copy in range(COPIES) for event in copy_of(content, copy)]


def run(data: Optional[bytes], target: Optional[bytes], layout: Layout) -> Copied:
    """`filecopy FROM TO LAYOUT` over files of these bytes, or none, where no call fails."""
    opened = recovery.found(data or b"")
    if opened.refusal:
        return Copied(data or b"", target, REFUSED, [] if opened.early else [SYNC], [], refused(opened.refusal))
    m = Machine(opened, Image(data))
    source = opens(opened, m)
    why = resting(m, layout)
    if why:
        return Copied(data, target, REFUSED, source, [], refused(why))
    for copy in range(COPIES):
        if any(form.sector(target or b"", copy)):
            return Copied(data, target, REFUSED, source, [], refused(f"NotBlank copy {copy}"))
    copied = Copy(m, layout)
    copied.ring()
    why = copied.replies() or copied.blocks()
    if why:
        return Copied(data, target, REFUSED, source, copied.events, refused(why))
    copied.superblock(copied.checkpoint())
    return Copied(data, target, DONE, source, copied.events, [answer(f"copied {layout.sectors()}")])


def command(data: Optional[bytes], target: Optional[bytes], listed: list) -> Copied:
    """The same with any words."""
    layout = words.layout_of(listed[0]) if len(listed) == 1 else None
    if layout is None:
        return Copied(data, target, WORDS, [], [], [Event("answer", data=USAGE)])
    return run(data, target, layout)


def same_state(source: bytes, copy: bytes, layout: Layout) -> Optional[str]:
    """What of the state of a source its copy doesn't have, if anything; both are read as an open reads them."""
    one, two = recovery.view_of(source), recovery.view_of(copy)
    if two is None:
        return "the copy isn't found"
    if two.home != Home(layout, one.home.cluster):
        return "another layout or cluster"
    if (one.replies, one.sessions, len(two.tail)) != (two.replies, two.sessions, 0):
        return "other replies or sessions, or a tail"
    if [(place, unit) for place, unit in one.stored] != [(place, unit) for place, unit in two.stored]:
        return "another reply"
    old, new = one.checkpoint, two.checkpoint
    if (old.sequence, old.op, old.op_checksum, old.root, old.sessions) != (new.sequence, new.op, new.op_checksum, new.root, new.sessions):
        return "another checkpoint"
    if [address for address, _ in new.references] != list(range(1, len(old.references) + 1)):
        return "other addresses"
    for (address, _), (number, checksum) in zip(old.references, new.references):
        was = units.shown(source, one.home, Place(GRID, address))
        now = units.shown(copy, two.home, Place(GRID, number))
        if not units.known(now, BLOCK, checksum):
            return f"block {number} isn't shown"
        fields = ("block_kind", "version", "boot")
        if was.body != now.body or any(was.field(name) != now.field(name) for name in fields):
            return f"block {number} is another one"
    if superblock.opened(copy).content.boot != superblock.opened(source).content.boot:
        return "another boot"
    return None
