"""What the mending from a second file does to the first, as docs/FILEMIRROR.md has it: refusals, what is written, and the text."""

from typing import NamedTuple, Optional

from . import form, recovery, script, superblock, units
from .form import CLIENT_REPLIES, GRID, WAL_PREPARES, Place
from .grid import SYNC, Event, answer, refused
from .script import DONE, FOUND, REFUSED, WORDS
from .trailer import Checkpoint, Trailers
from .units import BLOCK, NO_BYTES, PREPARE, REPLY, TRAILER, Unit

USAGE = b"usage: filemirror FIRST SECOND\n"


class Mirrored(NamedTuple):
    """What a run of the program came to: the first file after it, what was done to it, what was printed, and the status."""

    data: bytes
    status: int
    events: list
    printed: list

    @property
    def text(self) -> bytes:
        return script.answers(self.printed)


class Refused(Exception):
    """The run ends with these words after `refused`."""


class Mirror:
    """A mending, as far as it has come."""

    def __init__(self, data: bytes, other: bytes, content: superblock.Content):
        self.data, self.other, self.content, self.home = data, other, content, content.home()
        self.events: list = [SYNC]
        self.printed: list = []
        # The known units as they came, each with its place.
        self.known: list = []

    def shown(self, place: Place):
        return units.shown(self.data, self.home, place)

    def unit(self, place: Place, kind: int, checksum: bytes) -> Unit:
        """A known unit, which is mended where the first file doesn't show it."""
        what = self.shown(place)
        if units.known(what, kind, checksum):
            self.known.append((place, what))
            return what
        has = units.shown(self.other, self.home, place)
        if not units.known(has, kind, checksum):
            raise Refused(f"Neither {place} {units.class_of(what)}")
        write = write_of(self.home, place, has)
        self.data = script.state(self.data, [write])
        self.events += [write, SYNC]
        self.printed.append(answer(f"mended {place}"))
        self.known.append((place, has))
        return has

    def chain(self) -> None:
        """The trailer blocks, from the last index back."""
        content, rules = self.content, Trailers()
        cap = content.layout().block_max()
        address, checksum, walked = content.trailer_address, content.trailer_checksum, []
        for index in reversed(range(-(-content.trailer_size // cap))):
            if address in walked:
                raise Refused(f"BadField TrailerChain {address}")
            one = self.unit(Place(GRID, address), TRAILER, checksum)
            length = cap if walked else content.trailer_size - cap * index
            if not rules.asked(one, index, form.HEADER + length, content):
                raise Refused(f"BadField TrailerChain {address}")
            walked.append(address)
            address, checksum = one.request, one.parent

    def checkpoint(self) -> Checkpoint:
        """What the trailer says, once each of its blocks is shown."""
        if self.content.trailer_address:
            self.chain()
        what = Trailers().checkpoint(lambda address: self.shown(Place(GRID, address)), self.content)
        if isinstance(what, str):
            raise Refused(what)
        return what

    def prepares(self) -> list:
        """The prepares that the superblock names, from the head down; given in order of op."""
        content, wanted, found = self.content, self.content.pin_checksum(), []
        for op in range(content.pin(), content.op, -1):
            one = self.unit(Place(WAL_PREPARES, op % content.slots), PREPARE, wanted)
            found.insert(0, one)
            wanted = one.parent
        return found

    def replies(self, sessions: list) -> None:
        """The recorded replies of these sessions, where nothing newer is shown."""
        content = self.content
        prepares = [self.shown(Place(WAL_PREPARES, slot)) for slot in range(content.slots)]
        later = {one.client for one in prepares if recovery.is_own(one, content) and one.op > content.pin()}
        for place, session in enumerate(sessions):
            checksum = content.reply_checksums()[place]
            one = self.shown(Place(CLIENT_REPLIES, place))
            newer = recovery.is_own(one, content) and one.op > content.replies
            if checksum != NO_BYTES and not newer and session.client not in later:
                self.unit(Place(CLIENT_REPLIES, place), REPLY, checksum)

    def all(self) -> None:
        checkpoint = self.checkpoint()
        for address, checksum in checkpoint.references:
            self.unit(Place(GRID, address), BLOCK, checksum)
        sessions = list(checkpoint.sessions)
        for one in self.prepares():
            sessions = recovery.after(sessions, one)
        self.replies(sessions)

    def mended(self) -> int:
        return len(self.printed)


def write_of(home, place: Place, unit: Unit) -> Event:
    """The write of a unit into its place."""
    whole = unit.encode()
    return Event("write", home.layout.at(place), form.whole_sectors(whole))


def run(data: bytes, other: bytes) -> Mirrored:
    """`filemirror FIRST SECOND` over files of these bytes, where no call fails."""
    opened = superblock.opened(data)
    if opened.refusal:
        return Mirrored(data, REFUSED, [SYNC], refused(opened.refusal))
    mirror = Mirror(data, other, opened.content)
    try:
        mirror.all()
    except Refused as why:
        return Mirrored(mirror.data, REFUSED, mirror.events, mirror.printed + refused(str(why)))
    count = mirror.mended()
    return Mirrored(mirror.data, FOUND if count else DONE, mirror.events, mirror.printed + [answer(f"mended {count}")])


def known(data: bytes) -> list:
    """The known units of a file that shows them all, in order, each with its place."""
    mirror = Mirror(data, b"", superblock.opened(data).content)
    mirror.all()
    return mirror.known


def command(data: Optional[bytes], other: Optional[bytes], listed: list) -> Mirrored:
    """The same with any words after the two paths, and with files that aren't there."""
    if listed:
        return Mirrored(data or b"", WORDS, [], [Event("answer", data=USAGE)])
    return run(data or b"", other or b"")
