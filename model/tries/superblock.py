"""The four copies of the superblock as docs/FORMAT.md has them: one copy's bytes, its class, the choice, the field tests."""

import struct
from typing import Iterator, NamedTuple, Optional, Union

from . import form
from .form import COPIES, LIMIT, SECTOR, Home, Layout, check, number
from .knows import knows
from .units import BLANK, GARBLED, STALE

# checksum, number, zero, then the content: version, slots, message_size, clients, cluster, block_size, blocks,
# sequence, op, head, replies, trailer_address, op_checksum, trailer_checksum, trailer_size, boot, and what comes after it: zeros in
# version 1, and in version 2 the head's checksum, 16 zeros, 64 checksums of replies, zeros
FRONT = struct.Struct("<16sI12s")
CONTENT = struct.Struct("<IIII16sIIQQQQQ16s16sQQ3936s")
BEHIND = 160
# The ends of what stands after the boot, from there on, in version 2.
HEAD_CHECKSUM, REPLIES, ZEROS = 16, 32, 32 + 16 * 64
assert FRONT.size == 32 and FRONT.size + CONTENT.size == SECTOR
# A copy that doesn't count has the text of its class in place of its content.


class Recorded(NamedTuple):
    """What a superblock records of the state beside its checkpoint: the boot, the head with the checksum of its prepare, how many replies
    are stored, and the checksum of each by its session's place."""

    boot: int = 0
    head: int = 0
    head_checksum: bytes = bytes(16)
    replies: int = 0
    stored: tuple = ()


def naming(head_checksum: bytes, stored=()) -> bytes:
    """What stands after the boot in version 2: the head's checksum, and those of the stored replies by place."""
    by_place = dict(stored)
    checks = b"".join(by_place.get(place, bytes(16)) for place in range(64))
    return (head_checksum + bytes(16) + checks).ljust(SECTOR - BEHIND, b"\0")


class Content(NamedTuple):
    """What a copy says. Checksums and zeros are bytes, all else are numbers."""

    version: int
    slots: int
    message_size: int
    clients: int
    cluster: int
    block_size: int
    blocks: int
    sequence: int = 1
    op: int = 0
    head: int = 0
    replies: int = 0
    trailer_address: int = 0
    op_checksum: bytes = bytes(16)
    trailer_checksum: bytes = bytes(16)
    trailer_size: int = 0
    boot: int = 0
    behind: bytes = bytes(SECTOR - BEHIND)

    def layout(self) -> Layout:
        return Layout(self.slots, self.message_size, self.clients, self.block_size, self.blocks)

    def home(self) -> Home:
        return Home(self.layout(), self.cluster)

    def recorded(self) -> Recorded:
        """What it records beside its checkpoint, in version 2."""
        stored = tuple((place, one) for place, one in enumerate(self.reply_checksums()) if any(one))
        return Recorded(self.boot, self.head, self.head_checksum(), self.replies, stored)

    def recording(self, state: Recorded):
        """The same checkpoint with this recorded beside it."""
        behind = naming(state.head_checksum, state.stored)
        return self._replace(boot=state.boot, head=state.head, replies=state.replies, behind=behind)

    def head_checksum(self) -> bytes:
        return self.behind[:HEAD_CHECKSUM]

    def reply_checksums(self) -> list:
        """The checksums of the replies, by place."""
        return [self.behind[at : at + 16] for at in range(REPLIES, ZEROS, 16)]

    def pin(self) -> int:
        """The greatest op whose prepare the content names."""
        return self.head if self.version == 2 else self.op

    def pin_checksum(self) -> bytes:
        return self.head_checksum() if self.version == 2 else self.op_checksum

    def named(self) -> int:
        """The greatest op whose reply the content names."""
        return self.replies if self.version == 2 else 0

    def first_nonzero(self) -> Optional[int]:
        """The offset in the copy of the first byte that isn't zero where the version has no fields."""
        spare = [*range(HEAD_CHECKSUM, REPLIES), *range(ZEROS, len(self.behind))] if self.version == 2 else range(len(self.behind))
        return next((BEHIND + at for at in spare if self.behind[at]), None)

    def encode(self, copy: int) -> bytes:
        """The sector of a copy with this number."""
        rest = CONTENT.pack(*self._replace(cluster=number(self.cluster)))
        return FRONT.pack(check(rest), copy, bytes(12)) + rest


def first(home: Home) -> Content:
    """The superblock of a new file."""
    slots, message_size, clients, block_size, blocks = home.layout
    return Content(2, slots, message_size, clients, home.cluster, block_size, blocks)


def decode(sector: bytes) -> Optional[tuple]:
    """Number and content of a copy."""
    checksum, copy, zero = FRONT.unpack_from(sector)
    if checksum != check(sector[FRONT.size :]) or copy >= COPIES or zero != bytes(12):
        return None
    content = Content(*CONTENT.unpack_from(sector, FRONT.size))
    return copy, content._replace(cluster=int.from_bytes(content.cluster, "little"))


def seen(sector: bytes, place: int) -> Union[Content, str]:
    """The content of a copy that counts at its place, or its class."""
    if sector == bytes(SECTOR):
        return BLANK
    decoded = decode(sector)
    if decoded is None:
        return GARBLED
    copy, content = decoded
    return content if copy == place else f"Elsewhere Superblock {copy}"


def all_seen(data: bytes) -> list:
    """The four copies of a file."""
    return [seen(form.sector(data, place), place) for place in range(COPIES)]


def choose(copies: list) -> Optional[Content]:
    """The content of greatest sequence, and of these of greatest boot, on which two copies agree, whatever its version; of two
    that tie, the lowest-numbered copy's."""
    sound = [copy for copy in copies if isinstance(copy, Content)]
    agreed = [copy for copy in sound if sound.count(copy) >= 2]
    # Of equals, max gives the first.
    return max(agreed, key=rank, default=None)


def rank(content: Content) -> tuple:
    """What contents are compared by."""
    return content.sequence, content.boot


def greatest_trailer(c: Content) -> int:
    """The bytes of the longest trailer."""
    return 4 + 1024 + 4 + 32 * c.clients + (c.blocks + 7) // 8 + 16 * c.blocks


def tests(c: Content) -> Iterator[tuple]:
    """The field tests of the content's version in order: the field, its value, whether it fails."""
    broken = c.layout().broken()
    if broken:
        yield *broken, True
    yield "Cluster", c.cluster, c.cluster == 0
    yield "Sequence", c.sequence, not 1 <= c.sequence <= LIMIT
    yield "Op", c.op, c.op > LIMIT
    yield "OpChecksum", int.from_bytes(c.op_checksum, "little"), c.op == 0 and c.op_checksum != bytes(16)
    yield "Head", c.head, c.head < c.op or c.head > c.op + c.slots or c.head > LIMIT
    yield "Replies", c.replies, c.replies > c.head or c.replies + 8 < c.head
    yield "TrailerAddress", c.trailer_address, c.trailer_address > c.blocks or (c.trailer_address == 0 and c.op != 0)
    checksum = int.from_bytes(c.trailer_checksum, "little")
    yield "TrailerChecksum", checksum, c.trailer_address == 0 and checksum != 0
    lawful = 1 <= c.trailer_size <= greatest_trailer(c) if c.trailer_address else c.trailer_size == 0
    yield "TrailerSize", c.trailer_size, not lawful
    if c.version == 2:
        yield from second_tests(c)
    else:
        yield "Boot", c.boot, c.boot != 0
    place = c.first_nonzero()
    yield "Zero", place, place is not None


def second_tests(c: Content) -> Iterator[tuple]:
    """The tests that version 2 has of its own."""
    yield "Boot", c.boot, c.boot > LIMIT
    head = c.head_checksum()
    unlike = (c.head == 0 and head != bytes(16)) or (c.head == c.op and head != c.op_checksum)
    yield "Head", int.from_bytes(head, "little"), unlike
    spare = next((place for place, one in enumerate(c.reply_checksums()) if place >= c.clients and any(one)), None)
    yield "Replies", spare, spare is not None


def fault(c: Content, version: int = 2) -> Optional[str]:
    """Why a chosen content is refused by its fields, where this version is asked for."""
    if c.version != version:
        return f"Version found {c.version}"
    return next((f"BadField {field} {value}" for field, value, fails in tests(c) if fails), None)


class Opened(NamedTuple):
    """What an open finds in the copies."""

    content: Optional[Content]
    # The refusal's words, and whether it comes before the barrier.
    refusal: Optional[str]
    early: bool
    # The numbers of the copies that have the chosen content.
    members: list

    def repairs(self) -> list:
        """The numbers of the copies that are written anew."""
        return [place for place in range(COPIES) if place not in self.members]


def opened(data: bytes, version: int = 2) -> Opened:
    """What an open finds in the copies of a file, where this version is asked for."""
    copies = all_seen(data)
    content = choose(copies)
    if all(copy == BLANK for copy in copies):
        return Opened(None, "NotFormatted", True, [])
    if content is None:
        classes = (STALE if isinstance(copy, Content) else copy for copy in copies)
        return Opened(None, "NoQuorum " + " ".join(classes), True, [])
    members = [place for place, copy in enumerate(copies) if copy == content]
    if fault(content, version):
        return Opened(content, fault(content, version), True, members)
    # A program that knows no checkpoints refuses what names a trailer, which it finds after the barrier.
    later = content.trailer_address and not knows("blocks")
    return Opened(content, f"BadField TrailerAddress {content.trailer_address}" if later else None, False, members)
