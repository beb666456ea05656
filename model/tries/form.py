"""The places of a file as docs/FORMAT.md has them: layouts, zones, where a place's bytes stand, and parts of a file."""

import hashlib
from typing import NamedTuple, Optional

SECTOR = 4096
HEADER = 256
COPIES = 4
# The headers of one sector of their ring.
HEADERS = SECTOR // HEADER
LIMIT = 2**62
# The least and the greatest value of each of a layout's five numbers, and what it is a multiple of.
LIMITS = {
    "Slots": (16, 1024, 16), "MessageSize": (4096, 1048576, 4096), "Clients": (1, 64, 1),
    "BlockSize": (4096, 524288, 4096), "Blocks": (8, 16384, 1),
}
SUPERBLOCK, WAL_HEADERS, WAL_PREPARES, CLIENT_REPLIES, GRID = (
    "Superblock", "WalHeaders", "WalPrepares", "ClientReplies", "Grid",
)


class Place(NamedTuple):
    """A copy, a slot of a ring, a session's place or a block's address."""

    zone: str
    index: int

    def __str__(self) -> str:
        return f"{self.zone} {self.index}"


class Layout(NamedTuple):
    """The five numbers of a file, and the places that follow from them. Offsets and lengths are bytes."""

    slots: int
    message_size: int
    clients: int
    block_size: int
    blocks: int

    def broken(self) -> Optional[tuple]:
        """The first number outside its limits, with its name."""
        for (name, (low, high, step)), value in zip(LIMITS.items(), self):
            if not low <= value <= high or value % step:
                return name, value
        return None

    def has(self, place: Place) -> bool:
        """Whether the layout has this place."""
        low, high = {
            SUPERBLOCK: (0, COPIES), WAL_HEADERS: (0, self.slots), WAL_PREPARES: (0, self.slots),
            CLIENT_REPLIES: (0, self.clients), GRID: (1, self.blocks + 1),
        }[place.zone]
        return low <= place.index < high

    def fits(self, zone: str) -> int:
        """The greatest size of a unit in a zone."""
        return self.block_size if zone == GRID else self.message_size

    def first(self) -> int:
        """The offset of the ring of prepares: after the copies and sixteen headers for each sector."""
        return SECTOR * (COPIES + self.slots // HEADERS)

    def at(self, place: Place) -> int:
        """The offset of a place."""
        zone, index = place
        start, length = {
            SUPERBLOCK: (0, SECTOR), WAL_HEADERS: (SECTOR * COPIES, HEADER), WAL_PREPARES: (self.first(), self.message_size),
            CLIENT_REPLIES: (self.end(), self.message_size), GRID: (self.grid() - self.block_size, self.block_size),
        }[zone]
        return start + length * index

    def header_sector(self, slot: int) -> int:
        """The offset of the sector that has a slot's header."""
        return SECTOR * (COPIES + slot // HEADERS)

    def place(self, op: int) -> int:
        """The offset of an op's slot in the ring of prepares."""
        return self.at(Place(WAL_PREPARES, op % self.slots))

    def end(self) -> int:
        """The offset of the end of the ring of prepares, where the reply slots begin."""
        return self.first() + self.message_size * self.slots

    def replies_end(self) -> int:
        """The offset of the end of the reply slots."""
        return self.end() + self.message_size * self.clients

    def grid(self) -> int:
        """The offset of the first block: the next multiple of a block's sectors."""
        return -(-self.replies_end() // self.block_size) * self.block_size

    def sectors(self) -> int:
        """The sectors of the whole file."""
        return (self.grid() + self.blocks * self.block_size) // SECTOR

    def body_max(self) -> int:
        """The bytes of the longest body of a prepare or a reply."""
        return self.message_size - HEADER

    def block_max(self) -> int:
        """The bytes of the longest body of a block, and of a trailer block but the last one."""
        return self.block_size - HEADER

    def line_max(self) -> int:
        """The bytes of the longest line of a script."""
        return 2 * max(self.message_size, self.block_size) + 64

    def word(self) -> str:
        """The five numbers with commas."""
        return ",".join(map(str, self))


SMALL = Layout(32, 8192, 4, 16384, 64)
LARGE = Layout(1024, 1048576, 64, 524288, 16384)
NAMED = {"small": SMALL, "large": LARGE}


class Home(NamedTuple):
    """The file that a unit belongs to: its layout and its cluster."""

    layout: Layout
    cluster: int


def check(data: bytes) -> bytes:
    """The checksum: the first 16 bytes of SHA-256."""
    return hashlib.sha256(data).digest()[:16]


def number(value: int) -> bytes:
    """A number of 16 bytes."""
    return value.to_bytes(16, "little")


def whole_sectors(data: bytes) -> bytes:
    """The bytes, filled with zeros up to the end of their last sector."""
    return data + bytes(-len(data) % SECTOR)


def part(data: bytes, start: int, length: int) -> bytes:
    """Bytes of a file, with zeros after its end."""
    piece = bytes(data[start : start + length])
    return piece + bytes(length - len(piece))


class Image:
    """The bytes of a file with whole sectors written over them. A slice has just the bytes asked for, zeros after the end."""

    def __init__(self, data: bytes):
        self.data, self.sectors = data, {}

    def write(self, at: int, data: bytes) -> None:
        for start in range(0, len(data), SECTOR):
            self.sectors[(at + start) // SECTOR] = data[start : start + SECTOR]

    def __getitem__(self, span: slice) -> bytes:
        first, last = span.start // SECTOR, -(-span.stop // SECTOR)
        whole = b"".join(self.sectors.get(at) or sector(self.data, at) for at in range(first, last))
        return whole[span.start - SECTOR * first : span.stop - SECTOR * first]


def sector(data: bytes, index: int) -> bytes:
    """One sector of a file."""
    return part(data, SECTOR * index, SECTOR)
