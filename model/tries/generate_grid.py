"""Random lines of blocks and checkpoints, made for what a file holds."""

from random import Random
from typing import Optional

from . import trailer
from .form import Layout
from .knows import knows
from .machine import Machine

# Blocks are most often written where a file stays short: this many bytes of the grid, after this many before it.
GRID_BYTES, BEFORE = 2**21, 2**22
SIZES = (0, 0, 1, 2, 128, 3839, 3840, 3841, 5000, 16127, 16128)


def data_of(random: Random, most: int) -> bytes:
    """The bytes of a block or of a root, at most this many."""
    size = min(most, random.choice((*SIZES, most - 1, most, random.randint(0, most) if random.random() < 0.1 else 3)))
    return random.randbytes(size) if random.random() < 0.7 else bytes([random.getrandbits(8)]) * size


def root_of(random: Random) -> bytes:
    return random.randbytes(random.choice((0, 0, 1, 8, 8, 31, 1023, 1024, random.randint(0, 1024))))


def spelled(data: bytes) -> bytes:
    return data.hex().encode() or b"-"


def short(random: Random, m: Machine, count: int) -> bool:
    """Whether the file stays short where this many free addresses are taken; now and then it needn't."""
    free = m.free()
    if len(free) < count or random.random() < 0.01:
        return len(free) >= count
    layout: Layout = m.layout
    return layout.grid() <= BEFORE and free[count - 1] * layout.block_size <= GRID_BYTES


def needed(m: Machine, root: bytes) -> int:
    """How many trailer blocks a checkpoint would have now."""
    one = m.next_checkpoint(m.head(), m.last_checksum(), root, tuple(m.sessions), m.live)
    return len(trailer.pieces(one.text(m.layout), m.layout))


def begin(random: Random, m: Machine) -> Optional[bytes]:
    """The begin of a checkpoint that is accepted."""
    root = root_of(random)
    return b"checkpoint " + spelled(root) if not m.running and short(random, m, needed(m, root)) else None


def block(random: Random, m: Machine, most: Optional[int] = None) -> Optional[bytes]:
    """A block that is accepted."""
    if not short(random, m, 1):
        return None
    kind = random.choice((1, 1, 1, 2, 255, random.randint(1, 255)))
    return b"block %d %s" % (kind, spelled(data_of(random, m.layout.block_max())[:most]))


def release(random: Random, m: Machine) -> Optional[bytes]:
    return b"release %d" % random.choice(list(m.live)) if m.live else None


def good(random: Random, m: Machine, most: Optional[int] = None) -> Optional[bytes]:
    """A line of blocks or checkpoints that is accepted; None where there is none, or the program knows none."""
    if not knows("blocks"):
        return None
    if m.running and random.random() < 0.5:
        return b"step"
    what = random.random()
    if what < 0.45:
        return block(random, m, most)
    return release(random, m) if what < 0.65 else begin(random, m)


def reading(random: Random, m: Machine) -> Optional[bytes]:
    """A read of a block, most often of one that is live; and what the scrubber is asked."""
    if not knows("blocks"):
        return None
    if knows("reports") and random.random() < 0.5:
        return b"scrub" if random.random() < 0.8 else b"recent"
    near = [*m.live, *m.known()] if random.random() < 0.9 else []
    address = random.choice(near or [0, 1, m.layout.blocks, m.layout.blocks + 1, 2**64 - 1])
    return b"read %d" % address


def refused(random: Random, m: Machine) -> Optional[bytes]:
    """A line of blocks or checkpoints that is most often refused."""
    if not knows("blocks"):
        return None
    long, most = random.choice((0, 1)), m.layout.block_max()
    free = random.choice(m.free() or [1])
    return random.choice((
        b"block 0 -", b"block 0 " + b"00" * (most + long), b"block 1 " + b"00" * (most + long), b"block 1 -",
        b"release %d" % free, b"release %d" % random.choice((0, m.layout.blocks + 1, 2**64 - 1)), b"read %d" % free,
        b"release %d" % random.choice(list(m.known()) or [1]), b"checkpoint -", b"checkpoint " + b"00" * (1024 + long),
        b"checkpoint " + b"ab" * random.choice((1025, 2000)), b"step", b"read 0",
    ))


def burst(random: Random, m: Machine) -> list:
    """Many blocks and a checkpoint of them, so that its trailer has several blocks; where blocks are small."""
    if not knows("blocks") or m.layout.block_size > 4096 or m.layout.grid() > BEFORE:
        return []
    count = min(len(m.free()) - 3, random.choice((50, 100, 231, 232, 300)))
    root = random.choice((b"-", b"5a" * 1024))
    return [b"block 1 -"] * max(0, count) + [b"checkpoint " + root] + [b"step"] * random.choice((1, 2, 3, 4))


ODD = (
    b"block 01 -", b"block 256 -", b"block 1", b"block 1 0", b"block -1 -", b"block  1 -", b"block 1 - ", b"block 1 1 -",
    b"Block 1 -", b"block - -", b"block 255 -", b"block 0 0", b"release", b"release ", b"release -", b"release 01",
    b"release 1 -", b"release 18446744073709551616", b"release 18446744073709551615", b"released 1", b"checkpoint",
    b"checkpoint ", b"checkpoint 0", b"checkpoint 1 -", b"checkpoint - ", b"checkpoint -00", b"Checkpoint -", b"checkpoints -",
    b"step ", b" step", b"step 1", b"step -", b"Step", b"steps", b"step\r", b"step\0", b"read", b"read ", b"read -", b"read 01",
    b"read 1 -", b"read +1", b"Read 1", b"read 18446744073709551616", b"scrub ", b"scrub 1", b"Scrub", b"scrubs", b"recent ",
    b"recent 1", b"Recent", b"recently",
)
