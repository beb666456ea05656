"""Random damage of superblock copies, and contents with right checksums that keep or break the field tests."""

from random import Random

from . import form, superblock
from .form import COPIES, LIMIT, LIMITS, SECTOR
from .superblock import Content, Recorded, naming

WORD = 2**64


def put(data: bytes, place: int, sector: bytes) -> bytes:
    """The file with another sector in the place of a copy."""
    at = SECTOR * place
    return data[:at] + bytes(max(0, at - len(data))) + sector + data[at + SECTOR :]


def damaged(random: Random, data: bytes, place: int) -> tuple:
    """What damage leaves in a copy's sector, with the name of the damage."""
    old = form.sector(data, place)
    name = random.choice(("random bytes", "equal bytes", "zeros", "another copy", "bit of the fields", "bit anywhere",
                          "checksum", "number", "bytes after the number", "half", "another content",
                          "zeros but a byte"))
    if name == "random bytes":
        return name, random.randbytes(SECTOR)
    if name == "equal bytes":
        return name, random.choice((b"\xa5", b"\xff", b"\1")) * SECTOR
    if name == "zeros":
        return name, bytes(SECTOR)
    if name == "zeros but a byte":
        at = random.choice((0, 255, 256, SECTOR - 1, random.randrange(SECTOR)))
        return name, bytes(at) + bytes([random.randint(1, 255)]) + bytes(SECTOR - 1 - at)
    if name == "another copy":
        return name, form.sector(data, (place + random.randint(1, 3)) % COPIES)
    if name in ("half", "another content"):
        half = SECTOR // 2
        content = superblock.seen(old, place)
        other = odd(random, content).encode(place) if isinstance(content, Content) else random.randbytes(SECTOR)
        return name, random.choice((old[:half] + other[half:], bytes(half) + old[half:])) if name == "half" else other
    image = bytearray(old)
    low, high = {"bit of the fields": (32, superblock.BEHIND), "bit anywhere": (0, SECTOR), "checksum": (0, 16),
                 "number": (16, 20), "bytes after the number": (20, 32)}[name]
    image[random.randrange(low, high)] ^= 1 << random.randrange(8)
    if name == "number" and random.random() < 0.7:
        image = bytearray(old[:16] + random.choice((0, 1, 2, 3, 4, 256)).to_bytes(4, "little") + old[20:])
    return name, bytes(image)


def hurt(random: Random, data: bytes) -> bytes:
    """The file with one or two of its copies damaged, and its choice kept."""
    for _ in range(20):
        struck = data
        for place in random.sample(range(COPIES), random.choice((1, 1, 2))):
            struck = put(struck, place, damaged(random, data, place)[1])
        if superblock.opened(struck).content == superblock.opened(data).content:
            return struck
    return data


def lawful(random: Random, c: Content) -> Content:
    """A content of the same file that an update may have left."""
    op = random.choice((0, 1, c.slots, LIMIT - c.slots, LIMIT))
    head = min(LIMIT, op + random.choice((0, 1, c.slots)))
    address = random.choice((1, c.blocks)) if op or random.random() < 0.3 else 0
    op_checksum = random.randbytes(16) if op else bytes(16)
    boot = random.choice((0, 1, c.boot, c.boot, c.boot, c.boot + 1, LIMIT - 1, LIMIT))
    state = Recorded(min(boot, LIMIT), head, op_checksum if head == op else random.randbytes(16), max(0, head - random.choice((0, 1, 8))))
    return c._replace(
        sequence=random.choice((1, 2, 3, LIMIT)), op=op, op_checksum=op_checksum, trailer_address=address,
        trailer_checksum=random.randbytes(16) if address else bytes(16),
        trailer_size=random.choice((1, superblock.greatest_trailer(c))) if address else 0,
    ).recording(state)


def edges(random: Random, c: Content) -> dict:
    """For each field of a content some values that break its test, or just keep it."""
    names = ("slots", "message_size", "clients", "block_size", "blocks")
    numbers = {
        name: (low - step, low, low + 1, high, high + 1, high + step, 0, 2**32 - 1)
        for name, (low, high, step) in zip(names, LIMITS.values())
    }
    marked = bytearray(len(c.behind))
    for _ in range(random.choice((1, 1, 3))):
        marked[random.choice((0, len(marked) - 1, random.randrange(len(marked))))] = random.randint(1, 255)
    odd_checks = (bytes(16), b"\1" + bytes(15), bytes(15) + b"\1", random.randbytes(16))
    greatest, spare = superblock.greatest_trailer(c), random.choice((0, min(63, c.clients), max(0, min(63, c.clients - 1)), 63))
    return {
        **numbers, "version": (0, 1, 9, 257, 2**32 - 1), "cluster": (0, 1, 2**128 - 1),
        "sequence": (0, 1, 2, LIMIT, LIMIT + 1, WORD - 1), "op": (0, 1, LIMIT, LIMIT + 1, WORD - 1, c.head + 1),
        "op_checksum": odd_checks, "head": (c.op, c.op - 1, c.op + c.slots, c.op + c.slots + 1, LIMIT, LIMIT + 1, WORD - 1),
        "replies": (c.head, c.head + 1, c.head - 8, c.head - 9, 0, WORD - 1),
        "trailer_address": (0, 1, c.blocks, c.blocks + 1, WORD - 1), "trailer_checksum": odd_checks,
        "trailer_size": (0, 1, greatest, greatest + 1, WORD - 1),
        "boot": (0, 1, c.boot + 1, LIMIT, LIMIT + 1, WORD - 1),
        "behind": (bytes(marked), naming(random.randbytes(16)), naming(c.op_checksum), naming(c.op_checksum, [(spare, odd_checks[1])])),
    }


def odd(random: Random, c: Content) -> Content:
    """A content like this one, with up to four fields at or over an edge."""
    c = lawful(random, c) if random.random() < 0.6 else c
    for _ in range(random.choice((0, 1, 1, 1, 2, 3, 4))):
        field, values = random.choice(list(edges(random, c).items()))
        value = random.choice(values)
        if isinstance(value, int):
            bits = {"version": 32, "cluster": 128}.get(field, 64 if field in Content._fields[7:] else 32)
            value %= 2**bits
        c = c._replace(**{field: value})
    return c


def forged(random: Random, data: bytes, contents: list) -> bytes:
    """The file with each copy one of these contents, most often at the place of its number."""
    for place in range(COPIES):
        if random.random() < 0.12:
            data = put(data, place, damaged(random, data, place)[1])
            continue
        number = place if random.random() < 0.9 else random.choice((0, 1, 2, 3, 4, 5, 2**32 - 1))
        data = put(data, place, random.choice(contents).encode(number))
    return data
