"""The units of the file, for `reader.py`: where the places of each zone stand, headers, and what a place shows."""

import hashlib
from typing import NamedTuple, Optional

from reader_trailer import TOP, number

SECTOR, HEADER, COPIES = 4096, 256, 4
RESERVED, PREPARE, REPLY, BLOCK, TRAILER = 1, 2, 3, 4, 5
HEADS = {  # field of a header: offset and bytes
    "cluster": (32, 16), "parent": (48, 16), "client": (64, 16), "op": (80, 8), "request": (88, 8), "mark": (96, 8),
    "checkpoint": (104, 8), "size": (112, 4), "slot": (116, 4), "kind": (120, 1), "block_kind": (121, 1),
    "version": (122, 2), "boot": (124, 8), "group": (132, 8), "group_last": (140, 8),
}


class Zone(NamedTuple):
    """The places of a zone: the offset of the first, the bytes of each, the least index, and how many there are."""

    start: int
    length: int
    least: int
    count: int

    def at(self, index):
        return self.start + self.length * (index - self.least)


class Seen(NamedTuple):
    """What a place holds: a header with a right checksum that passes the tests of its kind, if one stands there; and where
    that isn't shown, the class of what is there and why."""

    header: Optional[dict]
    name: str = ""
    why: str = ""


def checksum(data):
    return hashlib.sha256(data).digest()[:16]


def bytes_at(file, at, size):
    """Bytes of the file, with zeros after its end."""
    return file[at : at + size].ljust(size, b"\0")


def zones_of(f):
    """The zones of the layout that a superblock's fields have."""
    headers = SECTOR * COPIES
    prepares = headers + HEADER * f["Slots"]
    replies = prepares + f["MessageSize"] * f["Slots"]
    grid = -(-(replies + f["MessageSize"] * f["Clients"]) // f["BlockSize"]) * f["BlockSize"]
    return {
        "Superblock": Zone(0, SECTOR, 0, COPIES), "WalHeaders": Zone(headers, HEADER, 0, f["Slots"]),
        "WalPrepares": Zone(prepares, f["MessageSize"], 0, f["Slots"]),
        "ClientReplies": Zone(replies, f["MessageSize"], 0, f["Clients"]), "Grid": Zone(grid, f["BlockSize"], 1, f["Blocks"]),
    }


def fields_at(raw):
    """What 256 bytes say, whether they are a header or not."""
    h = {name: number(raw, at, size) for name, (at, size) in HEADS.items()}
    h["checksum"], h["body_checksum"] = raw[:16], raw[16:32]
    return h


def fault_of_version(raw, h):
    """What is wrong with the bytes of a header by its version, if anything is: there are no boots and groups in version 1."""
    if h["version"] not in (1, 2):
        return f"the header has version {h['version']}"
    if any(raw[148:HEADER]) or (h["version"] == 1 and any(raw[124:148])):
        return "the header has bytes that should be zero"
    grouped = h["kind"] == PREPARE
    if h["version"] == 2 and not (h["boot"] == 0 if h["kind"] == RESERVED else 1 <= h["boot"] <= TOP):
        return f"the header has boot {h['boot']}"
    if h["version"] == 2 and grouped and not 1 <= h["group"] <= h["op"] <= h["group_last"] <= h["group"] + 7:
        return f"the header has the group {h['group']} to {h['group_last']}"
    return "" if grouped or h["group"] == h["group_last"] == 0 else "the header has a group, which its kind hasn't"


def header_of(raw):
    """The fields of a header that passes the tests of its kind, or None, and why it doesn't."""
    h = fields_at(raw)
    kind, op, mark = h["kind"], h["op"], h["mark"]
    counters = all(1 <= h[name] <= TOP for name in ("op", "request", "checkpoint"))
    if checksum(raw[16:HEADER]) != raw[:16]:
        return None, "the header's checksum is wrong"
    if fault_of_version(raw, h):
        return None, fault_of_version(raw, h)
    if h["size"] < HEADER or h["cluster"] == 0 or (kind != BLOCK and h["block_kind"]):
        return None, "the header's size, cluster or block kind is out of range"
    empty = not any(h[name] for name in ("parent", "client", "request", "mark", "checkpoint"))
    passes = {
        RESERVED: empty and op == 0 and h["size"] == HEADER and raw[16:32] == checksum(b""),
        PREPARE: counters and h["client"] and mark < op and (op > 1 or h["parent"] == 0),
        REPLY: counters and h["client"] and op <= mark <= TOP,
        BLOCK: empty and h["slot"] == 0 and op and h["block_kind"],
        TRAILER: op and 2 <= h["checkpoint"] <= TOP and h["client"] == 0 and h["slot"] == 0
        and (mark == 0) == (h["request"] == 0) and (mark or h["parent"] == 0),
    }.get(kind)
    return (h, "") if passes else (None, "the header breaks a rule of its kind")


def home_of(h, zone, f):
    """Where a header belongs that is read in this zone: a zone and an index; None where it belongs nowhere."""
    kind, inside = h["kind"], zone == "WalHeaders"
    if kind == RESERVED or inside:
        belongs, at = "WalHeaders" if inside and kind in (RESERVED, PREPARE) else None, h["slot"]
    else:
        belongs = {PREPARE: "WalPrepares", REPLY: "ClientReplies"}.get(kind, "Grid")
        at = h["op"] if belongs == "Grid" else h["slot"]
    if belongs is None or (kind == PREPARE and at != h["op"] % f["Slots"]):
        return None
    one = zones_of(f)[belongs]
    return (belongs, at) if one.least <= at < one.least + one.count else None


def look(file, f, zone, index):
    """What a place holds."""
    one = zones_of(f)[zone]
    raw = bytes_at(file, one.at(index), HEADER)
    if not any(raw):
        return Seen(None, "Blank", "its first 256 bytes are zeros")
    h, why = header_of(raw)
    if h is None:
        return Seen(None, "Garbled", why)
    if h["cluster"] != f["Cluster"]:
        return Seen(h, "Garbled", f"it is of cluster {h['cluster']}")
    if h["size"] > (f["MessageSize"] if zone == "WalHeaders" else one.length):
        return Seen(h, "Garbled", f"its {h['size']} bytes don't fit the place")
    h["body"] = b"" if zone == "WalHeaders" else bytes_at(file, one.at(index) + HEADER, h["size"] - HEADER)
    if zone != "WalHeaders" and checksum(h["body"]) != h["body_checksum"]:
        return Seen(h, "Garbled", "its body's checksum is wrong")
    home = home_of(h, zone, f)
    if home is None:
        return Seen(h, "Garbled", "it belongs to no place that this zone or this layout has")
    if home != (zone, index):
        return Seen(h, f"Elsewhere {home[0]} {home[1]}", "it belongs to another place")
    return Seen(h)


def shown(file, f, zone, index):
    """The unit that a place shows, with its body; or the name of the class of what is there."""
    seen = look(file, f, zone, index)
    return seen.name or seen.header
