"""Headers and units as docs/FORMAT.md has them: what decodes, where a unit belongs, what a place shows, and the classes."""

import struct
from functools import lru_cache
from typing import NamedTuple, Optional, Union

from .form import (
    CLIENT_REPLIES, GRID, HEADER, LIMIT, WAL_HEADERS, WAL_PREPARES, Home, Layout, Place, check, number, part,
)

# checksum, checksum_body, cluster, parent, client, op, request, mark, checkpoint, size, slot, kind, block kind,
# version, boot, first and last op of the group, zero
FIELDS = struct.Struct("<16s16s16s16s16sQQQQIIBBHQQQ108s")
NAMES = (
    "checksum checksum_body cluster parent client op request mark checkpoint size slot kind block_kind version boot group "
    "group_last zero"
).split()
NOTHING = dict(zip(NAMES, FIELDS.unpack(bytes(HEADER))))
assert FIELDS.size == HEADER
RESERVED, PREPARE, REPLY, BLOCK, TRAILER = 1, 2, 3, 4, 5
EVERY = {"checksum", "checksum_body", "cluster", "size", "kind", "version"}
# The fields that version 2 has beside those of version 1.
LATER = {"boot", "group", "group_last"}
# The fields that each kind has beside those that every kind has. All others are zero.
NAMED = {
    RESERVED: {"slot"},
    PREPARE: {"parent", "client", "op", "request", "mark", "checkpoint", "slot"},
    REPLY: {"parent", "client", "op", "request", "mark", "checkpoint", "slot"},
    BLOCK: {"op", "block_kind"},
    TRAILER: {"parent", "op", "request", "mark", "checkpoint"},
}
NO_BYTES = bytes(16)
# A place that shows no unit has the text of its class in place of one.
BLANK, GARBLED, STALE = "Blank", "Garbled", "Stale"


def counter(value: int) -> bool:
    return 1 <= value <= LIMIT


def keeps_ranges(f: dict) -> bool:
    """The rules of a header's kind."""
    kind = f["kind"]
    if kind == RESERVED:
        return f["size"] == HEADER and f["checksum_body"] == check(b"")
    if kind == BLOCK:
        return f["op"] >= 1 and f["block_kind"] >= 1
    if kind == TRAILER:
        linked = f["mark"] != 0 or f["parent"] == NO_BYTES
        return f["op"] >= 1 and 2 <= f["checkpoint"] <= LIMIT and (f["request"] == 0) == (f["mark"] == 0) and linked
    told = f["client"] != NO_BYTES and counter(f["op"]) and counter(f["request"]) and counter(f["checkpoint"])
    if kind == PREPARE:
        return told and f["mark"] < f["op"] and (f["op"] != 1 or f["parent"] == NO_BYTES)
    return told and f["op"] <= f["mark"] <= LIMIT


def keeps_version(f: dict) -> bool:
    """The rules of a header's version: in version 1 there are no boots and no groups."""
    kind, boot, group, last = f["kind"], f["boot"], f["group"], f["group_last"]
    if f["version"] != 2:
        return f["version"] == 1 and boot == group == last == 0
    grouped = 1 <= group <= f["op"] <= last <= group + 7 if kind == PREPARE else group == last == 0
    return grouped and (boot == 0 if kind == RESERVED else counter(boot))


@lru_cache(maxsize=4096)
def decode(header: bytes) -> Optional[dict]:
    """The fields of 256 bytes, where they obey all that needs no layout."""
    f = dict(zip(NAMES, FIELDS.unpack(header)))
    if f["checksum"] != check(header[16:]) or f["kind"] not in NAMED or not keeps_version(f):
        return None
    others = set(NAMES) - EVERY - LATER - NAMED[f["kind"]]
    if any(f[name] != NOTHING[name] for name in others):
        return None
    return f if f["size"] >= HEADER and f["cluster"] != NO_BYTES and keeps_ranges(f) else None


def own_place(f: dict, zone: str, layout: Layout) -> Optional[Place]:
    """Where a header belongs that is read in this zone."""
    kind, slot = f["kind"], f["slot"]
    if kind == PREPARE and slot != f["op"] % layout.slots:
        return None
    if zone == WAL_HEADERS:
        place = Place(WAL_HEADERS, slot) if kind in (RESERVED, PREPARE) else None
    else:
        place = {
            RESERVED: None, PREPARE: Place(WAL_PREPARES, slot), REPLY: Place(CLIENT_REPLIES, slot),
            BLOCK: Place(GRID, f["op"]), TRAILER: Place(GRID, f["op"]),
        }[kind]
    return place if place and layout.has(place) else None


class Unit(NamedTuple):
    """A header that decodes, and its body."""

    header: bytes
    body: bytes

    def fields(self) -> dict:
        return decode(self.header)

    def field(self, name: str) -> int:
        """One field, as a number."""
        value = self.fields()[name]
        return int.from_bytes(value, "little") if isinstance(value, bytes) else value

    @property
    def kind(self) -> int:
        return self.fields()["kind"]

    @property
    def op(self) -> int:
        return self.fields()["op"]

    @property
    def mark(self) -> int:
        return self.fields()["mark"]

    @property
    def request(self) -> int:
        return self.fields()["request"]

    @property
    def boot(self) -> int:
        return self.fields()["boot"]

    def group(self) -> tuple:
        """The first and the last op of a prepare's group; one that names no group is alone."""
        f = self.fields()
        return f["group"] or f["op"], f["group_last"] or f["op"]

    def ends_group(self) -> bool:
        return self.group()[1] <= self.op

    @property
    def client(self) -> int:
        return self.field("client")

    @property
    def parent(self) -> bytes:
        return self.fields()["parent"]

    @property
    def checksum(self) -> bytes:
        return self.header[:16]

    def encode(self) -> bytes:
        return self.header + self.body


def seal(fields: dict, body: bytes = b"") -> bytes:
    """A header of these fields with right checksums, and the body after it."""
    fields = dict(fields, checksum_body=check(body))
    rest = FIELDS.pack(*(fields[name] for name in NAMES))[16:]
    return check(rest) + rest + body


def fields_of(home: Home, kind: int, body: bytes = b"", **others) -> dict:
    """The fields of a unit of this file in version 1, without its checksums; `in_boot` makes it one of version 2."""
    return dict(NOTHING, cluster=number(home.cluster), size=HEADER + len(body), kind=kind, version=1, **others)


def in_boot(f: dict, boot: int) -> dict:
    """The fields of the same unit in version 2 and this boot; a reserved header has none, and a prepare is a group by itself."""
    group = f["op"] if f["kind"] == PREPARE else 0
    return dict(f, version=2, boot=0 if f["kind"] == RESERVED else boot, group=group, group_last=group)


def made(f: dict, boot: int, body: bytes, group: Optional[tuple] = None) -> Unit:
    """The unit of these fields that is made in a boot; a prepare may be of the group with these ops."""
    fields = in_boot(f, boot)
    if group:
        fields["group"], fields["group_last"] = group
    return Unit(seal(fields, body)[:HEADER], body)


def prepare(home: Home, boot: int, parent: bytes, client: int, op: int, request: int, body: bytes, mark: int, checkpoint: int,
            group: Optional[tuple] = None) -> Unit:
    """A prepare, of the group with these ops, or of one by itself."""
    f = fields_of(home, PREPARE, body, parent=parent, client=number(client), op=op, request=request, mark=mark,
                  checkpoint=checkpoint, slot=op % home.layout.slots)
    return made(f, boot, body, group)


def reply(home: Home, boot: int, parent: bytes, session, place: int, body: bytes, mark: int, checkpoint: int) -> Unit:
    """The reply to the last request of the session at this place."""
    f = fields_of(home, REPLY, body, parent=parent, client=number(session.client), op=session.op, request=session.request,
                  mark=mark, checkpoint=checkpoint, slot=place)
    return made(f, boot, body)


def block(home: Home, boot: int, address: int, block_kind: int, body: bytes) -> Unit:
    """A block of the grid."""
    return made(fields_of(home, BLOCK, body, op=address, block_kind=block_kind), boot, body)


def trailer(home: Home, boot: int, address: int, before: Optional[Unit], index: int, sequence: int, piece: bytes) -> Unit:
    """The trailer block with this index, after the one before it."""
    linked = {"parent": before.checksum, "request": before.op} if before else {}
    return made(fields_of(home, TRAILER, piece, op=address, mark=index, checkpoint=sequence, **linked), boot, piece)


def reserved(home: Home, slot: int) -> bytes:
    """The reserved header of a slot, which is of no boot."""
    return seal(in_boot(fields_of(home, RESERVED, slot=slot), 0))


def read(raw: bytes, home: Home, place: Place) -> Union[Unit, str]:
    """What the bytes of a place show: a unit that is valid there, or the class of what stands there."""
    layout, zone = home.layout, place.zone
    header = raw[:HEADER]
    if not any(header):
        return BLANK
    f = decode(header)
    if f is None or f["cluster"] != number(home.cluster) or f["size"] > layout.fits(zone):
        return GARBLED
    body = b"" if zone == WAL_HEADERS else raw[HEADER : f["size"]]
    if zone != WAL_HEADERS and (len(body) != f["size"] - HEADER or f["checksum_body"] != check(body)):
        return GARBLED
    own = own_place(f, zone, layout)
    if own is None:
        return GARBLED
    return Unit(header, body) if own == place else f"Elsewhere {own}"


def length(place: Place, layout: Layout) -> int:
    """The bytes of a place, of a header slot its own alone."""
    return HEADER if place.zone == WAL_HEADERS else layout.fits(place.zone)


def shown(data: bytes, home: Home, place: Place) -> Union[Unit, str]:
    """What a place of a file shows."""
    return read(part(data, home.layout.at(place), length(place, home.layout)), home, place)


def known(what: Union[Unit, str], kind: int, checksum: bytes) -> bool:
    """Whether what is shown is the unit of this kind that has this checksum."""
    return isinstance(what, Unit) and what.kind == kind and what.checksum == checksum


def class_of(what: Union[Unit, str]) -> str:
    """The class of what isn't the unit wanted: a unit that is valid there is stale."""
    return STALE if isinstance(what, Unit) else what
