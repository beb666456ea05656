"""What `reader.py`, which shares nothing with the model, reads of a file, as a state of the plain history."""

import reader

from .form import COPIES, GRID, SECTOR, Home, Layout, Place
from .plain import Last, Prepare, Reply, State


def read(data: bytes, version: int = 2) -> tuple:
    """The state that a file of these bytes has, and its boot, as `reader.py` reads them. A block that isn't shown is None."""
    found = reader.state_of(data, version=version)
    f = found["fields"]
    layout = Layout(*(f[name] for name in ("Slots", "MessageSize", "Clients", "BlockSize", "Blocks")))
    blocks = tuple((address, None if isinstance(one, str) else (one["block_kind"], one["body"])) for address, one in found["blocks"].items())
    prepares = tuple(Prepare(one["client"], one["request"], one["mark"], one["checkpoint"], one["body"]) for one in found["tail"])
    sessions = []
    for client, last in found["sessions"].items():
        one = found["replies"][client]
        stored = Reply(one["mark"], one["checkpoint"], one["body"]) if one["kind"] == reader.REPLY else None
        sessions.append(Last(client, last["request"], last["op"], stored))
    chain = tuple(sorted(address for address, _ in found["chain"]))
    state = State(Home(layout, f["Cluster"]), f["Sequence"], f["Op"], found["root"], blocks, chain, prepares, found["stored"], tuple(sessions))
    return state, f["Boot"]


def is_tidy(data: bytes) -> bool:
    """Whether nothing is to be mended: the four copies have one content, and the ring of headers has that of each prepare after the checkpoint."""
    found = reader.state_of(data)
    headers, slots = found["headers"], found["fields"]["Slots"]
    copies = [data[SECTOR * copy : SECTOR * (copy + 1)] for copy in range(COPIES)]
    there = all(not isinstance(headers[one["op"] % slots], str) and headers[one["op"] % slots]["checksum"] == one["checksum"] for one in found["tail"])
    return there and all(reader.is_copy(one) and one[32:] == copies[0][32:] and one[16] == copy for copy, one in enumerate(copies))


def sectors_of(layout: Layout, place: Place) -> range:
    """The sectors of a place."""
    first = layout.at(place) // SECTOR
    return range(first, first + max(1, layout.fits(place.zone) // SECTOR) if place.zone not in ("Superblock", "WalHeaders") else first + 1)


def is_read_as(state: State, found: State, hurt) -> bool:
    """Whether a file is read as this state; of a block whose place is hurt nothing is asked."""
    if found._replace(blocks=()) != state._replace(blocks=()) or len(found.blocks) != len(state.blocks):
        return False
    pairs = zip(state.blocks, found.blocks)
    return all(one[0] == two[0] and (one[1] == two[1] or two[1] is None and hurt(Place(GRID, one[0]))) for one, two in pairs)
