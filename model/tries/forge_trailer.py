"""Files whose superblock names a trailer that was made here, with right checksums, whatever its text and its links say."""

from typing import NamedTuple, Optional

from . import form, script, superblock, trailer, units
from .form import COPIES, HEADER, SECTOR, Home, Place
from .grid import Event
from .trailer import Checkpoint
from .units import Unit


def text_of(home: Home, root: bytes = b"", sessions=(), references=()) -> bytes:
    """The text of a trailer with these parts."""
    return Checkpoint(2, 0, bytes(16), root, tuple(sessions), tuple(references)).text(home.layout)


def changed(one: Unit, **fields) -> Unit:
    """A unit with some other fields, sealed again."""
    whole = units.seal(dict(one.fields(), **fields), one.body)
    return Unit(whole[:HEADER], one.body)


def with_copies(data: bytes, content: superblock.Content) -> bytes:
    """A file with four copies of a content."""
    return b"".join(content.encode(copy) for copy in range(COPIES)) + data[SECTOR * COPIES :]


class Link(NamedTuple):
    """What the next trailer block says of the one before it, whatever that one's own fields say."""

    op: int
    checksum: bytes


def address_of(one: Unit) -> int:
    """The address in a block's header, which needn't decode."""
    return int.from_bytes(one.header[80:88], "little")


def with_blocks(home: Home, data: bytes, blocks: list) -> bytes:
    """A file with these units, each at its address where the layout has that."""
    places = [(Place(form.GRID, address_of(one)), one) for one in blocks]
    return script.state(data, [Event("write", home.layout.at(place), form.whole_sectors(one.encode()))
                               for place, one in places if home.layout.has(place)])


def forged(home: Home, text: bytes, addresses=(1,), data: Optional[bytes] = None, links: Optional[dict] = None,
           **fields) -> bytes:
    """A file, a new one where none is given, with a trailer of this text in blocks at these addresses, and a superblock of
    sequence 2 that names it, whose head has the checksum of its op's prepare. `links` has other fields of the trailer blocks by index,
    `fields` those of the superblock."""
    chain: list = []
    for index, piece in enumerate(trailer.pieces(text, home.layout)):
        before = chain[-1] if chain else None
        one = units.trailer(home, 1, addresses[index], before, index, 2, piece)
        chain.append(changed(one, **(links or {}).get(index, {})))
    last = chain[-1]
    content = superblock.first(home)._replace(sequence=2, trailer_address=last.op, trailer_checksum=last.checksum,
                                              trailer_size=len(text))
    data = with_blocks(home, script.fresh(home) if data is None else data, chain)
    content = content._replace(**fields)
    return with_copies(data, content._replace(behind=superblock.naming(content.op_checksum)))
