"""The trailer of a checkpoint as docs/FORMAT.md has it: its text both ways, its chain of blocks, and why one is refused.

The rules are methods of `Trailers`, so that `imitation.py` can have one of them wrong.
"""

from typing import NamedTuple, Optional, Union

from . import superblock, units
from .form import HEADER, LIMIT, Home, Layout, number
from .superblock import Content, Recorded
from .units import NO_BYTES, TRAILER, Unit

# The bytes of the longest root, of a session in the text, and of a checksum.
ROOT, SESSION, CHECK = 1024, 32, 16


class Session(NamedTuple):
    """A client's last request, and the op that it has."""

    client: int
    request: int
    op: int


class Checkpoint(NamedTuple):
    """The durable checkpoint. References and chain are lists of an address and a checksum, in order of address and of index."""

    sequence: int
    op: int
    op_checksum: bytes
    root: bytes = b""
    sessions: tuple = ()
    references: tuple = ()
    chain: tuple = ()

    def text(self, layout: Layout) -> bytes:
        """The text of its trailer."""
        sessions = b"".join(number(one.client) + word(one.request, 8) + word(one.op, 8) for one in self.sessions)
        bits = sum(1 << (address - 1) for address, _ in self.references)
        checks = b"".join(checksum for _, checksum in self.references)
        front = word(len(self.root), 4) + self.root + word(len(self.sessions), 4) + sessions
        return front + word(bits, (layout.blocks + 7) // 8) + checks

    def content(self, home: Home, state: Recorded) -> Content:
        """The superblock that has it, with this recorded beside it."""
        address, checksum = self.chain[-1] if self.chain else (0, NO_BYTES)
        return superblock.first(home)._replace(
            sequence=self.sequence, op=self.op, op_checksum=self.op_checksum, trailer_address=address, trailer_checksum=checksum,
            trailer_size=len(self.text(home.layout)) if address else 0,
        ).recording(state)


def word(value: int, size: int) -> bytes:
    """A number of this many bytes."""
    return value.to_bytes(size, "little")


def number_at(text: bytes, at: int, size: int) -> int:
    return int.from_bytes(text[at : at + size], "little")


def pieces(text: bytes, layout: Layout) -> list:
    """The bodies of the trailer blocks."""
    cap = layout.block_max()
    return [text[at : at + cap] for at in range(0, len(text), cap)]


def sealed(home: Home, boot: int, text: bytes, addresses: list, sequence: int) -> list:
    """The trailer blocks of a text at these addresses, made in a boot."""
    chain: list = []
    for index, piece in enumerate(pieces(text, home.layout)):
        before = chain[-1] if chain else None
        chain.append(units.trailer(home, boot, addresses[index], before, index, sequence, piece))
    return chain


def session_at(text: bytes, at: int) -> Session:
    return Session(number_at(text, at, 16), number_at(text, at + 16, 8), number_at(text, at + 24, 8))


class Trailers:
    """The rules of a trailer that is read."""

    def wanted(self, what: Union[Unit, str], checksum: bytes) -> bool:
        """Whether what is shown is the trailer block with this checksum."""
        return units.known(what, TRAILER, checksum)

    def asked(self, one: Unit, index: int, size: int, content: Content) -> bool:
        """Whether a trailer block is the one that the chain asks for: its index, size and sequence, and where it leads."""
        f = one.fields()
        leads = index == 0 or 1 <= f["request"] <= content.blocks
        return f["mark"] == index and f["size"] == size and f["checkpoint"] == content.sequence and leads

    def chain(self, shown, content: Content) -> Union[str, list]:
        """The trailer blocks in order of index, walked back from the superblock's; or the first refusal."""
        cap = content.layout().block_max()
        address, checksum, chain = content.trailer_address, content.trailer_checksum, []
        for index in reversed(range(-(-content.trailer_size // cap))):
            one = shown(address)
            if not self.wanted(one, checksum):
                return f"Damaged Grid {address} {units.class_of(one)}"
            length = cap if chain else content.trailer_size - cap * index
            if not self.asked(one, index, HEADER + length, content):
                return f"BadField TrailerChain {address}"
            chain.insert(0, one)
            address, checksum = one.request, one.parent
        return chain

    def lawful(self, one: Session, before: list, op: int) -> bool:
        """Whether a session of the text may stand after those before it."""
        ranges = one.client != 0 and 1 <= one.request <= LIMIT and 1 <= one.op <= op
        return ranges and all(one.client != other.client and one.op != other.op for other in before)

    def broken(self, text: bytes, layout: Layout, op: int) -> Optional[str]:
        """The first failing part of a text, with its value."""
        size = len(text)
        root = number_at(text, 0, 4)
        if size < 4:
            return f"TrailerRoot {size}"
        if root > ROOT or 4 + root > size:
            return f"TrailerRoot {root}"
        if 4 + root + 4 > size:
            return f"TrailerSessions {size}"
        count, start = number_at(text, 4 + root, 4), 4 + root + 4
        if count > layout.clients:
            return f"TrailerSessions {count}"
        sessions: list = []
        for place in range(min(count, (size - start) // SESSION)):
            one = session_at(text, start + SESSION * place)
            if not self.lawful(one, sessions, op):
                return f"TrailerSessions {place}"
            sessions.append(one)
        if start + SESSION * count > size:
            return f"TrailerSessions {count}"
        return self.broken_references(text, start + SESSION * count, layout)

    def broken_references(self, text: bytes, start: int, layout: Layout) -> Optional[str]:
        """The first failing part of a text from the bits on, which begin at `start`."""
        end = start + (layout.blocks + 7) // 8
        if end > len(text):
            return f"TrailerBits {len(text)}"
        bits = number_at(text, start, end - start)
        if bits >> layout.blocks:
            return f"TrailerBits {end - 1}"
        return None if end + CHECK * bits.bit_count() == len(text) else f"TrailerEnd {len(text)}"

    def checkpoint(self, shown, content: Content) -> Union[str, Checkpoint]:
        """The checkpoint that a superblock names, where `shown` gives what an address shows; or the first refusal."""
        bare = Checkpoint(content.sequence, content.op, content.op_checksum)
        if content.trailer_address == 0:
            return bare
        chain = self.chain(shown, content)
        if isinstance(chain, str):
            return chain
        text, layout = b"".join(one.body for one in chain), content.layout()
        broken = self.broken(text, layout, content.op)
        if broken:
            return f"BadField {broken}"
        full = told(bare, text, layout)._replace(chain=tuple((one.op, one.checksum) for one in chain))
        return self.contradiction(full, content.replies) or full

    def contradiction(self, one: Checkpoint, replies: int) -> Optional[str]:
        """Why the parts of a checkpoint don't go together, beside this many replies: a block of the chain is referenced, or an op waits for
        nobody."""
        both = sorted({address for address, _ in one.chain} & {address for address, _ in one.references})
        if both:
            return f"BadField TrailerChain {both[0]}"
        ops = {session.op for session in one.sessions}
        waits = (op for op in range(replies + 1, one.op + 1) if op not in ops)
        return next((f"BadField Pending {op}" for op in waits), None)


def told(bare: Checkpoint, text: bytes, layout: Layout) -> Checkpoint:
    """A checkpoint with what the text of its trailer says."""
    root = text[4 : 4 + number_at(text, 0, 4)]
    start = 4 + len(root) + 4
    count = number_at(text, start - 4, 4)
    bits_at = start + SESSION * count
    end = bits_at + (layout.blocks + 7) // 8
    bits = number_at(text, bits_at, end - bits_at)
    addresses = [address for address in range(1, layout.blocks + 1) if bits >> (address - 1) & 1]
    checks = [text[at : at + CHECK] for at in range(end, len(text), CHECK)]
    sessions = tuple(session_at(text, start + SESSION * place) for place in range(count))
    return bare._replace(root=root, sessions=sessions, references=tuple(zip(addresses, checks)))
