"""What the lines of blocks, checkpoints and the scrubber do to an opened file: answers, refusals, writes, and what is held."""

from typing import NamedTuple, Optional, Union

from . import form, trailer, units
from .form import COPIES, GRID, LIMIT, SECTOR, Place
from .trailer import ROOT, Checkpoint
from .units import BLOCK, Unit

# How many findings are kept.
FINDINGS = 64


class Event(NamedTuple):
    """One thing that the program does: a `sync`, a `write` to the file, or an `answer` on standard output."""

    kind: str
    at: int = 0
    data: bytes = b""


SYNC = Event("sync")


def answer(text: str) -> Event:
    """One line on standard output."""
    return Event("answer", data=text.encode() + b"\n")


def refused(text: str) -> list:
    return [answer(f"refused {text}")]


def copy_of(content, copy: int) -> list:
    """The events that write one copy."""
    return [Event("write", SECTOR * copy, content.encode(copy)), SYNC]


class Running(NamedTuple):
    """A checkpoint that runs: what it captured, its trailer's addresses and pieces, and the trailer blocks that are written."""

    op: int
    op_checksum: bytes
    root: bytes
    sessions: tuple
    references: dict
    addresses: list
    pieces: list
    written: list

    def left(self) -> int:
        """The steps that are still to come."""
        return len(self.addresses) - len(self.written) + 1


class Grid:
    """The part of an opened file that has to do with blocks. `live` has each live block's checksum by its address."""

    def start(self, checkpoint: Checkpoint) -> None:
        """What is kept in memory at an opening."""
        self.durable, self.live = checkpoint, dict(checkpoint.references)
        self.running: Optional[Running] = None
        self.last = self.checked = self.failing = 0
        self.findings: list = []

    def known(self) -> dict:
        """The checksum of each held address, but for trailer blocks that aren't written yet."""
        listed = dict(self.durable.chain) | dict(self.durable.references)
        if self.running:
            listed |= {one.op: one.checksum for one in self.running.written} | self.running.references
        return listed | self.live

    def held(self) -> set:
        """The addresses that aren't free."""
        return set(self.known()) | set(self.running.addresses if self.running else ())

    def free(self) -> list:
        """The free addresses in order."""
        held = self.held()
        return [address for address in range(1, self.layout.blocks + 1) if address not in held]

    def write_of(self, one: Unit) -> Event:
        """The write of a block, which is made durable later."""
        return Event("write", self.layout.at(Place(GRID, one.op)), form.whole_sectors(one.encode()))

    def block_refusal(self, kind: int, body: bytes) -> Optional[str]:
        """Why a block is refused: the first of these that holds."""
        if kind == 0:
            return "KindZero"
        if len(body) > self.layout.block_max():
            return f"BodyTooLong max {self.layout.block_max()}"
        return None if self.free() else f"GridFull blocks {self.layout.blocks}"

    def block(self, kind: int, body: bytes) -> list:
        """The block is written to the least free address, without a sync."""
        why = self.block_refusal(kind, body)
        if why:
            return refused(why)
        one = units.block(self.home, self.boot, self.free()[0], kind, body)
        self.live[one.op] = one.checksum
        return [self.write_of(one), answer(f"wrote {one.op}")]

    def release(self, address: int) -> list:
        """The address isn't live any more."""
        if address not in self.live:
            return refused("NotLive")
        del self.live[address]
        return [answer(f"released {address}")]

    def begin_refusal(self, root: bytes, pieces: list) -> Optional[str]:
        """Why no checkpoint begins: the first of these that holds."""
        free = len(self.free())
        if self.running:
            return f"Running left {self.running.left()}"
        if len(root) > ROOT:
            return f"RootTooLong max {ROOT}"
        if len(pieces) > free:
            return f"GridFull needed {len(pieces)} free {free}"
        return "SequenceSpent" if self.durable.sequence == LIMIT else None

    def checkpoint(self, root: bytes) -> list:
        """A checkpoint captures what is there, and takes the least free addresses for its trailer."""
        captured = self.next_checkpoint(self.head(), self.last_checksum(), root, tuple(self.sessions), self.live)
        pieces = trailer.pieces(captured.text(self.layout), self.layout)
        why = self.begin_refusal(root, pieces)
        if why:
            return refused(why)
        self.running = Running(captured.op, captured.op_checksum, root, captured.sessions, dict(self.live),
                               self.free()[: len(pieces)], pieces, [])
        return [answer(f"begun {len(pieces)}")]

    def next_checkpoint(self, op: int, op_checksum: bytes, root: bytes, sessions: tuple, references: dict) -> Checkpoint:
        """The checkpoint with this capture."""
        return Checkpoint(self.durable.sequence + 1, op, op_checksum, root, sessions, tuple(sorted(references.items())))

    def step(self) -> list:
        """The next trailer block is written without a sync; or, as the last step, one sync and the four copies."""
        run = self.running
        if run is None:
            return refused("NotRunning")
        index = len(run.written)
        if index == len(run.addresses):
            return self.finish(run)
        before = run.written[-1] if index else None
        sequence = self.durable.sequence + 1
        one = units.trailer(self.home, self.boot, run.addresses[index], before, index, sequence, run.pieces[index])
        run.written.append(one)
        return [self.write_of(one), answer(f"working {run.left()}")]

    def finish(self, run: Running) -> list:
        """The last step. The tail loses what the checkpoint covers, and what the earlier one alone held is free."""
        chain = tuple((one.op, one.checksum) for one in run.written)
        done = self.next_checkpoint(run.op, run.op_checksum, run.root, run.sessions, run.references)._replace(chain=chain)
        self.tail = self.tail[run.op - self.durable.op :]
        self.durable, self.running = done, None
        return [SYNC, *self.copies(), answer(f"done {done.sequence}")]

    def copies(self) -> list:
        """The events that write the superblock, which records the state as it is; its copies are read back."""
        self.reads += [SECTOR * copy for copy in range(COPIES)]
        content = self.durable.content(self.home, self.recorded())
        return [event for copy in range(COPIES) for event in copy_of(content, copy)]

    def read(self, address: int) -> list:
        """A live block is read."""
        if address not in self.live:
            return refused("NotLive")
        place = Place(GRID, address)
        what = self.look(place)
        if not units.known(what, BLOCK, self.live[address]):
            return refused(f"Damaged {place} {units.class_of(what)}")
        return [answer(f"block {address} kind {what.fields()['block_kind']} body {what.body.hex() or '-'}")]

    def verdict(self, address: int, checksum: bytes) -> Optional[str]:
        """The class of a referenced block that isn't there as it should be. Any kind of unit may have the checksum."""
        what: Union[Unit, str] = self.look(Place(GRID, address))
        sound = isinstance(what, Unit) and what.checksum == checksum
        return None if sound else units.class_of(what)

    def scrub(self) -> list:
        """The next referenced block of the tour is checked; or the tour ends, and the next one begins."""
        known = self.known()
        address = min((one for one in known if one > self.last), default=None)
        if address is None:
            told = f"tour {self.checked} {self.failing}"
            self.last = self.checked = self.failing = 0
            return [answer(told)]
        found = self.verdict(address, known[address])
        self.last, self.checked = address, self.checked + 1
        if found:
            self.failing += 1
            self.findings = (self.findings + [(address, found)])[-FINDINGS:]
        return [answer(f"checked {address} {found or 'Sound'}")]

    def recent(self) -> list:
        """The last findings, oldest first."""
        return [answer(" ".join([f"recent {len(self.findings)}", *(f"{at} {name}" for at, name in self.findings)]))]
