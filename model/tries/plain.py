"""The plain history of a file: what its lines came to, as docs/SCRIPT.md tells it, without a byte of the file.

A `Plain` stands in the place of a `Machine`, so that whatever drives that (scripts, paces, workloads, tables, notes) drives this. In place of what is
written its events have the states, one for each thing that is kept.
"""

from typing import NamedTuple, Optional, Union

from . import objects
from .form import GRID, Home, Layout, Place
from .grid import Event, answer
from .recovery import PIPELINE
from .trailer import CHECK, ROOT, SESSION


class Prepare(NamedTuple):
    """A request that was appended."""

    client: int
    request: int
    mark: int
    sequence: int
    body: bytes


class Reply(NamedTuple):
    """A reply that was stored."""

    mark: int
    sequence: int
    body: bytes


class Last(NamedTuple):
    """A client's last request, and the reply to it once that is stored."""

    client: int
    request: int
    op: int
    reply: Optional[Reply]


class State(NamedTuple):
    """What a file has: its checkpoint, whose blocks are pairs of kind and body by address, what was appended after it, and each client's last."""

    home: Home
    sequence: int = 1
    op: int = 0
    root: bytes = b""
    blocks: tuple = ()
    trailer: tuple = ()
    prepares: tuple = ()
    replies: int = 0
    sessions: tuple = ()

    def head(self) -> int:
        return self.op + len(self.prepares)

    def summary(self) -> list:
        """The lines of a summary."""
        return [
            f"cluster {self.home.cluster}", "layout " + " ".join(map(str, self.home.layout)), f"sequence {self.sequence}", f"checkpoint {self.op}",
            f"head {self.head()}", f"replies {self.replies}", f"sessions {len(self.sessions)}", f"references {len(self.blocks)}",
        ]

    def report(self) -> list:
        """The lines of a report before those of what is to be mended."""
        told = [*self.summary(), f"root {spelled(self.root)}"]
        for place, one in enumerate(self.sessions):
            state = "stored" if one.reply else "pending"
            told.append(f"session {place} client {one.client} request {one.request} op {one.op} {state}")
        return told

    def rests(self) -> bool:
        return self.op == self.head() == self.replies

    def moved(self, layout: Layout) -> "State":
        """The state of a copy of another layout: its blocks, and the trailer after them, stand at the least addresses."""
        blocks = tuple((number, one) for number, (_, one) in enumerate(self.blocks, 1))
        count = pieces(layout, self.root, self.sessions, blocks) if self.trailer else 0
        return self._replace(home=Home(layout, self.home.cluster), blocks=blocks, trailer=tuple(range(len(blocks) + 1, len(blocks) + 1 + count)))


class Running(NamedTuple):
    """A checkpoint that runs: what it captured, the addresses of its trailer, and how many of these are written."""

    op: int
    root: bytes
    blocks: tuple
    trailer: tuple
    written: int = 0


def spelled(data: bytes) -> str:
    return data.hex() or "-"


def pieces(layout: Layout, root: bytes, sessions: tuple, blocks) -> int:
    """How many blocks the trailer of such a checkpoint has."""
    size = 4 + len(root) + 4 + SESSION * len(sessions) + (layout.blocks + 7) // 8 + CHECK * len(blocks)
    return -(-size // layout.block_max())


class Plain:
    """An opened file of this state. Each line is a call that gives its answer, or nothing where it is refused."""

    reads = ()

    def __init__(self, state: State):
        self.state, self.layout, self.live = state, state.home.layout, dict(state.blocks)
        self.running: Optional[Running] = None
        self.staged: list = []
        self.last = self.checked = 0

    @property
    def durable(self) -> State:
        return self.state

    @property
    def sessions(self) -> tuple:
        return self.state.sessions

    @property
    def replies(self) -> int:
        return self.state.replies

    def head(self) -> int:
        return self.state.head()

    def view(self) -> State:
        return self.state

    def line(self, line: tuple) -> list:
        """The state that a line leaves, if that is another one, and its answer."""
        before, told = self.state, getattr(self, line[0])(*line[1:])
        return [Event("state", data=self.state)] * (self.state is not before) + [answer(told or "refused")]

    # ---- requests

    def is_next(self, client: int, request: int, body: bytes) -> bool:
        """Whether a request may be appended after what is staged."""
        known = {one.client: (one.request, one.reply is not None) for one in self.sessions} | {one: (number, False) for one, number, _ in self.staged}
        head = self.head() + len(self.staged)
        follows = known[client] == (request - 1, True) if client in known else request == 1 and len(known) < self.layout.clients
        room = head - self.replies < PIPELINE and head < self.state.op + self.layout.slots
        return client != 0 and len(body) <= self.layout.body_max() and follows and room

    def takes(self, requests: list) -> None:
        """These requests are appended together."""
        mark = self.replies
        for client, request, body in requests:
            state = self.state
            one = Last(client, request, state.head() + 1, None)
            others = [each.client for each in state.sessions]
            sessions = tuple(one if each.client == client else each for each in state.sessions) + (one,) * (client not in others)
            prepares = (*state.prepares, Prepare(client, request, mark, state.sequence, body))
            self.state = state._replace(prepares=prepares, sessions=sessions)

    def append(self, client: int, request: int, body: bytes) -> Optional[str]:
        if self.staged or not self.is_next(client, request, body):
            return None
        self.takes([(client, request, body)])
        return f"appended {self.head()}"

    def stage(self, client: int, request: int, body: bytes) -> Optional[str]:
        if not self.is_next(client, request, body):
            return None
        self.staged.append((client, request, body))
        return f"staged {self.head() + len(self.staged)}"

    def flush(self) -> Optional[str]:
        requests, self.staged = self.staged, []
        self.takes(requests)
        return f"flushed {len(requests)}" if requests else None

    def reply(self, op: int, body: bytes) -> Optional[str]:
        state = self.state
        if op != state.replies + 1 or op > state.head() or len(body) > self.layout.body_max():
            return None
        stored = Reply(state.head(), state.sequence, body)
        sessions = tuple(one._replace(reply=stored) if one.op == op else one for one in state.sessions)
        self.state = state._replace(replies=op, sessions=sessions)
        return f"replied {op}"

    # ---- blocks and checkpoints

    def known(self) -> set:
        """The addresses that have something, but for a trailer's that isn't written yet."""
        run = self.running
        captured = {*dict(run.blocks), *run.trailer[: run.written]} if run else set()
        return captured | {*self.live, *dict(self.state.blocks), *self.state.trailer}

    def free(self) -> list:
        held = self.known() | set(self.running.trailer if self.running else ())
        return [address for address in range(1, self.layout.blocks + 1) if address not in held]

    def block(self, kind: int, body: bytes) -> Optional[str]:
        free = self.free()
        if kind == 0 or len(body) > self.layout.block_max() or not free:
            return None
        self.live[free[0]] = kind, body
        return f"wrote {free[0]}"

    def release(self, address: int) -> Optional[str]:
        return f"released {address}" if self.live.pop(address, None) else None

    def checkpoint(self, root: bytes) -> Optional[str]:
        free, count = self.free(), pieces(self.layout, root, self.sessions, self.live)
        if self.running or len(root) > ROOT or count > len(free):
            return None
        self.running = Running(self.head(), root, tuple(sorted(self.live.items())), tuple(free[:count]))
        return f"begun {count}"

    def step(self) -> Optional[str]:
        run, state = self.running, self.state
        if run is None:
            return None
        if run.written < len(run.trailer):
            self.running = run._replace(written=run.written + 1)
            return f"working {len(run.trailer) - run.written}"
        self.state = state._replace(sequence=state.sequence + 1, op=run.op, root=run.root, blocks=run.blocks, trailer=run.trailer,
                                    prepares=state.prepares[run.op - state.op :])
        self.running = None
        return f"done {self.state.sequence}"

    # ---- reads

    def prepare(self, op: int) -> Optional[str]:
        if not self.state.op < op <= self.head():
            return None
        one = self.state.prepares[op - self.state.op - 1]
        return f"prepare {op} client {one.client} request {one.request} mark {one.mark} checkpoint {one.sequence} body {spelled(one.body)}"

    def lookup(self, client: int) -> Optional[str]:
        one = next((one for one in self.sessions if one.client == client and one.reply), None)
        return one and (f"reply {one.op} client {client} request {one.request} mark {one.reply.mark} checkpoint {one.reply.sequence} "
                        f"body {spelled(one.reply.body)}")

    def read(self, address: int) -> Optional[str]:
        if address not in self.live:
            return None
        kind, body = self.live[address]
        return f"block {address} kind {kind} body {spelled(body)}"

    def scrub(self) -> str:
        address = min((one for one in self.known() if one > self.last), default=None)
        if address is None:
            told = f"tour {self.checked}"
            self.last = self.checked = 0
            return told
        self.last, self.checked = address, self.checked + 1
        return f"checked {address} Sound"

    def recent(self) -> str:
        return "recent"


def rows_of(state: State) -> Union[dict, str]:
    """The table that these blocks and prepares are, or why they are none."""
    layout, rows = state.home.layout, {}
    for place, one in enumerate(state.sessions):
        if one.client != objects.CLIENT:
            return f"NotTable ClientReplies {place}"
    for number, (address, (_, body)) in enumerate(state.blocks):
        if number >= objects.blocks_of_table(layout) or not objects.take(rows, objects.rows_in(body), objects.most_rows(layout)):
            return f"NotTable {Place(GRID, address)}"
    for op, one in enumerate(state.prepares, state.op + 1):
        command = objects.command_in(one.body)
        if command is None or command[0] == "put" and objects.is_full(rows, command[1], objects.most_rows(layout)):
            return f"NotTable WalPrepares {op % layout.slots}"
        objects.apply(rows, command)
    return rows
