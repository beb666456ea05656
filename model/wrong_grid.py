"""The model's trailers and its lines of blocks and checkpoints for `imitation.py`, with the one bug that is named."""

from typing import Optional, Union

from tries import form, machine, recovery
from tries.bugs import has
from tries.form import COPIES, GRID, LIMIT, SECTOR, WAL_PREPARES, Place
from tries.grid import SYNC, Event, Running, answer
from tries.superblock import Recorded
from tries.trailer import Checkpoint, Session
from tries.units import BLOCK, NO_BYTES, PREPARE, TRAILER, Unit


class Rules(recovery.Rules):
    """The rules of a checkpoint that is read."""

    def asked(self, one: Unit, index: int, size: int, content) -> bool:
        f = one.fields()
        return all((
            f["mark"] == index or has("a trailer block's index isn't compared"),
            f["size"] == size or has("a trailer block's size isn't compared"),
            f["checkpoint"] == content.sequence or has("a trailer block's sequence isn't compared"),
            index == 0 or 1 <= f["request"] <= content.blocks or has("a chain may lead outside the grid"),
        ))

    def wanted(self, what: Union[Unit, str], checksum: bytes) -> bool:
        if isinstance(what, Unit) and has("a trailer block's checksum isn't compared"):
            return what.kind == TRAILER
        if isinstance(what, Unit) and has("a block may stand for a trailer block"):
            return what.checksum == checksum
        return super().wanted(what, checksum)

    def chain(self, shown, content):
        chain = super().chain(shown, content)
        # A chain is read once more, forwards.
        return chain if isinstance(chain, str) or has("a chain is read once") else [shown(one.op) for one in chain]

    def lawful(self, one: Session, before: list, op: int) -> bool:
        clients, ops = [other.client for other in before], [other.op for other in before]
        return all((
            one.client != 0 or has("a session of client 0 is taken"),
            1 <= one.request <= LIMIT or has("a session's request isn't tested"),
            1 <= one.op <= op or has("a session's op isn't tested"),
            one.client not in clients or has("two sessions of one client are taken"),
            one.op not in ops or has("two sessions of one op are taken"),
        ))

    def broken(self, text: bytes, layout: form.Layout, op: int) -> Optional[str]:
        why = super().broken(text, layout, op)
        word = why.split()[0] if why else ""
        skipped = {
            "TrailerRoot": "a root of any length is taken", "TrailerSessions": "any number of sessions is taken",
            "TrailerBits": "unused bits aren't tested", "TrailerEnd": "the end of a trailer isn't tested",
        }
        return None if word and has(skipped[word]) else why

    def contradiction(self, one: Checkpoint, replies: int) -> Optional[str]:
        why = super().contradiction(one, replies)
        if why and "TrailerChain" in why and has("a trailer may reference itself"):
            return super().contradiction(one._replace(chain=()), replies)
        return None if why and "Pending" in why and has("ops that wait for nobody are taken") else why

    def checkpoint(self, shown, content) -> Union[str, Checkpoint]:
        one = super().checkpoint(shown, content)
        if isinstance(one, str):
            return one
        if has("sessions of a trailer are forgotten"):
            one = one._replace(sessions=())
        return one._replace(references=()) if has("references of a trailer are forgotten") else one


class Machine(machine.Machine):
    """An opened file, in its lines of blocks and checkpoints."""

    late: Optional[Event] = None
    # What was looked at already.
    seen: Optional[Union[Unit, str]] = None

    def start(self, checkpoint: Checkpoint) -> None:
        super().start(checkpoint)
        if has("a parent after an open is zeros"):
            self.waiting = {op: NO_BYTES for op in self.waiting}

    def held(self) -> set:
        run, durable = self.running, self.durable
        listed = set(self.live)
        if not has("an address that the checkpoint references is given out"):
            listed |= set(dict(durable.references))
        if not has("an address of the checkpoint's trailer is given out"):
            listed |= set(dict(durable.chain))
        if run and not has("an address that is captured is given out"):
            listed |= set(run.references)
        if run and not has("an address of the running trailer is given out"):
            listed |= set(run.addresses)
        return listed

    def free(self) -> list:
        free = super().free()
        return free[::-1] if has("the greatest free address is given out") else free

    def block_refusal(self, kind: int, body: bytes) -> Optional[str]:
        why = super().block_refusal(kind, body)
        return None if why and why.startswith("BodyTooLong") and has("a long block is cut") else why

    def block(self, kind: int, body: bytes) -> list:
        body = body[: self.layout.block_max()] if has("a long block is cut") else body
        kind = kind or has("a block may have kind 0")
        events = super().block(kind, body)
        return [events[0], SYNC, events[1]] if len(events) > 1 and has("a block is synced") else events

    def release(self, address: int) -> list:
        if has("what isn't live may be released") and address not in self.live:
            return [answer(f"released {address}")]
        kept = self.live.get(address)
        events = super().release(address)
        if has("released blocks stay referenced") and kept and address in dict(self.durable.references):
            self.stays = getattr(self, "stays", {}) | {address: kept}
        return events

    def begin_refusal(self, root: bytes, pieces: list) -> Optional[str]:
        why = super().begin_refusal(root, pieces)
        if why and why.startswith("Running") and has("the last step isn't counted as left"):
            return f"Running left {self.running.left() - 1}"
        if why and why.startswith("Running") and has("a long root comes before one that runs") and len(root) > 1024:
            return "RootTooLong max 1024"
        return None if why and why.startswith("RootTooLong") and has("a root may be longer") else why

    def checkpoint(self, root: bytes) -> list:
        root = root[:1024] if has("a root may be longer") else root
        if has("released blocks stay referenced"):
            self.live |= getattr(self, "stays", {})
        events = super().checkpoint(root)
        if has("released blocks stay referenced"):
            self.live = {at: one for at, one in self.live.items() if at not in getattr(self, "stays", {})}
        return events

    def append_refusal(self, client: int, request: int, body: bytes) -> Optional[str]:
        why = super().append_refusal(client, request, body)
        run = self.running
        freed = why and why.startswith("WalFull") and run and run.op > self.durable.op
        return None if freed and has("the ring is free at the begin") else why

    def step(self) -> list:
        events = super().step()
        if has("a trailer block is synced") and events[0].kind == "write":
            return [events[0], SYNC, events[1]]
        if has("the update comes before the last trailer block") and self.running:
            if self.running.left() == 1:
                self.late = events[0]
                return events[1:]
        return events

    def finish(self, run: Running) -> list:
        if has("sessions are those at the last step"):
            run = run._replace(sessions=tuple(self.sessions))
        if has("the checkpoint's op has no checksum"):
            run = run._replace(op_checksum=NO_BYTES)
        events = super().finish(run)
        if has("waiting ops are forgotten at a checkpoint"):
            self.waiting = {op: NO_BYTES if op <= run.op else one for op, one in self.waiting.items()}
        if has("sequences rise by two"):
            self.durable = self.durable._replace(sequence=self.durable.sequence + 1)
        return self.update(events)

    def update(self, events: list) -> list:
        """The events of a last step, whose answer comes last."""
        content, told = self.durable.content(self.home, self.recorded()), events[-1]
        order = [3, 2, 1, 0] if has("an update goes from the last copy to the first") else [0, 1, 2, 3]
        order = order[: 3 if has("an update writes three copies") else COPIES]
        copies = [Event("write", SECTOR * copy, content.encode(copy)) for copy in order]
        if has("an update syncs once"):
            written = [*copies, SYNC]
        else:
            written = [event for copy in copies for event in (copy, SYNC)]
        first = [] if has("the last step isn't synced") else [SYNC]
        late = [self.late] if self.late else []
        self.late = None
        return [*first, *written, *late, told]

    def recorded(self) -> Recorded:
        state = super().recorded()
        if has("the superblock's head is the captured op"):
            op = self.durable.op
            state = state._replace(head=op, head_checksum=self.durable.op_checksum, replies=min(state.replies, op))
        if has("the superblock's replies are the head"):
            state = state._replace(replies=state.head)
        if has("the superblock names no head"):
            state = state._replace(head_checksum=self.durable.op_checksum)
        if has("the superblock names no replies"):
            state = state._replace(stored=())
        if has("the superblock names one reply less"):
            state = state._replace(stored=state.stored[:-1])
        return state

    def raised(self) -> list:
        if has("the boot is kept"):
            return self.copies()
        if has("the boot rises by two"):
            self.boot += 1
        return super().raised()

    def read(self, address: int) -> list:
        any_kind, any_block = has("a read takes a trailer block"), has("a read of a block doesn't look at the checksum")
        what = self.look(Place(GRID, address)) if address in self.live and (any_kind or any_block) else None
        self.seen = what
        if isinstance(what, Unit) and any_block and what.kind == BLOCK:
            self.live[address] = what.checksum
        if isinstance(what, Unit) and any_kind and what.kind == TRAILER:
            self.seen = None
            return [answer(f"block {address} kind 0 body {what.body.hex() or '-'}")]
        return super().read(address)

    def prepare(self, op: int) -> list:
        if has("a covered prepare is read") and 1 <= op <= self.durable.op:
            one = self.look(Place(WAL_PREPARES, op % self.layout.slots))
            self.seen = one
            if isinstance(one, Unit) and one.op == op:
                return self.told(PREPARE, one, Place(WAL_PREPARES, op % self.layout.slots))
            self.seen = None
        return super().prepare(op)
