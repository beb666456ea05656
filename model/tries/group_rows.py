"""Worked rows of `stage` and `flush`."""

from . import script
from .copy_rows import A5
from .form import SECTOR
from .worked import NEW, answers, at_rest, ops, struck

SESSION = ("""stage 1 1 aa
stage 2 1 -
stage 1 2 -
append 3 1 -
prepare 1
flush
flush
prepare 2
reply 1 -
stage 1 2 -
reply 2 -
flush
prepare 3
append 3 1 -
""", """staged 1
staged 2
refused ReplyPending op 1
refused Staged count 2
refused NotKept first 1 last 0
flushed 2
refused NothingStaged
prepare 2 client 2 request 1 mark 0 checkpoint 1 body -
replied 1
staged 3
replied 2
flushed 1
prepare 3 client 1 request 2 mark 2 checkpoint 1 body -
appended 4
""")
THREE = "".join(f"stage {client} 1 -\n" for client in range(1, 4)) + "flush\n"


def across(count: int) -> tuple:
    """A group of two whose headers lie in two sectors, after this many requests."""
    lines = f"stage 1 {count + 1} -\nstage 2 1 -\nflush\n"
    return ops(count) + lines, answers(count) + f"staged {count + 1}\nstaged {count + 2}\nflushed 2\n"


def stopped() -> bytes:
    """A flush of three empty bodies that was stopped before its first sync: the first prepare is lost, the others are left."""
    events = script.run(NEW, THREE.encode()).events
    first = next(at for at, event in enumerate(events) if event.at == 8 * SECTOR)
    return at_rest(script.state(NEW, events[: first + 3]), (8, A5))


def rows() -> list:
    """The file, the words, the script; the text and the status."""
    return [
        (NEW, "run", *SESSION, 0),
        # From one header sector to the next, and over the ring's end.
        (NEW, "run", *across(14), 0),
        (NEW, "run", *across(30), 0),
        (NEW, "run", "stage 1 1 -\n", "staged 1\n", 0),
        (struck(NEW, "stage 1 1 -\n"), "run", "prepare 1\nstage 1 1 -\n", "refused NotKept first 1 last 0\nstaged 1\n", 0),
        (struck(NEW, THREE, (8, A5)), "run", "", "refused Damaged WalPrepares 1 Garbled\n", 4),
        (stopped(), "run", "append 9 1 -\nprepare 2\n", "appended 1\nrefused NotKept first 1 last 1\n", 0),
    ]
