"""Worked rows of blocks and checkpoints: sessions, stops within an update, and damage."""

from . import form, script, trailer_rows
from .binary import expect
from .copy_rows import A5, HOME, TOP, four
from .forge_trailer import forged, text_of
from .form import SECTOR, Home
from .grid import Event
from .worked import NEW, after, answers, ops, struck, torn, with_headers

MANY = Home(form.Layout(16, 4096, 1, 4096, 1024), 7)
DONE = "begun 1\nworking 1\ndone 2\n"
CHECKPOINT = "checkpoint -\nstep\nstep\n"
BLOCKS = ("block 1 aa\n" + CHECKPOINT + "release 1\nrelease 1\ncheckpoint -\ncheckpoint -\nblock 1 bb\nstep\nstep\nblock 1 cc\n"
          "read 4\nblock 0 -\n", "wrote 1\n" + DONE + "released 1\nrefused NotLive\nbegun 1\nrefused Running left 2\nwrote 4\n"
          "working 1\ndone 3\nwrote 1\nblock 4 kind 1 body bb\nrefused KindZero\n")
FIVE = "block 1 00\n" * 5
WROTE = "".join(f"wrote {address}\n" for address in range(1, 6))
FULL_RING = ops(32) + "append 1 33 -\n" + CHECKPOINT.replace("step\nstep\n", "append 1 33 -\nstep\nstep\n")
COVERED = (FULL_RING + "append 1 33 -\nprepare 32\nstep\n",
           answers(32) + "refused WalFull op 33 checkpoint_op 0\nbegun 1\nrefused WalFull op 33 checkpoint_op 0\n"
           "working 1\ndone 2\nappended 33\nrefused NotKept first 33 last 33\nrefused NotRunning\n")
WAITS = "append 1 1 -\nappend 2 1 -\nappend 3 1 -\nreply 1 -\n"
WAITED = "appended 1\nappended 2\nappended 3\nreplied 1\n"
BETWEEN = "append 1 1 -\nreply 1 -\ncheckpoint -\nstep\nappend 1 2 -\nstep\n"


def realistic() -> tuple:
    """200 ops of four clients with a checkpoint after each twenty, and what they answer."""
    lines, printed = [], []
    for op in range(1, 201):
        lines += [f"append {(op - 1) % 4 + 1} {(op - 1) // 4 + 1} " + f"{op % 256:02x}" * 2048, f"reply {op} 00"]
        printed += [f"appended {op}", f"replied {op}"]
        if op % 20 == 0:
            lines, printed = lines + ["checkpoint -"], printed + ["begun 1"]
        if op > 20 and op % 20 in (1, 2):
            lines, printed = lines + ["step"], printed + ["working 1" if op % 20 == 1 else f"done {op // 20 + 1}"]
    lines, printed = lines + ["step", "step"], printed + ["working 1", "done 11"]
    return "\n".join(lines), "\n".join(printed) + "\n"


def full(wrote: int, then: str, printed: str, home: Home = HOME) -> tuple:
    """A new file in which this many blocks are written."""
    told = "".join(f"wrote {address}\n" for address in range(1, wrote + 1))
    return script.fresh(home), "run", "block 1 -\n" * wrote + then, told + printed, 0


def waiting() -> bytes:
    """A checkpoint over three ops of which one is replied."""
    return after(WAITS + CHECKPOINT)


def stops() -> list:
    """The ring after a checkpoint, and stops within an update."""
    stopped = "append 1 1 -\ncheckpoint 01\nstep\nstep\n"
    old, new = torn(NEW, stopped, 1), torn(NEW, stopped, 2)
    three = after(ops(3) + CHECKPOINT + "append 1 4 -")
    earlier = NEW[: 4 * SECTOR] + three[4 * SECTOR :]
    loose = script.state(NEW, [Event("write", SECTOR * at, A5) for at in range(80, 100)])
    last = after(FULL_RING + "append 1 33 -\nreply 33 -\nappend 1 34 -\n")
    return [
        (NEW, "run", COVERED[0], COVERED[1], 0),
        # A prepare that is torn over one that a checkpoint covers.
        (torn(after(FULL_RING), "append 1 33 -", 8), "run", "prepare 32\nreply 33 -\nlookup 1\n",
         "refused NotKept first 33 last 32\nrefused NothingPending head 32\n"
         "reply 32 client 1 request 32 mark 32 checkpoint 1 body -\n", 0),
        # Stops within the update: at copy 1 the old superblock is chosen, at copy 2 the new one.
        (old, "run", "prepare 1\ncheckpoint 02\nstep\nstep\n",
         "prepare 1 client 1 request 1 mark 0 checkpoint 1 body -\n" + DONE, 0),
        (new, "run", "prepare 1\nstep\n", "refused NotKept first 2 last 1\nrefused NotRunning\n", 0),
        (earlier, "run", "", "refused Damaged Superblock 0 Stale\n", 4),
        # Five blocks stay loose until the last step: a stop before the trailer's write leaves none of them.
        (loose, "run", "read 1\nblock 1 00\n", "refused NotLive\nwrote 1\n", 0),
        # A ring whose slots are of two rounds.
        (struck(last, "", (4, A5)), "run", "prepare 34\nreply 34 -\n",
         "prepare 34 client 1 request 34 mark 33 checkpoint 2 body -\nreplied 34\n", 0),
        (struck(last, "", (8, A5)), "run", "", "refused Damaged WalPrepares 1 Garbled\n", 4),
        (struck(after(FULL_RING + "append 1 33 -\n"), "", (8, A5)), "run", "", "refused Damaged WalPrepares 1 Garbled\n", 4),
        # Superblocks at the end of their numbers.
        (forged(HOME, text_of(HOME), op=TOP, head=TOP, replies=TOP, op_checksum=A5[:16]), "run", "append 1 1 -\n",
         "refused OpsSpent\n", 0),
        (with_headers(four(sequence=TOP)), "run", "checkpoint -\n", "refused SequenceSpent\n", 0),
    ]


def blocks() -> list:
    """Blocks, their limits, and which addresses are free."""
    five = after(FIVE + CHECKPOINT)
    hurt = struck(five, "", (84, A5), (92, A5), (104, A5))
    return [
        (NEW, "run", BLOCKS[0], BLOCKS[1], 0),
        full(64, "block 1 -\ncheckpoint -\n", "refused GridFull blocks 64\nrefused GridFull needed 1 free 0\n"),
        full(231, "checkpoint -\n", "begun 1\n", MANY),
        full(232, "checkpoint -\nstep\nstep\nstep\n", "begun 2\nworking 2\nworking 1\ndone 2\n", MANY),
        (hurt, "run", "read 1\nread 2\nread 4\nread 6\n", "block 1 kind 1 body 00\nrefused Damaged Grid 2 Garbled\n"
         "refused Damaged Grid 4 Garbled\nrefused NotLive\n", 0),
        (five[: 300 * SECTOR], "run", "read 5\n", "block 5 kind 1 body 00\n", 0),
        # What counts against the limits.
        (NEW, "run", "block 1 " + "00" * 16128, "wrote 1\n", 0),
        (NEW, "run", "block 1 " + "00" * 16129, "refused BodyTooLong max 16128\n", 0),
        (NEW, "run", "block 0 " + "00" * 16129, "refused KindZero\n", 0),
        (NEW, "run", "block 256 -\n", "script 1\n", 3),
        (NEW, "run", "checkpoint " + "00" * 1024 + "\nstep\nstep\n", DONE, 0),
        (NEW, "run", "checkpoint " + "00" * 1025, "refused RootTooLong max 1024\n", 0),
        (NEW, "run", "checkpoint -\ncheckpoint " + "00" * 1025, "begun 1\nrefused Running left 2\n", 0),
        # Released blocks: of no checkpoint, of one that runs, and of one that is durable.
        (NEW, "run", "block 1 aa\nrelease 1\nblock 2 bb\nread 1\n", "wrote 1\nreleased 1\nwrote 1\nblock 1 kind 2 body bb\n", 0),
        (NEW, "run", "block 1 aa\ncheckpoint -\nrelease 1\nblock 1 bb\nread 1\nstep\nstep\nread 1\nblock 1 cc\n",
         "wrote 1\nbegun 1\nreleased 1\nwrote 3\nrefused NotLive\nworking 1\ndone 2\nrefused NotLive\nwrote 4\n", 0),
        (NEW, "run", "block 1 aa\ncheckpoint -\nblock 1 bb\nrelease 3\nblock 1 cc\n",
         "wrote 1\nbegun 1\nwrote 3\nreleased 3\nwrote 3\n", 0),
        (after("block 1 aa\ncheckpoint -\nrelease 1\nstep\nstep\n"), "run", "read 1\nrelease 1\nblock 1 bb\n" + CHECKPOINT +
         "block 1 cc\n", "block 1 kind 1 body aa\nreleased 1\nwrote 3\nbegun 1\nworking 1\ndone 3\nwrote 1\n", 0),
        # Blocks since the last checkpoint don't outlive a session.
        (after("block 1 aa\n" + CHECKPOINT + "block 1 bb\n"), "run", "read 3\nread 1\n",
         "refused NotLive\nblock 1 kind 1 body aa\n", 0),
        # The trailer's block is lost, at rest.
        (struck(five, "", (100, A5)), "run", "", "refused Damaged Grid 6 Garbled\n", 4),
        (struck(five, "", (100, 80)), "run", "", "refused Damaged Grid 6 Elsewhere Grid 1\n", 4),
    ]


def waits() -> list:
    """What waits or is appended while a checkpoint runs."""
    return [
        # Ops that wait at a checkpoint are replied after it, in that session or in a later one.
        (waiting(), "run", "prepare 3\nreply 1 -\nreply 2 bb\nlookup 2\nlookup 3\nappend 4 1 -\nreply 3 -\nreply 4 -\nlookup 4\n",
         "refused NotKept first 4 last 3\nrefused ReplyOrder expected 2\nreplied 2\n"
         "reply 2 client 2 request 1 mark 3 checkpoint 2 body bb\nrefused ReplyPending op 3\nappended 4\nreplied 3\nreplied 4\n"
         "reply 4 client 4 request 1 mark 4 checkpoint 2 body -\n", 0),
        (struck(waiting(), "", (10, A5), (4, A5)), "run", "reply 2 bb\nlookup 2\nreply 3 -\n",
         "replied 2\nreply 2 client 2 request 1 mark 3 checkpoint 2 body bb\nreplied 3\n", 0),
        (NEW, "run", WAITS + CHECKPOINT + "reply 2 bb\nlookup 2\n", WAITED + DONE + "replied 2\n"
         "reply 2 client 2 request 1 mark 3 checkpoint 2 body bb\n", 0),
        # What is appended while a checkpoint runs is in its superblock's head, so that its loss is noticed.
        (NEW, "run", BETWEEN, "appended 1\nreplied 1\nbegun 1\nworking 1\nappended 2\ndone 2\n", 0),
        (struck(NEW, BETWEEN, (4, A5), (10, A5)), "run", "", "refused Damaged WalPrepares 2 Garbled\n", 4),
    ]


def rows() -> list:
    """The file, the words, the script; the text and the status."""
    return [*stops(), *blocks(), *waits(), (NEW, "run", *realistic(), 0), *trailer_rows.rows()]


def events() -> None:
    """An open is the barrier, then each copy with a sync of its own; blocks and trailer blocks are one write each; the last step is a sync,
    then the copies as in the open."""
    copies = ["write", "sync"] * 4
    wanted = ["sync"] + copies + ["write"] * 6 + ["sync"] + copies
    ran = script.run(NEW, (FIVE + CHECKPOINT).encode())
    expect("the events of five blocks and a checkpoint", wanted, [one.kind for one in ran.events if one.kind != "answer"])
