"""Tries of checkpoints: stops while blocks are loose, updates whose writes are lost, and trailers that are forged."""

from random import Random

from . import generate, generate_grid, recovery, script, trailer
from .binary import expect
from .common import Try, named, on_file, reopen, same_bytes, same_run, session
from .damage import look, outcome_of
from .forge_checkpoint import forge
from .forge_trailer import with_blocks, with_copies
from .form import LIMIT, SECTOR, Home
from .knows import knows
from .machine import Machine
from .superblock import Recorded
from .trailer import Checkpoint, Session
from .stops import Kept, stop

REFUSED = 4


def checkpoint_script(random: Random, m: Machine) -> list:
    """Lines with a checkpoint that is finished, with or without lines between them that make durable what is loose."""
    quiet, listed = random.random() < 0.6, []

    def tell(line) -> None:
        if line:
            listed.append(line)
            m.line(script.parse(line, m.layout))

    for _ in range(random.choice((0, 1, 2, 5))):
        tell(generate.good(random, m, 300))
    # A checkpoint that runs already is finished first.
    for _ in range(m.running.left() if m.running else 0):
        tell(b"step")
    makers = (generate_grid.block, generate_grid.block, generate_grid.release)
    for _ in range(random.choice((1, 2, 3, 6))):
        tell(random.choice(makers)(random, m))
    tell(generate_grid.begin(random, m))
    while m.running:
        tell(b"step")
        if not quiet or random.random() < 0.2:
            tell(generate.good(random, m, 300) if not quiet else random.choice(makers)(random, m))
    return listed + generate.script_of(random, m, random.choice((0, 1, 3)), 0)


def loose(t: Try) -> None:
    """A session with a checkpoint stopped after each of its events, with every sector that is loose as the stop chooses."""
    home = generate.home(t.random)
    data = generate.image(t.random, 12, home, 0.2)
    wanted = script.run(data, generate.text_of(t.random, checkpoint_script(t.random, generate.machine_of(data))))
    for upto in range(len(wanted.events) + 1):
        for number in range(3):
            kept = Kept(data)
            kept.takes(wanted, upto)
            image = stop(t, data, wanted.events, upto)
            kept.after(t, image)
            if number == 0 and t.random.random() < 0.3:
                # That the file is as it should be is shown by the model alone; of some the program is asked, too.
                t.binary.put(image)
                reopen(t, f"after {upto} events", kept.views, image)
    t.counts["sessions with a checkpoint stopped after each event"] += 1


# Which copies of an update are lost, as strace counts calls: from one to another, each or every second one.
LOST = {"0..0": (0,), "1..1": (1,), "2..2": (2,), "3..3": (3,), "0..1": (0, 1), "1..2": (1, 2), "2..3": (2, 3),
        "0..2": (0, 1, 2), "1..3": (1, 2, 3), "0..3": (0, 1, 2, 3), "0..2+2": (0, 2), "1..3+2": (1, 3)}


def lost(t: Try) -> None:
    """Writes of an update that the disk takes and doesn't do: with two of them the step finds damage, with one it is done."""
    home = generate.home(t.random)
    data = generate.image(t.random, 6, home, 0)
    text = generate.text_of(t.random, checkpoint_script(t.random, generate.machine_of(data)))
    wanted = script.run(data, text)
    first = [at for at, one in enumerate(wanted.events) if one.kind == "write" and one.at == 0]
    if not first:
        return
    at = t.random.choice(first)
    place = sum(one.kind == "write" for one in wanted.events[:at]) + 1
    spec, copies = t.random.choice(list(LOST.items()))
    low, high = spec.split("+")[0].split("..")
    rule = f"pwrite64:retval={SECTOR}:when={place + int(low)}..{place + int(high)}" + spec[len(f"{low}..{high}") :]
    t.binary.put(data)
    got, calls = t.binary.trace(text, [rule])
    what = f"copies {copies} of an update lost"
    injected = [call for call in named(on_file(t, calls)[0], "pwrite64") if call.injected]
    expect(f"{what}: calls that weren't done", len(copies), len(injected))
    left = [one for number, one in enumerate(wanted.events) if number not in [at + 2 * copy for copy in copies]]
    if len(copies) == 1:
        same_run(what, wanted, got)
        data = script.state(data, left)
    else:
        # The copies are those of before the update; the answer of the step is the refusal, and the last line.
        done = wanted.events[:at + 8]
        told = script.answers(done) + f"refused Damaged Superblock {copies[0]} Stale\n".encode()
        expect(f"{what}: text and status", (told, REFUSED), (got.text, got.status))
        data = script.state(data, [one for number, one in enumerate(done) if number not in [at + 2 * copy for copy in copies]])
    same_bytes(what, data, t.binary.get())
    session(t, f"{what}: the next run", data, look(t, data))
    t.counts[f"updates with {len(copies)} copies lost"] += 1


def trailers(t: Try) -> None:
    """Trailers with right checksums that break one rule, or just keep it."""
    home = generate.home(t.random)
    data = script.fresh(home)
    listed = checkpoint_script(t.random, generate.machine_of(data)) if t.random.random() < 0.9 else []
    data = script.run(data, generate.text_of(t.random, listed)).data
    if t.random.random() < 0.3:
        m = generate.machine_of(data)
        data = script.run(data, generate.text_of(t.random, generate_grid.burst(t.random, m))).data
    for _ in range(6):
        what, image = forge(t.random, data)
        t.counts[f"forged trailers: {what}"] += 1
        outcome_of(t, "files with forged trailers", image)
        t.binary.put(image)
        after = session(t, "forged trailers", image, look(t, image)).data
        session(t, "forged trailers, once more", after, generate.good_script(t.random, after, 3))


def near_limits(random: Random, home: Home) -> bytes:
    """A file whose ops, requests, sequence or boot come near the greatest ones; its one session waits for its reply."""
    slots = home.layout.slots
    op = random.choice((1, LIMIT, LIMIT - random.choice((0, 1, 2, slots - 1, slots, slots + 1, random.randint(0, 3 * slots)))))
    sequence = random.choice((2, LIMIT, LIMIT - 1, LIMIT - 2, LIMIT - 5))
    waits = Session(random.choice((5, 2**128 - 1)), random.choice((1, LIMIT, LIMIT - 1, LIMIT - 2)), op)
    one, boot = Checkpoint(sequence, op, random.randbytes(16), b"", (waits,)), random.choice((1, 2, LIMIT - 3, LIMIT - 2, LIMIT - 1))
    chain = trailer.sealed(home, boot, one.text(home.layout), list(range(1, 9)), sequence)
    one = one._replace(chain=tuple((block.op, block.checksum) for block in chain))
    state = Recorded(boot, op, one.op_checksum, op - 1)
    return with_copies(with_blocks(home, script.fresh(home), chain), one.content(home, state))


def limits(t: Try) -> None:
    """Sessions near the greatest op, request, sequence and boot."""
    home = generate.home(t.random)
    data = near_limits(t.random, home)
    t.binary.put(data)
    for number in range(t.random.randint(1, 4)):
        if recovery.found(data).refusal:
            session(t, "an open after the greatest boot", data, b"step\n")
            break
        m = generate.machine_of(data)
        # The next request of a client that is known, and the first one of a client that isn't; they may be the last ones.
        known = m.sessions[0]
        listed = [b"reply %d -" % m.head(), b"append %d %d -" % (known.client, (known.request + 1) % 2**64),
                  b"append %d 1 -" % generate.new_client(t.random, m), b"checkpoint -", b"step"]
        text = b"".join(line + b"\n" for line in t.random.sample(listed, len(listed)))
        text += (generate.any_script if t.random.random() < 0.3 else generate.good_script)(t.random, data)
        data = session(t, f"session {number + 1} near the limits", data, text).data
    t.counts["files near the limits"] += 1


# A program that knows no checkpoints isn't tried.
KINDS = {"loose": (loose, 5), "lost": (lost, 4), "trailers": (trailers, 8), "limits": (limits, 3)} if knows("blocks") else {}
