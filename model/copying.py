"""Tries the built copy to another layout against an independent model of it, that of docs/FILECOPY.md.

    python3 model/copying.py PATH-TO-filecopy [--seconds N] [--seed N]

Random files, at rest and not, of random layouts, copied to others: what is printed, both files byte by byte, and that the copy has the source's state and goes on from it; copies of copies back to the first
layout; targets stopped at random moments; damaged sources, targets that aren't blank, words without a meaning, and calls that fail. Prints what was tried, or the first disagreement.
"""

import sys

sys.dont_write_bytecode = True

from typing import Optional

from tries import filecopies, form, generate, recovery, script, stops
from tries.binary import expect, has_strace, require
from tries.common import Try, same_bytes
from tries.form import SECTOR, Home, Layout
from tries.pairs import Pair, try_pairs

TINY = Layout(16, 4096, 1, 4096, 8)
DISK = 5
# No more calls of `pread64` than these are the loader's, before the program begins.
LOADER = 10
# The greatest file of a target that is compared byte by byte.
MOST = 2**26


def at_rest(t: Try, data: bytes) -> bytes:
    """The file with a reply to what waits, and a checkpoint."""
    m = generate.machine_of(data)
    listed = [b"reply %d %s" % (op, t.random.choice((b"-", b"ab", b"00" * 300))) for op in range(m.replies + 1, m.head() + 1)]
    while m.running is None and t.random.random() < 0.5:
        listed.append(b"block %d %s" % (t.random.randint(1, 255), t.random.choice((b"-", b"cd", b"ef" * 700))))
    listed += [b"step"] * 8 + [b"checkpoint %s" % t.random.choice((b"-", b"05", b"0102" * 200))] + [b"step"] * 80
    return script.run(data, b"".join(line + b"\n" for line in listed)).data


def source(t: Try) -> bytes:
    """A file, most often one at rest."""
    of = Home(t.random.choice((form.SMALL, TINY, Layout(16, 8192, 4, 4096, 40), generate.layout(t.random))), generate.cluster(t.random))
    data = generate.image(t.random, 24, of, 0.1)
    return at_rest(t, data) if t.random.random() < 0.9 else data


def layout(t: Try, data: bytes) -> Layout:
    """A layout to copy to: that of the file, one near it, or any."""
    own = generate.home_of(data).layout
    near = own._replace(
        slots=t.random.choice((16, own.slots, 64)), clients=t.random.choice((own.clients, min(64, own.clients + 1), 1)),
        message_size=t.random.choice((4096, own.message_size, 16384)), block_size=t.random.choice((4096, own.block_size, 32768)),
        blocks=t.random.choice((8, own.blocks, 9, 100)),
    )
    return t.random.choice((own, near, near, near, TINY, form.SMALL, generate.layout(t.random)))


def same(t: Try, what: str, data: Optional[bytes], target: Optional[bytes], words: list) -> filecopies.Copied:
    """One run over two files of these bytes: its text, its status and both files are the model's."""
    wanted = filecopies.command(data, target, words)
    pair = Pair(t.binary)
    pair.put(data, target)
    got = pair.run(words)
    expect(f"{what}: text", wanted.text, got.text)
    expect(f"{what}: status", wanted.status, got.status)
    one, two = pair.get()
    same_bytes(f"{what}: the source", wanted.data or None, one or None)
    same_bytes(f"{what}: the target", wanted.copy or None, two or None)
    t.counts["copies: " + " ".join(wanted.text.decode().split()[: 2 if wanted.text.startswith(b"refused") else 1])] += 1
    return wanted


def copies(t: Try) -> None:
    """A copy, and what goes on from it: its state is the source's, it may be copied back, and a script runs over it."""
    data = source(t)
    to = layout(t, data)
    wanted = same(t, "a copy", data, None, [to.word()])
    if wanted.status != filecopies.DONE:
        return
    why = filecopies.same_state(wanted.data, wanted.copy, to)
    require(f"the copy has the source's state: {why}", why is None)
    own = generate.home_of(data).layout
    back = same(t, "a copy of the copy, back", wanted.copy, None, [own.word()])
    if back.status == filecopies.DONE:
        why = filecopies.same_state(back.data, back.copy, own)
        require(f"and so has the copy's: {why}", why is None)
    text = stops.script_for(t, wanted.copy)
    ran = script.run(wanted.copy, text)
    require("a script goes on over the copy", ran.status in (script.DONE, script.SCRIPT))
    t.counts["copies that went on"] += 1


def stopped(t: Try) -> None:
    """The target of a copy, stopped at random moments: no file before the second copy of its superblock is there, and then the copy or a split quorum."""
    data = source(t)
    wanted = filecopies.run(data, None, layout(t, data))
    if wanted.status != filecopies.DONE or len(wanted.copy) > MOST:
        return
    writes = [at for at, event in enumerate(wanted.target, 1) if event.kind == "write" and event.at < 4 * SECTOR]
    for _ in range(12):
        upto = t.random.choice((t.random.randint(0, len(wanted.target)), t.random.choice(writes)))
        image = stops.stop(t, b"", wanted.target, upto)
        found = recovery.found(image)
        if upto < writes[0]:
            expect(f"after {upto} events", "NotFormatted", found.refusal)
        elif found.refusal is None:
            require("a stopped copy that is found is the copy", recovery.view_of(image) == recovery.view_of(wanted.copy))
            require("and its second copy was written", upto >= writes[1])
        else:
            require(f"a stopped copy is no file, or split: {found.refusal}", found.refusal == "NotFormatted" or found.refusal.startswith("NoQuorum"))
        t.counts["stops: " + (found.refusal or "the copy").split()[0]] += 1


def failing(t: Try) -> None:
    """A call fails: status 5, nothing is printed, and the target is no file or the copy."""
    data = source(t)
    to = layout(t, data)
    wanted = filecopies.run(data, None, to)
    pair = Pair(t.binary)
    pair.put(data, None)
    name = t.random.choice(("pwrite64", "fdatasync", "pread64"))
    events = wanted.source + wanted.target
    calls = sum(event.kind == {"pwrite64": "write", "fdatasync": "sync"}.get(name, "write") for event in events)
    first = t.random.randint(1, max(1, calls)) + (LOADER if name == "pread64" else 0)
    got = pair.failing([to.word()], f"{name}:error=EIO:when={first}+")
    if got.status == wanted.status and got.text == wanted.text:
        return
    expect("the status of a call that fails", DISK, got.status)
    expect("what is printed then", b"", got.text)
    image = pair.get()[1]
    found = recovery.found(image or b"")
    if found.refusal is None:
        require("a target that is found is the copy", recovery.view_of(image) == recovery.view_of(wanted.copy))
    t.counts[f"calls of {name} that failed"] += 1


def hurt(t: Try) -> None:
    """A source with a sector that is struck, or a target with bytes in it."""
    data = source(t)
    target = None
    if t.random.random() < 0.6:
        at = SECTOR * t.random.randrange(max(1, len(data) // SECTOR))
        data = script.state(data, [script.Event("write", at, t.random.choice((b"\xa5" * SECTOR, bytes(SECTOR))))])
    else:
        at = t.random.choice((0, 1, 2, 3, 4, 5, 40)) * SECTOR + t.random.randrange(SECTOR)
        target = bytes(at) + b"\1" + bytes(t.random.randrange(3 * SECTOR))
    same(t, "a hurt copy", data, target, [layout(t, data).word()])


def odd(t: Try) -> None:
    """Words without a meaning, and sources that aren't there."""
    words = t.random.choice(([], ["-"], ["small", "small"], ["16,4096,1,4096"], ["17,4096,1,4096,8"], ["016,4096,1,4096,8"], ["Small"], ["small"], ["large "]))
    same(t, "words", t.random.choice((None, b"", b"\xa5" * SECTOR, script.fresh(Home(TINY, 7)))), None, words)


def attempt(t: Try) -> None:
    """One try."""
    kind = t.random.random()
    if kind < 0.5:
        copies(t)
    elif kind < 0.7:
        stopped(t)
    elif kind < 0.85:
        hurt(t)
    elif kind < 0.95 and has_strace():
        failing(t)
    else:
        odd(t)


def main() -> int:
    return try_pairs("filecopy", "copying.py", "Tries the built copy to another layout against an independent model.", attempt)


if __name__ == "__main__":
    sys.exit(main())
