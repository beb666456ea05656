"""What all tries share: one try's random numbers, program and counts, and a run that is compared with the model."""

from collections import Counter
from random import Random
from typing import NamedTuple, Optional

from . import form, generate, recovery, script, units
from .binary import Binary, Result, expect, require
from .knows import knows
from .machine import Machine
from .words import command


class Try(NamedTuple):
    """One try: its random numbers, the program over its file, and the counts of what was tried."""

    random: Random
    binary: Binary
    counts: Counter


def same_bytes(what: str, wanted: Optional[bytes], got: Optional[bytes]) -> None:
    """The file has just these bytes; names the first sector that differs."""
    if wanted == got:
        return
    if wanted is None or got is None:
        expect(f"{what}: the file is there", wanted is not None, got is not None)
    size = max(len(wanted), len(got))
    for at in range(0, size, form.SECTOR):
        sectors = (form.part(data, at, form.SECTOR) for data in (wanted, got))
        expect(f"{what}: sector {at // form.SECTOR}", *sectors)
    expect(f"{what}: the length of the file", len(wanted), len(got))


def same_run(what: str, wanted: script.Outcome, got: Result) -> None:
    """The run printed the model's text and ended with its status."""
    expect(f"{what}: text", wanted.text, got.text)
    expect(f"{what}: status", wanted.status, got.status)


def asked(t: Try, what: str, data: Optional[bytes], words: list, text: bytes = b"") -> script.Outcome:
    """Runs words over the file, which holds `data`, and compares text, status and bytes with the model."""
    wanted = command(data, words, text)
    same_run(what, wanted, t.binary.run(text, words))
    same_bytes(what, wanted.data, t.binary.get())
    t.counts["runs that were as the model's"] += 1
    for line in wanted.text.decode().splitlines():
        # Of a refusal its name, of an answer its word.
        t.counts["answers: " + " ".join(line.split()[: 2 if line.startswith("refused") else 1])] += 1
    return wanted


def session(t: Try, what: str, data: Optional[bytes], text: bytes) -> script.Outcome:
    """The same for the word `run`."""
    return asked(t, what, data, ["run"], text)


def keeps(what: str, views: list, data: Optional[bytes]) -> None:
    """A file that a run, a stop or a fault left has one of these views; without any nothing is asked."""
    if views:
        found = recovery.found(data)
        require(f"{what}: the file opens, but is refused {found.refusal}", not found.refusal)
        heads = [(view.head(), view.replies) for view in views]
        got = (found.view.head(), found.view.replies)
        require(f"{what}: the file has {got} prepares and replies, and should have one of {heads}", found.view in views)
        bad = missing_blocks(data, found.view)
        require(f"{what}: each block of the checkpoint is there, but not those at {bad}", not bad)


def missing_blocks(data: bytes, view: recovery.View) -> list:
    """The addresses of the checkpoint's references and chain that don't show the block of their checksum."""
    def there(address: int, checksum: bytes) -> bool:
        one = units.shown(data, view.home, form.Place(form.GRID, address))
        return isinstance(one, units.Unit) and one.checksum == checksum
    listed = (*view.checkpoint.references, *view.checkpoint.chain)
    return [address for address, checksum in listed if not there(address, checksum)]


def reads_of(m: Machine, prepares: int) -> list:
    """Lines that read what is kept: this many of the last prepares, each client's reply, and each block up to twenty."""
    ops = range(max(m.durable.op + 1, m.head() + 1 - prepares), m.head() + 1)
    blocks = [b"read %d" % address for address in sorted(m.live)[:20]] if knows("blocks") else []
    return [b"prepare %d" % op for op in ops] + [b"lookup %d" % one.client for one in m.sessions] + blocks


def reopen(t: Try, what: str, views: list, data: Optional[bytes]) -> bytes:
    """Opens the file, which has one of these views, reads all that is kept and goes on with a few lines."""
    keeps(what, views, data)
    m = generate.machine_of(data)
    listed = reads_of(m, m.layout.slots if m.layout.message_size <= 16384 else 1)
    listed += generate.script_of(t.random, m, 2, 0.1)
    return session(t, what, data, generate.text_of(t.random, listed)).data


def on_file(t: Try, calls: list) -> tuple:
    """The calls from the opening of the data file on, without those on other open files; and the file's descriptor."""
    opened = [call for call in calls if call.name == "openat" and f'"{t.binary.path}"' in call.args[1]]
    if not opened or opened[-1].result < 0:
        return [call for call in calls if call.name == "write" and call.fd == 1], None
    start = calls.index(opened[0])
    fd = opened[-1].result
    any_file = ("openat", "fsync", "brk", "mmap")
    return [call for call in calls[start:] if call.fd in (0, 1, fd) or call.name in any_file], fd


def named(calls: list, name: str, fd: Optional[int] = None) -> list:
    """The calls of one name, on one descriptor where it is given."""
    return [call for call in calls if call.name == name and (fd is None or call.fd == fd)]
