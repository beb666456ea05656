"""Tries of standard streams that are closed, full or of the wrong kind, and of paths that can't be a data file."""

import os
import resource

from . import generate, script
from .binary import expect
from .common import Try, reopen, same_bytes, same_run
from .plan import file_for
from .script import REFUSED, state
from .words import command

DISK, READ, WRITE = 5, 6, 7


def streams(t: Try) -> None:
    """Standard streams that are closed, full, of the wrong direction or a directory."""
    data = generate.image(t.random, 20, hurt=0.5) if t.random.random() < 0.9 else b""
    t.binary.put(data)
    text = generate.any_script(t.random, data)
    what = t.random.choice(("closed input", "directory input", "unreadable input", "closed output", "full output",
                            "unwritable output", "broken output", "all closed"))
    if what == "directory input" and t.binary.interpreted:
        return
    if what in ("closed input", "directory input", "unreadable input", "all closed"):
        got = run_without_input(t, what)
        # The open comes first, and what it refuses is printed.
        opened = script.run(data, b"")
        refused = opened.status == script.REFUSED
        printed = refused and what != "all closed"
        expect(f"{what}: status", (REFUSED if printed else WRITE) if refused else READ, got.status)
        expect(f"{what}: text", opened.text if printed else b"", got.text)
        data = opened.data
    else:
        wanted = script.run(data, text)
        first = next((at for at, event in enumerate(wanted.events) if event.kind == "answer"), None)
        got = run_without_output(t, what, text)
        expect(f"{what}: status", 0 if first is None else WRITE, got.status)
        data = state(data, wanted.events[:first])
    same_bytes(what, data, t.binary.get())
    reopen(t, what, [], data)
    t.counts[f"streams: {what}"] += 1


def format_without_output(t: Try) -> None:
    """`format` with an output that fails: status 7, and the file is made."""
    home = generate.home(t.random)
    data = t.random.choice((None, b"", script.fresh(home)))
    t.binary.put(data)
    words = ["format", home.layout.word(), str(home.cluster)]
    what = t.random.choice(("closed output", "full output", "unwritable output", "broken output"))
    got = run_without_output(t, what, b"", words)
    expect(f"format, {what}: status", WRITE, got.status)
    same_bytes(f"format, {what}", command(data, words).data, t.binary.get())
    t.counts[f"format: {what}"] += 1


def run_without_input(t: Try, what: str):
    if what == "closed input":
        return t.binary.run(None, stdin=None, before=lambda: os.close(0))
    if what == "all closed":
        got = t.binary.run(None, stdin=None, before=lambda: [os.close(fd) for fd in (0, 1)])
        return got
    path, mode = ("/", os.O_RDONLY) if what == "directory input" else (os.devnull, os.O_WRONLY)
    fd = os.open(path, mode)
    try:
        return t.binary.run(None, stdin=fd)
    finally:
        os.close(fd)


def run_without_output(t: Try, what: str, text: bytes, words=("run",)):
    if what == "closed output":
        return t.binary.run(text, words, before=lambda: os.close(1))
    if what == "broken output":
        read, write = os.pipe()
        os.close(read)
    else:
        write = os.open("/dev/full", os.O_WRONLY) if what == "full output" else os.open(os.devnull, os.O_RDONLY)
    try:
        return t.binary.run(text, words, stdout=write)
    finally:
        os.close(write)


def closing(closed: list, numbers: int = 0):
    """What a process does before the program starts: it closes these streams, and allows this many open files."""
    def before():
        for fd in closed:
            os.close(fd)
        if numbers:
            resource.setrlimit(resource.RLIMIT_NOFILE, (numbers, numbers))
    return before


def stand_ins(t: Try) -> None:
    """Streams are closed, and what would stand in for them can't be had, since the root folder is denied or no number is
    left: status 5, nothing printed, nothing touched. With all three open neither matters, but for the file's own number."""
    if t.binary.interpreted:
        return
    closed = t.random.sample((0, 1, 2), t.random.choice((0, 1, 1, 1, 2, 3)))
    words = t.random.choice((["run"], ["run"], ["format", "small", "7"]))
    data = file_for(t, words, 8)
    text = generate.good_script(t.random, data)
    t.binary.put(data)
    if t.random.random() < 0.5:
        what, sure = "the root folder is denied", not closed
        got = t.binary.denied("/", text, words, closing(closed))
    else:
        # One number at least is for the program's loader; a new file's folder is opened beside it.
        left = t.random.choice((1, 2)) if not closed else t.random.randint(len(closed), 3)
        what, sure = "no number is left", not closed and left == 2
        got = t.binary.run(text, words, before=closing(closed, 3 + left - len(closed)))
    what = f"{what}, {len(closed)} streams closed"
    if sure:
        wanted = command(data, words, text)
        same_run(what, wanted, got)
        same_bytes(what, wanted.data, t.binary.get())
    else:
        expect(f"{what}, {words}: status", DISK, got.status)
        expect(f"{what}, {words}: text", b"", got.text)
        same_bytes(what, data, t.binary.get())
    t.counts[f"streams: {what}"] += 1


def no_file(t: Try) -> None:
    """Paths that can't be a data file: status 5, nothing printed, the script unread. Cluster 0 is refused before that."""
    missing = os.path.join(t.binary.folder, "missing", "file")
    loop = os.path.join(t.binary.folder, "loop")
    if not os.path.lexists(loop):
        os.symlink(loop, loop)
    long = ("x" * 300, "/" + "y/" * 3000)
    path = t.random.choice(("", "/", t.binary.folder, missing, loop, "/dev/null/x", *long))
    source = os.path.join(t.binary.folder, "input")
    with open(source, "wb") as file:
        file.write(b"append 1 1 -\n")
    words = t.random.choice((["run"], ["format", "small", "7"], ["format", "16,4096,1,4096,8", "0"]))
    with open(source, "rb", buffering=0) as stdin:
        got = t.binary.run(None, words, path=path, stdin=stdin)
        expect("no data file: the script is unread", 0, stdin.seek(0, os.SEEK_CUR))
    zero = words[-1] == "0"
    expect(f"no data file at {path[:40]!r}, {words}: status", REFUSED if zero else DISK, got.status)
    expect("no data file: text", b"refused ClusterZero\n" if zero else b"", got.text)
    with open("/dev/full", "wb") as full:
        got = t.binary.run(b"", words=("walk",), path=path, stdout=full)
    expect("words without a meaning and a full output: status", WRITE, got.status)
    t.counts["paths without a data file"] += 1


KINDS = {
    "streams": (streams, 4), "format_without_output": (format_without_output, 2), "stand_ins": (stand_ins, 3),
    "no_file": (no_file, 2),
}
