"""The bound of 2^32 bytes on a script. A try takes minutes, so that it is only made where it is asked for."""

import os
import subprocess

from . import form, script
from .binary import expect
from .common import Try, same_bytes

HOME = form.Home(form.SMALL, 7)
LINE = b"append 1 1 " + b"5a" * HOME.layout.body_max() + b"\n"
BLOCK = LINE * 200
# A client's request that waits for its reply.
REFUSED = b"refused ReplyPending op 1\n"


def tail_of(rest: int) -> bytes:
    """Lines of `rest` bytes in all, the last of them with its byte 10."""
    lines = b""
    while rest > len(LINE) + 100:
        lines += LINE
        rest -= len(LINE)
    if rest > len(LINE):
        lines += b"append 1 1 -\n"
        rest -= 13
    # The spelling of a body has an even number of digits; a request of two digits makes the length odd.
    request = b"1" if (rest - 12) % 2 == 0 else b"11"
    digits = rest - 11 - len(request)
    return lines + b"append 1 %s %s\n" % (request, b"0" * digits)


def budget(t: Try) -> None:
    """Scripts of just 2^32 bytes and of some more, each line of which is refused."""
    data = script.run(script.fresh(HOME), b"append 1 1 -\n").data
    cases = (
        (0, "just 2^32 bytes"), (1, "one byte more, a byte 10"), (-1, "2^32 bytes without a last byte 10"),
        (2, "2^32 bytes and a further line"),
    )
    for beyond, name in cases:
        t.binary.put(data)
        blocks = (script.BUDGET - 60000) // len(BLOCK)
        rest = script.BUDGET - blocks * len(BLOCK) + {0: 0, 1: 1, -1: 1, 2: 0}[beyond]
        tail = tail_of(rest)
        tail = tail[:-1] if beyond == -1 else tail + (b"append 2 2 -\n" if beyond == 2 else b"")
        good = blocks * 200 + len(script.lines(tail)) - (beyond in (1, 2))
        wanted = REFUSED * good + (b"script %d\n" % (good + 1) if beyond in (1, 2) else b"")
        text, status = feed(t, blocks, tail)
        expect(f"{name}: status", 3 if beyond in (1, 2) else 0, status)
        expect(f"{name}: text", wanted, text)
        same_bytes(name, data, t.binary.get())
        t.counts[f"scripts of {name}"] += 1


def feed(t: Try, blocks: int, tail: bytes) -> tuple:
    """Runs the program with this many blocks and then the tail as its input."""
    answers = os.path.join(t.binary.folder, "answers")
    t.binary.runs += 1
    with open(answers, "wb") as out:
        process = subprocess.Popen([t.binary.program, t.binary.path, "run"], stdin=subprocess.PIPE, stdout=out)
    try:
        for _ in range(blocks):
            process.stdin.write(BLOCK)
        process.stdin.write(tail)
        process.stdin.close()
    except BrokenPipeError:
        pass
    status = process.wait(120)
    with open(answers, "rb") as file:
        text = file.read()
    os.unlink(answers)
    return text, status


KINDS = {"budget": (budget, 0)}
