"""Refuses the program's growths of memory one at a time, for each word.

    python3 model/growths.py crates/datafile/out/datafile [crates/df_growths/out/df_growths]

The first program carries the words out over a file, the second over a disk, a source and a sink in memory. The C library is told to ask
the kernel for each piece of memory by a call of its own, and strace refuses the Nth of these calls, for each N that there is. A growth
within a page of a piece needs no call, and isn't refused. Prints what came of them, in counts, or the first outcome that isn't allowed, with
status 1. It needs strace, and the C library of GNU. See docs/evidence/MODEL-TRIES.md.
"""

import os
import re
import subprocess
import sys
import tempfile

sys.dont_write_bytecode = True

from collections import Counter
from typing import NamedTuple, Optional

from tries.worked_growths import BEFORE, FACTS, HURT, SCRIPT, WORDS

WAIT = 120
# Each piece of memory is a map of its own. Without one the C library tries a break, and then a map of a mebibyte.
PIECES = {"GLIBC_TUNABLES": "glibc.malloc.mmap_threshold=1"}
CALL = re.compile(r"^\d+\s+(mmap|mremap|munmap)\(")
DONE, DISK_FAULT, WRITE_FAULT, MEMORY = 0, 5, 7, 8
REFUSED = (DISK_FAULT, WRITE_FAULT, MEMORY)


class Broken(Exception):
    """An outcome that isn't allowed."""


class Take(NamedTuple):
    """A call that takes memory: its name, and how many of each name there were before it."""

    name: str
    maps: int
    moves: int


class Outcome(NamedTuple):
    """What came of a run: its status, what it printed, the bytes of its input that it took, and its file."""

    status: int
    text: bytes
    taken: int
    file: Optional[bytes]


class Runs:
    """Runs of one program in a folder of its own, over a file there where it has one."""

    def __init__(self, program: str, folder: str):
        self.program = os.path.abspath(program)
        self.path = os.path.join(folder, "file")
        self.log = os.path.join(folder, "calls")
        self.input = os.path.join(folder, "input")
        self.count = 0

    def put(self, data: Optional[bytes]) -> None:
        """Makes the file hold these bytes, or be absent."""
        if os.path.exists(self.path):
            os.unlink(self.path)
        if data is not None:
            with open(self.path, "wb") as file:
                file.write(data)

    def get(self) -> Optional[bytes]:
        """The bytes of the file; None where it is absent."""
        if not os.path.exists(self.path):
            return None
        with open(self.path, "rb") as file:
            return file.read()

    def run(self, words: list, script: bytes = b"", rules: tuple = ()) -> Outcome:
        """One run under strace with these calls refused."""
        self.count += 1
        with open(self.input, "wb") as file:
            file.write(script)
        command = ["strace", "-f", "-s", "0", "-o", self.log, "-e", "trace=brk,mmap,mremap,munmap"]
        command += [word for rule in rules for word in ("-e", f"inject={rule}")] + [self.program, *words]
        with open(self.input, "rb", buffering=0) as stdin:
            kept = {"stdin": stdin, "stdout": subprocess.PIPE, "stderr": subprocess.PIPE}
            done = subprocess.run(command, timeout=WAIT, env={**os.environ, **PIECES}, **kept)
            taken = stdin.seek(0, os.SEEK_CUR)
        return Outcome(done.returncode, done.stdout, taken, self.get())

    def takes(self) -> list:
        """The calls of the last run that take memory, after those of the program's loader, which ends with the first unmapping."""
        found, counts, loaded = [], Counter(), False
        with open(self.log, encoding="utf-8", errors="replace") as log:
            for name in (match[1] for match in map(CALL.match, log) if match):
                if loaded and name != "munmap":
                    found.append(Take(name, counts["mmap"], counts["mremap"]))
                loaded = loaded or name == "munmap"
                counts[name] += 1
        return found


def refusing(take: Take) -> tuple:
    """What makes a take of memory fail: the call itself, and what the C library tries in its place."""
    rules = (f"mmap:error=ENOMEM:when={take.maps + 1}..{take.maps + 2}", "brk:retval=0:when=2+")
    return rules + (f"mremap:error=ENOMEM:when={take.moves + 1}",) if take.name == "mremap" else rules


def told(outcome: Outcome) -> tuple:
    """The facts that the program over memory tells, and what the words printed; nothing where it wasn't made ready."""
    match = FACTS.match(outcome.text)
    if outcome.status != 0 or match is None:
        return None, b""
    names = ("status", "events_before", "events", "unread", "script", "disk", "sink", "recovered")
    return dict(zip(names, map(int, match.groups()))), outcome.text[match.end() :]


def in_memory(words: list, plain: Outcome, got: Outcome) -> str:
    """Which allowed outcome this is, over the objects in memory: want of memory before anything was done, or a fault of the object whose
    growth was refused."""
    (wanted, text), (facts, printed) = told(plain), told(got)
    if facts is None:
        return "the try wasn't made ready, or its outcome not printed"
    if got.text == plain.text:
        return "nothing changed"
    if {**facts, "recovered": wanted["recovered"]} == wanted and printed == text and facts["recovered"] in REFUSED:
        return "the words as without it; the recovery after them was refused memory"
    status, made = facts["status"], words[0] != "format"
    if not text.startswith(printed):
        raise Broken("what was printed is no front of the text")
    if made and facts["recovered"] != DONE:
        raise Broken("the file isn't recovered")
    if facts["disk"] + facts["sink"] > 1:
        raise Broken("more than one growth was refused")
    if facts["disk"] == 1 and status == DISK_FAULT:
        return "a fault of the disk, which was refused"
    if facts["sink"] == 1 and status == WRITE_FAULT:
        return "a fault of the sink, which was refused"
    if facts["disk"] + facts["sink"] == 0 and status == MEMORY:
        untouched = facts["events"] == facts["events_before"] and facts["unread"] == facts["script"]
        if untouched and not printed:
            return "want of memory, with nothing written, printed or read"
    raise Broken(f"facts {facts}, where without a refusal they are {wanted}")


def over_file(words: list, plain: Outcome, got: Outcome, before: Optional[bytes]) -> str:
    """Which allowed outcome this is, over a file."""
    if got == plain:
        return "nothing changed"
    if got == Outcome(MEMORY, b"", 0, before):
        return "want of memory, with nothing written, printed or read"
    changed = "" if got.file == before else ", the file changed"
    raise Broken(f"{words}: status {got.status}, printed {got.text[:80]!r}, took {got.taken} bytes{changed}")


def each(runs: Runs, words: list, script: bytes, before: Optional[bytes], judge) -> Counter:
    """Refuses each take of memory of these words in turn."""
    runs.put(before)
    plain, counts = runs.run(words, script), Counter()
    takes = runs.takes()
    for number, take in enumerate(takes, 1):
        runs.put(before)
        got = runs.run(words, script, refusing(take))
        try:
            counts[judge(plain, got)] += 1
        except Broken as error:
            raise Broken(f"growth {number}, a call of {take.name}: {error}") from error
    return counts


def hurt_file(runs: Runs) -> bytes:
    """The file that the words are tried on: that of the program over memory."""
    runs.put(None)
    for words, script in ((["format", "small", "7"], b""), (["run"], BEFORE)):
        if runs.run([runs.path, *words], script).status != DONE:
            raise Broken("no file was made")
    data = bytearray(runs.get())
    for sector in HURT:
        data[4096 * sector : 4096 * sector + 4096] = b"\xa5" * 4096
    return bytes(data)


def over_memory(program: str, folder: str) -> None:
    runs = Runs(program, folder)
    for words in WORDS:
        show(words, each(runs, words, b"", None, lambda plain, got: in_memory(words, plain, got)))


def over_files(program: str, folder: str) -> None:
    runs = Runs(program, folder)
    data = hurt_file(runs)
    for words in WORDS:
        before = None if words[0] == "format" else data
        show(words, each(runs, [runs.path, *words], SCRIPT, before, lambda plain, got: over_file(words, plain, got, before)))


def show(words: list, counts: Counter) -> None:
    print(" ".join(words))
    for name, count in sorted(counts.items()):
        print(f"{count:8} {name}", flush=True)


def main() -> int:
    with tempfile.TemporaryDirectory() as folder:
        try:
            over_files(sys.argv[1], folder)
            for program in sys.argv[2:]:
                over_memory(program, folder)
        except Broken as error:
            print(f"NOT ALLOWED, {error}")
            return 1
    return 0


if __name__ == "__main__":
    sys.exit(main())
