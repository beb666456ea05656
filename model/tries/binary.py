"""Runs of the built program: plain, in pieces through a pipe, and under strace with calls that fail."""

import os
import re
import shutil
import subprocess
from typing import NamedTuple, Optional

WAIT = 120
TRACED = (
    "trace=openat,open,read,write,pread64,pwrite64,pwritev,writev,fdatasync,fsync,sync_file_range,ftruncate,brk,mmap,"
    "lseek,close"
)
LINE = re.compile(r"^\d+\s+(\w+)\((.*)\)\s+= (0x[0-9a-f]+|-?\d+|\?)(.*)$")


class Disagreement(Exception):
    """The program did something else than the model."""


def expect(what: str, wanted, got) -> None:
    """Fails where the two aren't equal."""
    if wanted != got:
        raise Disagreement(f"{what}: the model has {brief(wanted)}, the program {brief(got)}")


def require(what: str, holds: bool) -> None:
    """Fails where the fact doesn't hold."""
    if not holds:
        raise Disagreement(what)


def brief(value) -> str:
    text = repr(value)
    return text if len(text) < 300 else f"{text[:140]} .. {text[-140:]} ({len(value)} long)"


class Result(NamedTuple):
    """What one run printed, and its status."""

    text: bytes
    status: int


class Call(NamedTuple):
    """One system call: its name, which one of that name it is (from 1), its arguments and its result."""

    name: str
    number: int
    fd: Optional[int]
    args: list
    result: int
    injected: bool


class Binary:
    """The program over one file in a folder of its own."""

    def __init__(self, program: str, folder: str):
        self.program = os.path.abspath(program)
        # Of an interpreter nothing can be said about memory, nor about the files that it opens for itself.
        self.interpreted = program.endswith(".py")
        self.folder = folder
        self.path = os.path.join(folder, "file")
        self.log = os.path.join(folder, "calls")
        self.runs = 0

    def put(self, data: Optional[bytes]) -> None:
        """Makes the file hold these bytes, or be absent."""
        if os.path.lexists(self.path):
            os.unlink(self.path)
        if data is not None:
            with open(self.path, "wb") as file:
                file.write(data)

    def overwrite(self, data: bytes) -> None:
        """Makes the file that a process has open hold these bytes."""
        with open(self.path, "r+b") as file:
            file.truncate(len(data))
            file.write(data)

    def get(self) -> Optional[bytes]:
        """The bytes of the file; None where it is absent."""
        if not os.path.exists(self.path):
            return None
        with open(self.path, "rb") as file:
            return file.read()

    def run(self, text=b"", words=("run",), path=None, before=None, **streams) -> Result:
        """One run with this input. `streams` may name another standard input or output."""
        command = [self.program, self.path if path is None else path, *words]
        return self.call(command, text, before, streams)

    def call(self, command, text, before=None, streams=None) -> Result:
        """Runs a command to its end; its standard error must stay empty."""
        self.runs += 1
        kept = {"stdout": subprocess.PIPE, "stderr": subprocess.PIPE, **(streams or {})}
        given = {} if "stdin" in kept else {"input": text}
        try:
            done = subprocess.run(command, timeout=WAIT, preexec_fn=before, cwd=self.folder, **given, **kept)
        except subprocess.TimeoutExpired as error:
            raise Disagreement(f"the program doesn't end: {brief(command)}") from error
        require(f"standard error is empty, but holds {done.stderr!r}", not done.stderr)
        return Result(done.stdout or b"", done.returncode)

    def start(self) -> subprocess.Popen:
        """Starts a run with pipes at its standard input and output."""
        self.runs += 1
        pipe = subprocess.PIPE
        return subprocess.Popen(
            [self.program, self.path, "run"], stdin=pipe, stdout=pipe, stderr=pipe, cwd=self.folder, bufsize=0
        )

    def trace(self, text: bytes, inject=(), before=None, words=("run",)) -> tuple:
        """One run under strace with these injections: what it printed, and its calls. The input is a file."""
        source = os.path.join(self.folder, "input")
        with open(source, "wb") as file:
            file.write(text)
        rules = [word for rule in inject for word in ("-e", f"inject={rule}")]
        command = ["strace", "-f", "-s", "0", "-o", self.log, "-e", TRACED, *rules]
        command += [self.program, self.path, *words]
        with open(source, "rb") as stdin:
            result = self.call(command, None, before, {"stdin": stdin})
        return result, self.calls()

    def denied(self, path: str, text: bytes, words, before=None) -> Result:
        """One run, by strace, that may not open this path."""
        command = ["strace", "-f", "-o", self.log, "-P", path, "-e", "trace=openat", "-e", "inject=openat:error=EACCES"]
        return self.call([*command, self.program, self.path, *words], text, before)

    def calls(self) -> list:
        """The calls of the last traced run, from its start on."""
        found, counts = [], {}
        with open(self.log, encoding="utf-8", errors="replace") as log:
            for line in log:
                match = LINE.match(line.rstrip("\n"))
                if match is None:
                    # A call that the process didn't outlive has no result.
                    match = re.match(r"^\d+\s+(\w+)\(()()()", line)
                    if match is None:
                        continue
                name, inside, result, rest = match.groups()
                counts[name] = counts.get(name, 0) + 1
                found.append(call_of(name, counts[name], inside, result, "INJECTED" in rest))
        return found


def call_of(name: str, number: int, inside: str, result: str, injected: bool) -> Call:
    args = [word.strip() for word in inside.split(", ")]
    fd = re.match(r"^(\d+)", args[0])
    value = int(result, 0) if result not in ("", "?") else -1
    return Call(name, number, int(fd[1]) if fd else None, args, value, injected)


def has_strace() -> bool:
    return shutil.which("strace") is not None
