"""A program that is asked line by line, each line only once those before it are answered, and how long it takes to answer; and the yardstick
asked in the same way."""

import os
import subprocess
import time

from common import Ground, first_in_line
from tries.binary import Disagreement, expect, require


class Asked:
    """A process with a pipe at either end. It is killed where it hasn't ended by itself."""

    def __init__(self, command: list):
        pipe = subprocess.PIPE
        self.process = subprocess.Popen(command, stdin=pipe, stdout=pipe, bufsize=0, preexec_fn=first_in_line)
        self.lines = self.process.stdin

    def __enter__(self):
        return self

    def __exit__(self, *_) -> None:
        self.kill()

    def ask(self, lines: bytes, answers: int) -> tuple:
        """Writes these lines; gives the seconds until this many answers are there, and what they are."""
        start, text = time.perf_counter(), b""
        self.lines.write(lines)
        while text.count(b"\n") < answers:
            text += self.heard(lines, text)
        return time.perf_counter() - start, text

    def heard(self, lines: bytes, text: bytes) -> bytes:
        """What comes next, after what was answered before."""
        piece = self.process.stdout.read(65536)
        if not piece:
            raise Disagreement(f"the program ends, and leaves unanswered {lines[:80]!r} after {text[-200:]!r}")
        return piece

    def want(self, lines: bytes, answers: bytes) -> float:
        """The same, where just these answers are wanted: the seconds."""
        spent, text = self.ask(lines, answers.count(b"\n"))
        expect(f"the answers to {lines[:80]!r}", answers, text)
        return spent

    def end(self) -> None:
        """Has it end: there is no further line."""
        self.lines.close()
        require("the program ends", self.process.wait(60) == 0)

    def kill(self) -> None:
        self.process.kill()
        self.process.wait()
        for stream in (self.lines, self.process.stdout):
            stream.close()


class Planned(Asked):
    """The yardstick, whose plan waits for bytes of its script, and answers them. The script is a pipe."""

    def __init__(self, yardstick, ground: Ground, path: str, name: str, front=()):
        script, lines = os.pipe()
        with open(ground.path(name), "rb") as steps:
            command = [*front, yardstick.path, path, f"/dev/fd/{script}"]
            self.process = subprocess.Popen(
                command, stdin=steps, stdout=subprocess.PIPE, bufsize=0, preexec_fn=first_in_line, pass_fds=[script])
        os.close(script)
        self.lines = os.fdopen(lines, "wb", 0)

    def passed(self, lines: bytes, length: int) -> float:
        """Writes these bytes; gives the seconds until this many bytes of answers are there. What they are says nothing."""
        start, count = time.perf_counter(), 0
        self.lines.write(lines)
        while count < length:
            count += len(self.heard(lines, b""))
        return time.perf_counter() - start
