"""A program over two files, as a binary is run over one, and the tries of such a program."""

import argparse
import os
import tempfile
import time
from collections import Counter
from random import Random, SystemRandom
from typing import Callable, Optional

from . import arguments
from .binary import Binary, Disagreement, Result
from .common import Try


class Pair:
    """The program over two files in the folder of a binary."""

    def __init__(self, binary: Binary):
        self.binary = binary
        self.other = os.path.join(binary.folder, "other")

    def put(self, first: Optional[bytes], second: Optional[bytes]) -> None:
        """Makes the two files hold these bytes, or be absent."""
        self.binary.put(first)
        if os.path.lexists(self.other):
            os.unlink(self.other)
        if second is not None:
            with open(self.other, "wb") as file:
                file.write(second)

    def run(self, words: list) -> Result:
        return self.binary.call([self.binary.program, self.binary.path, self.other, *words], b"")

    def failing(self, words: list, rule: str) -> Result:
        """One run with this injection."""
        command = ["strace", "-f", "-s", "0", "-o", self.binary.log, "-e", f"inject={rule}"]
        return self.binary.call([*command, self.binary.program, self.binary.path, self.other, *words], b"")

    def get(self) -> tuple:
        """The bytes of both; None where one is absent."""
        second = None
        if os.path.exists(self.other):
            with open(self.other, "rb") as file:
                second = file.read()
        return self.binary.get(), second


def try_pairs(name: str, script: str, about: str, attempt: Callable) -> int:
    """Tries a program as its command line says, and prints what was tried, or the first disagreement."""
    parser = argparse.ArgumentParser(description=about)
    parser.add_argument("program", type=arguments.program, help=f"the built program {name}, or {name}.py")
    parser.add_argument("--seconds", type=arguments.seconds, default=60, help="how long to try (default 60)")
    parser.add_argument("--seed", type=int, help="the seed (default: a new one)")
    given = parser.parse_args()
    seed = SystemRandom().randrange(2**32) if given.seed is None else given.seed
    counts: Counter = Counter()
    start, number = time.monotonic(), 0
    print(f"seed {seed}", flush=True)
    with tempfile.TemporaryDirectory() as folder:
        binary = Binary(given.program, folder)
        try:
            while time.monotonic() - start < given.seconds:
                attempt(Try(Random(f"{seed} {number}"), binary, counts))
                number += 1
        except Disagreement as error:
            print(f"DISAGREEMENT, try {number}: {error}")
            print(f"again: python3 model/{script} {given.program} --seed {seed}")
            return 1
    for kind, count in sorted(counts.items()):
        print(f"{count:8} {kind}")
    print(f"{number} tries, {binary.runs} runs of the program, no disagreement, seed {seed}")
    return 0
