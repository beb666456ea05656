"""Tries the built program against an independent model of its file and its words, that of docs/FORMAT.md and docs/SCRIPT.md.

    python3 model/model.py PATH-TO-datafile [--knows LEVEL] [--seconds N] [--seed N] [--kind NAME] ..

Prints what was tried, with counts, or the first disagreement and the command that tries it again. Ends with status 1
where the two disagree. See docs/evidence/MODEL-TRIES.md.
"""

import sys

sys.dont_write_bytecode = True

from tries import knows

# Worked rows and lines are made for what the program knows.
knows.take(sys.argv[1:])

import argparse
import subprocess
import tempfile
import time
from collections import Counter
from random import Random, SystemRandom

from tries import (
    arguments, budget, bugs, checkpoints, damage, doctoring, faults, formats, groups, hurt, lives, long, reading, reporting, rows, scripts,
    stops, streams, tables,
)
from tries.binary import Binary, Disagreement, has_strace
from tries.common import Try

PARTS = (rows, formats, scripts, damage, groups, hurt, lives, reading, stops, checkpoints, reporting, doctoring, streams, faults, tables,
         budget, long)
KINDS = {name: kind for part in PARTS for name, kind in part.KINDS.items()}
TRACED = {"killed", "long", "lost", "stand_ins", "fault_table", *faults.KINDS}


def words() -> argparse.Namespace:
    parser = argparse.ArgumentParser(description="Tries the built program against an independent model.")
    parser.add_argument("program", type=arguments.program, help="the built program datafile, or imitation.py")
    parser.add_argument("--seconds", type=arguments.seconds, default=60, help="how long to try (default 60)")
    parser.add_argument("--seed", type=int, help="the seed (default: a new one)")
    parser.add_argument("--kind", choices=sorted(KINDS), action="append", help="this kind alone; may be repeated")
    parser.add_argument(
        "--knows", choices=knows.LEVELS, default=knows.TODAY,
        help=f"the lines and words that the program knows (default {knows.TODAY})",
    )
    parser.add_argument("--first", type=arguments.at_least(0), default=0, help="the number of the first try")
    parser.add_argument(
        "--folder", type=arguments.folder, help="where the files stand (default: the folder for temporary files)"
    )
    given = parser.parse_args()
    bugs.refuse_unknown()
    if bugs.BUG and not given.program.endswith("imitation.py"):
        parser.error("BUG is set, which only imitation.py looks at")
    return given


def attempt(given, kinds: list, number: int, binary: Binary, counts: Counter) -> str:
    """One try: its kind and its random numbers follow from the seed and its number."""
    random = Random(f"{given.seed} {number}")
    kind = random.choices(kinds, [KINDS[name][1] or 1 for name in kinds])[0]
    try:
        KINDS[kind][0](Try(random, binary, counts))
    except (Disagreement, subprocess.TimeoutExpired, BrokenPipeError) as error:
        raise Disagreement(f"try {number}, {kind}: {error}") from error
    counts[f"tries: {kind}"] += 1
    return kind


def main() -> int:
    given = words()
    given.seed = SystemRandom().randrange(2**32) if given.seed is None else given.seed
    # A kind of weight 0 is tried only where it is named.
    kinds = [name for name in KINDS if name in (given.kind or ()) or (not given.kind and KINDS[name][1])]
    if not has_strace():
        print("strace isn't installed: the faults of single calls and the kills at calls aren't tried")
        kinds = [name for name in kinds if name not in TRACED]
    counts: Counter = Counter()
    start, number = time.monotonic(), given.first
    print(f"seed {given.seed}", flush=True)
    with tempfile.TemporaryDirectory(dir=given.folder) as folder:
        binary = Binary(given.program, folder)
        while time.monotonic() - start < given.seconds:
            try:
                attempt(given, kinds, number, binary, counts)
            except Disagreement as error:
                print(f"DISAGREEMENT, {error}")
                chosen = "".join(f" --kind {name}" for name in given.kind or ())
                bug = f'BUG="{bugs.BUG}" ' if bugs.BUG else ""
                known = "" if given.knows == knows.TODAY else f" --knows {given.knows}"
                print(f"again: {bug}python3 model/model.py {given.program}{known} --seed {given.seed} --first {number}{chosen}")
                return 1
            number += 1
    for name, count in sorted(counts.items()):
        print(f"{count:8} {name}")
    print(f"{number - given.first} tries, {binary.runs} runs of the program, no disagreement, seed {given.seed}")
    return 0


if __name__ == "__main__":
    sys.exit(main())
