"""Tries all five built programs over one file, in random order, against one plain history of it.

    python3 model/together.py FOLDER [--seconds N] [--seed N] [--first N]

FOLDER has the programs as `crates` does once they are built (NAME/out/NAME), or by their names alone; in `model` they are those in Python. For `-`
the model stands in their place, which tries the plain history alone, in many lives. Each try is the life of a file: made by `datafile` or by `notes`, or of
version 1 and upgraded. Runs of the programs follow one another, ended at random moments, with what wasn't synced kept, lost or torn, and sectors hurt
between them. Prints what was tried, or the first disagreement and the command that tries it again. See docs/evidence/MODEL-TRIES.md.
"""

import sys

sys.dont_write_bytecode = True

import argparse
import os
import subprocess
import tempfile
import time
from collections import Counter
from random import Random, SystemRandom

import reader
import table
from tries import arguments, form, generate, noting, objects, olden, plain, plain_read, plan, reports, script, stops
from tries.binary import Disagreement, expect, require
from tries.common import Try, reads_of, same_bytes
from tries.form import Home
from tries.plain import State
from tries.together import NAMES, Built, Life, Stand, run, told_of
from tries.together_two import LAYOUTS, copy, mirror, strike

PYTHON = {"datafile": "imitation.py"}
# What runs in a life of each kind, and how often.
READS = {"recover": 8, "inspect": 4, "scrub": 6, "mirror": 5, "copy": 8, "reads": 6}
KINDS = {
    "datafile": {**READS, "run": 40, "rest": 8, "paced": 10, "workload": 6, "table": 3, "notes": 3, "again": 2},
    "table": {**READS, "table": 50, "again": 1, "run": 1.5, "puts": 2, "notes": 0.5, "rest": 0.5},
    "notes": {**READS, "notes": 40, "again": 1, "run": 1.5, "rest": 2},
}


def programs_in(folder: str, place: str) -> dict:
    """The five programs over one file."""
    if folder == "-":
        return {name: Stand(name) for name in NAMES}
    found = {}
    for name in NAMES:
        paths = (os.path.join(folder, name, "out", name), os.path.join(folder, name), os.path.join(folder, PYTHON.get(name, f"{name}.py")))
        path = next((path for path in paths if os.path.isfile(path)), None)
        if path is None:
            sys.exit(f"no program {name} in {folder}")
        found[name] = Built(path, place)
    return found


# ---- how a life begins

def born(t: Try, programs: dict) -> Life:
    """A file that a program made."""
    kind = t.random.choice(("datafile", "datafile", "table", "table", "notes"))
    if kind == "notes":
        return noted(t, programs)
    home = Home(t.random.choice(LAYOUTS) if t.random.random() < 0.9 else generate.layout(t.random), generate.cluster(t.random))
    if t.random.random() < 0.25:
        return upgraded(t, programs, kind, home)
    binary = programs["datafile"]
    binary.put(None)
    got = binary.run(b"", ["format", home.layout.word(), str(home.cluster)])
    expect("format", (f"formatted {home.layout.sectors()}\n".encode(), script.DONE), (got.text, got.status))
    same_bytes("format", script.fresh(home), binary.get())
    require("a new file is empty", plain_read.read(binary.get())[0] == State(home))
    return Life(programs, kind, binary.get(), [State(home)])


def noted(t: Try, programs: dict) -> Life:
    """A file that `notes` makes of none."""
    text, binary = notes(t), programs["notes"]
    wanted, told = noting.run(None, text), told_of(State(noting.HOME), "notes", [], text)
    binary.put(None)
    got = binary.run(text, [])
    expect("the first notes", (wanted.text, wanted.status), (got.text, got.status))
    same_bytes("the first notes", wanted.data, binary.get())
    require("the first notes are there", plain_read.read(binary.get())[0] == told.states()[-1])
    return Life(programs, "notes", binary.get(), told.states())


def upgraded(t: Try, programs: dict, kind: str, home: Home) -> Life:
    """A file of version 1 that is upgraded; each stop of that leaves what it has."""
    data = script.fresh(home)
    for _ in range(t.random.randint(1, 3)):
        text = table.lines(t, {}, t.random.randint(1, 50)) if kind == "table" else stops.script_for(t, data)
        data = objects.run(data, text).data if kind == "table" else script.run(data, text).data
    state = plain_read.read(data)[0]
    data = olden.file_of(data)
    require("a file of version 1 has what it had", plain_read.read(data, 1)[0] == state)
    binary = programs["datafile"]
    for name in ("datafile", "objecttable", "notes"):
        programs[name].put(data)
        got = programs[name].run(b"", {"datafile": ["run"], "objecttable": ["table"], "notes": []}[name])
        expect(f"{name} over version 1", (b"" if name == "notes" else b"refused Version found 1\n", script.REFUSED), (got.text, got.status))
        same_bytes(f"{name} over version 1", data, binary.get())
    while True:
        wanted = reports.upgrade(data)
        if t.random.random() < 0.5 and wanted.status == script.DONE:
            data = stops.stop(t, data, wanted.events, stops.moment(t, wanted.events))
            require("an upgrade that is ended keeps what the file has", either(data) == state)
            t.counts["upgrades that were ended"] += 1
            t.counts["stops"] += 1
            continue
        binary.put(data)
        got = binary.run(b"", ["upgrade"])
        expect("upgrade", (wanted.text, wanted.status), (got.text, got.status))
        same_bytes("upgrade", wanted.data, binary.get())
        require("an upgraded file has what it had", plain_read.read(binary.get())[0] == state)
        t.counts["files of version 1 that were upgraded"] += 1
        return Life(programs, kind, binary.get(), [state])


def either(data: bytes) -> State:
    """The state of a file of version 2, or of version 1."""
    try:
        return plain_read.read(data)[0]
    except reader.Refused:
        return plain_read.read(data, 1)[0]


# ---- what runs

def notes(t: Try) -> bytes:
    """Some notes."""
    listed = [bytes(t.random.choices(b"abc xyz\r", k=t.random.choice((0, 1, 5, 40, 4000)))) for _ in range(t.random.choice((0, 1, 1, 2, 3, 6)))]
    if t.random.random() < 0.03:
        listed.append(b"n" * t.random.choice((form.SMALL.body_max(), form.SMALL.body_max() + 1)))
    return generate.text_of(t.random, listed)


def puts(t: Try, life: Life) -> bytes:
    """Lines of `datafile` that append puts and drops, or nearly so."""
    m, listed = generate.machine_of(life.data), []
    request, op = (m.sessions[0].request if m.sessions else 0), m.head()
    for number in range(1, t.random.randint(2, 5)):
        body = t.random.choice((objects.body_of(("put", t.random.randrange(40), b"ab")), objects.body_of(("drop", t.random.randrange(40))), b"\3"))
        listed += [b"append 1 %d %s" % (request + number, body.hex().encode()), b"reply %d -" % (op + number)]
    return b"".join(line + b"\n" for line in listed)


def rest(life: Life) -> bytes:
    """Lines that bring the file to rest."""
    m = generate.machine_of(life.data)
    listed = [b"reply %d -" % op for op in range(m.replies + 1, m.head() + 1)] + [b"checkpoint %s" % (m.durable.root.hex().encode() or b"-")]
    return b"".join(line + b"\n" for line in listed + [b"step"] * 12)


def act(t: Try, life: Life) -> None:
    """One run."""
    kinds = KINDS[life.kind]
    kind = t.random.choices(list(kinds), list(kinds.values()))[0]
    if kind in ("recover", "inspect", "scrub"):
        run(t, life, "datafile", [kind])
    elif kind == "mirror":
        life.data = mirror(t, life, life.data)
    elif kind == "copy":
        copy(t, life)
    elif kind == "reads":
        listed = reads_of(generate.machine_of(life.data), 40) + [b"scrub"] * t.random.choice((0, 3, 9))
        run(t, life, "datafile", ["run"], generate.text_of(t.random, listed))
    elif kind == "run":
        m = generate.machine_of(life.data)
        listed = reads_of(m, 3) + generate.script_of(t.random, m, t.random.choice((0, 1, 3, 8, 20)), 0.05, t.random.choice((1, None)))
        run(t, life, "datafile", ["run"], generate.text_of(t.random, listed))
    elif kind == "rest":
        run(t, life, "datafile", ["run"], rest(life), 0.1)
    elif kind == "puts":
        run(t, life, "datafile", ["run"], puts(t, life))
    elif kind == "paced":
        run(t, life, "datafile", plan.paced_words(t), stops.script_for(t, life.data))
    elif kind == "workload":
        run(t, life, "datafile", ["workload", str(t.random.getrandbits(32)), str(t.random.randint(1, 40))])
    elif kind == "table":
        rows = plain.rows_of(life.state)
        text = table.lines(t, rows if isinstance(rows, dict) else {}, t.random.choice((0, 1, 3, 10, 40)))
        run(t, life, "objecttable", ["table"], text + b"count\n")
    elif kind == "notes":
        run(t, life, "notes", [], notes(t))
    else:
        words = t.random.choice((["format", life.home.layout.word(), "7"], ["upgrade"]))
        run(t, life, "datafile", words, b"", 0)
    if t.random.random() < 0.3:
        life.copied()


def lived(t: Try, programs: dict) -> None:
    """One try: the life of a file."""
    life = born(t, programs)
    for _ in range(t.random.randint(4, 16)):
        if t.random.random() < 0.3:
            strike(t, life)
        act(t, life)
    t.counts[f"lives of a file of {life.kind}"] += 1


def main() -> int:
    parser = argparse.ArgumentParser(description="Tries all five built programs over one file against one plain history of it.")
    parser.add_argument("programs", type=lambda word: word if word == "-" else arguments.folder(word),
                        help="the folder of the built programs, such as crates; or model, or -")
    parser.add_argument("--seconds", type=arguments.seconds, default=60, help="how long to try (default 60)")
    parser.add_argument("--seed", type=int, help="the seed (default: a new one)")
    parser.add_argument("--first", type=arguments.at_least(0), default=0, help="the number of the first try")
    given = parser.parse_args()
    seed = SystemRandom().randrange(2**32) if given.seed is None else given.seed
    counts: Counter = Counter()
    start, number = time.monotonic(), given.first
    print(f"seed {seed}", flush=True)
    with tempfile.TemporaryDirectory() as folder:
        programs = programs_in(given.programs, folder)
        try:
            while time.monotonic() - start < given.seconds:
                lived(Try(Random(f"{seed} {number}"), programs["datafile"], counts), programs)
                number += 1
        except (Disagreement, subprocess.TimeoutExpired, reader.Refused) as error:
            print(f"DISAGREEMENT, try {number}: {error}")
            print(f"again: python3 model/together.py {given.programs} --seed {seed} --first {number}")
            return 1
    for name, count in sorted(counts.items()):
        print(f"{count:8} {name}")
    runs = sum(binary.runs for binary in programs.values())
    told = f"{counts['stops']} stops, {counts['damages']} times damage"
    print(f"{number - given.first} tries, {runs} runs of the programs, {told}, no disagreement, seed {seed}")
    return 0


if __name__ == "__main__":
    sys.exit(main())
