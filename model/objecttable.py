#!/usr/bin/env python3
"""The object table as a program, in Python alone, of which nothing is proved: it prints and writes what the built one does, in its order.

    python3 model/objecttable.py FILE table
"""

import sys

sys.dont_write_bytecode = True

import os

sys.path.insert(0, os.path.dirname(os.path.abspath(__file__)))

from device import DISK, READ, End, File, fill_streams, tell
from tries import objects
from tries.script import Outcome


def script() -> bytes:
    """Standard input, whole."""
    try:
        with os.fdopen(0, "rb", closefd=False) as stream:
            return stream.read()
    except OSError:
        raise End(READ) from None


def act(words: list) -> int:
    """Does what the words say, and gives the status."""
    path, rest = (words[0], [word.decode() for word in words][1:]) if words else (b"", ["-"])
    if rest != ["table"]:
        tell(objects.USAGE)
        return objects.WORDS
    file = File(path)
    file.opened()
    data = whole(file)
    return carry_out(file, objects.run(data, script() if not objects.recovery.found(data).refusal else b""))


def carry_out(file: File, ran: Outcome) -> int:
    """Does the events of a run, and gives its status."""
    for event in ran.events:
        if event.kind == "write":
            file.write(event.at, event.data)
        elif event.kind == "sync":
            file.sync()
        else:
            tell(event.data)
    return ran.status


def whole(file: File) -> bytes:
    """All bytes of the file. One that has no places, as a pipe, fails, whatever length it says."""
    try:
        file.read(0, 1)
        return file.read(0, os.fstat(file.fd).st_size)
    except OSError:
        raise End(DISK) from None


def main() -> int:
    fill_streams()
    try:
        return act([os.fsencode(word) for word in sys.argv[1:]])
    except UnicodeDecodeError:
        tell(objects.USAGE)
        return objects.WORDS
    except End as end:
        return end.args[0]


if __name__ == "__main__":
    os._exit(main())
