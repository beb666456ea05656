#!/usr/bin/env python3
"""The notes as a program, in Python alone, of which nothing is proved: it prints and writes what the built one does, in its order.

    python3 model/notes.py FILE
"""

import sys

sys.dont_write_bytecode = True

import os

sys.path.insert(0, os.path.dirname(os.path.abspath(__file__)))

from device import READ, End, File, fill_streams
from objecttable import carry_out, script, whole
from tries import noting


def act(words: list) -> int:
    """Keeps the notes of standard input in the file, and gives the status."""
    text = script()
    file = File(words[0] if words else b"")
    try:
        text.decode()
    except UnicodeDecodeError:
        return READ
    file.opened()
    return carry_out(file, noting.run(whole(file), text))


def main() -> int:
    fill_streams()
    try:
        return act([os.fsencode(word) for word in sys.argv[1:]])
    except End as end:
        return end.args[0]


if __name__ == "__main__":
    os._exit(main())
