#!/usr/bin/env python3
"""The mending from a second file as a program, in Python alone, of which nothing is proved: it prints and writes what the built one does, in its order.

    python3 model/filemirror.py FIRST SECOND
"""

import sys

sys.dont_write_bytecode = True

import os

sys.path.insert(0, os.path.dirname(os.path.abspath(__file__)))

from device import End, File, fill_streams, tell
from filecopy import paths_and_words
from objecttable import whole
from tries import filemirrors


def act(words: list) -> int:
    """Does what the words say, and gives the status."""
    paths, rest = paths_and_words(words)
    if rest:
        tell(filemirrors.USAGE)
        return filemirrors.WORDS
    first, second = (File(path) for path in paths)
    data = opened(first)
    # The second file is opened, and made where it isn't there, once a unit is wanted of it.
    ran = filemirrors.run(data, b"")
    if b"refused Neither" in ran.text:
        ran = filemirrors.run(data, opened(second))
    answers = iter(ran.printed)
    for event in ran.events[:1]:
        first.sync()
    for event in ran.events[1:]:
        if event.kind == "write":
            first.write(event.at, event.data)
        else:
            first.sync()
            tell(next(answers).data)
    for event in answers:
        tell(event.data)
    return ran.status


def opened(file: File) -> bytes:
    """All bytes of a file, which is made where it isn't there."""
    file.opened()
    return whole(file)


def main() -> int:
    fill_streams()
    try:
        return act([os.fsencode(word) for word in sys.argv[1:]])
    except UnicodeDecodeError:
        tell(filemirrors.USAGE)
        return filemirrors.WORDS
    except End as end:
        return end.args[0]


if __name__ == "__main__":
    os._exit(main())
