#!/usr/bin/env python3
"""The copy to another layout as a program, in Python alone, of which nothing is proved: it prints and writes what the built one does, in its order.

    python3 model/filecopy.py FROM TO LAYOUT
"""

import sys

sys.dont_write_bytecode = True

import os

sys.path.insert(0, os.path.dirname(os.path.abspath(__file__)))

from device import End, File, fill_streams, tell
from objecttable import whole
from tries import filecopies


def done(file: File, events: list) -> None:
    """Writes and syncs a file."""
    for event in events:
        if event.kind == "write":
            file.write(event.at, event.data)
        else:
            file.sync()


def paths_and_words(words: list) -> tuple:
    """The two paths, and the words after them; without both paths a word that has no meaning. Words and paths are UTF-8."""
    return (words[:2], [word.decode() for word in words][2:]) if len(words) >= 2 else ([b"", b""], ["-"])


def act(words: list) -> int:
    """Does what the words say, and gives the status."""
    paths, rest = paths_and_words(words)
    if filecopies.command(None, None, rest).status == filecopies.WORDS:
        tell(filecopies.USAGE)
        return filecopies.WORDS
    one, two = (File(path) for path in paths)
    one.opened()
    data = whole(one)
    target = b""
    if os.path.exists(paths[1]):
        two.opened()
        target = whole(two)
    ran = filecopies.command(data, target, rest)
    done(one, ran.source)
    done(two, ran.target)
    for event in ran.printed:
        tell(event.data)
    return ran.status


def main() -> int:
    fill_streams()
    try:
        return act([os.fsencode(word) for word in sys.argv[1:]])
    except UnicodeDecodeError:
        tell(filecopies.USAGE)
        return filecopies.WORDS
    except End as end:
        return end.args[0]


if __name__ == "__main__":
    os._exit(main())
