"""Puts tables as the benches printed them into the pages of docs/evidence, each in place of the one with the same columns.

    python3 bench/pages.py OUTPUT ..

Of several tables with the same columns the first takes the place of the first one, and so on. Ends with status 1, and writes nothing, where a
printed table has no place or a page has a table of a bench that wasn't printed.
"""

import sys

sys.dont_write_bytecode = True

import os
from collections import defaultdict

FOLDER = os.path.join(os.path.dirname(os.path.dirname(os.path.abspath(__file__))), "docs", "evidence")
PAGES = ("BENCHMARKS.md", "OTHERS.md")
# How the line begins that says what a table is of.
OF = "*Program "


def is_table(lines: list, at: int) -> bool:
    """Whether a table of a bench begins there: one with such a line after it."""
    return lines[at].startswith("|") and (at == 0 or not lines[at - 1].startswith("|")) and lines[after(lines, at) + 1].startswith(OF)


def after(lines: list, at: int) -> int:
    """Where the rows of the table end that begins there."""
    return next(end for end in range(at, len(lines)) if not lines[end].startswith("|"))


def read(path: str) -> list:
    with open(path, encoding="utf-8") as file:
        return [*file.read().split("\n"), ""]


def printed(paths: list) -> dict:
    """The tables, by their columns, each with the line that says what it is of."""
    found = defaultdict(list)
    for lines in map(read, paths):
        for at in (at for at in range(len(lines) - 1) if is_table(lines, at)):
            found[lines[at]].append(lines[at : after(lines, at) + 2])
    return found


def placed(lines: list, tables: dict) -> list:
    """A page with these tables, which are taken out. What of the page has none is told."""
    made, at, missing = [], 0, []
    while at < len(lines) - 1:
        if not is_table(lines, at):
            made.append(lines[at])
            at += 1
            continue
        head = lines[at]
        missing += [] if tables[head] else [head]
        made += tables[head].pop(0) if tables[head] else []
        at = after(lines, at) + 2
    if missing:
        raise SystemExit("no table was printed with the columns\n" + "\n".join(missing))
    return made


def main() -> int:
    tables = printed(sys.argv[1:])
    pages = {name: placed(read(os.path.join(FOLDER, name)), tables) for name in PAGES}
    left = [head for head, listed in tables.items() for _ in listed]
    if left:
        print("no page has a table with the columns\n" + "\n".join(left))
        return 1
    for name, lines in pages.items():
        with open(os.path.join(FOLDER, name), "w", encoding="utf-8") as file:
            file.write("\n".join(lines))
    return 0


if __name__ == "__main__":
    sys.exit(main())
