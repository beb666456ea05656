"""What memory a session has taken by its first answer, over a file that was just made: Linux's own counts of the process."""

import re

from asked import Asked
from common import Bench, Ground, show
from tries.form import NAMED

# What Linux counts, and what that is: of what may be written the stack aside.
COUNTS = {"VmHWM": "resident at most", "VmData": "what may be written"}


def counts(process: int) -> list:
    """These counts in MB."""
    with open(f"/proc/{process}/status", encoding="ascii") as file:
        text = file.read()
    found = dict(re.findall(r"(\w+):\s+(\d+) kB", text))
    return [f"{int(found[name]) * 1024 / 1e6:.1f}" for name in COUNTS]


def show_rooms(bench: Bench, ground: Ground) -> None:
    rows = []
    for name, layout in NAMED.items():
        with Asked([bench.program, bench.make(ground, layout), "run"]) as session:
            # The first answer shows that all memory is taken.
            session.want(b"prepare 0\n", b"refused NotKept first 1 last 0\n")
            rows.append([f"`{name}`", *counts(session.process.pid)])
            session.end()
    show("Memory of `run` on a new file once it waits for its second line, MB",
         ["layout", *(f"{what} ({name})" for name, what in COUNTS.items())], rows, "one run of each")
