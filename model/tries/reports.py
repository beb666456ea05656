"""The words `recover`, `inspect`, `scrub` and `upgrade`, as docs/SCRIPT.md has them: what they print, and what they do to the file."""

from typing import Iterator, Optional

from . import recovery, script
from .form import Image
from .grid import SYNC, answer
from .machine import Machine, opens
from .recovery import Found, View
from .script import DONE, FOUND, Outcome


def summary(view: View) -> list:
    """The eight lines of a summary."""
    one = view.checkpoint
    return [
        f"cluster {view.home.cluster}", "layout " + " ".join(map(str, view.home.layout)), f"sequence {one.sequence}",
        f"checkpoint {one.op}", f"head {view.head()}", f"replies {view.replies}", f"sessions {len(view.sessions)}",
        f"references {len(one.references)}",
    ]


def inspection(found: Found) -> list:
    """The lines of a report."""
    view = found.view
    listed = [*summary(view), f"root {view.checkpoint.root.hex() or '-'}"]
    for place, one in enumerate(view.sessions):
        state = "stored" if one.op <= view.replies else "pending"
        listed.append(f"session {place} client {one.client} request {one.request} op {one.op} {state}")
    listed += [f"mend {place} {name}" for place, name in found.to_mend]
    return [*listed, f"findings {len(found.to_mend)}"]


def tour(machine: Machine) -> Iterator[str]:
    """The lines of a whole tour, each as it is found."""
    while True:
        word, *rest = machine.scrub()[0].data.decode().split()
        if word == "tour":
            yield " ".join([word, *rest])
            return
        if rest[1] != "Sound":
            yield "failing " + " ".join(rest)


def told(lines: list) -> list:
    return [answer(line) for line in lines]


def opened(data: Optional[bytes], version: int = 2) -> tuple:
    """The file's bytes, what an open finds in it that asks for this version, and the outcome where it refuses."""
    data = data or b""
    found = recovery.found(data, version=version)
    outcome = script.refused(data, found.refusal, [] if found.early else [SYNC]) if found.refusal else None
    return data, found, outcome


def recover(data: Optional[bytes]) -> Outcome:
    """Opens, and prints a summary."""
    data, found, refused = opened(data)
    if refused:
        return refused
    machine = Machine(found, Image(data))
    return Outcome(data, DONE, [*opens(found, machine), *told(summary(found.view))], [(found.view, 0, 0)], machine)


def upgrade(data: Optional[bytes]) -> Outcome:
    """Makes a file of version 1 one of version 2: a mending, and a superblock of boot 1; and prints its sequence."""
    data, found, refused = opened(data, 1)
    if refused:
        return refused
    machine = Machine(found, Image(data))
    sequence = found.view.checkpoint.sequence
    return Outcome(data, DONE, [*opens(found, machine), *told([f"upgraded {sequence}"])], [(found.view, 0, 0)], machine)


def inspect(data: Optional[bytes]) -> Outcome:
    """Prints what is found, and what would be mended; nothing is written."""
    data, found, refused = opened(data)
    if refused:
        return refused
    return Outcome(data, FOUND if found.to_mend else DONE, [SYNC, *told(inspection(found))], [(found.view, 0, 0)])


def scrub(data: Optional[bytes]) -> Outcome:
    """Opens, and prints each referenced block that fails."""
    data, found, refused = opened(data)
    if refused:
        return refused
    machine = Machine(found, Image(data))
    events = opens(found, machine)
    lines = list(tour(machine))
    return Outcome(data, DONE if len(lines) == 1 else FOUND, events + told(lines), [(found.view, 0, 0)], machine)
