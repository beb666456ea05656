"""What the program `notes` does to its file, as crates/notes/README.md has it: each line of the input is a note, and at the end all are printed."""

from typing import Optional

from . import form, objects, recovery, script
from .form import Home, Image
from .grid import Event
from .machine import Machine, opens
from .script import DONE, REFUSED, Outcome

CLIENT, READ = 1, 6
# What is made where the disk is blank.
HOME = Home(form.SMALL, 1)


def keep(machine, text: bytes) -> tuple:
    """The events of the notes in an opened file, and the status."""
    events = objects.quietly(machine, "reply", machine.replies + 1, b"") if machine.replies < machine.head() else []
    for note, ended in script.lines(text):
        # A line may end as those of Windows do.
        note = note.removesuffix(b"\r") if ended else note
        request = machine.sessions[0].request + 1 if machine.sessions else 1
        *appended, told = machine.line(("append", CLIENT, request, note))
        events += appended
        if told.data.startswith(b"refused"):
            return events, REFUSED
        *replied, kept = machine.line(("reply", machine.head(), b""))
        events += replied
        if kept.data.startswith(b"refused"):
            return events, REFUSED
        events.append(told)
    return events + shown(machine), DONE


def shown(machine) -> list:
    """The lines of all notes that the ring keeps."""
    told = [machine.line(("prepare", op))[-1].data.split()[-1] for op in range(machine.durable.op + 1, machine.head() + 1)]
    return [Event("answer", data=(b"" if body == b"-" else bytes.fromhex(body.decode())) + b"\n") for body in told]


def run(data: Optional[bytes], text: bytes) -> Outcome:
    """`notes FILE` over a file of these bytes, or none, where no call fails."""
    try:
        text.decode()
    except UnicodeDecodeError:
        return Outcome(data, READ, [])
    made: list = []
    opened = recovery.found(data or b"")
    if opened.refusal == "NotFormatted":
        made = [event for event in script.make(data, HOME).events if event.kind != "answer"]
        opened = recovery.found(script.state(data or b"", made))
    if opened.refusal or opened.view.home.layout != form.SMALL:
        return Outcome(data or b"", REFUSED, [])
    machine = Machine(opened, Image(script.state(data or b"", made)))
    begun = opens(opened, machine)
    events, status = keep(machine, text)
    return Outcome(data or b"", status, [*made, *begun, *events], (), machine)
