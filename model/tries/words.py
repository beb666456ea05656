"""What a list of words asks for, as docs/SCRIPT.md has it."""

import re
from typing import Optional

from . import form, reports, workload
from .form import Home, Layout
from .grid import Event
from .knows import knows
from .script import WORDS, Outcome, make, run

USAGE = b"usage: format LAYOUT CLUSTER | run\n"
if knows("reports"):
    USAGE = b"usage: format LAYOUT CLUSTER | run | recover | inspect\n"
if knows("all"):
    USAGE = b"usage: format LAYOUT CLUSTER | run | recover | inspect | scrub | workload SEED COUNT | upgrade | paced SCRUB EVERY STEPS\n"
NUMBER = re.compile(r"0|[1-9][0-9]*", re.ASCII)
# The words that stand alone; and the greatest number of commands of a workload.
ALONE = ("run", *(("recover", "inspect") if knows("reports") else ()), *(("scrub", "upgrade") if knows("all") else ()))
COUNT = 1_000_000
# The greatest number of a pace.
PIECES = 64


def number(word: str) -> Optional[int]:
    """A number in decimal digits without a leading zero."""
    # No number that means something has more than 39 digits.
    return int(word) if NUMBER.fullmatch(word) and len(word) <= 39 else None


def layout_of(word: str) -> Optional[Layout]:
    """The layout that a word names."""
    if word in form.NAMED:
        return form.NAMED[word]
    numbers = [number(piece) for piece in word.split(",")]
    if len(numbers) != 5 or None in numbers:
        return None
    layout = Layout(*numbers)
    return None if layout.broken() else layout


def plain(words: list) -> Optional[list]:
    """The words as text; None where one of them isn't UTF-8."""
    try:
        return [word.decode() if isinstance(word, bytes) else word for word in words]
    except UnicodeDecodeError:
        return None


def meaning(words: list) -> Optional[tuple]:
    """What a list of words asks for: a word with what it is told, as `("format", home)`; None where it has no meaning."""
    told = plain(words) or [""]
    if told[0] in ALONE and len(told) == 1:
        return (told[0],)
    if len(told) == 4 and told[0] == "paced" and knows("all"):
        pace = [number(word) for word in told[1:]]
        return None if any(value is None or value > PIECES for value in pace) else ("paced", tuple(pace))
    if len(told) != 3:
        return None
    first, second = number(told[1]), number(told[2])
    if told[0] == "workload" and knows("all") and None not in (first, second):
        return (told[0], first, second) if first < 2**64 and 1 <= second <= COUNT else None
    layout = layout_of(told[1])
    if told[0] != "format" or layout is None or second is None or second >= 2**128:
        return None
    return ("format", Home(layout, second))


def command(data: Optional[bytes], words: list, text: bytes = b"") -> Outcome:
    """`datafile FILE WORD..` over a file of these bytes, or none, where no call fails."""
    asked = meaning(words)
    if asked is None:
        return Outcome(data, WORDS, [Event("answer", data=USAGE)])
    if asked[0] == "run":
        return run(data, text)
    if asked[0] == "paced":
        return run(data, text, asked[1])
    if asked[0] == "workload":
        return workload.work(data, *asked[1:])
    return make(data, asked[1]) if asked[0] == "format" else getattr(reports, asked[0])(data)
