"""What the program that is tried knows: the log alone, blocks and checkpoints too, the scrubber's lines and the reports `recover` and
`inspect` too, every word and every line but those of groups, or these too."""

import argparse
import os

LEVELS = ("log", "blocks", "reports", "all", "groups")
# What the program of this repository knows today.
TODAY = "groups"


def take(words: list) -> None:
    """Notes what `--knows` says, before anything is made for it; programs that are started find it in the variable KNOWS."""
    parser = argparse.ArgumentParser(add_help=False, allow_abbrev=False)
    parser.add_argument("--knows", choices=LEVELS, default=TODAY)
    os.environ["KNOWS"] = parser.parse_known_args(words)[0].knows


def knows(level: str) -> bool:
    """Whether the program knows all of this level."""
    return LEVELS.index(level) <= LEVELS.index(os.environ.get("KNOWS", TODAY))
