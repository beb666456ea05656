"""Words of a command line that are refused where they can't be meant."""

import argparse
import os


def program(path: str) -> str:
    """A program that is there: the built one, or one in Python."""
    if not os.path.isfile(path) or not (path.endswith(".py") or os.access(path, os.X_OK)):
        raise argparse.ArgumentTypeError(f"no program: {path}")
    return path


def folder(path: str) -> str:
    if not os.path.isdir(path):
        raise argparse.ArgumentTypeError(f"no folder: {path}")
    return path


def seconds(text: str) -> float:
    """A time above zero."""
    value = float(text)
    if not 0 < value < float("inf"):
        raise argparse.ArgumentTypeError(f"no time above zero: {text}")
    return value


def at_least(least: int):
    """A number that isn't below this one."""
    def number(text: str) -> int:
        value = int(text)
        if value < least:
            raise argparse.ArgumentTypeError(f"below {least}: {text}")
        return value
    return number
