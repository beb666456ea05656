"""Tries the edits below this folder, which the prover must refuse: python3 edits/try.py [CRATE ..], from anywhere.

They are bugs like those of crates/NAME/must-fail, which the gate tries. They stand here so that the gate keeps within its time: some
read as if a neighbour there told the same, some are of definitions and laws, which have no body to be wrong, some are of crates of which
a check is dear (an open, a replica, the grid, the programs), and the rest are of crates
whose bugs tests or a crate above would show (layouts, rooms, the free set, printed texts, the generator of a run, the device for tests).
So they are to be tried by hand, when their crate is touched. The crates, or those
that are named, are copied into a folder for temporary files together with all below them, with these edits in place of the gate's,
and `rt must-fail` is run there. It proves the crates below first, from nothing. The status is 0 where each edit was refused.
"""

import pathlib
import shutil
import subprocess
import sys
import tempfile

TOP = pathlib.Path(__file__).resolve().parent.parent
EDITS = TOP / "edits"


def wanted(names):
    """The crates that have edits here, or those of them that are named."""
    have = sorted(it.name for it in EDITS.iterdir() if it.is_dir())
    unknown = [it for it in names if it not in have]
    if unknown:
        sys.exit(f"no edits here for {' '.join(unknown)}; there are some for {' '.join(have)}")
    return names or have


def copied(folder, names):
    """Copies what rt reads, and puts these edits in place of those that the gate tries."""
    shutil.copy(TOP / "crates.txt", folder)
    shutil.copy(TOP / "HANDLES", folder)
    shutil.copytree(TOP / "crates", folder / "crates", ignore=shutil.ignore_patterns("out", "must-fail"))
    for name in names:
        shutil.copytree(EDITS / name, folder / "crates" / name / "must-fail")
    subprocess.run(["git", "init", "-q", "."], cwd=folder, check=True)


def main():
    names = wanted(sys.argv[1:])
    with tempfile.TemporaryDirectory(prefix="edits-") as room:
        folder = pathlib.Path(room)
        copied(folder, names)
        return subprocess.run(["rt", "must-fail", *names], cwd=folder, check=False).returncode


if __name__ == "__main__":
    sys.exit(main())
