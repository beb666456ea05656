"""How many words a look for the least free address looks at: python3 bench/least_free.py

Copies df_freeset into a folder for temporary files, lets the copy count each word that it takes a bit or a test from (the
patch below, whose every text must stand in the code once), and runs it there, unproved, over a grid of 16,384 blocks that is
full but for one, for the first and the last bit of each word. Needs the toolchain's rt, and nothing else of the repository.
"""

import pathlib
import shutil
import subprocess
import sys
import tempfile

BITS = [
    (
        "fn first_open(words: &[u64]) -> Option<usize>",
        "fn first_open(words: &[u64], looked: &mut u64) -> Option<usize>",
    ),
    (
        "words.iter().position(|word| *word != u64::MAX)",
        """for (at, word) in words.iter().enumerate() {
        *looked += 1;
        if *word != u64::MAX {
            return Some(at);
        }
    }
    None""",
    ),
    (
        "fn lowest_zero(words: &[u64]) -> Option<u64>",
        "fn lowest_zero(words: &[u64], looked: &mut u64) -> Option<u64>",
    ),
    ("first_open(words)?", "first_open(words, looked)?"),
]

SET = [
    ("pub fn least_free(&self)", "pub fn least_free(&self, looked: &mut u64)"),
    ("lowest_zero(&self.summary)?", "lowest_zero(&self.summary, looked)?"),
    (
        "let ones = self.words.get",
        "*looked += 1;\n        let ones = self.words.get",
    ),
]

MAIN = """//! Counts the words that are looked at.
#![tactic(auto)]

mod bits;
mod set;

use set::FreeSet;
use std::io;

fn main(rt: HostRuntime) -> io::Result<()> {
    let words = vec![in rt.alloc(); 0u64; 256]?;
    let summary = vec![in rt.alloc(); 0u64; 4]?;
    let mut set = FreeSet::over(words, summary, 16384);
    for address in 1..=16384u64 {
        set.take(address);
    }
    let mut most = 0;
    let mut least = u64::MAX;
    for word in 0..256u64 {
        for bit in [0, 63] {
            let address = word * 64 + bit + 1;
            set.give(address);
            let mut looked = 0;
            let found = set.least_free(&mut looked) == Some(address);
            set.take(address);
            if !found {
                println!(rt; "{address} isn't found")?;
            }
            most = looked.max(most);
            least = looked.min(least);
        }
    }
    let mut none = 0;
    let full = set.least_free(&mut none).is_none();
    println!(rt; "one free: {least} to {most} words; none free ({full}): {none} words")?;
    Ok(())
}
"""


def patched(path: pathlib.Path, changes: list) -> None:
    text = path.read_text(encoding="utf-8")
    for old, new in changes:
        if text.count(old) != 1:
            sys.exit(f"{path.name}: this doesn't stand there once: {old}")
        text = text.replace(old, new)
    path.write_text(text, encoding="utf-8")


def main() -> None:
    crate = pathlib.Path(__file__).resolve().parent.parent / "crates" / "df_freeset"
    with tempfile.TemporaryDirectory() as folder:
        copy = pathlib.Path(folder) / "crates" / "df_freeset"
        shutil.copytree(crate / "src", copy / "src")
        shutil.copytree(crate / "specs", copy / "specs")
        (pathlib.Path(folder) / "crates.txt").write_text("df_freeset:\n", encoding="utf-8")
        (copy / "src" / "lib.rt").unlink()
        patched(copy / "src" / "bits.rt", BITS)
        patched(copy / "src" / "set.rt", SET)
        (copy / "src" / "main.rt").write_text(MAIN, encoding="utf-8")
        run = subprocess.run(["rt", "try"], cwd=copy, capture_output=True, text=True)
        print(run.stdout, end="")
        if run.returncode:
            sys.exit(run.stderr)


if __name__ == "__main__":
    main()
