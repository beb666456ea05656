"""The yardstick: a small Rattle program that does the calls, hashes and hexadecimal digits of a plan, and nothing else.

A `.rt` file of this repository has to stand in a crate that the gate proves, so the program stands here as text. It is built in a folder
for temporary files by the kit's rt, like the program: proved safe, nothing said of what it does. It takes the kit's own sha2 and hex.
"""

import os
import shutil
import struct
import subprocess
import tempfile
from typing import NamedTuple

from common import Ground, Spent, put, run

# Bytes of the room of lines, which takes the longest line of a script, and of that of bodies; and steps that it reads at once.
ROOM, STEPS = 2**21 + 4096, 256
STEP = struct.Struct("<c7xQQQ")
SOURCE = r'''
// Calls, hashes and hexadecimal digits that a plan on standard input lists, and nothing else: `yardstick FILE SCRIPT`. The calls are those
// on the file, reads of the script, and writes to standard output.
#![tactic(auto)]

use hex::decode_to_slice;
use sha2::{Digest, Sha256};
use std::env;
use std::fs::{File, OpenFile, OpenOptions};
use std::io::{self, ErrorKind, Read, Stdout, Write};
use std::os::unix::fs::FileExt;

/// The most bytes of one call, of one hash, and of the digits of one body: those of each room.
const ROOM: usize = (1 << 21) + 4096;

/// The bytes of a step: a letter in the first of eight, and three numbers.
const STEP: usize = 32;

/// How many steps are read at once.
const STEPS: usize = 256;

/// Lines, and what is read of the file; and bodies that were decoded. Places count from the front of the first on, and go on in the second.
#[derive(Drop)]
struct Rooms {
    bytes: Vec<u8>,
    bodies: Vec<u8>,
}

#[derive(Drop)]
struct Files {
    file: File,
    script: File,
}

fn past() -> io::Error {
    ErrorKind::InvalidData.into()
}

fn number(bytes: &[u8], at: usize) -> u64 {
    let mut eight = [0u8; 8];
    if let Some(part) = bytes.get(at..) {
        if let Some(part) = part.get(..8) {
            eight.copy_from_slice(part);
        }
    }
    u64::from_le_bytes(eight)
}

fn part(bytes: &[u8], from: u64, length: u64) -> io::Result<&[u8]> {
    let Some(rest) = bytes.get(from as usize..) else {
        return Err(past());
    };
    let Some(part) = rest.get(..length as usize) else {
        return Err(past());
    };
    Ok(part)
}

fn held(rooms: &Rooms, from: u64, length: u64) -> io::Result<&[u8]> {
    match from.checked_sub(ROOM as u64) {
        Some(at) => part(&rooms.bodies, at, length),
        None => part(&rooms.bytes, from, length),
    }
}

// A function of its own, as in the program: as a part of `main` it would take a fifth more instructions.
#[inline(never)]
fn decode(rooms: &mut Rooms, from: u64, length: u64, to: u64) -> io::Result<u8> {
    let digits = part(&rooms.bytes, from, length)?;
    let size = digits.len() / 2;
    let Some(at) = (to as usize).checked_sub(ROOM) else {
        return Err(past());
    };
    if at > rooms.bodies.len() || size > rooms.bodies.len() - at {
        return Err(past());
    }
    match decode_to_slice(digits, &mut rooms.bodies[at..at + size]) {
        Ok(()) => Ok(0),
        Err(_) => Err(past()),
    }
}

fn read(file: &File, into: &mut [u8], at: u64) -> io::Result<()> {
    let mut done = 0;
    for _ in 0..into.len() {
        if done >= into.len() {
            break;
        }
        let Some(from) = at.checked_add(done as u64) else {
            return Err(past());
        };
        let count = file.read_at(&mut into[done..], from)?;
        if count == 0 {
            into[done..].fill(0);
            return Ok(());
        }
        done += count;
    }
    Ok(())
}

fn read_room(file: &File, rooms: &mut Rooms, at: u64, length: u64) -> io::Result<u8> {
    let size = length as usize;
    if size > rooms.bytes.len() {
        return Err(past());
    }
    read(file, &mut rooms.bytes[..size], at)?;
    Ok(0)
}

fn take(script: &mut File, rooms: &mut Rooms, length: u64) -> io::Result<u8> {
    let size = length as usize;
    if size > rooms.bytes.len() {
        return Err(past());
    }
    script.read(&mut rooms.bytes[..size])?;
    Ok(0)
}

fn take_whole(script: &mut File, rooms: &mut Rooms, length: u64) -> io::Result<u8> {
    let size = length as usize;
    if size > rooms.bytes.len() {
        return Err(past());
    }
    script.read_exact(&mut rooms.bytes[..size])?;
    Ok(0)
}

fn answer(out: &mut Stdout, rooms: &Rooms, length: u64) -> io::Result<u8> {
    out.write_all(part(&rooms.bytes, 0, length)?)?;
    out.flush()?;
    Ok(0)
}

fn act(files: &mut Files, out: &mut Stdout, rooms: &mut Rooms, step: &[u8]) -> io::Result<u8> {
    let first = number(step, 8);
    let length = number(step, 16);
    let place = number(step, 24);
    match step.first() {
        Some(b'r') => read_room(&files.file, rooms, first, length),
        Some(b'w') => {
            files.file.write_all_at(held(rooms, place, length)?, first)?;
            Ok(0)
        }
        Some(b's') => {
            files.file.sync_data()?;
            Ok(0)
        }
        Some(b'i') => take(&mut files.script, rooms, length),
        Some(b't') => take_whole(&mut files.script, rooms, length),
        Some(b'o') => answer(out, rooms, length),
        Some(b'h') => Ok(Sha256::digest(held(rooms, place, length)?)[0]),
        Some(b'd') => decode(rooms, first, length, place),
        _ => Err(past()),
    }
}

fn main(rt: HostRuntime) -> io::Result<()> {
    let mut path = String::new(rt.alloc());
    let mut script = String::new(rt.alloc());
    for word in env::args(&rt)?.skip(1) {
        path = script;
        script = word;
    }
    let mut files = Files {
        file: OpenOptions::new()
            .read(true)
            .write(true)
            .create(true)
            .open(&rt, path.as_str())?,
        script: File::open(&rt, script.as_str())?,
    };
    let mut input = rt.stdin();
    let mut out = rt.stdout();
    let mut rooms = Rooms {
        bytes: vec![in rt.alloc(); 0u8; ROOM]?,
        bodies: vec![in rt.alloc(); 0u8; ROOM]?,
    };
    let mut plan = vec![in rt.alloc(); 0u8; STEP * STEPS]?;
    let mut sum = 0u8;
    for _ in 0..u64::MAX {
        input.read_exact(&mut plan)?;
        for step in plan.chunks_exact(STEP) {
            if step.first() == Some(&b'e') {
                println!(rt; "{sum}")?;
                return Ok(());
            }
            sum ^= act(&mut files, &mut out, &mut rooms, step)?;
        }
    }
    Ok(())
}
'''


def read(at: int, length: int) -> tuple:
    """A read of the file into the front of the first room, in one call unless the file ends within it."""
    return b"r", at, length, 0


def write(at: int, length: int, place: int = 0) -> tuple:
    """A write of what stands at this place of the rooms."""
    return b"w", at, length, place


SYNC = (b"s", 0, 0, 0)


def taken(length: int) -> tuple:
    """A read of the script that asks for this many bytes, into the front of the first room."""
    return b"i", 0, length, 0


def waited(length: int) -> tuple:
    """Reads of the script until this many bytes of it are there, in as many calls as it takes."""
    return b"t", 0, length, 0


def answered(length: int) -> tuple:
    """A write to standard output."""
    return b"o", 0, length, 0


def hashed(place: int, length: int) -> tuple:
    """The SHA-256 of a part of the rooms."""
    return b"h", 0, length, place


def decoded(start: int, length: int, place: int = ROOM) -> tuple:
    """The bytes of this many digits in the first room, put at a place of the second."""
    return b"d", start, length, place


def unit(size: int, place: int = 0) -> list:
    """Both hashes of a unit with a body of this size at this place of the rooms: of its header, and of the body."""
    return [hashed(place + 16, 240), hashed(place + 256, size)]


class Yardstick(NamedTuple):
    """The built program."""

    path: str

    def run(self, ground: Ground, path: str, name: str, script: str = os.devnull) -> Spent:
        """Does what a plan lists to a file, and to a script."""
        return run([self.path, path, script], ground.path(name), wanted=None)


def plan(ground: Ground, name: str, steps: list) -> str:
    """Writes a plan: the steps, and the one that ends it, up to a whole number of those that are read at once."""
    data = b"".join(STEP.pack(*step) for step in [*steps, (b"e", 0, 0, 0)])
    return put(ground, name, data + bytes(-len(data) % (STEP.size * STEPS)))


def build(folder: str) -> Yardstick:
    """Proves and builds the program."""
    rt = shutil.which("rt")
    if rt is None:
        raise SystemExit("the toolchain's rt isn't there: the yardstick can't be built")
    root = tempfile.mkdtemp(dir=folder)
    crate = os.path.join(root, "crates", "yardstick")
    os.makedirs(os.path.join(crate, "src"))
    os.mkdir(os.path.join(root, ".git"))
    with open(os.path.join(root, "crates.txt"), "w", encoding="utf-8") as file:
        file.write("yardstick: sha2 hex\n")
    with open(os.path.join(crate, "src", "main.rt"), "w", encoding="utf-8") as file:
        file.write(SOURCE.lstrip("\n"))
    # The run that follows the build has no plan, and fails.
    done = subprocess.run([rt, "run", "--", "none", "none"], cwd=crate, capture_output=True, text=True, stdin=subprocess.DEVNULL)
    built = os.path.join(crate, "out", "yardstick")
    if not os.path.isfile(built):
        raise SystemExit(f"the yardstick isn't built:\n{done.stdout}{done.stderr}")
    return Yardstick(built)
