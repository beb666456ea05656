#!/usr/bin/python3
"""Keeps values in SQLite, in LevelDB, by one write with its sync, or not at all, and answers line by line: what others.py asks beside our programs.

    /usr/bin/python3 bench/keeper.py sqlite|leveldb|write|nothing PATH

Its first line is `ready` and the library's version. It opens PATH at the line `open`, and durable is what `put KEY BODY`, `flush` after lines
`stage KEY BODY`, or `batch ROWS` answers, whose rows of 64 bytes are those of the object table. LevelDB wants Debian's package python3-plyvel,
which is there for Debian's own Python alone.
"""

import os
import sys

SECTOR, SECTORS = 4096, 1024
# A row: its key, how many bytes its value has, the value, and zeros.
ROW, KEY = 64, 16


class Sqlite:
    """A table whose log (WAL) is synced at each commit."""

    def __init__(self):
        import sqlite3

        self.library, self.version, self.base = sqlite3, sqlite3.sqlite_version, None

    def open(self, path: str) -> None:
        self.base = self.library.connect(path, isolation_level=None)
        if self.base.execute("PRAGMA journal_mode=WAL").fetchone() != ("wal",):
            raise SystemExit("SQLite keeps no log here")
        self.base.execute("PRAGMA synchronous=FULL")
        if self.base.execute("PRAGMA synchronous").fetchone() != (2,):
            raise SystemExit("SQLite doesn't sync its log at each commit")
        self.base.execute("CREATE TABLE IF NOT EXISTS kept (key BLOB PRIMARY KEY, value BLOB) WITHOUT ROWID")

    def put(self, puts: list) -> None:
        if len(puts) > 1:
            self.base.execute("BEGIN")
        self.base.executemany("INSERT OR REPLACE INTO kept VALUES (?, ?)", puts)
        if len(puts) > 1:
            self.base.execute("COMMIT")

    def get(self, key: bytes):
        found = self.base.execute("SELECT value FROM kept WHERE key = ?", (key,)).fetchone()
        return found and found[0]

    def close(self) -> None:
        self.base.close()


class Leveldb:
    """A folder whose log is synced at each write."""

    def __init__(self):
        import plyvel

        self.library, self.version, self.base = plyvel, plyvel.__leveldb_version__, None

    def open(self, path: str) -> None:
        self.base = self.library.DB(path, create_if_missing=True)

    def put(self, puts: list) -> None:
        if len(puts) == 1:
            self.base.put(*puts[0], sync=True)
        else:
            with self.base.write_batch(sync=True) as batch:
                for key, value in puts:
                    batch.put(key, value)

    def get(self, key: bytes):
        return self.base.get(key)

    def close(self) -> None:
        self.base.close()


class Write:
    """A file that is there whole, of which the next sector is written over and synced."""

    version = "-"

    def __init__(self):
        self.file, self.next = -1, 0

    def open(self, path: str) -> None:
        self.file = os.open(path, os.O_RDWR | os.O_CREAT)
        os.pwrite(self.file, bytes(SECTOR * SECTORS), 0)
        os.fsync(self.file)

    def put(self, puts: list) -> None:
        data = b"".join(key + value for key, value in puts)
        os.pwrite(self.file, data.ljust(SECTOR, b"\0"), SECTOR * self.next)
        os.fdatasync(self.file)
        self.next = (self.next + 1) % SECTORS

    def get(self, key: bytes):
        return None

    def close(self) -> None:
        os.close(self.file)


class Nothing(Write):
    """What the lines cost by themselves."""

    def open(self, path: str) -> None:
        pass

    def put(self, puts: list) -> None:
        pass

    def close(self) -> None:
        pass


KINDS = {"sqlite": Sqlite, "leveldb": Leveldb, "write": Write, "nothing": Nothing}


def pair(words: list) -> tuple:
    """The key in 16 bytes, the lowest first, and the value."""
    return int(words[1]).to_bytes(16, "little"), bytes.fromhex(words[2].decode())


def pairs(data: bytes) -> list:
    """The keys and values of rows."""
    return [(data[at : at + KEY], data[at + KEY + 1 : at + KEY + 1 + data[at + KEY]]) for at in range(0, len(data), ROW)]


def main() -> None:
    keeper, path = KINDS[sys.argv[1]](), sys.argv[2]
    os.write(1, b"ready %s\n" % keeper.version.encode())
    count, staged = 0, []
    for line in sys.stdin.buffer:
        words = line.split()
        if words[0] == b"put":
            keeper.put([pair(words)])
            count += 1
            answer = b"put %d\n" % count
        elif words[0] == b"stage":
            staged.append(pair(words))
            answer = b"staged %d\n" % (count + len(staged))
        elif words[0] == b"flush":
            keeper.put(staged)
            count += len(staged)
            answer, staged = b"flushed %d\n" % len(staged), []
        elif words[0] == b"batch":
            batch = pairs(bytes.fromhex(words[1].decode()))
            keeper.put(batch)
            count += len(batch)
            answer = b"kept %d\n" % count
        elif words[0] == b"get":
            value = keeper.get(int(words[1]).to_bytes(16, "little"))
            answer = b"refused NoKey\n" if value is None else b"%s %s\n" % (words[1], value.hex().encode())
        else:
            keeper.open(path)
            answer = b"opened\n"
        os.write(1, answer)
    keeper.close()


if __name__ == "__main__":
    main()
