"""The data file and the output of `imitation.py`: the calls that the built program makes, and the statuses."""

import os

from tries.bugs import has

DONE, FOUND, WORDS, SCRIPT, REFUSED, DISK, READ, WRITE = 0, 1, 2, 3, 4, 5, 6, 7


class End(Exception):
    """The run ends with this status."""


class Streams:
    """Standard input and output."""

    def read(self, most: int) -> bytes:
        return os.read(0, most)

    def write(self, text: bytes) -> int:
        return os.write(1, text)


# What `served.py` puts others in the place of.
STREAMS = [Streams()]


class File:
    """The data file, opened on first use."""

    def __init__(self, path: bytes):
        self.path, self.fd, self.new = path, None, False

    def opened(self) -> int:
        if self.fd is None:
            self.fd = self.asked(os.open, self.path, os.O_RDWR | os.O_CREAT | os.O_CLOEXEC, 0o666)
            self.new = os.fstat(self.fd).st_size == 0
        return self.fd

    def asked(self, call, *arguments):
        """A call; one that fails ends the run."""
        try:
            return call(*arguments)
        except (OSError, ValueError):
            raise End(DISK) from None

    def read(self, at: int, length: int) -> bytes:
        data = b""
        while len(data) < length:
            piece = self.asked(os.pread, self.opened(), length - len(data), at + len(data))
            if not piece:
                break
            data += piece
        return data + bytes(length - len(data))

    def write(self, at: int, data: bytes) -> None:
        while data:
            taken = self.asked(os.pwrite, self.opened(), data, at)
            if not taken:
                raise End(DISK)
            if has("a short write isn't gone on with"):
                return
            at, data = at + taken, data[taken:]

    def sync(self) -> None:
        try:
            os.fdatasync(self.opened())
        except OSError:
            if not has("a fault of a sync is passed over"):
                raise End(DISK) from None
        if self.new and not has("the folder isn't synced"):
            folder = self.asked(os.open, os.path.dirname(self.path) or b".", os.O_RDONLY | os.O_CLOEXEC)
            self.asked(os.fsync, folder)
            os.close(folder)
        self.new = False


def tell(text: bytes) -> None:
    """Writes one answer."""
    while text:
        try:
            taken = STREAMS[0].write(text)
        except OSError:
            raise End(WRITE) from None
        if not taken:
            raise End(WRITE)
        text = text[taken:]


def refuse(words: str) -> None:
    tell(b"refused " + words.encode() + b"\n")
    raise End(REFUSED)


def lines_of(longest: int):
    """Each line of standard input; a line that grows too long comes early. What is read fits into the room of one longest line with its
    byte 10, beside what is held."""
    kept, ended = b"", False
    while True:
        at = kept.find(b"\n")
        if at >= 0:
            yield kept[:at]
            kept = kept[at + 1 :]
        elif ended or len(kept) > longest:
            if kept:
                yield kept
            return
        else:
            try:
                piece = STREAMS[0].read(longest + 1 - len(kept))
            except OSError:
                raise End(READ) from None
            kept, ended = kept + piece, not piece


def fill_streams() -> None:
    """Closed standard streams are filled, so that the data file never stands in for one."""
    for fd in (0, 1, 2):
        try:
            os.fstat(fd)
        except OSError:
            os.open("/", os.O_RDONLY)
