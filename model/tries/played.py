"""The lines of a transcript: their words, what stands in braces, and the definitions that stand for others."""

import re
from typing import Iterator, NamedTuple

SIGNS = {
    "+": lambda one, two: one + two, "-": lambda one, two: one - two, "*": lambda one, two: one * two,
    "/": lambda one, two: one // two, "%": lambda one, two: one % two,
}
ESCAPES = {"r": "\r", "0": "\0", "t": "\t"}


class Wrong(Exception):
    """A line has no meaning, or what it says isn't so."""


class Line(NamedTuple):
    """A line as it is played, with its number in the file."""

    number: int
    text: str


def number(word: str) -> int:
    """A plain number."""
    if not re.fullmatch(r"[0-9]+", word):
        raise Wrong(f"no number: {word}")
    return int(word)


def span(word: str) -> range:
    """The sectors that a word names: `5`, or `0-3`."""
    first, _, last = word.partition("-")
    return range(number(first), number(last or first) + 1)


def hexed(words) -> bytes:
    """The bytes that hex digits spell, those of each word after those before it."""
    try:
        return b"".join(bytes.fromhex(word) for word in words)
    except ValueError:
        raise Wrong("no hex digits, two for each byte") from None


def words_of(text: str) -> list:
    """The words of a line; one in double quotes may hold blanks, or nothing."""
    found = []
    for piece in re.findall(r'(?:"[^"]*"|[^ "])+', text):
        found.append(piece.replace('"', ""))
    return found


def value(text: str, given: dict) -> int:
    """Numbers and parameters with signs between them, from left to right."""
    first, *rest = re.split(r"([-+*/%])", text)
    total = number(given.get(first, first))
    for sign, word in zip(rest[::2], rest[1::2]):
        try:
            total = SIGNS[sign](total, number(given.get(word, word)))
        except ZeroDivisionError:
            raise Wrong(f"no value: {text}") from None
        if total < 0:
            raise Wrong(f"below zero: {text}")
    return total


def filled(text: str, given: dict) -> str:
    """The line with all its braces replaced."""
    def one(found: re.Match) -> str:
        inner = found[1]
        if " x " in inner:
            part, count = inner.split(" x ", 1)
            return given.get(part, part) * value(count, given)
        if inner in given:
            return given[inner]
        if inner.endswith(":x"):
            return f"{value(inner[:-2], given) % 256:02x}"
        return str(value(inner, given))
    return re.sub(r"\{([^}]*)\}", one, text)


def said(text: str) -> bytes:
    """The bytes that a line of a script or of an answer stands for, with its end where no `\\` stands after it."""
    told, letters = "", iter(text)
    for letter in letters:
        if letter == "\\":
            letter = next(letters, None)
            if letter is None:
                return told.encode()
            letter = ESCAPES.get(letter, letter)
        told += letter
    return told.encode() + b"\n"


class Lines:
    """The lines of a text in the order in which they are played, with definitions unfolded."""

    def __init__(self, text: str):
        self.ahead = [Line(number, line.lstrip(" ")) for number, line in enumerate(text.split("\n"), 1)][::-1]
        # Lines that come from a definition have their braces replaced.
        self.ready = [False] * len(self.ahead)
        self.defined: dict = {}

    def push(self, line: Line) -> None:
        self.ahead.append(line)
        self.ready.append(True)

    def pop(self) -> Line:
        """The next line, with its braces replaced."""
        line, ready = self.ahead.pop(), self.ready.pop()
        return line if ready or line.text.startswith("#") else Line(line.number, self.asked(line, filled, line.text, {}))

    def asked(self, line: Line, call, *arguments):
        """A call, whose refusal names this line."""
        try:
            return call(*arguments)
        except Wrong as why:
            raise Wrong(f"line {line.number}: {why}") from None

    def __iter__(self) -> Iterator[Line]:
        while self.ahead:
            line = self.pop()
            if not line.text or line.text.startswith("#"):
                continue
            word, *rest = line.text.split(" ", 1)
            unfold = {"define": self.define, "do": self.do, "each": self.each}.get(word)
            if unfold is None:
                yield line
            else:
                self.asked(line, unfold, line, words_of(rest[0] if rest else ""))

    def define(self, _, words: list) -> None:
        """Takes the lines up to `end`."""
        body = []
        while self.ahead:
            line = self.ahead.pop()
            self.ready.pop()
            if line.text == "end":
                self.defined[words[0]] = words[1:], body
                return
            body.append(line)
        raise Wrong("a definition has no end")

    def do(self, _, words: list) -> None:
        """Puts the lines of a definition before the others."""
        parameters, body = self.defined.get(words[0], (None, None))
        if parameters is None:
            raise Wrong(f"no definition: {words[0]}")
        if len(parameters) != len(words) - 1:
            raise Wrong(f"{words[0]} is given {len(words) - 1} words")
        given = dict(zip(parameters, words[1:]))
        for line in body[::-1]:
            self.push(Line(line.number, filled(line.text, given)))

    def each(self, line: Line, words: list) -> None:
        """Puts a `do` for each number before the others."""
        first, last, name, *rest = words
        for at in reversed(range(number(first), number(last) + 1)):
            self.push(Line(line.number, " ".join(["do", name, str(at), *(f'"{word}"' for word in rest)])))
