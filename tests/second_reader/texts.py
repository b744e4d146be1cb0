"""Texts: lines, words and numbers, and what an answer of the program is."""

from typing import NamedTuple

DONE, REFUSED, USAGE, TOO_LONG, NOT_LEGAL = 0, 1, 2, 6, 7

LONGEST_SCRIPT = 1_048_576
LONGEST_HISTORY = 16_777_216
# What migrates is shorter by as much as it may grow.
MOST_MIGRATED_SCRIPT = 1_048_572
MOST_MIGRATED_HISTORY = 16_777_212

# A number with more digits than this is above every limit of the formats.
MOST_DIGITS = 20


class Answer(NamedTuple):
    """What a call of the program ends with."""

    status: int
    output: bytes
    error: bytes


class Refused(Exception):
    """A text has a first bad line, with a cause."""

    def __init__(self, line: int, cause: str):
        super().__init__(line, cause)
        self.line = line
        self.cause = cause


class NotLegal(Exception):
    """A history's first line that isn't right after the lines before it."""

    def __init__(self, line: int):
        super().__init__(line)
        self.line = line


def done(output: bytes) -> Answer:
    return Answer(DONE, output, b"")


def refused(fault: Refused) -> Answer:
    return Answer(REFUSED, b"", b"refused at line %d: %s\n" % (fault.line, fault.cause.encode()))


def not_legal(fault: NotLegal) -> Answer:
    return Answer(NOT_LEGAL, b"", b"not legal at line %d\n" % fault.line)


def usage() -> Answer:
    return Answer(USAGE, b"", b"usage\n")


def too_long() -> Answer:
    return Answer(TOO_LONG, b"", b"too long\n")


def lines_of(text: bytes) -> list[bytes]:
    """The lines of a text; the last one may lack its line feed."""
    lines = text.split(b"\n")
    if lines[-1] == b"":
        lines.pop()
    return lines


def text_of(lines: list[str]) -> bytes:
    """The text of these lines, each with its line feed."""
    return "".join(line + "\n" for line in lines).encode()


def number_of(word: bytes, most_digits: int = MOST_DIGITS) -> int | None:
    """The number that a word is, of so many digits at most and without a leading zero."""
    if not word.isdigit() or len(word) > most_digits:
        return None
    if word[0:1] == b"0" and len(word) > 1:
        return None
    return int(word)
