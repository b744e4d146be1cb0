"""The words after the program's name, and what the program answers to them and its input."""

from collections.abc import Callable

from .history import migrated as migrated_history
from .history import read_history
from .judge import check
from .made import MOST_MADE, MOST_START, make
from .plan import plan
from .play import answer_play
from .queue import answer_without_room
from .script import MOST_SEATS, SCRIPT_DIGITS, Script, read_crew, read_queue, read_script
from .script import migrated as migrated_script
from .texts import (LONGEST_SCRIPT, MOST_MIGRATED_HISTORY, MOST_MIGRATED_SCRIPT, Answer, Refused, done, number_of,
                    refused, text_of, too_long, usage)

MOST_PATIENCE = 1_000_000


def is_number_within(word: str, least: int, largest: int) -> bool:
    number = number_of(word.encode(), SCRIPT_DIGITS)
    return number is not None and least <= number <= largest


def options_of(words: list[str], allowed: tuple[str, ...]) -> dict[str, str] | None:
    """The options that these words are, each once at most, with their values."""
    found: dict[str, str] = {}
    left = iter(words)
    for word in left:
        if word not in allowed or word in found:
            return None
        value = next(left, "") if word in ("--pace", "--patience") else ""
        if word == "--pace" and value not in ("steady", "debt"):
            return None
        if word == "--patience" and not is_number_within(value, 1, MOST_PATIENCE):
            return None
        found[word] = value
    return found


def answer_make(words: list[str]) -> Answer:
    limits = ((0, MOST_START), (1, MOST_SEATS), (0, MOST_MADE))
    if len(words) != 3 or not all(is_number_within(word, *limit) for word, limit in zip(words, limits)):
        return usage()
    return done(text_of(make(*(int(word) for word in words)).lines()))


def answer_migrate(words: list[str], text: bytes) -> Answer:
    """The same text in version 2."""
    if words == ["script"]:
        most, read = MOST_MIGRATED_SCRIPT, lambda: migrated_script(read_script(text, True))
    elif words == ["history"]:
        most, read = MOST_MIGRATED_HISTORY, lambda: migrated_history(read_history(text))
    else:
        return usage()
    if len(text) > most:
        return too_long()
    try:
        return done(text_of(read().lines()))
    except Refused as fault:
        return refused(fault)


def answer_threads(text: bytes, read: Callable[[bytes], Script]) -> Answer | None:
    """What is answered to a text whose seats work on threads, where it can't be read."""
    if len(text) > LONGEST_SCRIPT:
        return too_long()
    try:
        read(text)
    except Refused as fault:
        return refused(fault)
    return None


def answer_queue(text: bytes) -> Answer | None:
    """What is answered to a queue's text that can't be read, or whose heap has no room for a queue."""
    return answer_threads(text, read_queue) or answer_without_room(read_queue(text))


def answer_words(words: list[str], text: bytes) -> Answer | None:
    """What the program answers; None where it is a run, a crew or a queue on threads, whose history isn't determined."""
    form, rest = (words[0], words[1:]) if words else ("", [])
    if form == "check" and not rest:
        return check(text)
    if form == "plan" and not rest:
        return plan(text)
    if form == "migrate":
        return answer_migrate(rest, text)
    if form == "make":
        return answer_make(rest)
    if form == "play":
        options = options_of(rest, ("--pace", "--brief", "--press"))
        return usage() if options is None else answer_play(text, options.get("--pace"), "--brief" in options, "--press" in options)
    if form == "run":
        options = options_of(rest, ("--locked", "--patience", "--pace"))
        return usage() if options is None else answer_threads(text, lambda script: read_script(script, False))
    if form == "crew":
        options = options_of(rest, ("--history",))
        return usage() if options is None else answer_threads(text, read_crew)
    if form == "queue":
        return usage() if rest else answer_queue(text)
    return usage()
