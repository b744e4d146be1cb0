"""Changes of a text: of a byte, a line, a word or a number, and of a history's replies."""

import re
from random import Random

NUMBER = re.compile(rb"[0-9]+")
ODD_BYTES = b"\x00\r\t 019-.:=c\x80\xff"


def position_of(random: Random, things: list | bytes) -> int:
    return random.randrange(len(things)) if things else 0


def change_byte(random: Random, text: bytes) -> bytes:
    position = position_of(random, text)
    byte = random.choice((random.randrange(256), random.choice(ODD_BYTES)))
    return text[:position] + bytes([byte]) + text[position + 1:]


def cut_byte(random: Random, text: bytes) -> bytes:
    position = position_of(random, text)
    return text[:position] + text[position + 1:]


def drop_last_feed(random: Random, text: bytes) -> bytes:
    return text.removesuffix(b"\n")


def add_space(random: Random, text: bytes) -> bytes:
    """Doubles a space, or puts one at a line's begin or end."""
    positions = [match.start() for match in re.finditer(rb"[ \n]", text)] or [0]
    position = random.choice(positions) + random.choice((0, 0, 1))
    return text[:position] + b" " + text[position:]


def change_number(random: Random, text: bytes) -> bytes:
    found = list(NUMBER.finditer(text))
    if not found:
        return text
    match = random.choice(found)
    number = int(match.group()[:20])
    near = random.choice((b"%d" % (number + 1), b"%d" % max(number - 1, 0)))
    far = random.choice((b"%d" % (number * 10), b"0" + match.group(), b"%d" % random.randrange(100), b"4294967296",
                         b"18446744073709551616", b"10000000000", b"", b"1" * 40))
    return text[:match.start()] + random.choice((near, near, far)) + text[match.end():]


def near_number(random: Random, text: bytes) -> bytes:
    """Takes a number of some line behind the second to one beside it."""
    body = text.find(b"\n", text.find(b"\n") + 1) + 1
    found = list(NUMBER.finditer(text, body))
    if not found:
        return text
    match = random.choice(found)
    number = max(int(match.group()[:20]) + random.choice((-1, 1)), 0)
    return text[:match.start()] + b"%d" % number + text[match.end():]


def on_lines(change):
    """A change of a list of lines, as one of a text."""

    def changed(random: Random, text: bytes) -> bytes:
        lines = text.split(b"\n")
        end = lines.pop() if lines[-1] == b"" and len(lines) > 1 else None
        change(random, lines)
        return b"\n".join(lines + ([end] if end is not None else []))

    changed.__name__ = change.__name__
    return changed


@on_lines
def drop_line(random: Random, lines: list[bytes]) -> None:
    del lines[position_of(random, lines)]


@on_lines
def double_line(random: Random, lines: list[bytes]) -> None:
    position = position_of(random, lines)
    lines.insert(position, lines[position])


@on_lines
def copy_line(random: Random, lines: list[bytes]) -> None:
    lines.insert(position_of(random, lines), lines[position_of(random, lines)])


@on_lines
def swap_lines(random: Random, lines: list[bytes]) -> None:
    position = position_of(random, lines)
    other = random.choice((position_of(random, lines), min(position + 1, len(lines) - 1)))
    lines[position], lines[other] = lines[other], lines[position]


@on_lines
def move_line(random: Random, lines: list[bytes]) -> None:
    line = lines.pop(position_of(random, lines))
    lines.insert(position_of(random, lines), line)


@on_lines
def add_word(random: Random, lines: list[bytes]) -> None:
    position = position_of(random, lines)
    words = lines[position].split(b" ")
    word = random.choice((b"0", b"1", b"x", b"", b"poll", random.choice(words)))
    words.insert(random.randint(0, len(words)), word)
    lines[position] = b" ".join(words)


@on_lines
def take_word(random: Random, lines: list[bytes]) -> None:
    position = position_of(random, lines)
    words = lines[position].split(b" ")
    del words[position_of(random, words)]
    lines[position] = b" ".join(words)


@on_lines
def swap_words(random: Random, lines: list[bytes]) -> None:
    """Puts a word of one line in the place of a word of another."""
    position, other = position_of(random, lines), position_of(random, lines)
    words, others = lines[position].split(b" "), lines[other].split(b" ")
    words[position_of(random, words)] = others[position_of(random, others)]
    lines[position] = b" ".join(words)


@on_lines
def exchange_replies(random: Random, lines: list[bytes]) -> None:
    positions = [position for position, line in enumerate(lines) if b" = " in line]
    if len(positions) < 2:
        return
    position, other = random.sample(positions, 2)
    command, reply = lines[position].split(b" = ", 1)
    other_command, other_reply = lines[other].split(b" = ", 1)
    lines[position], lines[other] = command + b" = " + other_reply, other_command + b" = " + reply


@on_lines
def move_last_lines(random: Random, lines: list[bytes]) -> None:
    """Puts the space line or the end line somewhere else."""
    positions = [position for position, line in enumerate(lines) if line.startswith((b"space", b"end"))]
    if not positions:
        return
    line = lines.pop(random.choice(positions))
    lines.insert(position_of(random, lines), line)


COARSE = (change_byte, cut_byte, drop_last_feed, add_space, change_number, drop_line, double_line, swap_lines, add_word,
          take_word, swap_words)
FINE = (near_number, near_number, near_number, drop_line, double_line, copy_line, swap_lines, move_line,
        exchange_replies, move_last_lines)


def changed_script(random: Random, text: bytes) -> bytes:
    for _ in range(random.choice((1, 1, 1, 2, 3))):
        text = random.choice(COARSE)(random, text)
    return text


def changed_history(random: Random, text: bytes) -> bytes:
    """Changes that mostly keep the grammar."""
    for _ in range(random.choice((1, 1, 1, 2))):
        text = random.choice(FINE if random.random() < 0.8 else COARSE)(random, text)
    return text
