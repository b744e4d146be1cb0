"""Histories are read by the grammar."""

from .entries import (BOARD, COLLECTOR_FORMS, END_FORM, LEAVE, REPLIES_OF, REPLY_FORMS, SEAT_FORMS, SPACE_FORM, UNSET,
                      Did, End, Entry, History, Reply, Space, Told)
from .script import COLLECTOR, COLLECTOR_COMMANDS, VERSIONS, Command, Heap, read_header, seat_commands
from .texts import Refused, lines_of, number_of

TOO_MANY_LINES = 4_000_000


def number_within(least: int, largest: int):
    """A reader of numbers in this range."""

    def read(word: bytes) -> int | None:
        number = number_of(word)
        return number if number is not None and least <= number <= largest else None

    return read


read_seat = number_within(0, 15)
read_count = number_within(0, 2**32 - 1)
read_set_count = number_within(1, 2**26 - 1)


def read_id(word: bytes) -> str | None:
    """An id, as its text: each object has one text alone."""
    if word == b"board":
        return BOARD
    parts = word.split(b".")
    if len(parts) != 2 or read_seat(parts[0]) is None or read_count(parts[1]) is None:
        return None
    return word.decode()


def read_stamp(word: bytes) -> str | None:
    """A stamp, as its text: each stamp has one text alone."""
    if word == b"-":
        return UNSET
    parts = word.split(b":")
    if len(parts) != 2 or read_seat(parts[0]) is None or read_set_count(parts[1]) is None:
        return None
    return word.decode()


SLOTS = {
    "ID": read_id,
    "STAMP": read_stamp,
    "NUMBER": number_within(0, 1_073_741_823),
    "LENGTH": number_within(0, 65_535),
    "PHASE": number_within(0, 2**64 - 1),
    "SPACE": number_within(0, 2**32 - 1),
    "SEAT": read_seat,
}


def compiled(form: str) -> list:
    """A form with its readers in place of its slots."""
    return [SLOTS[word] if word in SLOTS else word.encode() for word in form.split(" ")]


COMPILED = {form: compiled(form) for form in (*REPLY_FORMS.values(), *SEAT_FORMS.values(), *COLLECTOR_FORMS.values(),
                                              SPACE_FORM, END_FORM)}


def matched(form: str, words: list[bytes]) -> tuple | None:
    """What stands in the form's slots, where the words have this form."""
    parts = COMPILED[form]
    if len(parts) != len(words):
        return None
    values = []
    for part, word in zip(parts, words):
        if callable(part):
            value = part(word)
            if value is None:
                return None
            values.append(value)
        elif part != word:
            return None
    return tuple(values)


def read_reply(name: str, words: list[bytes]) -> Reply | None:
    """Reads a reply of the command with this name."""
    for kind in REPLIES_OF[name]:
        values = matched(REPLY_FORMS[kind], words)
        if values is not None:
            return Reply(kind, values)
    return None


def read_told(party: int | str, commands: dict, words: list[bytes]) -> Told | None:
    """Reads `COMMAND = REPLY`."""
    name = words[0].decode("latin-1")
    if name not in commands:
        return None
    ranges = commands[name]
    sign = 1 + len(ranges)
    if len(words) <= sign or words[sign] != b"=":
        return None
    operands = []
    for word, (least, largest) in zip(words[1:], ranges):
        number = number_of(word)
        if number is None or not least <= number <= largest:
            return None
        operands.append(number)
    reply = read_reply(name, words[sign + 1:])
    return None if reply is None else Told(Command(party, name, tuple(operands)), reply)


def read_did(party: int | str, forms: dict, words: list[bytes]) -> Did | None:
    """Reads an entry without a reply."""
    for kind, form in forms.items():
        values = matched(form, words)
        if values is not None:
            return Did(party, kind, values)
    return None


ENTRY_COMMANDS = {version: {**seat_commands(version), LEAVE: ()} for version in VERSIONS}


def read_entry(words: list[bytes], heap: Heap, played: bool, version: int) -> Entry | None:
    if len(words) < 2:
        return None
    if words[0] == b"c":
        told = read_told(COLLECTOR, COLLECTOR_COMMANDS, words[1:]) if played else None
        return told or read_did(COLLECTOR, COLLECTOR_FORMS, words[1:])
    seat = read_seat(words[0])
    if seat is None or seat >= heap.seats:
        return None
    return read_told(seat, ENTRY_COMMANDS[version], words[1:]) or read_did(seat, SEAT_FORMS, words[1:])


def read_space(words: list[bytes]) -> Space | None:
    values = matched(SPACE_FORM, words)
    return None if values is None else Space(*values)


def read_end(words: list[bytes]) -> End | None:
    values = matched(END_FORM, words)
    return None if values is None else End(*values)


def read_body(lines: list[bytes], heap: Heap, played: bool, version: int) -> list[Entry | Space | End]:
    """Reads the lines from the third on, up to the end line, which has to be the last."""
    body: list[Entry | Space | End] = []
    space_seen = False
    for position, line in enumerate(lines, 3):
        words = line.split(b" ")
        read: Entry | Space | End | None
        if body and isinstance(body[-1], End):
            read = None
        elif words[0] == b"space":
            read = read_space(words) if played and not space_seen else None
            space_seen = True
        elif words[0] == b"end":
            read = read_end(words) if space_seen or not played else None
        else:
            read = read_entry(words, heap, played, version)
        if read is None:
            raise Refused(position, "BadEntry")
        if position >= TOO_MANY_LINES:
            raise Refused(position, "HistoryLines")
        body.append(read)
    if not body or not isinstance(body[-1], End):
        raise Refused(len(lines) + 3, "NoEnd")
    return body


def migrated(history: History) -> History:
    """The same history in version 2."""
    return history._replace(version=VERSIONS[-1])


def read_history(text: bytes) -> History:
    lines = lines_of(text)
    headers = {b"history %d %s" % (version, form): version for version in VERSIONS for form in (b"play", b"run")}
    version, heap = read_header(lines, headers)
    played = lines[0].endswith(b" play")
    return History(played, heap, read_body(lines[2:], heap, played, version), version)
