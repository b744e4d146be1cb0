"""Scripts: the heap line, the commands, and their reading by the grammar."""

from collections.abc import Callable
from typing import NamedTuple

from .texts import Refused, lines_of, number_of

COLLECTOR = "c"

MOST_LINES = 65_536
MOST_JOBS = 4_096
MOST_GROUPS = 4_096
MOST_SPINE = 16_384
MOST_SEATS = 16
SCRIPT_DIGITS = 10

# A text of version 1 has no number of the board, whose fields are so many there.
USUAL_BOARD = 32
MOST_BOARD = 47
VERSIONS = (1, 2)

DESTINATION = (1, 15)
REGISTER = (0, 15)
INDEX = (0, 4_096)

# The operands of each command, each with its least and its largest number.
SEAT_COMMANDS = {
    "new": (DESTINATION, (1, 47)),
    "array": (DESTINATION, (1, 4_096)),
    "get": (DESTINATION, REGISTER, INDEX),
    "set": (REGISTER, INDEX, REGISTER),
    "num": (DESTINATION, (0, 1_073_741_823)),
    "nil": (DESTINATION,),
    "copy": (DESTINATION, REGISTER),
    "same": (REGISTER, REGISTER),
    "len": (REGISTER,),
    "poll": (),
    "collect": (),
}
COLLECTOR_COMMANDS = {"turns": ((0, 1_000_000),), "cycle": ()}
SWAP_COMMANDS = {"cas": (REGISTER, INDEX, REGISTER, REGISTER)}
QUEUE_COMMANDS = {"put": ((0, 1_073_741_823),), "take": ()}


def seat_commands(version: int) -> dict:
    """A seat's commands in a text of this version."""
    return SEAT_COMMANDS if version == 1 else {**SEAT_COMMANDS, **SWAP_COMMANDS}


class Heap(NamedTuple):
    """The sizes of a heap line."""

    groups: int
    spine: int
    seats: int
    board: int = USUAL_BOARD

    @property
    def fragments(self) -> int:
        return 16 * self.groups

    def line(self, version: int) -> str:
        sizes = self if version > 1 else self[:3]
        return " ".join(str(word) for word in ("heap", *sizes))


class Command(NamedTuple):
    """A line of a script: `party` is a seat's number, or the collector."""

    party: int | str
    name: str
    operands: tuple[int, ...]

    def line(self) -> str:
        return " ".join(str(word) for word in (self.party, self.name, *self.operands))


class Script(NamedTuple):
    heap: Heap
    commands: list[Command]
    version: int = 1

    def lines(self) -> list[str]:
        return [f"schism {self.version}", self.heap.line(self.version), *(command.line() for command in self.commands)]


def read_heap(line: bytes, version: int) -> Heap | None:
    """The heap of a heap line within the limits, in a text of this version."""
    words = line.split(b" ")
    limits = ((1, MOST_GROUPS), (0, MOST_SPINE), (1, MOST_SEATS), (1, MOST_BOARD))
    if version == 1:
        limits = limits[:3]
    if len(words) != 1 + len(limits) or words[0] != b"heap":
        return None
    sizes = [number_of(word) for word in words[1:]]
    if any(size is None or not least <= size <= most for size, (least, most) in zip(sizes, limits)):
        return None
    return Heap(*sizes)


def read_header(lines: list[bytes], headers: dict[bytes, int]) -> tuple[int, Heap]:
    """Reads lines 1 and 2: one of these headers, which has the text's version, and the heap line."""
    if not lines or lines[0] not in headers:
        raise Refused(1, "NoHeader")
    version = headers[lines[0]]
    heap = read_heap(lines[1], version) if len(lines) > 1 else None
    if heap is None:
        raise Refused(2, "BadHeap")
    return version, heap


def read_party(word: bytes, heap: Heap, played: bool) -> int | str | None:
    if played and word == b"c":
        return COLLECTOR
    seat = number_of(word, SCRIPT_DIGITS)
    return seat if seat is not None and seat < heap.seats else None


def read_job(word: bytes) -> int | None:
    job = number_of(word, SCRIPT_DIGITS)
    return job if job is not None and job < MOST_JOBS else None


def read_line(position: int, line: bytes, read_front: Callable[[bytes], int | str | None], commands_of: Callable[[int | str], dict]) -> Command:
    """Reads the line at this position of a text: who it is of, and one of the commands that there are."""
    if position > MOST_LINES:
        raise Refused(position, "TooManyLines")
    words = line.split(b" ")
    party = read_front(words[0])
    if party is None:
        raise Refused(position, "NoSeat")
    commands = commands_of(party)
    name = words[1].decode("latin-1") if len(words) > 1 else ""
    if name not in commands:
        raise Refused(position, "NoCommand")
    operands = []
    for i, (least, largest) in enumerate(commands[name]):
        number = number_of(words[2 + i], SCRIPT_DIGITS) if len(words) > 2 + i else None
        if number is None:
            raise Refused(position, "BadNumber")
        if not least <= number <= largest:
            raise Refused(position, "OutOfRange")
        operands.append(number)
    if len(words) > 2 + len(operands):
        raise Refused(position, "TooManyWords")
    return Command(party, name, tuple(operands))


def read_command(position: int, line: bytes, heap: Heap, played: bool, version: int) -> Command:
    """Reads the line at this position of a script."""
    return read_line(position, line, lambda word: read_party(word, heap, played),
                     lambda party: COLLECTOR_COMMANDS if party == COLLECTOR else seat_commands(version))


def read_script(text: bytes, played: bool) -> Script:
    """Reads a script; one that is to be played may have lines for the collector."""
    lines = lines_of(text)
    version, heap = read_header(lines, {b"schism %d" % version: version for version in VERSIONS})
    commands = [read_command(position, line, heap, played, version) for position, line in enumerate(lines[2:], 3)]
    return Script(heap, commands, version)


def migrated(script: Script) -> Script:
    """The same script in version 2."""
    return script._replace(version=VERSIONS[-1])


def read_crew(text: bytes) -> Script:
    """Reads a crew's text; in its lines the numbers of jobs stand where a script has seats."""
    lines = lines_of(text)
    version, heap = read_header(lines, {b"crew 1": VERSIONS[-1]})
    commands = {name: operands for name, operands in seat_commands(version).items() if name != "collect"}
    return Script(heap, [read_line(position, line, read_job, lambda job: commands) for position, line in enumerate(lines[2:], 3)], version)


def read_queue(text: bytes) -> Script:
    """Reads a queue's text, whose board has fields for the first and the last node."""
    lines = lines_of(text)
    version, heap = read_header(lines, {b"queue 1": VERSIONS[-1]})
    if heap.board < 2:
        raise Refused(2, "BadHeap")
    return Script(heap, [read_line(position, line, lambda word: read_party(word, heap, False), lambda seat: QUEUE_COMMANDS)
                         for position, line in enumerate(lines[2:], 3)], version)
