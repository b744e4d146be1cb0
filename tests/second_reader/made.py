"""Made scripts: what `make START SEATS LINES` writes."""

from .script import Command, Heap, Script

MOST_START = 2_147_483_647
MOST_MADE = 32_768


class Generator:
    """A state from which numbers are drawn."""

    def __init__(self, start: int):
        self.state = start

    def draw(self) -> int:
        self.state = (1_103_515_245 * self.state + 12_345) % 2**31
        return self.state // 65_536


def made_command(generator: Generator, seat: int) -> Command:
    """The command that the next draws pick."""
    draw = generator.draw
    picked = draw() % 8
    if picked == 3:
        return Command(seat, "set", (draw() % 16, draw() % 8, draw() % 16))
    if picked == 7:
        return Command(seat, "same", (draw() % 16, draw() % 16))
    destination = 1 + draw() % 15
    if picked == 0:
        return Command(seat, "new", (destination, 1 + draw() % 12))
    if picked == 1:
        return Command(seat, "array", (destination, 1 + draw() % 32))
    if picked == 2:
        return Command(seat, "get", (destination, draw() % 16, draw() % 8))
    if picked == 4:
        return Command(seat, "num", (destination, draw()))
    if picked == 5:
        return Command(seat, "nil", (destination,))
    return Command(seat, "copy", (destination, draw() % 16))


def make(start: int, seats: int, lines: int) -> Script:
    """The script that these numbers determine."""
    generator = Generator(start)
    commands = []
    for i in range(lines):
        seat = i % seats
        if i // seats % 4 == 3:
            commands.append(Command(seat, "poll", ()))
        else:
            commands.append(made_command(generator, seat))
    return Script(Heap(64, 256, seats), commands)
