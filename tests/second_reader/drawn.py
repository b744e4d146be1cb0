"""Scripts that are drawn at random: valid ones, most on small heaps, in which want of space and waits come often."""

from random import Random

from .script import COLLECTOR, MOST_BOARD, USUAL_BOARD, VERSIONS, Command, Heap, Script

# How often each command is drawn, before a script's own leanings.
USUAL = {"new": 6, "array": 5, "get": 6, "set": 8, "num": 2, "nil": 3, "copy": 3, "same": 2, "len": 1, "poll": 4,
         "collect": 2, "turns": 5, "cycle": 2, "polls": 2}
# Likewise of version 2 alone: a compare and swap, and one behind a get of the same field.
SWAPS = {"cas": 3, "pair": 5}


# How often a heap is a big one.
BIG_HEAPS = 0.04


def draw_board(random: Random, version: int) -> int:
    """The fields of a board: many at the edges, where one more takes one fragment more."""
    if version == 1:
        return USUAL_BOARD
    return random.choice((1, 2, 3, 5, 6, 8, USUAL_BOARD, 46, MOST_BOARD, random.randint(1, MOST_BOARD)))


def draw_heap(random: Random, version: int = 1) -> Heap:
    board = draw_board(random, version)
    if random.random() < BIG_HEAPS:
        return Heap(random.choice((64, 70, 300, 4_096)), random.choice((1_024, 2_000, 16_384)), random.randint(1, 3), board)
    groups = random.choice((1, 1, 2, 2, 3, 4))
    spine = random.choice((0, 1, 2, 3, 4, 5, 6, 7, 8, 8, 20, 100))
    seats = random.choice((1, 1, 1, 2, 2, 2, 3, 3, 4, 5, 8, 16))
    return Heap(groups, spine, seats, board)


class Drawer:
    """Draws the commands of one script."""

    def __init__(self, random: Random, heap: Heap, played: bool, version: int = 1):
        self.random = random
        self.heap = heap
        self.played = played
        usual = USUAL if version == 1 else {**USUAL, **SWAPS}
        names = [name for name in usual if played or name not in ("turns", "cycle")]
        self.weights = {name: usual[name] * random.choice((0.2, 1, 1, 3)) for name in names}
        self.registers = random.choice((3, 5, 15))
        self.fields = random.choice((4, 12, 47))
        self.most_cells = min(4 * heap.spine + 4, 4_096)

    def destination(self) -> int:
        return self.random.randint(1, self.registers)

    def register(self) -> int:
        return self.random.choice((0, self.random.randint(0, self.registers)))

    def index(self) -> int:
        most = self.random.choice((8, self.fields, self.most_cells))
        return self.random.choice((0, 1, 2, self.random.randint(0, most)))

    def cells(self) -> int:
        return self.random.randint(1, self.random.choice((4, 12, self.most_cells)))

    def turns(self) -> int:
        return self.random.choice((0, 1, 2, self.random.randint(0, 40), self.random.randint(0, 400)))

    def command(self, party: int | str, name: str) -> Command:
        operands = {
            "new": lambda: (self.destination(), self.random.randint(1, self.fields)),
            "array": lambda: (self.destination(), self.cells()),
            "get": lambda: (self.destination(), self.register(), self.index()),
            "set": lambda: (self.register(), self.index(), self.register()),
            "cas": lambda: (self.register(), self.index(), self.register(), self.register()),
            "num": lambda: (self.destination(), self.random.choice((0, 9, 1_073_741_823))),
            "nil": lambda: (self.destination(),),
            "copy": lambda: (self.destination(), self.register()),
            "same": lambda: (self.register(), self.register()),
            "len": lambda: (self.register(),),
            "turns": lambda: (self.turns(),),
        }
        return Command(party, name, operands[name]() if name in operands else ())

    def pair(self, seat: int) -> list[Command]:
        """A get, and a compare and swap of the same field that expects what it got."""
        got, register, index = self.destination(), self.register(), self.index()
        return [Command(seat, "get", (got, register, index)), Command(seat, "cas", (register, index, got, self.register()))]

    def commands(self) -> list[Command]:
        """One drawn command, a get with its compare and swap, or a poll of every seat and then the collector."""
        names = list(self.weights)
        name = self.random.choices(names, [self.weights[name] for name in names])[0]
        if name == "polls":
            polls = [Command(seat, "poll", ()) for seat in range(self.heap.seats)]
            return polls + ([self.command(COLLECTOR, "cycle")] if self.played else [])
        if name in ("turns", "cycle"):
            return [self.command(COLLECTOR, name)]
        seat = self.random.randrange(self.heap.seats)
        return self.pair(seat) if name == "pair" else [self.command(seat, name)]


def draw_script(random: Random, most_lines: int, played: bool = True) -> Script:
    """A script of at most about so many lines."""
    version = random.choice(VERSIONS)
    drawer = Drawer(random, draw_heap(random, version), played, version)
    commands: list[Command] = []
    lines = random.randint(0, most_lines)
    while len(commands) < lines:
        commands += drawer.commands()
    return Script(drawer.heap, commands, version)
