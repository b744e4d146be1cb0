"""Plays: the history of a script whose lines are answered in their order, and its brief."""

from .collector import Collector, Ended, Waits
from .entries import LEAVE, REFUSALS, Did, End, Entry, History, Reply, Space, Told
from .script import COLLECTOR, Command, Heap, Script, read_script
from .seat import Seat
from .table import GRANTED, PHASE, Table
from .texts import LONGEST_SCRIPT, Answer, Refused, done, refused, text_of, too_long

STEADY_TURNS = 16
TURNS_A_FRAGMENT = 8
DEBT_A_FRAGMENT = 64
MOST_OWED = 2**63
MOST_TURNS = 4_096


class Pace:
    """For how many turns is asked behind each line of a seat: a pace by its name, or none."""

    def __init__(self, name: str | None):
        self.name = name
        self.owed = 0

    def turns(self, taken: int) -> int:
        if self.name == "steady":
            return min(STEADY_TURNS + TURNS_A_FRAGMENT * taken, MOST_TURNS)
        due = min(self.owed + DEBT_A_FRAGMENT * taken, MOST_OWED)
        asked = min(due, MOST_TURNS)
        self.owed = due - asked
        return asked


class Machine:
    """A table with its seats and its collector, and the entries that they told."""

    def __init__(self, heap: Heap):
        self.table = Table(heap)
        self.body: list[Entry | Space | End] = []
        self.seats = [Seat(number, self.table, self.body.append) for number in range(heap.seats)]
        self.collector = Collector(self.table, self.body.append)

    def answer(self, command: Command) -> None:
        """Makes the call of a command, whose reply stands behind the entries of the call."""
        if command.party == COLLECTOR:
            reply = self.turns(*command.operands) if command.name == "turns" else self.cycle()
        elif command.name == "collect":
            reply = self.collect(self.seats[command.party])
        else:
            reply = self.seats[command.party].call(command.name, command.operands)
        self.body.append(Told(command, reply))

    def press(self, command: Command) -> None:
        """Makes the call of a command, and where it is refused for want of space a collect and the call again."""
        self.answer(command)
        if self.body[-1].reply.kind in ("full", "spine"):
            self.answer(Command(command.party, "collect", ()))
            self.answer(command)

    def turns(self, count: int) -> Reply:
        """So many turns, or fewer, up to one that waits."""
        for _ in range(count):
            turn = self.collector.turn()
            if isinstance(turn, Waits):
                return Reply("waits", turn)
        return Reply("done")

    def cycle(self) -> Reply:
        """Turns up to one that ends a cycle or waits."""
        while True:
            turn = self.collector.turn()
            if isinstance(turn, Ended):
                return Reply("cycle", turn)
            if isinstance(turn, Waits):
                return Reply("waits", turn)

    def cycles_to_come(self) -> int:
        """One cycle, and before it the rest of the one under way."""
        return 1 if self.table.words[PHASE] % 7 == 0 else 2

    def collect(self, seat: Seat) -> Reply:
        left = self.cycles_to_come()
        while True:
            reply = self.cycle()
            if reply.kind == "cycle":
                left -= 1
                if left == 0:
                    return reply
            elif reply.values[0] == seat.number:
                seat.answer()
            else:
                return reply

    def paced_turns(self, pace: Pace, told: int) -> None:
        """The turns behind a seat's line, whose entries stand from this position on."""
        taken = sum(entry.values[0] for entry in self.body[told:] if isinstance(entry, Did) and entry.kind == "takes")
        self.turns(pace.turns(taken))

    def space(self) -> Space:
        heap = self.table.heap
        return Space(self.table.taken(), heap.fragments, self.table.words[GRANTED], heap.spine)


def play(script: Script, pace_name: str | None, pressed: bool = False) -> History:
    """The history of a play, whose seats may collect where they are refused space."""
    machine = Machine(script.heap)
    pace = Pace(pace_name)
    for command in script.commands:
        told = len(machine.body)
        if pressed:
            machine.press(command)
        else:
            machine.answer(command)
        if pace_name and command.party != COLLECTOR:
            machine.paced_turns(pace, told)
    machine.body.append(machine.space())
    for seat in machine.seats:
        machine.answer(Command(seat.number, LEAVE, ()))
    for _ in range(machine.cycles_to_come()):
        machine.cycle()
    machine.body.append(End(machine.table.taken()))
    return History(True, script.heap, machine.body, script.version)


def brief(history: History) -> list[str]:
    """A play's counts, in six lines."""
    told = [entry for entry in history.entries() if isinstance(entry, Told)]
    replies = [entry.reply.kind for entry in told if entry.command.party != COLLECTOR and entry.command.name != LEAVE]
    did = [entry for entry in history.entries() if isinstance(entry, Did)]
    kinds = [entry.kind for entry in did]
    freed = sum(entry.values[0] for entry in did if entry.kind == "frees")
    refusals = sum(kind in REFUSALS for kind in replies)
    space = next(line for line in history.body if isinstance(line, Space))
    return [
        "brief 1",
        history.heap.line(history.version),
        f"commands {len(replies)} refused {refusals}",
        f"made {replies.count('made')} cycles {kinds.count('ends')} freed {freed} swung {kinds.count('swings')}",
        space.line(),
        history.body[-1].line(),
    ]


def answer_play(text: bytes, pace_name: str | None, in_brief: bool, pressed: bool) -> Answer:
    """What `play` answers to this input."""
    if len(text) > LONGEST_SCRIPT:
        return too_long()
    try:
        history = play(read_script(text, True), pace_name, pressed)
    except Refused as fault:
        return refused(fault)
    return done(text_of(brief(history) if in_brief else history.lines()))
