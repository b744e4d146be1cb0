"""The growing graph: objects that are kept for ever, and what the registers hold."""

from .entries import BOARD, LEAVE, UNSET, Reply
from .script import Command, Heap

Value = tuple
NIL: Value = ("nil",)


def number_value(number: int) -> Value:
    return ("number", number)


def object_value(name: str) -> Value:
    return ("object", name)


def words_of_spine(cells: int) -> int:
    """The spine words of an array of so many cells."""
    return -(-cells // 4)


def fragments_of_record(fields: int) -> int:
    return 1 + -(-(fields - 2) // 3) if fields > 2 else 1


def fragments_of_array(cells: int) -> int:
    return 1 + words_of_spine(cells)


class Object:
    """A record or an array, with a value and a stamp in each cell."""

    def __init__(self, is_array: bool, length: int):
        self.is_array = is_array
        self.cells: list[tuple[Value, str]] = [(NIL, UNSET)] * length

    def fragments(self) -> int:
        length = len(self.cells)
        return fragments_of_array(length) if self.is_array else fragments_of_record(length)

    def spine_words(self) -> int:
        return words_of_spine(len(self.cells)) if self.is_array else 0


class Graph:
    """Takes replies in their order, each of which has to be the one that the graph gives."""

    def __init__(self, heap: Heap):
        self.objects = {BOARD: Object(False, heap.board)}
        self.registers = [[object_value(BOARD)] + [NIL] * 15 for _ in range(heap.seats)]
        # Under which stamp each register's value was seen.
        self.seen = [[UNSET] * 16 for _ in range(heap.seats)]
        self.made = [0] * heap.seats
        self.sets = [0] * heap.seats
        self.has_left = [False] * heap.seats

    def held(self, seat: int, register: int) -> Object | None:
        """The object in a register, where there is one."""
        value = self.registers[seat][register]
        return self.objects[value[1]] if value[0] == "object" else None

    def accepts(self, command: Command, reply: Reply) -> bool:
        """Whether this is the reply that the graph gives; takes it where it is."""
        if command.name in ("poll", "collect"):
            return True
        if reply.kind in ("full", "spine"):
            return True
        return reply == self.answer(command)

    def answer(self, command: Command) -> Reply:
        """What the graph gives, and how the command changes it."""
        name, seat, operands = command.name, command.party, command.operands
        registers = self.registers[seat]
        if name in ("new", "array"):
            return self.make(seat, name == "array", *operands)
        if name == "get":
            return self.read_field(seat, *operands)
        if name == "set":
            return self.write_field(seat, *operands)
        if name == "cas":
            return self.swap_field(seat, *operands)
        if name == "len":
            found = self.held(seat, operands[0])
            return Reply("no object") if found is None else Reply("length", (len(found.cells),))
        if name == "same":
            return Reply("yes" if registers[operands[0]] == registers[operands[1]] else "no")
        if name == "num":
            self.put(seat, operands[0], number_value(operands[1]))
        elif name == "nil":
            self.put(seat, operands[0], NIL)
        elif name == "copy":
            self.put(seat, operands[0], registers[operands[1]], self.seen[seat][operands[1]])
        elif name == LEAVE:
            self.registers[seat] = [NIL] * 16
            self.seen[seat] = [UNSET] * 16
            self.has_left[seat] = True
        return Reply("ok")

    def put(self, seat: int, register: int, value: Value, seen: str = UNSET) -> None:
        self.registers[seat][register] = value
        self.seen[seat][register] = seen

    def make(self, seat: int, is_array: bool, destination: int, length: int) -> Reply:
        name = f"{seat}.{self.made[seat]}"
        self.made[seat] += 1
        self.objects[name] = Object(is_array, length)
        self.put(seat, destination, object_value(name))
        return Reply("made", (name,))

    def read_field(self, seat: int, destination: int, register: int, index: int) -> Reply:
        found = self.held(seat, register)
        if found is None:
            return Reply("no object")
        if index >= len(found.cells):
            return Reply("no field")
        value, stamp = found.cells[index]
        self.put(seat, destination, value, stamp)
        return Reply(value[0], (*value[1:], stamp))

    def write_field(self, seat: int, register: int, index: int, source: int, expected: int | None = None) -> Reply:
        """Writes a field; where a register's cell is expected there, only if it is that cell."""
        found = self.held(seat, register)
        if found is None:
            return Reply("no object")
        if index >= len(found.cells):
            return Reply("no field")
        before = found.cells[index]
        if expected is not None and before != (self.registers[seat][expected], self.seen[seat][expected]):
            return Reply("now", (before[1],))
        self.sets[seat] += 1
        found.cells[index] = (self.registers[seat][source], f"{seat}:{self.sets[seat]}")
        return Reply("was", (before[1],))

    def swap_field(self, seat: int, register: int, index: int, expected: int, source: int) -> Reply:
        return self.write_field(seat, register, index, source, expected)

    def reached(self) -> set[str]:
        """The objects to which a path leads from a register."""
        found: set[str] = set()
        waiting = [value[1] for registers in self.registers for value in registers if value[0] == "object"]
        while waiting:
            name = waiting.pop()
            if name in found:
                continue
            found.add(name)
            waiting.extend(value[1] for value, _ in self.objects[name].cells if value[0] == "object")
        return found

    def fragments(self, names: set[str]) -> int:
        return sum(self.objects[name].fragments() for name in names)

    def spine_words(self, names: set[str]) -> int:
        return sum(self.objects[name].spine_words() for name in names)
