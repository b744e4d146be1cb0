"""The account: sums over the entries of a play, and the ten rules of space and phases."""

from .entries import LEAVE, Did, Space, Told
from .graph import Graph, fragments_of_array, fragments_of_record, words_of_spine
from .script import COLLECTOR, Command, Heap

MOST_OWN = 15


def fragments_needed(command: Command) -> int:
    """The fragments that a `new` or an `array` needs."""
    length = command.operands[1]
    return fragments_of_array(length) if command.name == "array" else fragments_of_record(length)


def spine_words_needed(command: Command) -> int:
    return words_of_spine(command.operands[1]) if command.name == "array" else 0


class Sums:
    """What is in use, which a run's end line shows as well."""

    def __init__(self, heap: Heap):
        self.gained = fragments_of_record(heap.board)
        self.lost = 0

    def add(self, entry: Told | Did) -> None:
        if not isinstance(entry, Did):
            return
        if entry.kind == "takes":
            self.gained += entry.values[0]
        elif entry.kind in ("gives", "frees"):
            self.lost += entry.values[0]

    def shows(self, used: int) -> bool:
        """Whether this number is what is in use."""
        return self.gained == self.lost + used


class Account:
    """Judges a play's entries by the ten rules, each after the graph has taken it."""

    def __init__(self, heap: Heap, graph: Graph):
        self.heap = heap
        self.graph = graph
        self.sums = Sums(heap)
        self.own = [0] * heap.seats
        self.answered = [0] * heap.seats
        self.phase = 0
        self.granted = 0
        self.returned = 0
        self.swung: set[str] = set()
        self.position = 0
        self.last_reply = [0] * heap.seats
        self.began: dict[int, int] = {}
        self.ended: int | None = None
        # Of each seat: its own right after its last reply, and what it took since.
        self.footprint = [0] * heap.seats
        self.reached_at_begin: set[str] = set()
        self.fragment_bound = 0
        self.spine_bound = 0

    def keeps(self, entry: Told | Did) -> bool:
        """Whether the entry keeps the rules; adds it to the sums where it does."""
        self.position += 1
        if isinstance(entry, Told):
            kept = self.told(entry)
        else:
            kept = self.did(entry)
            self.sums.add(entry)
        self.ended = entry.values[0] if isinstance(entry, Did) and entry.kind == "ends" else None
        return kept

    def did(self, entry: Did) -> bool:
        values = entry.values
        if entry.kind == "takes":
            return self.takes(entry.party, *values)
        if entry.kind == "gives":
            return self.gives_back(entry.party, *values)
        if entry.kind == "answers":
            return self.answers(entry.party, *values)
        if entry.kind == "phase":
            return self.begins(*values)
        if entry.kind == "frees":
            return self.phase % 7 == 5 and values[0] >= 1 and self.sums.lost + values[0] <= self.sums.gained
        if entry.kind == "returns":
            return self.returns(*values)
        if entry.kind == "swings":
            return self.swings(*values)
        return self.ends(*values)

    # Rule 1.

    def takes(self, seat: int, count: int) -> bool:
        self.own[seat] += count
        self.footprint[seat] += count
        self.fragment_bound += count
        return count >= 1 and self.sums.gained + count <= self.heap.fragments + self.sums.lost

    def gives_back(self, seat: int, count: int) -> bool:
        kept = 1 <= count <= self.own[seat]
        self.own[seat] -= count
        return kept

    def answers(self, seat: int, phase: int) -> bool:
        self.answered[seat] += 1
        return phase == self.phase == self.answered[seat]

    # Rule 2.

    def all_answered(self) -> bool:
        left = self.graph.has_left
        return all(left[seat] or self.answered[seat] == self.phase for seat in range(self.heap.seats))

    def begins(self, phase: int) -> bool:
        kept = phase == self.phase + 1 and phase % 7 != 0 and self.all_answered()
        self.phase += 1
        if phase % 7 == 1:
            self.began[phase // 7] = self.position
            self.reached_at_begin = self.graph.reached()
            self.fragment_bound = self.graph.fragments(self.reached_at_begin) + sum(self.footprint)
            self.spine_bound = self.graph.spine_words(self.reached_at_begin)
        if phase % 7 == 4:
            self.swung = set()
        return kept

    # Rule 3.

    def returns(self, count: int) -> bool:
        self.returned += count
        return self.phase % 7 == 5 and count >= 1 and self.returned <= self.granted

    def swings(self, name: str) -> bool:
        if name in self.swung or self.phase % 7 != 4:
            return False
        self.swung.add(name)
        return name in self.graph.objects and self.graph.objects[name].is_array

    # Rule 4.

    def ends(self, cycle: int, kept: int) -> bool:
        if self.phase % 7 != 6 or cycle != self.phase // 7 or not self.all_answered():
            return False
        self.phase += 1
        if self.sums.gained > self.sums.lost + self.fragment_bound or kept > self.fragment_bound:
            return False
        if kept < self.graph.fragments(self.graph.reached() & self.reached_at_begin):
            return False
        return self.granted <= self.returned + self.spine_bound

    # Rules 5 to 10.

    def told(self, entry: Told) -> bool:
        command = entry.command
        if command.party == COLLECTOR:
            return self.collector_told(entry)
        seat = command.party
        kept = self.seat_told(seat, entry)
        self.last_reply[seat] = self.position
        self.footprint[seat] = self.own[seat]
        return kept and self.own[seat] <= (0 if command.name == LEAVE else MOST_OWN)

    def seat_told(self, seat: int, entry: Told) -> bool:
        command, (kind, values) = entry
        if kind == "made":
            return self.makes(seat, command)
        if kind == "full":
            need, found = values
            free = self.heap.fragments + self.sums.lost + self.own[seat]
            return need == fragments_needed(command) and found < need and self.sums.gained + found == free
        if kind == "spine":
            need, used = values
            in_use = used + self.returned == self.granted
            return need == spine_words_needed(command) and need + used > self.heap.spine and in_use
        if kind == "phase":
            return values[0] == self.phase == self.answered[seat]
        if kind == "cycle":
            cycle = values[0]
            return cycle < self.phase // 7 and self.began[cycle] > self.last_reply[seat]
        if kind == "waits":
            return values[0] != seat and self.waits(*values)
        return True

    def makes(self, seat: int, command: Command) -> bool:
        need = fragments_needed(command)
        kept = need <= self.own[seat]
        self.own[seat] -= need
        self.granted += spine_words_needed(command)
        self.spine_bound += spine_words_needed(command)
        return kept

    def collector_told(self, entry: Told) -> bool:
        kind, values = entry.reply
        if kind == "cycle":
            return values[0] == self.ended
        if kind == "waits":
            return self.waits(*values)
        return True

    def waits(self, seat: int, answered: int, phase: int) -> bool:
        if seat >= self.heap.seats or self.graph.has_left[seat]:
            return False
        return answered == self.answered[seat] and phase == self.phase and phase > answered

    def space(self, line: Space) -> bool:
        spine = self.returned + line.spine_used == self.granted and line.spine == self.heap.spine
        return self.sums.shows(line.used) and line.fragments == self.heap.fragments and spine
