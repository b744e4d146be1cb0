"""`plan`: the space that a legal play needed, cycle by cycle, and the groups that would have refused it nothing."""

from typing import NamedTuple

from .account import MOST_OWN, Sums, fragments_needed
from .entries import Did, Entry, History, Told
from .graph import Graph, fragments_of_record
from .history import read_history
from .judge import judged
from .script import COLLECTOR, Heap
from .texts import LONGEST_HISTORY, Answer, NotLegal, Refused, done, not_legal, refused, text_of, too_long

GROUP = 16


class Cycle(NamedTuple):
    """What is told of a cycle that ended."""

    number: int
    reach: int
    since: int
    bound: int
    used: int
    kept: int

    def line(self) -> str:
        names = ("cycle", "reach", "since", "bound", "used", "kept")
        return " ".join(f"{name} {value}" for name, value in zip(names, self))


def is_kind(entry: Entry, kind: str) -> bool:
    return isinstance(entry, Did) and entry.kind == kind


def begins_cycle(entry: Entry) -> bool:
    return is_kind(entry, "phase") and entry.values[0] % 7 == 1


def taken(entries: list[Entry]) -> int:
    return sum(entry.values[0] for entry in entries if is_kind(entry, "takes"))


def of_seat(entries: list[Entry], seat: int) -> list[Entry]:
    return [entry for entry in entries if (entry.command.party if isinstance(entry, Told) else entry.party) == seat]


def own_after(entries: list[Entry]) -> int:
    """The fragments that the seat of these entries has beside its objects."""
    own = 0
    for entry in entries:
        if is_kind(entry, "takes"):
            own += entry.values[0]
        elif is_kind(entry, "gives"):
            own -= entry.values[0]
        elif isinstance(entry, Told) and entry.reply.kind == "made":
            own -= fragments_needed(entry.command)
    return own


def seat_part(entries: list[Entry], begin: int, seat: int) -> tuple[int, int]:
    """Of a seat's entries, the cycle having begun at this position: its own at its last reply before, and what it took since."""
    replies = [position for position, entry in enumerate(entries[:begin])
               if isinstance(entry, Told) and entry.command.party == seat]
    behind = replies[-1] + 1 if replies else 0
    return own_after(of_seat(entries[:behind], seat)), taken(of_seat(entries[behind:], seat))


def cycle_plan(heap: Heap, before: list[Entry], end: Did, reach: int) -> Cycle:
    """What is told of a cycle, with the entries before its end."""
    begin = max(position for position, entry in enumerate(before) if begins_cycle(entry))
    parts = [seat_part(before, begin, seat) for seat in range(heap.seats)]
    since = sum(part[1] for part in parts)
    sums = Sums(heap)
    for entry in before:
        sums.add(entry)
    return Cycle(end.values[0], reach, since, reach + since + sum(part[0] for part in parts), sums.gained - sums.lost, end.values[1])


def reaches(history: History) -> list[int]:
    """The fragments of what is reached where each cycle begins."""
    graph, found = Graph(history.heap), []
    for entry in history.entries():
        if begins_cycle(entry):
            found.append(graph.fragments(graph.reached()))
        if isinstance(entry, Told) and entry.command.party != COLLECTOR:
            graph.accepts(entry.command, entry.reply)
    return found


def between_ends(entries: list[Entry]) -> list[int]:
    """What was taken between neighbours among the opening, the ends of cycles and the end of all."""
    ends = [position for position, entry in enumerate(entries) if is_kind(entry, "ends")]
    return [taken(entries[first:last]) for first, last in zip([0, *ends], [*ends, len(entries)])]


def plan_lines(history: History) -> list[str]:
    heap, entries = history.heap, history.entries()
    reached = reaches(history)
    cycles = [cycle_plan(heap, entries[:position], entry, reached[entry.values[0]])
              for position, entry in enumerate(entries) if is_kind(entry, "ends")]
    told = [entry for entry in entries if isinstance(entry, Told)]
    reach = max([fragments_of_record(heap.board), *reached])
    takes = max([*between_ends(entries), *(cycle.since for cycle in cycles)])
    need = max([0, *(fragments_needed(entry.command) for entry in told if entry.command.name in ("new", "array"))])
    groups = -(-(reach + 2 * takes + MOST_OWN * heap.seats + need) // GROUP)
    turns = 16 * heap.groups ** 2 + 294 * heap.groups + 7 * heap.seats + 8
    full = sum(entry.reply.kind == "full" for entry in told)
    totals = [f"most reach {reach} takes {takes} need {need}", f"groups {groups} turns {turns}", f"full {full}"]
    return ["plan 1", heap.line(history.version), *(cycle.line() for cycle in cycles), *totals]


def plan(text: bytes) -> Answer:
    """What `plan` answers to this input."""
    if len(text) > LONGEST_HISTORY:
        return too_long()
    try:
        history = read_history(text)
        if not history.played:
            raise Refused(1, "NotPlay")
        judged(history)
        return done(text_of(plan_lines(history)))
    except Refused as fault:
        return refused(fault)
    except NotLegal as fault:
        return not_legal(fault)
