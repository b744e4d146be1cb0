"""Maps of a play's heap: a row of characters a group, where each cycle begins and ends and where the script is through."""

from typing import NamedTuple

from .entries import Did
from .play import Machine
from .script import COLLECTOR, Command, Script
from .table import BORN, REFERENCE, TAKEN, Table, bits_of, is_array_meta, is_meta, kind_of, length_of, spine_length, stamp_of, value_of

FREE, RESERVE, RECORD, CHAIN, ARRAY, PAYLOAD, DEAD = ".", "-", "R", "r", "A", "a", "x"
BEGINS = 1


class Map(NamedTuple):
    """Where the play is, and for each group what its sixteen fragments are."""

    when: str
    groups: list[str]


def parts_of(table: Table, head: int) -> tuple[list[int], bool]:
    """The fragments of the object that begins here, its first one first, and whether it is an array."""
    meta = table.load(head, 0)
    if is_array_meta(meta):
        spot = table.load(head, 2)
        named = [table.load_spine(value_of(spot), stamp_of(spot) + i) for i in range(spine_length(meta))]
        return [head, *map(value_of, named)], True
    parts, following = [head], stamp_of(meta)
    while following:
        parts.append(following)
        link = table.load(following, 0)
        following = value_of(link) if kind_of(link) == REFERENCE else 0
    return parts, False


def cells_of(table: Table, parts: list[int], is_array: bool) -> list[int]:
    """The words of an object's cells."""
    meta = table.load(parts[0], 0)
    words = [] if is_array else [table.load(parts[0], word) for word in (2, 3)]
    words += [table.load(part, word) for part in parts[1:] for word in range(0 if is_array else 1, 4)]
    return words[:length_of(meta)]


def reached(machine: Machine) -> set[int]:
    """The first fragments of the objects to which a path leads from a register."""
    found: set[int] = set()
    waiting = [word for seat in machine.seats for word in seat.registers]
    while waiting:
        word = waiting.pop()
        if kind_of(word) != REFERENCE or value_of(word) in found:
            continue
        found.add(value_of(word))
        waiting += cells_of(machine.table, *parts_of(machine.table, value_of(word)))
    return found


def drawn(machine: Machine) -> list[str]:
    """What each fragment is: free, of a reserve, of a record or of an array, or of an object that no path leads to any more."""
    table = machine.table
    signs = [FREE] * table.heap.fragments
    live = reached(machine)
    for group in range(table.heap.groups):
        for bit in bits_of(table.mask(group, TAKEN)):
            signs[16 * group + bit] = RESERVE
        for bit in bits_of(table.mask(group, BORN)):
            signs[16 * group + bit] = DEAD
    for head in live:
        parts, is_array = parts_of(table, head)
        for part in parts:
            signs[part] = PAYLOAD if is_array else CHAIN
        signs[head] = ARRAY if is_array else RECORD
    return ["".join(signs[first:first + 16]) for first in range(0, len(signs), 16)]


def maps_of(script: Script) -> list[Map]:
    """The maps of a play with no pace. A cycle that begins as the one before it ended has one map."""
    machine = Machine(script.heap)
    maps: list[Map] = []

    def see(when: str) -> None:
        groups = drawn(machine)
        if not maps or maps[-1].groups != groups:
            maps.append(Map(when, groups))

    def tell(entry: Did) -> None:
        machine.body.append(entry)
        if entry.kind == "phase" and entry.values[0] % 7 == BEGINS:
            see(f"cycle {entry.values[0] // 7} begins")
        elif entry.kind == "ends":
            see(f"cycle {entry.values[0]} ends")

    machine.collector.tell = tell
    for command in script.commands:
        machine.answer(command)
    see("the script is through")
    return maps
