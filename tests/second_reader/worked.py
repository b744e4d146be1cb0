"""Plays that show where each turn stands, what each phase keeps, and how want of space is told."""

from random import Random

from .drawn import Drawer
from .script import Heap

OBJECTS = """0 new 1 9
0 array 2 20
0 set 2 3 1
0 set 0 5 2
1 new 1 4
1 array 2 9
1 set 2 8 2
1 set 0 20 1
0 array 3 5
0 nil 3
0 new 3 30
0 nil 3
"""
POLLS = "0 poll\n1 poll\n"
STEADY = ["play", "--pace", "steady"]
DEBT = ["play", "--pace", "debt"]
PRESS = ["play", "--press"]


def turn_by_turn(random: Random) -> str:
    """Each line of the collector makes one turn, so that each entry's position tells the turn that told it."""
    heap = Heap(random.choice((4, 5)), random.choice((12, 40)), 2)
    drawer = Drawer(random, heap, False)
    commands = []
    for _ in range(80):
        if random.random() < 0.5:
            commands += [command.line() + "\n" for command in drawer.commands()]
        commands += [POLLS] + ["c turns 1\n"] * random.randint(1, 14)
    return f"schism 1\n{heap.line(1)}\n{OBJECTS}{''.join(commands)}"


def phase_by_phase(k: int, answered: bool) -> str:
    """Objects of 1, 3, 2 and 9 fragments: cut off, put in, holding that one, and made, all in this phase."""
    to_phase = ["c cycle\n0 poll\n"] * k
    if not answered:
        to_phase[-1] = "c cycle\n"
    return "".join((
        "schism 1\nheap 4 8 1\n0 new 1 2\n0 set 0 0 1\n0 nil 1\n0 new 2 8\n",
        *to_phase,
        "0 set 0 0 15\n0 new 4 5\n0 set 4 0 2\n0 nil 2\n0 nil 4\n0 new 5 26\n0 nil 5\n",
        "0 poll\nc cycle\n" * 9,
    ))


def wants_space() -> str:
    """Arrays that no group has room for: several claims are given back, and the reserve stays."""
    wanted = "0 array 1 4096\n1 array 1 4096\n"
    return (f"schism 1\nheap 3 1040 2\n{wanted}0 new 1 8\n{wanted}0 new 1 2\n1 new 2 20\n{wanted}0 new 1 30\n"
            f"{wanted}0 array 2 70\n1 array 2 70\n0 num 2 1\n1 new 3 2\n{wanted}")


def long_pace() -> str:
    """In the midst of marking a row of spine words, objects whose fragments ask for turns: few, and too many."""
    return "".join((
        "schism 1\nheap 300 3000 1\n0 array 1 4096\n",
        "0 poll\nc cycle\n" * 3,
        "0 poll\n0 new 2 47\n0 new 3 20\n0 array 4 4096\n",
        "c turns 1\n" * 6_000,
    ))


def worked_plays() -> list[tuple[list[str], bytes]]:
    cases = [(["play"], turn_by_turn(Random(f"turns {number}"))) for number in range(8)]
    cases += [(["play"], phase_by_phase(k, answered)) for k in range(7) for answered in (True, False) if k or answered]
    cases += [(["play"], wants_space()), (STEADY, wants_space()), (STEADY, long_pace())]
    cases += [(DEBT, wants_space()), (DEBT, long_pace()), (PRESS, wants_space())]
    return [(words, text.encode()) for words, text in cases]
