"""The collector: a row of turns, each of which is one step on the table."""

from collections.abc import Callable, Iterator
from typing import NamedTuple

from .entries import BOARD, Did
from .script import COLLECTOR
from .table import (BORN, FIRST_ANSWER, FIXED, GRANTED, LEFT, MARKED, PHASE, REFERENCE, SCANNED, SPOT,
                    TAKEN, Table, bits_of, cell, is_array_meta, is_meta, kind_of, spine_length, stamp_of, value_of)


class Waits(NamedTuple):
    """A turn that found a seat which hasn't answered the phase."""

    seat: int
    answered: int
    phase: int


class Ended(NamedTuple):
    """A turn that ended a cycle."""

    cycle: int


Turn = Waits | Ended | None


def id_of(name: int) -> str:
    """The id that a name word stands for."""
    owner = value_of(name)
    return BOARD if owner == 0 else f"{owner - 1}.{stamp_of(name)}"


class Collector:
    """Each `next` of `turns` makes one turn: what stands before a `yield` is its step."""

    def __init__(self, table: Table, tell: Callable[[Did], None]):
        self.table = table
        self.tell = tell
        self.turns = self.cycles()

    def turn(self) -> Turn:
        return next(self.turns)

    def did(self, kind: str, *values: int | str) -> None:
        self.tell(Did(COLLECTOR, kind, values))

    def cycles(self) -> Iterator[Turn]:
        work = {3: self.marks, 4: self.copies, 5: self.sweeps}
        while True:
            phase = self.table.words[PHASE]
            for seat in range(self.table.heap.seats):
                yield from self.looks(seat, phase)
            if phase % 7 == 6:
                yield from self.clears(phase)
                continue
            if phase % 7 in work:
                yield from work[phase % 7](phase)
            self.table.words[PHASE] = phase + 1
            self.did("phase", phase + 1)
            yield None

    def looks(self, seat: int, phase: int) -> Iterator[Turn]:
        """At a seat's word, until the seat has answered or left."""
        answered = self.table.words[FIRST_ANSWER + seat]
        while answered not in (phase, LEFT):
            yield Waits(seat, answered, phase)
            answered = self.table.words[FIRST_ANSWER + seat]
        yield None

    # Marking.

    def marks(self, phase: int) -> Iterator[Turn]:
        """Passes until one finds no grey fragment, and the flip."""
        found = True
        while found:
            found = False
            for group in range(self.table.heap.groups):
                grey = self.grey(group)
                yield None
                while grey:
                    found = True
                    yield from self.scans(16 * group + bits_of(grey)[0])
                    grey = self.grey(group)
                    yield None
        half = phase // 7 % 2
        self.table.words[SPOT] = cell(FIXED, 1 - half, 0)
        yield None

    def grey(self, group: int) -> int:
        return self.table.mask(group, MARKED) & ~self.table.mask(group, SCANNED)

    def scans(self, fragment: int) -> Iterator[Turn]:
        """The words of a grey fragment, and the blacken."""
        first = self.table.load(fragment, 0)
        yield None
        if is_array_meta(first):
            yield from self.scans_spine(fragment, first)
        else:
            yield from self.shades_chain(first)
            for word in range(2 if is_meta(first) else 1, 4):
                loaded = self.table.load(fragment, word)
                yield None
                yield from self.shades(loaded)
        self.table.set_bits(fragment // 16, 1 << fragment % 16, SCANNED)
        yield None

    def shades_chain(self, first: int) -> Iterator[Turn]:
        """What word 0 leads to: a record's chain behind its meta, or what a link or a cell refers to."""
        if not is_meta(first):
            yield from self.shades(first)
        elif stamp_of(first) != 0:
            self.table.mark(stamp_of(first))
            yield None

    def shades(self, word: int) -> Iterator[Turn]:
        if kind_of(word) == REFERENCE:
            self.table.mark(value_of(word))
            yield None

    def scans_spine(self, fragment: int, meta: int) -> Iterator[Turn]:
        spot = self.table.load(fragment, 2)
        yield None
        for i in range(spine_length(meta)):
            loaded = self.table.load_spine(value_of(spot), stamp_of(spot) + i)
            yield None
            self.table.mark(value_of(loaded))
            yield None

    # Copying.

    def copies(self, phase: int) -> Iterator[Turn]:
        """Visits each group, and inspects what is marked there."""
        for group in range(self.table.heap.groups):
            marked = self.table.mask(group, MARKED)
            yield None
            for bit in bits_of(marked):
                yield from self.inspects(16 * group + bit, phase // 7 % 2)

    def inspects(self, fragment: int, left_half: int) -> Iterator[Turn]:
        meta = self.table.load(fragment, 0)
        yield None
        if not is_array_meta(meta):
            return
        name = self.table.load(fragment, 1)
        yield None
        spot = self.table.load(fragment, 2)
        yield None
        if value_of(spot) == left_half:
            copy = yield from self.copies_spine(spot, spine_length(meta))
            self.table.words[self.table.place(fragment, 2)] = copy
            self.did("swings", id_of(name))
            yield None

    def copies_spine(self, spot: int, length: int) -> Iterator[Turn]:
        """Copies the spine at this spot to the other half, and tells the copy's spot."""
        half, offset = self.table.take_spot(length)
        yield None
        for i in range(length):
            loaded = self.table.load_spine(value_of(spot), stamp_of(spot) + i)
            yield None
            self.table.store_spine(half, offset + i, loaded)
            yield None
        return cell(FIXED, half, offset)

    # Sweeping and clearing.

    def sweeps(self, phase: int) -> Iterator[Turn]:
        for group in range(self.table.heap.groups):
            dead = self.table.mask(group, BORN) & ~self.table.mask(group, MARKED)
            yield None
            if dead:
                yield from self.frees(group, dead)

    def frees(self, group: int, dead: int) -> Iterator[Turn]:
        """Examines what is dead in a group, frees it, and returns its spine words."""
        counted = 0
        for bit in bits_of(dead):
            meta = self.table.load(16 * group + bit, 0)
            if is_array_meta(meta):
                counted += spine_length(meta)
            yield None
        self.table.clear_bits(group, dead, TAKEN, BORN)
        self.did("frees", dead.bit_count())
        yield None
        if counted:
            self.table.words[GRANTED] -= counted
            self.did("returns", counted)
            yield None

    def clears(self, phase: int) -> Iterator[Turn]:
        """Clears the marks of each group, and ends the cycle."""
        kept = 0
        for group in range(self.table.heap.groups):
            kept += self.table.mask(group, TAKEN).bit_count()
            self.table.clear_bits(group, 0xFFFF, MARKED, SCANNED)
            yield None
        self.table.words[PHASE] = phase + 1
        self.did("ends", phase // 7, kept)
        yield Ended(phase // 7)
