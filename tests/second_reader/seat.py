"""A seat: its registers, its reserve, and its whole calls on the table."""

from collections.abc import Callable

from .collector import id_of
from .entries import LEAVE, Did, Reply
from .graph import fragments_of_record
from .table import (BORN, FIRST_ANSWER, FIXED, GRANTED, LEFT, MARKED, NIL, NUMBER, PHASE, REFERENCE, SCANNED, TAKEN,
                    Table, array_meta, cell, is_array_meta, kind_of, length_of, masks_of, stamp_of,
                    unstamped, value_of)

STAMP_UNIT = 2**26


def stamp_text(stamp: int) -> str:
    return "-" if stamp == 0 else f"{stamp // STAMP_UNIT - 1}:{stamp % STAMP_UNIT}"


class Seat:
    def __init__(self, number: int, table: Table, tell: Callable[[Did], None]):
        self.number = number
        self.table = table
        self.tell = tell
        self.registers = [cell(REFERENCE, 0)] + [cell(NIL, 0)] * 15
        # Under which stamp each register's value was seen.
        self.seen = [0] * 16
        self.reserve: list[int] = []
        self.cursor = number % table.heap.groups
        self.made = 0
        self.sets = 0

    def did(self, kind: str, *values: int) -> None:
        self.tell(Did(self.number, kind, values))

    def call(self, name: str, operands: tuple[int, ...]) -> Reply:
        """Any call but `collect`, which needs the collector."""
        calls = {"new": self.new, "array": self.array, "get": self.get, "set": self.set, "cas": self.cas, "num": self.num,
                 "nil": self.nil, "copy": self.copy, "same": self.same, "len": self.length, "poll": self.poll,
                 LEAVE: self.leave}
        return calls[name](*operands)

    # Commands that look at no word of an object.

    def put(self, destination: int, word: int, seen: int = 0) -> None:
        self.registers[destination] = word
        self.seen[destination] = seen

    def num(self, destination: int, number: int) -> Reply:
        self.put(destination, cell(NUMBER, number))
        return Reply("ok")

    def nil(self, destination: int) -> Reply:
        self.put(destination, cell(NIL, 0))
        return Reply("ok")

    def copy(self, destination: int, register: int) -> Reply:
        self.put(destination, self.registers[register], self.seen[register])
        return Reply("ok")

    def same(self, left: int, right: int) -> Reply:
        return Reply("yes" if self.registers[left] == self.registers[right] else "no")

    # Making objects.

    def gather(self, need: int) -> tuple[list[int], int]:
        """The fragments of an object, or none where all groups are too little; and how many were found."""
        groups = self.table.heap.groups
        hand = list(self.reserve)
        claims = []
        group = self.cursor
        while len(hand) < need and len(claims) < groups:
            group = (self.cursor + len(claims)) % groups
            claimed = self.table.claim(group)
            claims.append(claimed)
            hand += claimed
            if claimed:
                self.did("takes", len(claimed))
        found = len(hand)
        if found < need:
            for claimed in claims:
                self.give_back(claimed)
            return [], found
        self.cursor = group
        self.reserve = hand[need:]
        return hand[:need], found

    def give_back(self, fragments: list[int]) -> None:
        for group, mask in masks_of(fragments).items():
            self.table.clear_bits(group, mask, TAKEN)
            self.did("gives", mask.bit_count())

    def name_next(self) -> int:
        name = cell(FIXED, self.number + 1, self.made)
        self.made += 1
        return name

    def bear(self, destination: int, fragments: list[int], name: int) -> Reply:
        """Gives birth to an object, whose first fragment the register then holds."""
        masks = (BORN, MARKED, SCANNED) if 2 <= self.answered() % 7 <= 5 else (BORN,)
        for group, bits in masks_of(fragments).items():
            self.table.set_bits(group, bits, *masks)
        self.put(destination, cell(REFERENCE, fragments[0]))
        return Reply("made", (id_of(name),))

    def new(self, destination: int, fields: int) -> Reply:
        need = fragments_of_record(fields)
        fragments, found = self.gather(need)
        if not fragments:
            return Reply("full", (need, found))
        name = self.name_next()
        self.table.write_record(fragments, fields, name)
        return self.bear(destination, fragments, name)

    def array(self, destination: int, cells: int) -> Reply:
        words = -(-cells // 4)
        granted = self.table.words[GRANTED]
        if granted + words > self.table.heap.spine:
            return Reply("spine", (words, granted))
        fragments, found = self.gather(words + 1)
        if not fragments:
            return Reply("full", (words + 1, found))
        self.table.words[GRANTED] += words
        half, offset = self.table.take_spot(words)
        for i, fragment in enumerate(fragments[1:]):
            self.table.store_spine(half, offset + i, cell(FIXED, fragment))
        name = self.name_next()
        first, *others = fragments
        self.table.store(first, (array_meta(cells), name, cell(FIXED, half, offset), cell(FIXED, 0, 0)))
        for fragment in others:
            self.table.store(fragment, (0, 0, 0, 0))
        return self.bear(destination, fragments, name)

    # Fields.

    def head(self, register: int) -> int | None:
        """The first fragment of the object in a register."""
        word = self.registers[register]
        return value_of(word) if kind_of(word) == REFERENCE else None

    def place(self, head: int, index: int) -> int | None:
        """The way to a field: its place in the table."""
        meta = self.table.load(head, 0)
        if index >= length_of(meta):
            return None
        if is_array_meta(meta):
            spot = self.table.load(head, 2)
            named = self.table.load_spine(value_of(spot), stamp_of(spot) + index // 4)
            return self.table.place(value_of(named), index % 4)
        if index < 2:
            return self.table.place(head, 2 + index)
        fragment = stamp_of(meta)
        for _ in range((index - 2) // 3):
            fragment = value_of(self.table.load(fragment, 0))
        return self.table.place(fragment, 1 + (index - 2) % 3)

    def get(self, destination: int, register: int, index: int) -> Reply:
        head = self.head(register)
        if head is None:
            return Reply("no object")
        place = self.place(head, index)
        if place is None:
            return Reply("no field")
        word = self.table.words[place]
        self.put(destination, unstamped(word), stamp_of(word))
        stamp = stamp_text(stamp_of(word))
        if kind_of(word) == NIL:
            return Reply("nil", (stamp,))
        if kind_of(word) == NUMBER:
            return Reply("number", (value_of(word), stamp))
        return Reply("object", (id_of(self.table.load(value_of(word), 1)), stamp))

    def set(self, register: int, index: int, source: int) -> Reply:
        return self.write(register, index, source, None)

    def cas(self, register: int, index: int, expected: int, source: int) -> Reply:
        return self.write(register, index, source, expected)

    def write(self, register: int, index: int, source: int, expected: int | None) -> Reply:
        """Writes a field; where a register's cell is expected there, only if it is that cell."""
        head = self.head(register)
        if head is None:
            return Reply("no object")
        place = self.place(head, index)
        if place is None:
            return Reply("no field")
        before = self.table.words[place]
        wanted = before if expected is None else self.registers[expected] | self.seen[expected]
        if 1 <= self.answered() % 7 <= 5:
            self.shade(wanted)
            self.shade(self.registers[source])
        if before != wanted:
            return Reply("now", (stamp_text(stamp_of(before)),))
        self.sets += 1
        self.table.words[place] = self.registers[source] | (self.number + 1) * STAMP_UNIT + self.sets % STAMP_UNIT
        return Reply("was", (stamp_text(stamp_of(before)),))

    def length(self, register: int) -> Reply:
        head = self.head(register)
        if head is None:
            return Reply("no object")
        return Reply("length", (length_of(self.table.load(head, 0)),))

    # Phases.

    def answered(self) -> int:
        return self.table.words[FIRST_ANSWER + self.number]

    def shade(self, word: int) -> None:
        if kind_of(word) == REFERENCE:
            self.table.mark(value_of(word))

    def answer(self) -> None:
        """Answers the phase, where the seat hasn't answered it."""
        phase = self.table.words[PHASE]
        if phase == self.answered():
            return
        if phase % 7 == 3:
            for word in self.registers:
                self.shade(word)
        self.table.words[FIRST_ANSWER + self.number] = phase
        self.did("answers", phase)

    def poll(self) -> Reply:
        self.answer()
        return Reply("phase", (self.answered(),))

    def leave(self) -> Reply:
        self.give_back(self.reserve)
        self.reserve = []
        self.registers = [cell(NIL, 0)] * 16
        self.seen = [0] * 16
        self.table.words[FIRST_ANSWER + self.number] = LEFT
        return Reply("ok")
