"""A heap's table of words of 64 bits, and the steps on it."""

from .graph import fragments_of_record
from .script import Heap

NIL, NUMBER, REFERENCE, FIXED = range(4)

SEAT_WORDS = 16
LEFT = 2**64 - 1
ARRAY_MARK = 2**29

PHASE = 0
FIRST_ANSWER = 1
GRANTED = 17
SPOT = 18
FIRST_CONTROL = 19

# The masks of a control word, by their lowest bit.
TAKEN, BORN, MARKED, SCANNED = 0, 16, 32, 48
ALL = 0xFFFF


def cell(kind: int, value: int, stamp: int = 0) -> int:
    return kind << 62 | value << 32 | stamp


def kind_of(word: int) -> int:
    return word >> 62


def value_of(word: int) -> int:
    return word >> 32 & 2**30 - 1


def stamp_of(word: int) -> int:
    return word & 2**32 - 1


def unstamped(word: int) -> int:
    """The value of a cell, as a register holds it."""
    return word >> 32 << 32


def array_meta(cells: int) -> int:
    return cell(FIXED, ARRAY_MARK + cells)


def record_meta(fields: int, chain: int) -> int:
    return cell(FIXED, fields, chain)


def is_meta(word: int) -> bool:
    """Whether a word 0 that is loaded is a meta: links and cells aren't fixed words."""
    return kind_of(word) == FIXED


def is_array_meta(word: int) -> bool:
    return is_meta(word) and value_of(word) >= ARRAY_MARK


def length_of(meta: int) -> int:
    return value_of(meta) % ARRAY_MARK


def spine_length(meta: int) -> int:
    """The number of spine words of the array with this meta."""
    return -(-length_of(meta) // 4)


def bits_of(mask: int) -> list[int]:
    """The numbers of the bits that are set, lowest first."""
    return [bit for bit in range(16) if mask >> bit & 1]


def masks_of(fragments: list[int]) -> dict[int, int]:
    """For each group of these fragments the mask of its fragments among them."""
    masks: dict[int, int] = {}
    for fragment in fragments:
        group = fragment // 16
        masks[group] = masks.get(group, 0) | 1 << fragment % 16
    return masks


class Table:
    def __init__(self, heap: Heap):
        self.heap = heap
        self.fragment_base = FIRST_CONTROL + heap.groups
        self.spine_base = FIRST_CONTROL + 65 * heap.groups
        self.half_size = 2 * heap.spine
        self.words = [0] * (self.spine_base + 2 * self.half_size)
        for seat in range(heap.seats, SEAT_WORDS):
            self.words[FIRST_ANSWER + seat] = LEFT
        self.words[SPOT] = cell(FIXED, 0, 0)
        board = list(range(fragments_of_record(heap.board)))
        self.set_bits(0, 2 ** len(board) - 1, TAKEN, BORN)
        self.write_record(board, heap.board, cell(FIXED, 0, 0))

    # Control words.

    def mask(self, group: int, mask: int) -> int:
        return self.words[FIRST_CONTROL + group] >> mask & ALL

    def set_bits(self, group: int, bits: int, *masks: int) -> None:
        for mask in masks:
            self.words[FIRST_CONTROL + group] |= bits << mask

    def clear_bits(self, group: int, bits: int, *masks: int) -> None:
        for mask in masks:
            self.words[FIRST_CONTROL + group] &= ~(bits << mask)

    def claim(self, group: int) -> list[int]:
        """Takes all that is free in a group."""
        free = ALL & ~self.mask(group, TAKEN)
        self.set_bits(group, ALL, TAKEN)
        return [16 * group + bit for bit in bits_of(free)]

    def mark(self, fragment: int) -> None:
        self.set_bits(fragment // 16, 1 << fragment % 16, MARKED)

    def taken(self) -> int:
        return sum(self.mask(group, TAKEN).bit_count() for group in range(self.heap.groups))

    # Fragments.

    def place(self, fragment: int, word: int) -> int:
        return self.fragment_base + 4 * fragment + word

    def load(self, fragment: int, word: int) -> int:
        return self.words[self.fragment_base + 4 * fragment + word]

    def store(self, fragment: int, words: tuple[int, int, int, int]) -> None:
        place = self.place(fragment, 0)
        self.words[place:place + 4] = words

    def write_record(self, fragments: list[int], fields: int, name: int) -> None:
        """Writes the words of a record of these fragments, whose fields are nil."""
        chain = fragments[1] if len(fragments) > 1 else 0
        self.store(fragments[0], (record_meta(fields, chain), name, 0, 0))
        for i in range(1, len(fragments)):
            link = cell(REFERENCE, fragments[i + 1]) if i + 1 < len(fragments) else 0
            self.store(fragments[i], (link, 0, 0, 0))

    # Spines.

    def load_spine(self, half: int, offset: int) -> int:
        if offset >= self.half_size:
            return 0
        return self.words[self.spine_base + self.half_size * half + offset]

    def store_spine(self, half: int, offset: int, word: int) -> None:
        if offset < self.half_size:
            self.words[self.spine_base + self.half_size * half + offset] = word

    def take_spot(self, count: int) -> tuple[int, int]:
        """Adds a number of words to the spot of the next spine, and tells the spot found."""
        spot = self.words[SPOT]
        self.words[SPOT] = spot + count
        return value_of(spot), stamp_of(spot)
