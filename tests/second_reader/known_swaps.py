"""Histories of version 2 whose verdicts were worked out by hand: boards of other sizes, and compare and swap."""

from .known import LEGAL, raw

# A record of 2 fields has one fragment; of 3, 5 and 6 fields two, two and three; one of 47 has all 16 of the group.
BOARDS = tuple(raw("history 2 run", f"heap 1 0 1 {board}", f"0 len 0 = {board}", f"0 get 1 0 {board} = no field", f"0 get 1 0 {board - 1} = nil at -",
                   f"end used {used}", entries=3) for board, used in ((1, 1), (2, 1), (3, 2), (5, 2), (6, 3), (32, 11), (44, 15), (45, 16), (47, 16)))


def swaps(*entries: str, bad: int | None = LEGAL) -> tuple[str, int | None, int]:
    """A run on a board of two fields, the second of which holds 7 under 0:1, as register 2 has seen it."""
    begin = ("0 num 1 7 = ok", "0 set 0 1 1 = was -", "0 get 2 0 1 = number 7 at 0:1")
    return raw("history 2 run", "heap 1 0 2 2", *begin, *entries, "end used 1", entries=3 + len(entries), bad=None if bad is None else bad + 5)


SWAPS = (
    swaps("0 cas 0 1 2 1 = was 0:1", "1 get 1 0 1 = number 7 at 0:2"),
    swaps("0 cas 0 1 2 1 = now 0:1", bad=1),
    swaps("0 cas 0 1 2 1 = was -", bad=1),
    swaps("0 cas 0 1 2 5 = was 0:1", "1 get 1 0 1 = nil at 0:2"),
    swaps("0 cas 0 1 1 1 = now 0:1"),
    swaps("0 cas 0 1 1 1 = was 0:1", bad=1),
    swaps("0 cas 0 0 2 1 = now -"),
    swaps("0 cas 0 0 5 1 = was -", "0 get 3 0 0 = number 7 at 0:2"),
    swaps("0 copy 3 2 = ok", "0 cas 0 1 3 1 = was 0:1"),
    swaps("0 num 2 7 = ok", "0 cas 0 1 2 1 = now 0:1"),
    swaps("0 num 2 7 = ok", "0 cas 0 1 2 1 = was 0:1", bad=2),
    swaps("1 set 0 1 0 = was 0:1", "0 cas 0 1 2 1 = now 1:1"),
    swaps("1 set 0 1 0 = was 0:1", "0 cas 0 1 2 1 = now 0:1", bad=2),
    swaps("0 cas 0 1 2 1 = was 0:1", "0 cas 0 1 2 1 = now 0:2", "0 set 0 0 1 = was -", "1 get 1 0 0 = number 7 at 0:3"),
    swaps("0 cas 0 2 2 1 = no field", "0 cas 1 0 2 1 = no object"),
    swaps("0 cas 0 2 2 1 = no object", bad=1),
)
