"""Histories whose verdicts were worked out by hand from the rules, most of them at both sides of an edge."""

LEGAL = None

# The entries of a cycle on one seat up to its phase with k = 5 or 6, nothing being freed.
CYCLE_TO_FIVE = ("c phase 1", "0 answers 1", "c phase 2", "0 answers 2", "c phase 3", "0 answers 3", "c phase 4",
                 "0 answers 4", "c phase 5")
CYCLE_TO_SIX = (*CYCLE_TO_FIVE, "0 answers 5", "c phase 6", "0 answers 6")


def play(heap: str, *entries: str, used: int, spine: int = 0, bad: int | None = LEGAL) -> tuple[str, int | None, int]:
    """A play with the right space and end lines; `bad` is the position among the entries, from 1, that isn't right."""
    groups, budget, _ = (int(word) for word in heap.split(" "))
    lines = ["history 1 play", f"heap {heap}", *entries,
             f"space used {used} of {16 * groups} spine {spine} of {budget}", f"end used {used}"]
    return "\n".join(lines) + "\n", None if bad is None else bad + 2, len(entries)


def raw(*lines: str, entries: int = 0, bad: int | None = LEGAL) -> tuple[str, int | None, int]:
    """A text as it stands; `bad` is the line that isn't right."""
    return "\n".join(lines) + "\n", bad, entries


RULE_1 = (
    play("1 0 1", used=11),
    play("1 0 1", "0 takes 5", used=16),
    play("1 0 1", "0 takes 6", used=17, bad=1),
    play("1 0 1", "0 takes 0", used=11, bad=1),
    play("1 0 1", "0 takes 5", "0 gives back 5", "0 takes 5", used=16),
    play("1 0 1", "0 takes 4", "0 gives back 5", used=10, bad=2),
    play("1 0 1", "0 takes 4", "0 gives back 0", used=15, bad=2),
    play("1 0 2", "0 takes 4", "1 gives back 1", used=14, bad=2),
    play("1 0 1", "0 answers 0", used=11, bad=1),
    play("1 0 1", "0 answers 1", used=11, bad=1),
    play("1 0 1", "c phase 1", "0 answers 1", used=11),
    play("1 0 1", "c phase 1", "0 answers 2", used=11, bad=2),
    play("1 0 1", "c phase 1", "0 answers 1", "0 answers 1", used=11, bad=3),
    play("1 0 1", "c phase 1", "0 answers 1", "0 answers 2", used=11, bad=3),
)
RULE_2 = (
    play("1 0 1", "c phase 2", used=11, bad=1),
    play("1 0 1", "c phase 0", used=11, bad=1),
    play("1 0 1", "c phase 1", "c phase 2", used=11, bad=2),
    play("1 0 2", "c phase 1", "0 answers 1", "c phase 2", used=11, bad=3),
    play("1 0 2", "c phase 1", "0 answers 1", "1 leave = ok", "c phase 2", used=11),
    play("1 0 1", *CYCLE_TO_SIX, "c phase 7", used=11, bad=13),
    play("1 0 1", *CYCLE_TO_SIX, "c ends 0 kept 11", "c phase 8", used=11, bad=14),
    play("1 0 1", *CYCLE_TO_SIX, "c ends 0 kept 11", "0 answers 7", "c phase 8", used=11),
    play("1 0 1", *CYCLE_TO_SIX, "c ends 0 kept 11", "0 answers 7", "c phase 9", used=11, bad=15),
)
MADE_ARRAY = ("0 takes 5", "0 array 1 8 = 0.0")
RULE_3 = (
    play("1 0 1", *CYCLE_TO_FIVE, "c frees 11", used=0),
    play("1 0 1", *CYCLE_TO_FIVE, "c frees 12", used=0, bad=10),
    play("1 0 1", *CYCLE_TO_FIVE, "c frees 0", used=11, bad=10),
    play("1 0 1", *CYCLE_TO_FIVE[:-1], "c frees 1", used=10, bad=9),
    play("1 0 1", *CYCLE_TO_SIX, "c frees 1", used=10, bad=13),
    play("1 2 1", *MADE_ARRAY, *CYCLE_TO_FIVE, "c returns 2", used=16),
    play("1 2 1", *MADE_ARRAY, *CYCLE_TO_FIVE, "c returns 2", "c returns 1", used=16, bad=13),
    play("1 2 1", *MADE_ARRAY, *CYCLE_TO_FIVE, "c returns 3", used=16, bad=12),
    play("1 2 1", *MADE_ARRAY, *CYCLE_TO_FIVE, "c returns 0", used=16, spine=2, bad=12),
    play("1 2 1", *MADE_ARRAY, *CYCLE_TO_FIVE[:-1], "c returns 1", used=16, spine=1, bad=11),
    play("1 2 1", *MADE_ARRAY, *CYCLE_TO_FIVE[:-1], "c swings 0.0", used=16, spine=2),
    play("1 2 1", *MADE_ARRAY, *CYCLE_TO_FIVE[:-1], "c swings 0.0", "c swings 0.0", used=16, spine=2, bad=12),
    play("1 2 1", *MADE_ARRAY, *CYCLE_TO_FIVE[:-1], "c swings 0.1", used=16, spine=2, bad=11),
    play("1 2 1", *MADE_ARRAY, *CYCLE_TO_FIVE[:-1], "c swings board", used=16, spine=2, bad=11),
    play("1 2 1", *MADE_ARRAY, *CYCLE_TO_FIVE[:-3], "c swings 0.0", used=16, spine=2, bad=9),
    play("1 2 1", *MADE_ARRAY, *CYCLE_TO_FIVE, "c swings 0.0", used=16, spine=2, bad=12),
    play("1 2 1", "0 takes 5", "0 new 1 8 = 0.0", *CYCLE_TO_FIVE[:-1], "c swings 0.0", used=16, bad=11),
)
RULE_4 = (
    play("1 0 1", *CYCLE_TO_SIX, "c ends 1 kept 11", used=11, bad=13),
    play("1 0 1", *CYCLE_TO_FIVE, "c ends 0 kept 11", used=11, bad=10),
    play("1 0 1", *CYCLE_TO_SIX[:-1], "c ends 0 kept 11", used=11, bad=12),
    play("1 0 1", *CYCLE_TO_SIX, "c ends 0 kept 10", used=11, bad=13),
    play("1 0 1", *CYCLE_TO_SIX, "c ends 0 kept 12", used=11, bad=13),
    # Taken before the begin and not yet answered for: it counts for the bound.
    play("1 0 1", "0 takes 4", *CYCLE_TO_SIX, "c ends 0 kept 15", used=15),
    play("1 0 1", "0 takes 4", *CYCLE_TO_SIX, "c ends 0 kept 16", used=15, bad=14),
    # Taken while the cycle goes on.
    play("1 0 1", *CYCLE_TO_SIX, "0 takes 4", "c ends 0 kept 15", used=15),
    play("1 0 1", *CYCLE_TO_SIX, "0 takes 4", "c ends 0 kept 16", used=15, bad=14),
    # Made before the begin and reached by then: 11 fragments and 1, and 4 of its own at its last reply.
    play("1 0 1", "0 takes 5", "0 new 1 2 = 0.0", *CYCLE_TO_SIX, "c ends 0 kept 16", used=16),
    play("1 0 1", "0 takes 5", "0 new 1 2 = 0.0", *CYCLE_TO_SIX, "c ends 0 kept 12", used=16),
    play("1 0 1", "0 takes 5", "0 new 1 2 = 0.0", *CYCLE_TO_SIX, "c ends 0 kept 11", used=16, bad=15),
    # Made since the begin: it needn't be kept either.
    play("1 0 1", *CYCLE_TO_SIX, "0 takes 4", "0 new 1 2 = 0.0", "c ends 0 kept 11", used=15),
    # Dropped before the end: it needn't be kept, and may be.
    play("1 0 1", "0 takes 5", "0 new 1 2 = 0.0", *CYCLE_TO_SIX, "0 nil 1 = ok", "c ends 0 kept 11", used=16),
    # Dropped before the begin: what is in use is above the bound.
    play("1 0 1", "0 takes 5", "0 new 1 2 = 0.0", "0 nil 1 = ok", *CYCLE_TO_SIX, "c ends 0 kept 11", used=16, bad=16),
    play("1 0 1", "0 takes 5", "0 new 1 2 = 0.0", "0 nil 1 = ok", *CYCLE_TO_FIVE, "c frees 1",
         *CYCLE_TO_SIX[len(CYCLE_TO_FIVE):], "c ends 0 kept 15", used=15),
    # Spine words: two of what was reached at the begin, none of what was dropped before it.
    play("1 2 1", "0 takes 5", "0 array 1 8 = 0.0", *CYCLE_TO_SIX, "c ends 0 kept 14", used=16, spine=2),
    play("1 2 1", "0 takes 5", "0 array 1 8 = 0.0", "0 nil 1 = ok", *CYCLE_TO_FIVE, "c frees 3",
         *CYCLE_TO_SIX[len(CYCLE_TO_FIVE):], "c ends 0 kept 11", used=13, spine=2, bad=17),
    play("1 2 1", "0 takes 5", "0 array 1 8 = 0.0", "0 nil 1 = ok", *CYCLE_TO_FIVE, "c frees 3", "c returns 2",
         *CYCLE_TO_SIX[len(CYCLE_TO_FIVE):], "c ends 0 kept 11", used=13),
    # Its own after its last reply before the begin counts, though it is given back before the begin.
    play("1 0 1", "0 takes 5", "0 num 1 1 = ok", "0 gives back 5", *CYCLE_TO_SIX, "c ends 0 kept 16", used=11),
    play("1 0 1", "0 takes 5", "0 num 1 1 = ok", "0 gives back 5", "0 num 1 1 = ok", *CYCLE_TO_SIX,
         "c ends 0 kept 12", used=11, bad=17),
)
RULE_5 = (
    play("1 0 1", "0 takes 2", "0 new 1 6 = 0.0", used=13, bad=2),
    play("1 0 1", "0 takes 3", "0 new 1 6 = 0.0", used=14),
    play("1 0 1", "0 takes 3", "0 new 1 8 = 0.0", used=14),
    play("1 0 1", "0 takes 3", "0 new 1 9 = 0.0", used=14, bad=2),
    play("1 0 1", "0 new 1 2 = 0.0", used=11, bad=1),
    play("1 2 1", "0 takes 3", "0 array 1 8 = 0.0", used=14, spine=2),
    play("1 3 1", "0 takes 3", "0 array 1 9 = 0.0", used=14, spine=3, bad=2),
    play("2 0 1", "0 takes 15", "0 num 1 1 = ok", used=26),
    play("2 0 1", "0 takes 16", "0 num 1 1 = ok", used=27, bad=2),
    play("2 0 2", "0 takes 16", "1 num 1 1 = ok", used=27),
    play("2 0 1", "0 takes 17", "0 new 1 5 = 0.0", used=28),
    play("2 0 1", "0 takes 18", "0 new 1 5 = 0.0", used=29, bad=2),
    play("1 0 1", "0 takes 1", "0 leave = ok", used=12, bad=2),
    play("1 0 1", "0 takes 1", "0 gives back 1", "0 leave = ok", used=11),
)
RULE_6 = (
    play("1 0 1", "0 takes 5", "0 gives back 5", "0 new 1 15 = full need 6 found 5", used=11),
    play("1 0 1", "0 new 1 15 = full need 6 found 5", used=11),
    play("1 0 1", "0 new 1 14 = full need 5 found 5", used=11, bad=1),
    play("1 0 1", "0 new 1 15 = full need 7 found 5", used=11, bad=1),
    play("1 0 1", "0 new 1 15 = full need 6 found 4", used=11, bad=1),
    play("1 0 1", "0 takes 2", "0 new 1 15 = full need 6 found 5", used=13),
    play("1 0 2", "0 takes 2", "1 new 1 15 = full need 6 found 5", used=13, bad=2),
    play("1 0 2", "0 takes 2", "1 new 1 15 = full need 6 found 3", used=13),
    play("1 8 1", "0 array 1 17 = full need 6 found 5", used=11),
    play("1 8 1", "0 array 1 16 = full need 5 found 5", used=11, bad=1),
    play("1 8 1", "0 array 1 20 = full need 6 found 5", used=11),
    play("1 8 1", "0 array 1 21 = full need 6 found 5", used=11, bad=1),
)
RULE_7 = (
    play("1 0 1", "0 array 1 1 = spine need 1 used 0", used=11),
    play("1 1 1", "0 array 1 4 = spine need 1 used 0", used=11, bad=1),
    play("1 1 1", "0 array 1 5 = spine need 2 used 0", used=11),
    play("1 1 1", "0 array 1 5 = spine need 3 used 0", used=11, bad=1),
    play("1 1 1", "0 array 1 5 = spine need 2 used 1", used=11, bad=1),
    play("1 2 1", *MADE_ARRAY, "0 array 2 1 = spine need 1 used 2", used=16, spine=2),
    play("1 3 1", *MADE_ARRAY, "0 array 2 4 = spine need 1 used 2", used=16, spine=2, bad=3),
)
RULE_8 = (
    play("1 0 1", "0 poll = 0", used=11),
    play("1 0 1", "0 poll = 1", used=11, bad=1),
    play("1 0 1", "c phase 1", "0 poll = 0", used=11, bad=2),
    play("1 0 1", "c phase 1", "0 poll = 1", used=11, bad=2),
    play("1 0 1", "c phase 1", "0 answers 1", "0 poll = 1", used=11),
)
ENDED = (*CYCLE_TO_SIX, "c ends 0 kept 11")
RULE_9 = (
    play("1 0 1", *ENDED, "0 collect = cycle 0", used=11),
    play("1 0 1", *ENDED, "0 collect = cycle 1", used=11, bad=14),
    play("1 0 1", *CYCLE_TO_SIX, "0 collect = cycle 0", used=11, bad=13),
    play("1 0 1", *ENDED, "0 collect = cycle 0", "0 collect = cycle 0", used=11, bad=15),
    play("1 0 1", "0 nil 1 = ok", *ENDED, "0 collect = cycle 0", used=11),
    play("1 0 1", "c phase 1", "0 nil 1 = ok", *ENDED[1:], "0 collect = cycle 0", used=11, bad=15),
    play("1 0 2", "c phase 1", "1 nil 1 = ok", "1 leave = ok", *ENDED[1:], "0 collect = cycle 0", used=11),
    play("1 0 1", *ENDED, "c cycle = cycle 0", used=11),
    play("1 0 1", *ENDED, "c turns 0 = done", "c cycle = cycle 0", used=11, bad=15),
    play("1 0 1", *ENDED, "c cycle = cycle 1", used=11, bad=14),
    play("1 0 1", "c cycle = cycle 0", used=11, bad=1),
    raw("history 1 play", "heap 1 0 1", *ENDED, "space used 11 of 16 spine 0 of 0", "c cycle = cycle 0", "end used 11",
        entries=14),
)
RULE_10 = (
    play("1 0 1", "c turns 1 = waits 0 answered 0 phase 0", used=11, bad=1),
    play("1 0 1", "c phase 1", "c turns 1 = waits 0 answered 0 phase 1", used=11),
    play("1 0 1", "c phase 1", "c cycle = waits 0 answered 0 phase 1", used=11),
    play("1 0 1", "c phase 1", "0 collect = waits 0 answered 0 phase 1", used=11, bad=2),
    play("1 0 2", "c phase 1", "0 collect = waits 1 answered 0 phase 1", used=11),
    play("1 0 2", "c phase 1", "0 collect = waits 1 answered 1 phase 1", used=11, bad=2),
    play("1 0 2", "c phase 1", "0 collect = waits 1 answered 0 phase 2", used=11, bad=2),
    play("1 0 2", "c phase 1", "0 collect = waits 2 answered 0 phase 1", used=11, bad=2),
    play("1 0 2", "c phase 1", "1 answers 1", "0 collect = waits 1 answered 1 phase 1", used=11, bad=3),
    play("1 0 2", "c phase 1", "1 leave = ok", "0 collect = waits 1 answered 0 phase 1", used=11, bad=3),
    play("1 0 2", "c phase 1", "1 leave = ok", "c cycle = waits 1 answered 0 phase 1", used=11, bad=3),
)
OBJECTS = (
    play("1 0 1", "0 get 1 0 0 = nil at -", "0 get 1 0 31 = nil at -", "0 get 1 0 32 = no field", used=11),
    play("1 0 1", "0 get 1 0 32 = nil at -", used=11, bad=1),
    play("1 0 1", "0 get 1 1 0 = no field", used=11, bad=1),
    play("1 0 1", "0 get 1 1 0 = no object", "0 set 1 0 0 = no object", "0 len 1 = no object", used=11),
    play("1 0 1", "0 get 1 0 0 = number 0 at -", used=11, bad=1),
    play("1 0 1", "0 num 1 9 = ok", "0 set 0 0 1 = was -", "0 get 2 0 0 = number 9 at 0:1", "0 set 0 0 0 = was 0:1",
         "0 get 2 0 0 = object board at 0:2", "0 same 0 2 = yes", "0 len 2 = 32", used=11),
    play("1 0 1", "0 num 1 9 = ok", "0 set 0 0 1 = was -", "0 get 2 0 0 = number 9 at 0:2", used=11, bad=3),
    play("1 0 1", "0 set 0 0 1 = was 0:1", used=11, bad=1),
    play("1 0 1", "0 set 0 40 1 = no field", "0 set 0 0 1 = was -", "0 get 2 0 0 = nil at 0:1", used=11),
    play("1 0 1", "0 num 1 0 = ok", "0 same 1 2 = no", "0 num 2 0 = ok", "0 same 1 2 = yes", used=11),
    play("1 0 1", "0 num 1 0 = ok", "0 same 1 2 = yes", used=11, bad=2),
    play("1 0 2", "0 set 0 3 0 = was -", "1 set 0 3 1 = was 0:1", "0 get 1 0 3 = nil at 1:1", used=11),
    play("1 0 1", "0 takes 5", "0 new 1 2 = 0.1", used=16, bad=2),
    play("1 0 1", "0 takes 5", "0 new 1 2 = board", used=16, bad=2),
    play("1 0 2", "0 takes 5", "0 new 1 2 = 1.0", used=16, bad=2),
    play("1 0 1", "0 takes 5", "0 new 1 2 = 0.0", "0 new 1 2 = 0.1", "0 get 2 1 1 = nil at -",
         "0 get 2 1 2 = no field", used=16),
    play("1 0 1", "0 leave = ok", "0 leave = ok", used=11, bad=2),
    play("1 0 1", "0 leave = ok", "0 poll = 0", used=11, bad=2),
    play("1 0 1", "0 leave = ok", "0 takes 1", used=12, bad=2),
    play("1 0 1", "0 leave = ok", "c phase 1", "0 answers 1", used=11, bad=3),
)
BUDGET = (
    # No rule but the seventh speaks of the budget: an array may be granted above it.
    play("1 0 1", "0 takes 2", "0 array 1 1 = 0.0", used=13, spine=1),
)
LAST_LINES = (
    raw("history 1 play", "heap 1 2 1", "space used 11 of 16 spine 0 of 2", "end used 11"),
    raw("history 1 play", "heap 1 2 1", "space used 12 of 16 spine 0 of 2", "end used 11", bad=3),
    raw("history 1 play", "heap 1 2 1", "space used 11 of 17 spine 0 of 2", "end used 11", bad=3),
    raw("history 1 play", "heap 1 2 1", "space used 11 of 16 spine 1 of 2", "end used 11", bad=3),
    raw("history 1 play", "heap 1 2 1", "space used 11 of 16 spine 0 of 3", "end used 11", bad=3),
    raw("history 1 play", "heap 1 2 1", "space used 11 of 16 spine 0 of 2", "end used 10", bad=4),
    raw("history 1 play", "heap 1 2 1", "space used 11 of 16 spine 0 of 2", "0 takes 1", "end used 12", entries=1),
    raw("history 1 play", "heap 1 2 1", "space used 11 of 16 spine 0 of 2", "0 takes 1", "end used 11", bad=5),
    # The seat's own is given back though more was freed than there is.
    raw("history 1 play", "heap 1 0 1", "0 takes 1", *CYCLE_TO_FIVE, "c frees 12", "0 gives back 1",
        "space used 0 of 16 spine 0 of 0", "end used 0", bad=15),
)
RUNS = (
    raw("history 1 run", "heap 1 0 1", "end used 11"),
    raw("history 1 run", "heap 1 0 1", "end used 12", bad=3),
    raw("history 1 run", "heap 1 0 1", "0 takes 99", "end used 110", entries=1),
    raw("history 1 run", "heap 1 0 1", "0 takes 0", "0 gives back 4", "end used 7", entries=2),
    raw("history 1 run", "heap 1 0 1", "c frees 12", "end used 0", bad=4),
    raw("history 1 run", "heap 1 0 1", "c frees 12", "0 takes 3", "end used 2", entries=2),
    raw("history 1 run", "heap 1 0 1", "c phase 9", "c ends 8 kept 1", "c swings 3.3", "c returns 7", "0 answers 5",
        "0 poll = 12", "0 collect = waits 15 answered 9 phase 3", "0 collect = cycle 77", "end used 11", entries=8),
    raw("history 1 run", "heap 1 0 1", "0 new 1 2 = full need 0 found 9", "0 array 1 2 = spine need 9 used 0",
        "0 new 1 2 = 0.0", "end used 11", entries=3),
    raw("history 1 run", "heap 1 0 1", "0 new 1 2 = 0.1", "end used 11", bad=3),
    raw("history 1 run", "heap 1 0 1", "0 leave = ok", "0 takes 1", "end used 12", bad=4),
    raw("history 1 run", "heap 1 0 2", "0 leave = ok", "1 set 0 0 0 = was -", "1 get 1 0 0 = object board at 1:1",
        "end used 11", entries=3),
)

KNOWN = (*RULE_1, *RULE_2, *RULE_3, *RULE_4, *RULE_5, *RULE_6, *RULE_7, *RULE_8, *RULE_9, *RULE_10, *OBJECTS, *BUDGET,
         *LAST_LINES, *RUNS)
