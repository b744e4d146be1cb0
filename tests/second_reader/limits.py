"""Numbers at the limits of the grammar: the largest that is allowed, and behind it one above."""

HISTORY_LIMITS = (
    ("0 takes %d", 2**32 - 1),
    ("0 gives back %d", 2**32 - 1),
    ("c frees %d", 2**32 - 1),
    ("c returns %d", 2**32 - 1),
    ("0 new 1 2 = full need %d found 0", 2**32 - 1),
    ("0 array 1 2 = full need 1 found %d", 2**32 - 1),
    ("0 array 1 2 = spine need %d used 0", 2**32 - 1),
    ("0 array 1 2 = spine need 1 used %d", 2**32 - 1),
    ("0 answers %d", 2**64 - 1),
    ("c phase %d", 2**64 - 1),
    ("c ends %d kept 0", 2**64 - 1),
    ("c ends 0 kept %d", 2**64 - 1),
    ("0 poll = %d", 2**64 - 1),
    ("0 collect = cycle %d", 2**64 - 1),
    ("0 collect = waits %d answered 0 phase 1", 15),
    ("0 collect = waits 0 answered %d phase 1", 2**64 - 1),
    ("0 collect = waits 0 answered 0 phase %d", 2**64 - 1),
    ("0 new 1 2 = %d.0", 15),
    ("0 new 1 2 = 0.%d", 2**32 - 1),
    ("0 get 1 0 0 = number %d at -", 1_073_741_823),
    ("0 get 1 0 0 = nil at %d:1", 15),
    ("0 get 1 0 0 = nil at 0:%d", 2**26 - 1),
    ("0 len 0 = %d", 65_535),
    ("c turns %d = done", 1_000_000),
    ("0 num 1 %d = ok", 1_073_741_823),
    ("%d poll = 0", 2),
)

SCRIPT_LIMITS = (
    ("%d poll", 2),
    ("0 new %d 47", 15),
    ("0 new 15 %d", 47),
    ("0 array 15 %d", 4_096),
    ("0 get 15 %d 4096", 15),
    ("0 get 15 15 %d", 4_096),
    ("0 set 15 4096 %d", 15),
    ("0 num 15 %d", 1_073_741_823),
    ("c turns %d", 1_000_000),
)

# Those of version 2 alone.
SWAP_HISTORY_LIMITS = (
    ("0 cas 0 0 %d 0 = was -", 15),
    ("0 cas 0 %d 0 0 = now 0:1", 4_096),
    ("0 cas 0 0 0 0 = now %d:1", 15),
    ("0 cas 0 0 0 0 = now 15:%d", 2**26 - 1),
)
SWAP_SCRIPT_LIMITS = (("0 cas %d 0 0 0", 15), ("0 cas 0 %d 0 0", 4_096), ("0 cas 0 0 %d 0", 15), ("0 cas 0 0 0 %d", 15))

# Heap lines of version 1, and those of version 2: the last two are right in the other one.
HEAP_LIMITS = ("0 0 1", "4097 0 1", "1 16385 1", "1 0 0", "1 0 17", "1 0 1 1", "1 0", "01 0 1", "1 0 1 32")
BOARD_LIMITS = ("1 0 1 0", "1 0 1 1", "1 0 1 47", "1 0 1 48", "1 0 1 01", "1 0 1 1 1", "0 0 1 1", "1 0 1 x", "1 0 1 ", "1 0 1")

# First lines that are none, and one of each that is.
HEADERS = ("schism 3", "schism 0", "schism 2 ", "schism 02", "schism", "schism 2")
HISTORY_HEADERS = ("history 2", "history 3 play", "history 2 plays", "history 0 run", "history 2 play", "history 2 run")

# A stamp's count 0, an id without a count, a number with a leading zero, replies of other commands, other parties.
BAD_ENTRIES = ("0 get 1 0 0 = nil at 0:0", "0 new 1 2 = 0.", "0 new 1 2 = 0.00", "0 len 0 = no field",
               "0 set 0 0 0 = ok", "0 collect = done", "c cycle = done", "c turns 1 = cycle 0", "0 same 0 0 = ok",
               "0 leave", "0 poll 0", "0 gives 1", "c answers 1", "0 phase 1", "0 new 1 2 = spine need 1 used 0",
               "0 num 0 1 = ok", "= ok", "0 cas 0 0 1 1 = was -")
BAD_SWAPS = ("0 cas 0 0 1 1 = ok", "0 cas 0 0 1 = was -", "0 cas 0 0 1 1 1 = was -", "0 set 0 0 1 = now -", "0 cas 0 0 1 1 = now",
             "0 cas 0 0 1 1 = nil at -", "0 get 1 0 0 = now -")

# Lines with two faults each, of which the one named first in the table of causes is told.
TWO_FAULTS = ("9 jump", "c jump x", "0 jump x", "0 new 16 x", "0 new x 48", "0 new 16", "0 new 16 48 1", "0 new 1 x 1",
              "0 new x 1 1", "0 turns x", "c poll 1", "c turns 1000001 1", "c turns", "0", "",
              "0 cas 0 0 1 16", "0 cas 0 0 x 16", "0 cas 16 x 0 0", "0 cas 0 0 1", "0 cas 0 0 1 1 1", "c cas 0 0 1 1", "0 cas 0 0 1 1")


def limit_cases() -> list[tuple[list[str], bytes]]:
    """Each largest number and the one above it, in two lines of one text; and other lines that are refused."""
    history, script = "history 1 play\nheap 4096 16384 3\n", "schism 1\nheap 4096 16384 3\n"
    cases = [(["check"], f"{history}{line % most}\n{line % (most + 1)}\n") for line, most in HISTORY_LIMITS]
    cases += [(["play"], f"{script}{line % most}\n{line % (most + 1)}\n") for line, most in SCRIPT_LIMITS]
    cases += [(["play"], f"schism 1\nheap {heap}\n") for heap in HEAP_LIMITS]
    cases += [(["play"], f"schism 1\nheap 1 0 1\n{line}\n") for line in TWO_FAULTS]
    cases += [(["check"], f"history 1 play\nheap 1 0 1\n{line}\n") for line in BAD_ENTRIES]
    cases += [(["check"], f"history 1 run\nheap 1 0 1\n{line}\n") for line in ("c turns 1 = done", "c cycle = cycle 0")]
    return [(words, text.encode()) for words, text in cases + second_version_cases() + crew_cases() + queue_cases()]


# Lines of a crew's text: the largest number of a job, and what a job has not.
JOB_LINES = ("4095 poll", "4096 poll", "0 collect", "0 leave", "c cycle", "0 cas 0 0 1 1", "0 cas 0 0 1 16", "00 poll", "0")


def crew_cases() -> list[tuple[list[str], str]]:
    """First lines, heap lines and lines of jobs, right ones and others."""
    cases = [f"{header}\nheap 1 0 1 32\n" for header in ("crew 1", "crew 2", "crew", "schism 2", "history 2 run")]
    cases += [f"crew 1\nheap {heap}\n" for heap in BOARD_LIMITS]
    cases += [f"crew 1\nheap 1 0 1 32\n{line}\n" for line in JOB_LINES + TWO_FAULTS]
    return [(["crew", "--history"], text) for text in cases]


# Lines of a queue's text: the largest number that is put, and what a queue has not.
QUEUE_LINES = ("0 put 0", "0 put 1073741823", "0 put 1073741824", "0 put 01", "0 put", "0 put x", "0 put 1 1", "0 take 1", "0 take", "0 poll",
               "0 get 1 0 0", "c turns 1", "1 put 1", "00 take", "0", "")


def queue_cases() -> list[tuple[list[str], str]]:
    """First lines, heap lines and lines of seats, right ones and others; and a heap that its board fills."""
    cases = [f"{header}\nheap 1 0 1 32\n" for header in ("queue 1", "queue 2", "queue", "schism 2", "crew 1")]
    cases += [f"queue 1\nheap {heap}\n" for heap in (*BOARD_LIMITS, "1 0 1 2", "1 0 1 1")]
    cases += [f"queue 1\nheap 1 0 1 32\n{line}\n" for line in QUEUE_LINES]
    cases += ["queue 1\nheap 1 0 1 47\n0 put 1\n", "queue 1\nheap 1 0 3 47\n2 take\n", "queue 1\nheap 1 0 1 46\n0 put 1\n0 put 2\n0 take\n"]
    return [(["queue"], text) for text in cases]


def second_version_cases() -> list[tuple[list[str], str]]:
    """What version 2 has alone, and what it refuses as version 1 does."""
    history, script = "history 2 play\nheap 4096 16384 3 47\n", "schism 2\nheap 4096 16384 3 47\n"
    cases = [(["check"], f"{history}{line % most}\n{line % (most + 1)}\n") for line, most in HISTORY_LIMITS + SWAP_HISTORY_LIMITS]
    cases += [(["play"], f"{script}{line % most}\n{line % (most + 1)}\n") for line, most in SCRIPT_LIMITS + SWAP_SCRIPT_LIMITS]
    cases += [(words, f"{header}\nheap {heap}\n") for heap in BOARD_LIMITS
              for words, header in ((["play"], "schism 2"), (["check"], "history 2 run"), (["migrate", "script"], "schism 2"))]
    cases += [(words, f"{header}\nheap 1 0 1 1\n") for header in HEADERS for words in (["play"], ["run"], ["migrate", "script"])]
    cases += [(words, f"{header}\nheap 1 0 1 1\nend used 1\n") for header in HISTORY_HEADERS for words in (["check"], ["plan"], ["migrate", "history"])]
    cases += [(["play"], f"schism 2\nheap 1 0 1 32\n{line}\n") for line in TWO_FAULTS]
    cases += [(["check"], f"history 2 play\nheap 1 0 1 32\n{line}\n") for line in BAD_ENTRIES + BAD_SWAPS]
    return cases
