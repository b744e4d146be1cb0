"""Bad input that is always tried: odd bytes, odd line ends, long lines, long texts, long numbers, cut lines."""

from random import Random

from .made import make
from .play import play
from .script import read_script
from .texts import LONGEST_HISTORY, LONGEST_SCRIPT, text_of

MILLION = 1_000_000

SCRIPT = b"""schism 1
heap 2 8 1
0 new 1 5
0 array 2 7
0 set 0 31 2
0 new 3 20
0 nil 3
0 num 7 12
0 set 2 6 7
0 get 5 0 31
0 get 6 5 6
0 get 6 0 40
0 get 4 7 0
0 len 5
0 same 2 5
0 collect
0 new 5 8
0 new 4 47
0 array 8 30
c turns 9
0 poll
c cycle
"""

LONG = b"1" * 40


def history_text() -> bytes:
    """A history with entries of most kinds."""
    return text_of(play(read_script(SCRIPT, True), None).lines())


def random_bytes(random: Random) -> bytes:
    """A byte string: of any bytes, or of those that scripts and histories have."""
    length = random.choice((0, 1, 2, random.randrange(40), random.randrange(400)))
    allowed = random.choice((bytes(range(256)), b"schimeap 0123456789\n", b"0 1\n"))
    front = random.choice((b"", b"", b"schism 1\n", b"schism 1\nheap 1 0 1\n", b"history 1 play\nheap 1 0 1\n", b"schism 2\nheap 1 0 1 1\n", b"history 2 run\nheap 1 0 1 1\n"))
    return front + bytes(random.choice(allowed) for _ in range(length))


def odd_bytes() -> list[tuple[list[str], bytes]]:
    """A NUL, a carriage return, and a last line without its line feed."""
    cases = []
    for words, text in ((["play"], SCRIPT), (["check"], history_text())):
        second = text.index(b"\n") + 1
        cases += [
            (words, text.replace(b"heap", b"he\0ap", 1)),
            (words, text[:-2] + b"\0\n"),
            (words, text + b"\0"),
            (words, text.replace(b"\n", b"\r\n")),
            (words, text[:second] + text[second:].replace(b"\n", b"\r\n", 1)),
            (words, text.replace(b"\n", b"\r")),
            (words, text.removesuffix(b"\n")),
            (words, text + b"\n"),
            (words, b"\n" + text),
            (words, b""),
            (words, b"\n"),
        ]
    return cases


def long_lines() -> list[tuple[list[str], bytes]]:
    """One line of a million bytes."""
    script, history = b"schism 1\nheap 1 0 1\n", b"history 1 play\nheap 1 0 1\n"
    cases = [([form], byte * MILLION) for form in ("play", "check") for byte in (b"a", b"0", b" ")]
    cases += [(["play"], script + b"0 num 1 " + b"1" * MILLION), (["play"], script + b"0" + b" " * MILLION)]
    cases += [(["play"], script + b"9" * MILLION), (["play"], script + b"0 poll" + b" x" * (MILLION // 2))]
    cases += [(["check"], history + b"0 takes " + b"1" * MILLION), (["check"], history + b" " * MILLION)]
    cases += [(["check"], history + b"0 new 1 2 = 0." + b"0" * MILLION)]
    return cases


def long_texts() -> list[tuple[list[str], bytes]]:
    """Texts about the limits of lines and bytes."""
    script, history = b"schism 1\nheap 1 0 1\n", b"history 1 play\nheap 1 0 1\n"
    last = b"space used 11 of 16 spine 0 of 0\nend used 11\n"
    poll = b"0 poll\n"
    return [
        (["play", "--brief"], script + poll * 65_534),
        (["play"], script + poll * 65_535),
        (["play"], script + poll * 65_535 + b"x\n"),
        (["play"], script + poll * 65_533 + b"x\n" + poll),
        (["check"], history + b"0 poll = 0\n" * (65_537 - 4) + last),
        (["play"], b"\n" * 65_537),
        (["check"], b"\n" * 65_537),
        (["play"], (script + poll * 10).ljust(LONGEST_SCRIPT, b"x")),
        (["play"], (script + poll * 10).ljust(LONGEST_SCRIPT + 1, b"x")),
        (["run"], b"x" * (LONGEST_SCRIPT + 1)),
        (["check"], (history + last).ljust(LONGEST_HISTORY, b"x")),
        (["check"], (history + last).ljust(LONGEST_HISTORY + 1, b"x")),
    ]


SCRIPT_LINES = (b"%s poll", b"0 num 1 %s", b"0 num %s 1", b"0 get 1 %s 1", b"0 poll %s", b"c turns %s")
HISTORY_LINES = (b"0 num 1 %s = ok", b"%s poll = 0", b"0 poll = %s", b"0 new 1 2 = 0.%s", b"0 new 1 2 = %s.0",
                 b"0 get 1 0 0 = number %s at -", b"0 get 1 0 0 = nil at 0:%s", b"0 takes %s", b"c phase %s",
                 b"c frees %s", b"c ends %s kept 0", b"space used %s of 16 spine 0 of 0", b"end used %s")


def long_numbers() -> list[tuple[list[str], bytes]]:
    """Numbers of 40 digits in each position of a line."""
    cases = [(["play"], b"schism 1\nheap %s 0 1\n" % LONG), (["check"], b"history 1 play\nheap 1 %s 1\n" % LONG)]
    cases += [(["play"], b"schism 1\nheap 1 0 1\n" + line % LONG + b"\n") for line in SCRIPT_LINES]
    cases += [(["check"], b"history 1 play\nheap 1 0 1\n" + line % LONG + b"\n") for line in HISTORY_LINES]
    return cases


def cut_lines() -> list[tuple[list[str], bytes]]:
    """A history of which one line is cut by a byte: each line once."""
    lines = history_text().split(b"\n")[:-1]
    cases = []
    for position, line in enumerate(lines):
        cut = lines[:position] + [line[:-1]] + lines[position + 1:]
        cases.append((["check"], b"\n".join(cut) + b"\n"))
    return cases


def usages() -> list[tuple[list[str], bytes]]:
    """Words that are no form, and forms with their words in each order."""
    script = text_of(make(7, 2, 30).lines())
    forms = ("", "plays", "play --brief --brief", "play --pace", "play --pace quick", "play --brief --pace steady",
             "play --pace steady --brief", "play --press", "play --press --press", "run --press", "play --pace debt", "play --pace debt --pace steady", "run --pace debts", "play x", "play --locked", "check x", "run --brief", "run --patience 0",
             "run --patience 1000001", "run --locked --locked", "make 1 1", "make 1 1 1 1", "make 1 17 1",
             "make 2147483648 1 1", "make 2147483647 16 9", "make 0 1 0", "make 1 1 32769", "make 01 1 1",
             "make 5 16 32768", "make 11111111111 1 1", "migrate", "migrate scripts", "migrate script script", "migrate script", "migrate history",
             "migrate --brief script", "crew --history --history", "crew --brief", "crew --history 1", "crew x", "crews")
    return [(form.split(" ") if form else [], script) for form in forms]


def bad_inputs(random: Random) -> list[tuple[str, list[str], bytes]]:
    """All of these, each with its kind."""
    kinds = {
        "odd bytes": odd_bytes(),
        "long line": long_lines(),
        "long text": long_texts(),
        "long number": long_numbers(),
        "cut line": cut_lines(),
        "words": usages(),
        "random bytes": [([form], random_bytes(random)) for form in ("play", "check") * 5],
    }
    return [(kind, words, text) for kind, cases in kinds.items() for words, text in cases]
