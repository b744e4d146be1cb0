"""Cases: an input each, with the words that it is given to; the first ones always the same, the others drawn."""

from collections.abc import Callable
from random import Random
from typing import NamedTuple

from .bad import bad_inputs, random_bytes
from .changes import changed_history, changed_script
from .drawn import draw_script
from .grown import grow_history
from .known import KNOWN
from .known_swaps import BOARDS, SWAPS
from .limits import limit_cases
from .made import MOST_START, make
from .play import play
from .script import Heap, Script
from .texts import DONE, Answer, NotLegal, done, not_legal, text_of
from .worked import worked_plays

Runs = Callable[[list[str], bytes], Answer]

PLAYS = (["play"], ["play", "--pace", "steady"], ["play", "--brief"], ["play", "--brief", "--pace", "steady"],
         ["play", "--pace", "steady", "--brief"], ["play", "--pace", "debt"], ["play", "--pace", "debt", "--brief"],
         ["play", "--press"], ["play", "--press", "--pace", "steady"], ["play", "--brief", "--press", "--pace", "debt"])


class Case(NamedTuple):
    """An input, and what is known of its answer beforehand, if anything."""

    kind: str
    words: list[str]
    text: bytes
    known: Answer | None = None


def known_cases() -> list[Case]:
    checks = [Case("known history", ["check"], text.encode(),
                   done(b"legal %d\n" % entries) if bad is None else not_legal(NotLegal(bad)))
              for text, bad, entries in (*KNOWN, *BOARDS, *SWAPS)]
    return checks + [Case("plan of a known history", ["plan"], text.encode()) for text, _, _ in KNOWN]


def fixed_cases(seed: str) -> list[Case]:
    """What is always tried."""
    cases = [Case(*bad) for bad in bad_inputs(Random(f"{seed} bad"))]
    cases += [Case("limit", words, text) for words, text in limit_cases()]
    cases += [Case("worked play", words, text) for words, text in worked_plays()]
    return cases + known_cases()


def draw_made(random: Random) -> Script:
    return make(random.randint(0, MOST_START), random.randint(1, 16), random.choice((0, 1, 20, 60, 200)))


def draw_any_script(random: Random, played: bool) -> Script:
    return draw_made(random) if random.random() < 0.2 else draw_script(random, 100, played)


def text_of_script(script: Script) -> bytes:
    return text_of(script.lines())


def draw_history(random: Random) -> bytes:
    """The history of a play."""
    return text_of(play(draw_any_script(random, True), random.choice((None, "steady", "debt")), random.random() < 0.3).lines())


def run_history(random: Random, runs: Runs) -> bytes:
    """The history of a run on threads, by the program itself."""
    words = ["run", *random.choice(([], [], ["--locked"], ["--patience", "3"]))]
    answer = runs(words, text_of_script(draw_any_script(random, False)))
    return answer.output


def make_words(random: Random) -> list[str]:
    start = random.choice((0, 1, MOST_START, random.randint(0, MOST_START)))
    return ["make", str(start), str(random.randint(1, 16)), str(random.choice((0, 1, random.randint(0, 600))))]


def made(random: Random, runs: Runs) -> Case:
    return Case("make", make_words(random), b"")


def made_play(random: Random, runs: Runs) -> Case:
    return Case("play of a made script", random.choice(PLAYS), text_of_script(draw_made(random)))


def changed_made(random: Random, runs: Runs) -> Case:
    text = changed_script(random, text_of_script(draw_made(random)))
    return Case("play of a changed made script", random.choice(PLAYS), text)


def drawn_play(random: Random, runs: Runs) -> Case:
    return Case("play of a drawn script", random.choice(PLAYS), text_of_script(draw_script(random, 150)))


def changed_drawn(random: Random, runs: Runs) -> Case:
    text = changed_script(random, text_of_script(draw_script(random, 60)))
    return Case("play of a changed drawn script", random.choice(PLAYS), text)


def run_script(random: Random, runs: Runs) -> Case:
    """A script that a run refuses more often than a play."""
    text = text_of_script(draw_script(random, 40, random.random() < 0.5))
    return Case("run of a script", ["run"], changed_script(random, text) if random.random() < 0.7 else text)


def draw_crew(random: Random) -> bytes:
    """A crew's text: a drawn script's commands, but collects, as those of some jobs."""
    script = draw_script(random, 60, False)
    most = random.choice((0, 3, 4_095))
    lines = [command._replace(party=random.randint(0, most)).line() for command in script.commands if command.name != "collect"]
    return text_of(["crew 1", script.heap.line(2), *lines])


def crew_history(random: Random, runs: Runs) -> Case:
    text = draw_crew(random)
    return Case("history of a crew", ["crew", "--history"], changed_script(random, text) if random.random() < 0.6 else text)


def draw_queue(random: Random) -> bytes:
    """A queue's text: puts and takes of one seat or of several, over heaps of every kind."""
    heap = Heap(random.choice((1, 1, 2, 64)), 0, random.randint(1, 8), random.choice((2, 3, 32, 46, 47)))
    lines = [f"{random.randrange(heap.seats)} {random.choice((f'put {random.randint(0, 999)}', 'take'))}" for _ in range(random.choice((0, 1, 20, 200)))]
    return text_of(["queue 1", heap.line(2), *lines])


def queue_run(random: Random, runs: Runs) -> Case:
    text = draw_queue(random)
    return Case("queue", ["queue"], changed_script(random, text) if random.random() < 0.4 else text)


def play_check(random: Random, runs: Runs) -> Case:
    return Case("check of a play", ["check"], draw_history(random))


def changed_check(random: Random, runs: Runs) -> Case:
    return Case("check of a changed play", ["check"], changed_history(random, draw_history(random)))


def run_check(random: Random, runs: Runs) -> Case:
    return Case("check of a run", ["check"], run_history(random, runs))


def changed_run_check(random: Random, runs: Runs) -> Case:
    return Case("check of a changed run", ["check"], changed_history(random, run_history(random, runs)))


def grown_check(random: Random, runs: Runs) -> Case:
    return Case("check of a grown history", ["check"], text_of(grow_history(random, 150).lines()))


def play_plan(random: Random, runs: Runs) -> Case:
    return Case("plan of a play", ["plan"], draw_history(random))


def changed_plan(random: Random, runs: Runs) -> Case:
    return Case("plan of a changed play", ["plan"], changed_history(random, draw_history(random)))


def grown_plan(random: Random, runs: Runs) -> Case:
    return Case("plan of a grown history", ["plan"], text_of(grow_history(random, 150).lines()))


def run_plan(random: Random, runs: Runs) -> Case:
    text = run_history(random, runs)
    return Case("plan of a run", ["plan"], changed_history(random, text) if random.random() < 0.5 else text)


def script_migration(random: Random, runs: Runs) -> Case:
    text = text_of_script(draw_any_script(random, True))
    return Case("migration of a script", ["migrate", "script"], changed_script(random, text) if random.random() < 0.6 else text)


def history_migration(random: Random, runs: Runs) -> Case:
    """The migration of a history, or what is said of the migrated one, which is what is said of it."""
    text = changed_history(random, draw_history(random))
    if random.random() < 0.5:
        return Case("migration of a history", ["migrate", "history"], text)
    answer = runs(["migrate", "history"], text)
    legal = runs(["check"], text)
    return Case("check of a migrated history", ["check"], answer.output, legal) if answer.status == DONE else Case("migration of a history", ["migrate", "history"], text)


def bytes_of_any_kind(random: Random, runs: Runs) -> Case:
    words = random.choice((["play"], ["check"], ["run"], ["plan"], ["migrate", "script"], ["migrate", "history"]))
    return Case("random bytes", words, random_bytes(random))


# The kinds of drawn cases by the names that `--kind` takes, and how often each is drawn.
KINDS: dict[str, tuple[int, Callable[[Random, Runs], Case]]] = {
    "make": (2, made),
    "made": (4, made_play),
    "made-changed": (6, changed_made),
    "drawn": (18, drawn_play),
    "drawn-changed": (14, changed_drawn),
    "run": (3, run_script),
    "crew": (4, crew_history),
    "queue": (4, queue_run),
    "play-check": (5, play_check),
    "play-changed": (24, changed_check),
    "run-check": (3, run_check),
    "run-changed": (6, changed_run_check),
    "grown": (14, grown_check),
    "plan": (5, play_plan),
    "plan-changed": (4, changed_plan),
    "plan-grown": (5, grown_plan),
    "plan-run": (1, run_plan),
    "script-migrated": (4, script_migration),
    "history-migrated": (6, history_migration),
    "bytes": (1, bytes_of_any_kind),
}


def draw_case(seed: str, number: int, kind: str | None, runs: Runs) -> Case:
    """The drawn case of this number."""
    random = Random(f"{seed} {number}")
    names = list(KINDS)
    name = kind or random.choices(names, [KINDS[name][0] for name in names])[0]
    return KINDS[name][1](random, runs)
