"""Compares the answers of the built program and of the second reader."""

import subprocess
from collections.abc import Iterator
from pathlib import Path

from .cases import Case, draw_case, fixed_cases
from .forms import answer_words
from .queue import queue_fault
from .script import read_queue
from .texts import DONE, LONGEST_HISTORY, Answer

SECONDS = 120
SHOWN = 60


class Program:
    """The built program."""

    def __init__(self, path: Path):
        self.path = path

    def answer(self, words: list[str], text: bytes) -> Answer:
        call = subprocess.run([self.path, *words], input=text, capture_output=True, timeout=SECONDS)
        return Answer(call.returncode, call.stdout, call.stderr)


def shown(answer: Answer, other: Answer) -> str:
    """An answer's status, and its first line that isn't the other's."""
    status = f"status {answer.status}"
    for name, mine, its in (("error", answer.error, other.error), ("output", answer.output, other.output)):
        if mine == its:
            continue
        lines, others = mine.split(b"\n"), its.split(b"\n")
        pairs = zip(lines, others)
        position = next((i for i, (line, one) in enumerate(pairs) if line != one), min(len(lines), len(others)))
        line = lines[position] if position < len(lines) else b""
        return f"{status}, line {position + 1} of its {name} {line[:SHOWN]!r}"
    return status


def difference(name: str, answer: Answer, other: Answer) -> str | None:
    """How two answers differ, where they do."""
    if answer == other:
        return None
    return f"the program has {shown(answer, other)}, {name} {shown(other, answer)}"


def compare_history(program: Program, answer: Answer) -> str | None:
    """What is wrong with the history of a run: both have to find it legal."""
    entries = len(answer.output.split(b"\n")) - 4
    legal = Answer(DONE, b"legal %d\n" % entries, b"")
    own = program.answer(["check"], answer.output)
    second = answer_words(["check"], answer.output)
    if own == second == legal or len(answer.output) > LONGEST_HISTORY:
        return None
    return difference("the second reader", own, second) or "both find the run not legal"


def compare_run(program: Program, case: Case, answer: Answer) -> str | None:
    """What is wrong with what the program tells of threads."""
    if answer.status != DONE or answer.error:
        return f"the run ends with status {answer.status}, error {answer.error[:SHOWN]!r}"
    if case.words[0] == "queue":
        return queue_fault(read_queue(case.text), answer.output)
    return compare_history(program, answer)


def compare(program: Program, case: Case) -> str | None:
    """How the program's answer to a case differs from the one expected."""
    answer = program.answer(case.words, case.text)
    expected = answer_words(case.words, case.text)
    if expected is None:
        return compare_run(program, case, answer)
    if case.known is not None and expected != case.known:
        return f"the second reader has {shown(expected, case.known)}, worked out was {shown(case.known, expected)}"
    return difference("the second reader", answer, expected)


def numbered_cases(program: Program, seed: str, numbers: range, kind: str | None) -> Iterator[tuple[int, Case]]:
    """The cases of these numbers: first what is always tried, unless one kind is asked for."""
    fixed = [] if kind else fixed_cases(seed)
    for number in numbers:
        if number < len(fixed):
            yield number, fixed[number]
        else:
            yield number, draw_case(seed, number, kind, program.answer)


def keep_input(folder: Path, seed: str, number: int, case: Case) -> Path:
    """Writes a case's input to a file of the folder."""
    folder.mkdir(parents=True, exist_ok=True)
    path = folder / f"{seed}-{number}"
    path.write_bytes(case.text)
    return path


def compare_all(program: Program, seed: str, numbers: range, kind: str | None, folder: Path | None) -> int:
    """Tells each difference in a line, and counts them."""
    differences = 0
    again = f"--seed {seed}" + (f" --kind {kind}" if kind else "")
    for number, case in numbered_cases(program, seed, numbers, kind):
        try:
            found = compare(program, case)
        except subprocess.TimeoutExpired:
            found = f"the program takes more than {SECONDS} seconds"
        if found is None:
            continue
        differences += 1
        place = f"; input in {keep_input(folder, seed, number, case)}" if folder else ""
        words = " ".join(case.words)
        print(f"{case.kind} ({words}), {again} --case {number}: {found}{place}", flush=True)
    return differences
