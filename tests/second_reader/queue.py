"""What a queue's run tells: which text it may be, whatever the schedule was."""

import re
from collections import deque

from .graph import fragments_of_record
from .script import Command, Script
from .texts import Answer, done, text_of

LINE = re.compile(r"(\d+) (?:put (\d+) = (ok|again (\d+):\d+|full need 1 found 0)|take = (\d+|empty|again (\d+):\d+))")


def answer_without_room(script: Script) -> Answer | None:
    """What is answered where no fragment stands beside the board; None where one does."""
    if script.heap.fragments > fragments_of_record(script.heap.board):
        return None
    return done(text_of(["queue 1", script.heap.line(2), "full need 1 found 0"]))


class Judge:
    """The queue as the lines so far leave it, and the commands that each seat has still to tell of."""

    def __init__(self, script: Script):
        self.seats = script.heap.seats
        self.queue: deque[int] = deque()
        self.waiting = {seat: deque(one for one in script.commands if one.party == seat) for seat in range(self.seats)}

    def is_of_another(self, seat: int, stamp_seat: str | None) -> bool:
        """Whether the stamp that is shown, if one is, is another seat's."""
        return stamp_seat is None or (int(stamp_seat) != seat and int(stamp_seat) < self.seats)

    def take(self, reply: str) -> bool:
        """Whether a take may answer so."""
        if reply == "empty":
            return not self.queue
        return reply.startswith("again") or (bool(self.queue) and self.queue.popleft() == int(reply))

    def accepts(self, line: str) -> bool:
        """Whether the line may come next."""
        found = LINE.fullmatch(line)
        if found is None or int(found[1]) >= self.seats:
            return False
        seat, number, put, put_seat, take, take_seat = found.groups()
        command = Command(int(seat), "take", ()) if number is None else Command(int(seat), "put", (int(number),))
        waiting = self.waiting[int(seat)]
        if not waiting or waiting.popleft() != command:
            return False
        if put == "ok":
            self.queue.append(int(number))
        return self.is_of_another(int(seat), put_seat or take_seat) and (take is None or self.take(take))

    def ends(self) -> list[str]:
        """The last two lines, where each command was told."""
        return [f"left {len(self.queue)}", "end used 0"]


def queue_fault(script: Script, output: bytes) -> str | None:
    """What is wrong with a text that tells a run of this queue's text, if anything."""
    lines = output.decode("latin-1").split("\n")
    if lines[:2] != ["queue 1", script.heap.line(2)] or lines[-1] != "":
        return "it begins or ends otherwise"
    judge = Judge(script)
    for line in lines[2:-3]:
        if not judge.accepts(line):
            return f"no queue comes to: {line}"
    if any(judge.waiting.values()):
        return "a command is not told"
    return None if lines[-3:-1] == judge.ends() else f"it ends by: {' '.join(lines[-3:-1])}"
