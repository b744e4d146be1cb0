"""The lines of a history: the forms of entries and replies, and how they are written."""

from typing import NamedTuple

from .script import COLLECTOR, Command, Heap

LEAVE = "leave"
BOARD = "board"
UNSET = "-"

# A form is a row of words; those in capitals are slots for what `SLOTS` of `history` reads.
REPLY_FORMS = {
    "made": "ID",
    "nil": "nil at STAMP",
    "number": "number NUMBER at STAMP",
    "object": "object ID at STAMP",
    "was": "was STAMP",
    "now": "now STAMP",
    "length": "LENGTH",
    "phase": "PHASE",
    "ok": "ok",
    "yes": "yes",
    "no": "no",
    "done": "done",
    "cycle": "cycle PHASE",
    "waits": "waits SEAT answered PHASE phase PHASE",
    "no object": "no object",
    "no field": "no field",
    "full": "full need SPACE found SPACE",
    "spine": "spine need SPACE used SPACE",
}
REFUSALS = ("no object", "no field", "full", "spine")

REPLIES_OF = {
    "new": ("made", "full"),
    "array": ("made", "full", "spine"),
    "get": ("nil", "number", "object", "no object", "no field"),
    "set": ("was", "no object", "no field"),
    "cas": ("was", "now", "no object", "no field"),
    "num": ("ok",),
    "nil": ("ok",),
    "copy": ("ok",),
    "same": ("yes", "no"),
    "len": ("length", "no object"),
    "poll": ("phase",),
    "collect": ("cycle", "waits"),
    LEAVE: ("ok",),
    "turns": ("done", "waits"),
    "cycle": ("cycle", "waits"),
}

SEAT_FORMS = {"takes": "takes SPACE", "gives": "gives back SPACE", "answers": "answers PHASE"}
COLLECTOR_FORMS = {
    "phase": "phase PHASE",
    "frees": "frees SPACE",
    "returns": "returns SPACE",
    "swings": "swings ID",
    "ends": "ends PHASE kept PHASE",
}
SPACE_FORM = "space used PHASE of PHASE spine PHASE of PHASE"
END_FORM = "end used PHASE"


class Reply(NamedTuple):
    """A reply's kind, a name of `REPLY_FORMS`, and what stands in its form's slots."""

    kind: str
    values: tuple = ()

    def text(self) -> str:
        return written(REPLY_FORMS[self.kind], self.values)


class Told(NamedTuple):
    """An entry that answers a command."""

    command: Command
    reply: Reply

    def line(self) -> str:
        return f"{self.command.line()} = {self.reply.text()}"


class Did(NamedTuple):
    """An entry of another kind, a name of `SEAT_FORMS` or `COLLECTOR_FORMS`."""

    party: int | str
    kind: str
    values: tuple

    def line(self) -> str:
        form = COLLECTOR_FORMS[self.kind] if self.party == COLLECTOR else SEAT_FORMS[self.kind]
        return f"{self.party} {written(form, self.values)}"


class Space(NamedTuple):
    """The space line."""

    used: int
    fragments: int
    spine_used: int
    spine: int

    def line(self) -> str:
        return written(SPACE_FORM, self)


class End(NamedTuple):
    """The end line."""

    used: int

    def line(self) -> str:
        return written(END_FORM, self)


Entry = Told | Did


class History(NamedTuple):
    """A history; the body's first line has the number 3."""

    played: bool
    heap: Heap
    body: list[Entry | Space | End]
    version: int = 1

    def entries(self) -> list[Entry]:
        return [line for line in self.body if isinstance(line, (Told, Did))]

    def lines(self) -> list[str]:
        first = f"history {self.version} {'play' if self.played else 'run'}"
        return [first, self.heap.line(self.version), *(line.line() for line in self.body)]


def written(form: str, values: tuple) -> str:
    """The form with these values in its slots."""
    left = iter(values)
    return " ".join(str(next(left)) if word.isupper() else word for word in form.split(" "))
