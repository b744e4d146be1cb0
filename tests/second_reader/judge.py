"""`check`: a history is legal, or this is its first line that isn't."""

from .account import Account, Sums
from .entries import Did, End, History, Space, Told
from .graph import Graph
from .history import read_history
from .script import COLLECTOR
from .texts import LONGEST_HISTORY, Answer, NotLegal, Refused, done, not_legal, refused, too_long


class Judge:
    """Takes the lines of a history's body in their order."""

    def __init__(self, history: History):
        self.played = history.played
        self.graph = Graph(history.heap)
        self.account = Account(history.heap, self.graph)
        self.sums = self.account.sums if history.played else Sums(history.heap)

    def accepts(self, line: Told | Did | Space | End) -> bool:
        if isinstance(line, Space):
            return self.account.space(line)
        if isinstance(line, End):
            return self.sums.shows(line.used)
        if not self.right_for_objects(line):
            return False
        if self.played:
            return self.account.keeps(line)
        self.sums.add(line)
        return True

    def right_for_objects(self, entry: Told | Did) -> bool:
        party = entry.command.party if isinstance(entry, Told) else entry.party
        if party == COLLECTOR:
            return True
        if self.graph.has_left[party]:
            return False
        return isinstance(entry, Did) or self.graph.accepts(entry.command, entry.reply)


def judged(history: History) -> int:
    """The number of a legal history's entries."""
    judge = Judge(history)
    for position, line in enumerate(history.body, 3):
        if not judge.accepts(line):
            raise NotLegal(position)
    return len(history.entries())


def check(text: bytes) -> Answer:
    """What `check` answers to this input."""
    if len(text) > LONGEST_HISTORY:
        return too_long()
    try:
        return done(b"legal %d\n" % judged(read_history(text)))
    except Refused as fault:
        return refused(fault)
    except NotLegal as fault:
        return not_legal(fault)
