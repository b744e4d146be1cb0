"""Histories that are grown entry by entry, with numbers at the rules' edges; many are none that a play tells."""

from random import Random

from .account import fragments_needed, spine_words_needed
from .drawn import Drawer, draw_heap
from .entries import LEAVE, Did, End, Entry, History, Reply, Space, Told
from .judge import Judge
from .script import COLLECTOR, VERSIONS, Command, Heap

# How often an entry that isn't right is put at the end of what was right so far.
WRONG_ENDS = 0.008


class Grower:
    """Proposes entries from what a judge knows of those before."""

    def __init__(self, random: Random, heap: Heap, played: bool, version: int):
        self.random = random
        self.heap = heap
        self.played = played
        self.version = version
        self.body: list[Entry | Space | End] = []
        self.drawer = Drawer(random, heap, played, version)
        self.haste = random.choice((0, 0.2, 0.4, 0.6))
        self.judge = self.judge_again()

    def judge_again(self) -> Judge:
        """A judge that has taken the body so far."""
        judge = Judge(History(self.played, self.heap, [], self.version))
        for line in self.body:
            judge.accepts(line)
        return judge

    def near(self, number: int) -> int:
        """This number, or now and then one beside it."""
        return max(number + self.random.choice((0, 0, 0, 0, 0, -1, 1)), 0)

    def up_to(self, number: int) -> int:
        """A number from 1 to this one, or one beside them."""
        return self.near(self.random.choice((number, self.random.randint(1, max(number, 1)))))

    def in_use(self) -> int:
        return self.judge.sums.gained - self.judge.sums.lost

    def spine_in_use(self) -> int:
        return self.judge.account.granted - self.judge.account.returned

    # Entries of a seat.

    def seat_entry(self, seat: int) -> Entry:
        account = self.judge.account
        kind = self.random.choice(("takes", "gives", "answers", "answers", "told", "told", "told", "told"))
        if kind == "takes":
            room = self.heap.fragments - self.in_use()
            return Did(seat, "takes", (self.up_to(self.random.choice((room, min(room, 15)))),))
        if kind == "gives":
            return Did(seat, "gives", (self.up_to(account.own[seat]),))
        if kind == "answers":
            return Did(seat, "answers", (self.near(account.phase),))
        return self.told(seat)

    def told(self, seat: int) -> Told:
        names = [name for name in self.drawer.weights if name not in ("turns", "cycle", "polls", "pair")]
        name = LEAVE if self.random.random() < 0.02 else self.random.choice((*names, "new", "array"))
        command = self.drawer.command(seat, name)
        return Told(command, self.reply(seat, command))

    def reply(self, seat: int, command: Command) -> Reply:
        account = self.judge.account
        if command.name == "poll":
            return Reply("phase", (self.near(account.phase),))
        if command.name == "collect":
            return self.cycle_or_wait()
        if command.name in ("new", "array") and self.random.random() < 0.4:
            return self.want_of_space(seat, command)
        # The graph's answer changes it, so one that grew anew is asked.
        return self.judge_again().graph.answer(command)

    def want_of_space(self, seat: int, command: Command) -> Reply:
        if command.name == "array" and self.random.random() < 0.6:
            return Reply("spine", (self.near(spine_words_needed(command)), self.near(self.spine_in_use())))
        found = max(self.heap.fragments - self.in_use() + self.judge.account.own[seat], 0)
        return Reply("full", (self.near(fragments_needed(command)), self.near(found)))

    def cycle_or_wait(self) -> Reply:
        account = self.judge.account
        if self.random.random() < 0.5:
            return Reply("cycle", (self.near(max(account.phase // 7 - 1, 0)),))
        seat = self.random.randrange(min(self.heap.seats + 1, 16))
        answered = account.answered[seat] if seat < self.heap.seats else 0
        return Reply("waits", (seat, self.near(answered), self.near(account.phase)))

    # Entries of the collector.

    def collector_entry(self) -> Entry:
        account = self.judge.account
        kind = self.random.choice(("phase", "phase", "phase", "frees", "returns", "swings", "ends", "told"))
        if kind == "phase":
            return Did(COLLECTOR, "phase", (self.near(account.phase + 1),))
        if kind == "frees":
            return Did(COLLECTOR, "frees", (self.up_to(self.in_use()),))
        if kind == "returns":
            return Did(COLLECTOR, "returns", (self.up_to(self.spine_in_use()),))
        if kind == "swings":
            return Did(COLLECTOR, "swings", (self.random.choice(list(self.judge.graph.objects)),))
        if kind == "ends" or not self.played:
            return self.ends()
        command = self.drawer.command(COLLECTOR, self.random.choice(("turns", "cycle")))
        reply = self.cycle_or_wait()
        return Told(command, Reply("done") if command.name == "turns" and reply.kind == "cycle" else reply)

    def ends(self) -> Did:
        account, graph = self.judge.account, self.judge.graph
        least = graph.fragments(graph.reached() & account.reached_at_begin)
        kept = self.random.choice((least, account.fragment_bound, self.in_use()))
        return Did(COLLECTOR, "ends", (self.near(account.phase // 7), max(self.near(kept), 0)))

    # The whole.

    def add(self, line: Entry | Space | End) -> bool:
        """Puts a line behind the body where it is right there."""
        if not self.judge.accepts(line):
            self.judge = self.judge_again()
            return False
        self.body.append(line)
        return True

    def space(self) -> Space:
        return Space(max(self.near(self.in_use()), 0), self.heap.fragments, max(self.near(self.spine_in_use()), 0),
                     self.heap.spine)

    def progress(self) -> Entry:
        """What brings the cycle under way on."""
        account = self.judge.account
        left = self.judge.graph.has_left
        behind = [seat for seat in range(self.heap.seats)
                  if not left[seat] and account.answered[seat] != account.phase]
        if behind:
            return Did(self.random.choice(behind), "answers", (account.phase,))
        if account.phase % 7 == 6:
            return self.ends()
        return Did(COLLECTOR, "phase", (account.phase + 1,))

    def proposal(self) -> Entry:
        if self.random.random() < self.haste:
            return self.progress()
        if self.random.random() < 0.5:
            return self.seat_entry(self.random.randrange(self.heap.seats))
        return self.collector_entry()

    def grow(self, proposals: int) -> History:
        """Adds what is right of so many proposals, and now and then a last one that isn't."""
        space_position = self.random.randrange(2 * proposals) if self.played else None
        for position in range(proposals):
            line = self.space() if position == space_position else self.proposal()
            if not self.add(line) and (position == space_position or self.random.random() < WRONG_ENDS):
                self.body.append(line)
                break
        if self.played and not any(isinstance(line, Space) for line in self.body):
            self.body.append(self.space())
        self.body.append(End(max(self.near(self.in_use()), 0)))
        return History(self.played, self.heap, self.body, self.version)


def grow_history(random: Random, most: int) -> History:
    version = random.choice(VERSIONS)
    grower = Grower(random, draw_heap(random, version), random.random() < 0.8, version)
    return grower.grow(random.randint(1, most))
