"""Asks the program after each arrival of a subject what is said then, and keeps what has changed.

Behind an arrival the program is asked for a report and for all pairs, then for the state of each transaction
that is new or has turned by the report, and for the balance of each lock that is new or has left it. Each
word, state and balance that is kept here stands in a line of the program. Where so many questions would be
too long, they stand behind every second arrival, every third, and so on: such a moment is a stop.
"""

from typing import Dict, List, NamedTuple, Optional, Set, Tuple

from .. import answers
from ..answers import pair_lines
from ..feeds import NotThisForm, ReadBlock, ReadTx, frame, head, read_block, sha256
from ..errors import Misfit, Refused
from ..talk import Talk
from .pairs import Pairs
from .subject import Subject

MOST_LINES = 5_000_000  # of answers to all questions, where no other number is named
REPORTED = 4  # as so many lines of pairs counts what a report may have to say of a transaction or an output
MOST_STOPS = 600
MOST_UNKEPT = 2_000  # arrivals that are listed though nothing was kept


class Arrived(NamedTuple):
    """A block that was sent: the program's line, the kept block's number or None, and the numbers of those
    that became present with it."""

    line: str
    size: int
    block: Optional[int]
    present: List[int]


class Stop(NamedTuple):
    """What is said behind so many arrivals, as far as it has changed since the stop before."""

    arrivals: int
    present: int
    waiting: int
    accepted: int
    left: int  # under how many locks anything is left
    words: str
    states: Dict[str, List[int]]
    balances: List[Tuple[int, int]]


class Kept(NamedTuple):
    block: ReadBlock
    size: int


class Watch:
    """A run of the program over the blocks of a subject, and all that was heard."""

    def __init__(self, subject: Subject, most_lines: int = MOST_LINES) -> None:
        assert subject.head
        self.subject, self.most_lines = subject, most_lines
        self.arrivals: List[Arrived] = []
        self.stops: List[Stop] = []
        self.unlisted: Dict[str, int] = {}  # arrivals beyond those that are listed, by the first word
        genesis = read_block(subject.head.genesis)
        self.kept: List[Kept] = [Kept(genesis, len(subject.head.genesis))]
        self.numbers = {genesis.id: 0}  # of kept blocks, in their order
        self.ranks: List[int] = []  # numbers of kept blocks, in the order of presence
        self.waiting: List[int] = []
        self.txs: Dict[bytes, Tuple[int, ReadTx]] = {}
        self.carriers: List[List[int]] = []
        self.locks: Dict[bytes, int] = {}
        self.pairs = Pairs()
        self.accepted: Set[bytes] = set()
        self.left: Dict[bytes, int] = {}  # the balances that aren't 0
        self.new_txs: List[bytes] = []
        self.new_locks: List[bytes] = []

    def run(self) -> "Watch":
        head_of = self.subject.head
        assert head_of
        talk = Talk(["replay"])
        talk.send(head(head_of.genesis, head_of.bits, head_of.profile))
        answers.vote(talk, self.kept[0].block.id, self.kept[0].block.id)
        self.become_present([0])
        self.stop(talk, 0)
        every, only_kept = self.plan()
        for number, data in enumerate(self.subject.arrivals, start=1):
            arrived = self.arrive(talk, data, number)
            is_last = number == len(self.subject.arrivals)
            if is_last or arrived and (arrived.block is not None or not only_kept) and len(self.arrivals) % every == 0:
                self.stop(talk, len(self.arrivals))
        talk.finish()
        return self

    def plan(self) -> Tuple[int, bool]:
        """Behind every how many arrivals a stop stands, and whether only behind those of kept blocks."""
        sizes: List[int] = []
        seen, txs, outputs = {self.kept[0].block.id}, 0, 0
        for data in self.subject.arrivals:
            if len(seen) < 512 and sha256(data) not in seen:
                seen.add(sha256(data))
                count, coins = counts_in(data)
                txs, outputs = txs + count, outputs + coins
            if len(sizes) < 511 + MOST_UNKEPT:
                sizes.append(len(seen) * (len(seen) - 1) // 2 + REPORTED * (txs + outputs))
        every, stops = 1, len(sizes)
        while sum(sizes[::every]) > self.most_lines and every < len(sizes):
            every += 1
        return every, stops > MOST_STOPS

    # One arrival

    def arrive(self, talk: Talk, data: bytes, number: int) -> Optional[Arrived]:
        try:
            found = answers.offer(talk, data)
            line, is_kept, became = found.line, found.standing != "known", found.became
        except Refused as why:
            line, is_kept, became = why.answer, False, 0
        told = self.subject.lines
        if told is not None and (number > len(told) or told[number - 1] != line.encode()):
            raise Misfit(f"block {number} of the feed: `{line}` is the answer to it, and another one was before")
        if not is_kept and len(self.arrivals) - len(self.kept) >= MOST_UNKEPT:
            kind = line.split(" ")[0]
            self.unlisted[kind] = self.unlisted.get(kind, 0) + 1
            return None
        block, present = None, []
        if is_kept:
            block = self.keep(data)
            present = self.presence(talk, block, became)
        self.arrivals.append(Arrived(line, len(data), block, present))
        return self.arrivals[-1]

    def keep(self, data: bytes) -> int:
        number = len(self.kept)
        try:
            self.kept.append(Kept(read_block(data), len(data)))
        except NotThisForm as why:
            raise Misfit(f"a kept block can't be read: {why}") from None
        self.numbers[self.kept[-1].block.id] = number
        return number

    def presence(self, talk: Talk, block: int, became: int) -> List[int]:
        """Which blocks became present with this one: those on which the program says `same`."""
        self.waiting.append(block)
        if not became:
            return []
        asked = [self.kept[number].block.id for number in self.waiting]
        talk.send(b"".join(frame(b"V", each + each) for each in asked))
        words = [answers.read_vote(talk, talk.line(), each, each).word for each in asked]
        there = [number for number, word in zip(self.waiting, words) if word == "same"]
        if len(there) != became:
            raise Misfit(f"{len(there)} blocks are present anew, and {became} became so")
        self.waiting = [number for number in self.waiting if number not in there]
        there = self.parents_first(there)
        self.become_present(there)
        return there

    def parents_first(self, numbers: List[int]) -> List[int]:
        """The same with parents before children, else in the order in which they were kept."""
        done: List[int] = []
        left = list(numbers)
        while left:
            free = [n for n in left if not any(self.numbers.get(p) in left for p in self.kept[n].block.parents)]
            if not free:
                raise Misfit("blocks stand on one another in a circle")
            done += free
            left = [n for n in left if n not in free]
        return done

    def become_present(self, numbers: List[int]) -> None:
        for number in numbers:
            block = self.kept[number].block
            self.pairs.add(block.id, len(self.ranks))
            self.ranks.append(number)
            for tx in block.txs:
                self.see(tx)

    def see(self, tx: ReadTx) -> None:
        if tx.id not in self.txs:
            self.txs[tx.id] = len(self.txs), tx
            self.new_txs.append(tx.id)
        for output in tx.outputs:
            if output.lock not in self.locks:
                self.locks[output.lock] = len(self.locks)
                self.new_locks.append(output.lock)

    # One stop

    def stop(self, talk: Talk, arrivals: int) -> None:
        report = answers.report(talk)
        if (report.present, report.waiting) != (len(self.ranks), len(self.waiting)):
            raise Misfit(f"{report.present} blocks are present and {report.waiting} wait by the report")
        words = self.pairs.hear(pair_lines(talk))
        states = self.hear_states(talk, set(report.accepted))
        balances = self.hear_balances(talk, report.balances)
        counted = (report.present, report.waiting, len(report.accepted), len(report.balances))
        self.stops.append(Stop(arrivals, *counted, words, states, balances))

    def hear_states(self, talk: Talk, accepted: Set[bytes]) -> Dict[str, List[int]]:
        asked = self.new_txs + sorted((accepted ^ self.accepted) - set(self.new_txs))
        self.new_txs, self.accepted = [], accepted
        changed: Dict[str, List[int]] = {}
        for found in answers.tx_states(talk, asked):
            if found.tx not in self.txs or (found.state == "accepted") != (found.tx in accepted):
                raise Misfit(f"`{found.line}` doesn't fit the report")
            changed.setdefault(found.state, []).append(self.txs[found.tx][0])
        return changed

    def hear_balances(self, talk: Talk, left: Dict[bytes, int]) -> List[Tuple[int, int]]:
        changed = dict(left.items() - self.left.items())
        asked = [lock for lock in self.new_locks if lock not in left] + sorted(self.left.keys() - left.keys())
        self.new_locks, self.left = [], left
        for each in answers.balances(talk, asked):
            if each.amount:
                raise Misfit(f"`{each.line}` doesn't fit the report")
            changed[each.lock] = each.amount
        if not changed.keys() <= self.locks.keys():
            raise Misfit("the report has a lock that no output has")
        return sorted((self.locks[lock], amount) for lock, amount in changed.items())


def counts_in(data: bytes) -> Tuple[int, int]:
    """How many transactions and outputs the bytes of a block have, if they are one."""
    try:
        block = read_block(data)
    except NotThisForm:
        return 0, 0
    return len(block.txs), sum(len(tx.outputs) for tx in block.txs)
