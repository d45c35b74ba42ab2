"""Two nodes tell each other their blocks, over any pair of pipes or by files that are carried by hand.

    with Ledger("payments.journal") as ledger:
        done = exchange(ledger, reader, writer)      # descriptors
    print(done.took, done.sent, done.present)

Each side writes one feed, as docs/FORMATS.md has it: the head of its ledger; for each block that it has, a question
whether that block is present (a frame `V` with its id twice); a frame `R`; the blocks that the other side lacks,
parents first; and the frame `E`. Any node can read such a feed, too. Both write at once, so there is no turn to
wait for. Each block that comes is offered to the node, and stands in the journal before the next one is looked at:
wherever an exchange ends, the next one goes on from there.

Nothing of what comes is believed: see `zorimarl.sync_peer`. A side that ends without an error has each block that
the other one listed, and nothing else besides its own. So where both end so, both keep the same blocks, and their
nodes answer each question alike.
"""

from __future__ import annotations

import heapq
from typing import Dict, Iterable, Iterator, List, NamedTuple, Optional, Sequence, Set, Tuple

from .blocks import MOST_BLOCKS, bytes_of
from .errors import NoAnswer, NoRequest, Refused
from .feeds import BLOCK, END, LONGEST_BLOCK, REPORT, VOTE, frame, head
from .kept import Block
from .ledger import Ledger
from .sync_errors import BadBlock, PeerEnded, PeerFault, PeerSlow
from .sync_link import PIECE, Link
from .sync_peer import Incoming

__all__ = ["LONGEST", "Synced", "carry", "exchange", "parents_first"]

TIMEOUT = 600.0
# The most bytes that one side sends: its head, 511 ids, R, 511 blocks, E.
LONGEST = 9 + (5 + LONGEST_BLOCK) + (MOST_BLOCKS - 1) * (5 + 64 + 5 + LONGEST_BLOCK) + 5 + 5


class Synced(NamedTuple):
    """What came of an exchange: how many blocks were taken and sent, how many are still lacking of those that the
    other side listed, and how many are present and wait by the program's report."""

    took: int
    sent: int
    lacking: int
    present: int
    waiting: int


def parents_first(blocks: Sequence[Block]) -> List[Block]:
    """The same blocks, each behind those of them that are its parents; of those that could come next, the one of the
    least id."""
    by_id = {each.id: each for each in blocks}
    missing = {each.id: sum(parent in by_id for parent in each.parents) for each in blocks}
    above: Dict[bytes, List[bytes]] = {}
    for each in blocks:
        for parent in each.parents:
            above.setdefault(parent, []).append(each.id)
    ready = [each for each, count in missing.items() if count == 0]
    heapq.heapify(ready)
    ordered: List[Block] = []
    while ready:
        ordered.append(by_id[heapq.heappop(ready)])
        for child in above.get(ordered[-1].id, []):
            missing[child] -= 1
            if missing[child] == 0:
                heapq.heappush(ready, child)
    return ordered


class Side:
    """This side of an exchange."""

    def __init__(self, ledger: Ledger, most: int) -> None:
        if not isinstance(most, int) or most < 0:
            raise NoRequest(f"the most blocks that may be taken are a number, and `{most!r:.80}` was given", ledger.file, "the exchange")
        self.ledger = ledger
        self.blocks = [each for each in parents_first(ledger.blocks()) if each.id != ledger.genesis_id]
        self.head = head(ledger.head.genesis, ledger.bits, ledger.profile)
        own = {ledger.genesis_id, *(each.id for each in self.blocks)}
        self.incoming = Incoming(self.head, own, most)
        self.took = self.sent = 0

    def list(self) -> bytes:
        """The first part of what is sent."""
        return self.head + b"".join(frame(VOTE, each.id * 2) for each in self.blocks) + frame(REPORT)

    def rest(self, has: Iterable[bytes]) -> Iterator[bytes]:
        """The other part, frame by frame: what a side lacks that has these."""
        known: Set[bytes] = set(has)
        for each in self.blocks:
            if each.id not in known:
                self.sent += 1
                yield frame(BLOCK, each.data)
        yield END

    def take(self, piece: bytes, timeout: Optional[float] = None) -> None:
        """Bytes of the other side's: each block that is whole with them is offered to the node."""
        while True:
            found = self.incoming.push(piece)
            for block in found:
                self.offer(block, timeout)
            if not found:
                return
            piece = b""

    def offer(self, block: bytes, timeout: Optional[float]) -> None:
        try:
            self.ledger.offer(block, timeout)
        except Refused as why:
            made = BadBlock(f"the block {why.block.hex()} is answered by `{why.answer}`", self.incoming.place)
            made.answer = why.answer
            raise made from None
        self.took += 1

    def done(self) -> Synced:
        report = self.ledger.report()
        return Synced(self.took, self.sent, len(self.incoming.lacking), report.present, report.waiting)


def exchange(ledger: Ledger, reader: int, writer: int, timeout: float = TIMEOUT, most: int = MOST_BLOCKS) -> Synced:
    """Takes from the other side what this one lacks, and sends what it lacks. The two descriptors stay open. `timeout`
    is how many seconds all of it may take, and `most` how many blocks may be taken.

    Errors: those of `zorimarl.sync_errors`, and those of the ledger. What was taken before stands in the journal."""
    side, link = Side(ledger, most), Link(reader, writer, timeout)
    try:
        run(side, link)
        side.incoming.judge_end()
        return side.done()
    except PeerFault as why:
        raise why.at(ledger.file, "the exchange")
    finally:
        link.restore()


def run(side: Side, link: Link) -> None:
    """Both directions at once, until the other side's frame E has come and this one's is written."""
    rest: Optional[Iterator[bytes]] = None
    is_sent = False
    link.send(side.list())
    while not (side.incoming.is_over and is_sent and not link.unsent):
        if link.reads_no_more and side.incoming.is_over:
            raise PeerEnded("the other side reads no more, and not all was sent", side.incoming.place)
        piece = link.pump(not side.incoming.is_over)
        if piece is None:
            side.incoming.end()
        elif piece:
            try:
                side.take(piece, link.left)
            except NoAnswer:
                raise PeerSlow("the time has passed while a block was offered", side.incoming.place) from None
        if rest is None and side.incoming.is_listed:
            rest = side.rest(side.incoming.listed)
        while rest is not None and not is_sent and len(link.unsent) < PIECE:
            data = next(rest, None)
            is_sent = data is None
            link.send(data or b"")
    if link.reads_no_more:
        raise PeerEnded("the other side reads no more, and not all was sent", side.incoming.place)


def carry(ledger: Ledger, given: Optional[bytes] = None, most: int = MOST_BLOCKS) -> Tuple[Synced, bytes]:
    """The exchange by hand, a step of it: takes the blocks of a feed that the other side made, and answers this side's
    feed for it, with what that one lacks by its list; without one, with this side's list alone. After three
    feeds, of the one side, of the other, and of the first again, which the other takes, both have all.

    Errors: those of `zorimarl.sync_errors`, and those of the ledger. What stands in front of a fault was taken."""
    side = Side(ledger, most)
    has: Iterable[bytes] = side.incoming.own
    if given is not None:
        try:
            side.take(bytes_of(given, "what the other side made"))
            side.incoming.end()
        except PeerFault as why:
            raise why.at(ledger.file, "the exchange")
        has = side.incoming.listed
    made = side.list() + b"".join(side.rest(has))
    return side.done(), made
