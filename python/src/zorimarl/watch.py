"""What each block of a feed changes for some transactions, locks and pairs of blocks: `spectre watch`.

    for change in watch(feed, [TxItem(payment), LockItem(lock_of(b"bob"))]):
        match change:
            case TxChange(tx=tx, after=after): ...

A change says behind which block it came: `block` is the place among the feed's blocks, counted from 1, and `line`
the program's line. Behind the feed's end comes a `Held` for each item: since which block its value stands, and how
many changed it. `Watch` is the form for blocks that come one by one.
"""

from __future__ import annotations

import re
from typing import Dict, Iterable, Iterator, List, NamedTuple, Optional, Sequence, Tuple, Union

from .answers import Answered, cut, read_arrival, vote
from .blocks import bytes_of, id_of, sha256
from .errors import NoRequest
from .feeds import BLOCK, Head, frame, head, read_feed
from .ledger import Ledger
from .program import Path, ready
from .proofs import feed_of
from .talk import TIMEOUT, Talk


class TxItem(NamedTuple):
    """A transaction to watch."""

    tx: bytes


class LockItem(NamedTuple):
    """A lock whose balance is watched."""

    lock: bytes


class PairItem(NamedTuple):
    """Two blocks whose order is watched."""

    x: bytes
    y: bytes


Item = Union[TxItem, LockItem, PairItem]


class TxChange(NamedTuple):
    """A transaction's state changed: `accepted`, `rejected` or `absent`."""

    block: int
    tx: bytes
    before: str
    after: str
    line: str


class BalanceChange(NamedTuple):
    """What is left under a lock changed."""

    block: int
    lock: bytes
    before: int
    after: int
    line: str


class VoteChange(NamedTuple):
    """What is said of two blocks changed: `before`, `after`, `tie`, `same` or `absent`."""

    block: int
    x: bytes
    y: bytes
    before: str
    after: str
    line: str


class Held(NamedTuple):
    """Behind the end: the value of an item stands since the block at this place (0 where none changed it), and
    so many blocks changed it."""

    item: Item
    since: int
    changes: int
    line: str


Change = Union[TxChange, BalanceChange, VoteChange]
ID = "([0-9a-f]{64})"
NUMBER = "(0|[1-9][0-9]{0,19})"
CHANGES = (
    re.compile(f"tx {ID} from (accepted|rejected|absent) to (accepted|rejected|absent)"),
    re.compile(f"balance {ID} from {NUMBER} to {NUMBER}"),
    re.compile(f"vote {ID} {ID} from (before|after|tie|same|absent) to (before|after|tie|same|absent)"),
)
HELD = re.compile(f"held (tx|balance|vote) {ID}(?: {ID})? since {NUMBER} changes {NUMBER}")


def word_of(item: Item) -> str:
    """What stands for an item among the program's words."""
    if isinstance(item, TxItem):
        return f"tx:{id_of(item.tx).hex()}"
    if isinstance(item, LockItem):
        return f"lock:{id_of(item.lock).hex()}"
    if isinstance(item, PairItem):
        return f"pair:{id_of(item.x).hex()},{id_of(item.y).hex()}"
    raise NoRequest(f"an item is a TxItem, a LockItem or a PairItem, and `{item!r:.80}` was given")


def words_of(items: Iterable[Item]) -> List[str]:
    words = list(dict.fromkeys(word_of(each) for each in items))
    if not 1 <= len(words) <= 64:
        raise NoRequest(f"1 to 64 different items are watched, and {len(words)} were given")
    return words


def change_of(block: int, line: str) -> Optional[Change]:
    """A line that tells a change, or None where it is another one."""
    if found := CHANGES[0].fullmatch(line):
        return TxChange(block, bytes.fromhex(found[1]), found[2], found[3], line)
    if found := CHANGES[1].fullmatch(line):
        return BalanceChange(block, bytes.fromhex(found[1]), int(found[2]), int(found[3]), line)
    if found := CHANGES[2].fullmatch(line):
        return VoteChange(block, bytes.fromhex(found[1]), bytes.fromhex(found[2]), found[3], found[4], line)
    return None


def held_of(line: str) -> Optional[Held]:
    found = HELD.fullmatch(line)
    if not found or (found[1] == "vote") != (found[3] is not None):
        return None
    first = bytes.fromhex(found[2])
    items: Dict[str, Item] = {"tx": TxItem(first), "balance": LockItem(first)}
    item = PairItem(first, bytes.fromhex(found[3])) if found[3] else items[found[1]]
    return Held(item, int(found[4]), int(found[5]), line)


class Watch:
    """A run of `spectre watch` to which blocks come one by one.

    It knows no journal: the blocks that it is to know are offered to it, for instance those that `Ledger.blocks`
    lists, genesis left out.
    """

    def __init__(
        self, first: Head, items: Iterable[Item], timeout: Optional[float] = TIMEOUT, program: Optional[Path] = None
    ) -> None:
        words = words_of(items)
        self.genesis_id, self.count, self.held = sha256(first.genesis), 0, list[Held]()
        text = head(first.genesis, first.bits, first.profile)
        self.talk = Talk(["watch", *words], timeout, (), ready(program))
        self.talk.send(text)
        vote(self.talk, self.genesis_id, self.genesis_id)  # the start is over once this is answered

    def _ask(self) -> None:
        """A question whose answer follows all that was told before."""
        self.talk.send(frame(b"V", self.genesis_id * 2))

    def _told(self) -> List[str]:
        """The lines up to the answer to that question."""
        end, lines = f"vote {self.genesis_id.hex()} {self.genesis_id.hex()} same", list[str]()
        while True:
            line = self.talk.line()
            if line == end:
                return lines
            lines.append(line)

    def offer(self, data: bytes, timeout: Optional[float] = None) -> Tuple[Answered, List[Change]]:
        """Sends a block: the answer to it, which is a value also where it is refused, and what it changes."""
        block = cut(bytes_of(data, "a block"))
        self.talk.ask("the watch of block", sha256(block), timeout=timeout)
        self.talk.send(frame(BLOCK, block))
        self._ask()
        self.count += 1
        first, *lines = self._told()
        return read_arrival(self.talk, first, sha256(block)), self._changes(lines)

    def _changes(self, lines: Sequence[str]) -> List[Change]:
        found = []
        for line in lines:
            change = change_of(self.count, line)
            if change is None:
                raise self.talk.unexpected(line, "a block that is watched")
            found.append(change)
        return found

    def close(self) -> List[Held]:
        """Ends the program: since which block the value of each item stands."""
        if not self.talk.is_over:
            lines = self.talk.finish()
            self.held = [found for found in map(held_of, lines) if found]
            if len(self.held) != len(lines):
                raise self.talk.unexpected(" ".join(lines[:1]), "the end of a watch")
        return self.held

    def __enter__(self) -> "Watch":
        return self

    def __exit__(self, kind: object, *_: object) -> None:
        if kind is None:
            self.close()
        else:
            self.talk.kill()


def watch(
    source: Union[bytes, Ledger], items: Iterable[Item], timeout: Optional[float] = TIMEOUT, program: Optional[Path] = None
) -> Iterator[Union[Change, Held]]:
    """The changes that the blocks of a feed, or of an open ledger, make, and behind them what each item holds.
    The feed's questions are left out."""
    first, frames = read_feed(feed_of(source, timeout))
    run = Watch(first, items, timeout, program)
    try:
        for each in frames:
            if each.kind == BLOCK:
                yield from run.offer(each.payload)[1]
        yield from run.close()
    finally:
        run.talk.kill()
