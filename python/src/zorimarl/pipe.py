"""Blocks on their way to the program: those that were sent and aren't answered yet. So a ledger can be asked in
the midst of `offer_all`, and what wasn't answered can be sent again."""

from __future__ import annotations

import collections
import time
from typing import Deque, Iterable, Iterator, List, NamedTuple, Optional

from .answers import OFFER, Answered, cut, read_arrival
from .blocks import bytes_of, sha256
from .errors import Refused
from .feeds import BLOCK, frame
from .kept import Kept
from .talk import Talk

# How much is on its way at a time: blocks, and their bytes.
MOST_BLOCKS, MOST_BYTES = 4_096, 1 << 20
# What is worth a call of the system.
WORTH_WRITING = 1 << 15
# Seconds after which a source of blocks is one that waits for them: then answers come before more is taken.
SLOW = 0.01


class Sent(NamedTuple):
    """A block that was sent, and where its answer goes."""

    id: bytes
    data: bytes
    answers: Deque[Answered]


class Source:
    """Blocks that are taken one after another."""

    def __init__(self, blocks: Iterable[bytes]) -> None:
        self.blocks = iter(blocks)
        self.is_over = self.is_slow = False

    def take(self) -> Optional[bytes]:
        begun = time.monotonic()
        data = next(self.blocks, None)
        self.is_slow = time.monotonic() - begun > SLOW
        self.is_over = data is None
        return data


class Pipe:
    """The blocks of one run of the program. `kept` has those that the program keeps, once it was asked for."""

    def __init__(self, talk: Talk) -> None:
        self.talk = talk
        self.kept: Optional[Kept] = None
        self.sent: Deque[Sent] = collections.deque()
        self.size = 0  # bytes of these
        self.tried = 0  # bytes that couldn't be written yet when that was tried last

    def send(self, data: bytes, answers: Deque[Answered]) -> None:
        block = cut(bytes_of(data, "a block"))
        self.talk.send(frame(BLOCK, block))
        self.sent.append(Sent(sha256(block), block, answers))
        self.size += len(block)
        waiting = len(self.talk.unsent)
        self.tried = min(self.tried, waiting)
        if waiting - self.tried > WORTH_WRITING:
            self.talk.flow()
            self.tried = len(self.talk.unsent)

    def answer(self, timeout: Optional[float] = None) -> None:
        """Takes the answer to the first block that isn't answered."""
        sent, talk = self.sent[0], self.talk
        if talk.lines:  # there already, and what is asked of the clock takes longer than to take it
            talk.asked = OFFER, (sent.id,)
        else:
            talk.ask(OFFER, sent.id, timeout=timeout)
        found = read_arrival(talk, talk.line(), sent.id)
        self.sent.popleft()
        self.size -= len(sent.data)
        if self.kept is not None and not isinstance(found, Refused) and found.standing != "known":
            self.kept.add(sent.data)
        sent.answers.append(found)

    def settle(self) -> None:
        """Takes the answers of all blocks that are on their way."""
        while self.sent:
            self.answer()

    def one(self, data: bytes, timeout: Optional[float]) -> Answered:
        """Sends a block, and hands on its answer."""
        self.settle()
        answers: Deque[Answered] = collections.deque()
        self.send(data, answers)
        self.answer(timeout)
        return answers.popleft()

    def all(self, blocks: Iterable[bytes], timeout: Optional[float]) -> Iterator[Answered]:
        """Sends blocks as long as there is room, and hands on their answers in their order."""
        answers: Deque[Answered] = collections.deque()
        source, count = Source(blocks), 0
        while not source.is_over:
            while len(self.sent) < MOST_BLOCKS and self.size < MOST_BYTES:
                data = source.take()
                if data is None:
                    break
                self.send(data, answers)
                count += 1
                if source.is_slow:
                    break
            left = 0 if source.is_slow or source.is_over else count // 2
            while count > left:
                while not answers:
                    self.answer(timeout)
                yield answers.popleft()
                count -= 1

    def unanswered(self) -> List[bytes]:
        return [each.data for each in self.sent]
