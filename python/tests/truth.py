"""What the program answers behind the first so many blocks of a feed, for the tests of pages to compare with."""

from __future__ import annotations

import re
from typing import Dict, List, Sequence, Tuple

from samples import ran, replayed
from zorimarl.feeds import END, Cursor, frame, frames_of, head, read_head


class Truth:
    """It is asked for each block by itself."""

    def __init__(self, feed: bytes) -> None:
        cursor = Cursor(feed)
        self.head = read_head(cursor)
        self.sent = [each.payload for each in frames_of(cursor) if each.kind == b"B"]

    @property
    def begin(self) -> bytes:
        return head(self.head.genesis, self.head.bits, self.head.profile)

    def ask(self, arrivals: int, frames: Sequence[bytes]) -> List[str]:
        """The lines that answer these frames behind so many blocks."""
        blocks = b"".join(frame(b"B", each) for each in self.sent[:arrivals])
        return replayed(self.begin + blocks + b"".join(frames) + END)[arrivals:]

    def words(self, arrivals: int, x: str, ids: Sequence[str]) -> List[str]:
        asked = [frame(b"V", bytes.fromhex(x + each)) for each in ids]
        return [line.split(" ")[3] for line in self.ask(arrivals, asked)]

    def states(self, arrivals: int, ids: Sequence[str]) -> List[str]:
        return [line.split(" ")[2] for line in self.ask(arrivals, [frame(b"T", bytes.fromhex(each)) for each in ids])]

    def balances(self, arrivals: int, locks: Sequence[str]) -> List[str]:
        return [line.split(" ")[2] for line in self.ask(arrivals, [frame(b"U", bytes.fromhex(each)) for each in locks])]

    def counts(self, arrivals: int) -> List[str]:
        told = [line.split(" ") for line in self.ask(arrivals, [frame(b"R")]) if re.match("blocks|accepted|balances", line)]
        return [told[0][1], told[0][3], told[1][1], told[2][1]]

    def lines(self) -> List[str]:
        return replayed(self.begin + b"".join(frame(b"B", each) for each in self.sent) + END)

    def at_stops(self, asked: Dict[int, Sequence[bytes]]) -> Dict[int, Tuple[List[str], List[str]]]:
        """Behind so many blocks each, the words that answer these questions on two blocks, and the counts: by one
        run, since a run on many blocks takes long."""
        text, before = self.begin, 0
        for arrivals in sorted(asked):
            text += b"".join(frame(b"B", each) for each in self.sent[before:arrivals]) + b"".join(asked[arrivals]) + frame(b"R")
            before = arrivals
        lines, before, found = iter(ran("replay", given=text + END).decode().splitlines()), 0, {}
        for arrivals in sorted(asked):
            for _ in range(before, arrivals):
                next(lines)
            words = [next(lines).split(" ")[3] for _ in asked[arrivals]]
            counted = next(lines).split(" ")
            counts = [counted[1], counted[3]]
            for _ in ("accepted", "balances"):
                counts.append(next(lines).split(" ")[1])
                for _ in range(int(counts[-1])):
                    next(lines)
            before, found[arrivals] = arrivals, (words, counts)
        return found
