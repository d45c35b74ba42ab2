"""The words of all pairs, as the program wrote them last, and what changes from one time to the next."""

import bisect
import re
from typing import Dict, Iterator, List

from ..errors import LedgerError

LETTERS = {b"before": ord("b"), b"after": ord("a"), b"tie": ord("t")}
TURNED = {b"before": ord("a"), b"after": ord("b"), b"tie": ord("t")}
PREFIX = len("vote  ") + 2 * 64 + 1


class OtherPairs(LedgerError):
    """The program lists other pairs than those of the blocks that are present."""


class Pairs:
    """The program lists the pairs by ids: a row of lines for each block, one for each block of a greater id. Here
    the rows are kept as they were written last, so that a row that hasn't changed is seen by one comparison. The
    pair of the blocks that became present as number i and as number j, i below j, has the place j(j-1)/2 + i."""

    def __init__(self) -> None:
        self.ids: List[bytes] = []  # in hexadecimal digits, ascending
        self.ranks: Dict[bytes, int] = {}
        self.rows: List[List[bytes]] = []
        self.places: List[List[int]] = []  # of each line; ~place where the line names the later block first
        self.words = bytearray()

    def add(self, block_id: bytes, rank: int) -> None:
        """A block that became present, as number `rank`. Nothing has been written of its pairs yet."""
        name = block_id.hex().encode()
        at = bisect.bisect(self.ids, name)
        for row, places, other in zip(self.rows[:at], self.places[:at], range(at)):
            row.insert(at - other - 1, b"vote %s %s ?" % (self.ids[other], name))
            places.insert(at - other - 1, self.place(self.ranks[self.ids[other]], rank))
        self.rows.insert(at, [b"vote %s %s ?" % (name, other) for other in self.ids[at:]])
        self.places.insert(at, [self.place(rank, self.ranks[other]) for other in self.ids[at:]])
        self.ids.insert(at, name)
        self.ranks[name] = rank
        self.words.extend(b"?" * rank)

    @staticmethod
    def place(first: int, second: int) -> int:
        low, high = sorted((first, second))
        place = high * (high - 1) // 2 + low
        return place if first < second else ~place

    def hear(self, lines: List[bytes]) -> str:
        """Takes the lines of all pairs, and answers what has changed, as `changes` writes it."""
        if len(lines) != len(self.words):
            raise OtherPairs(f"the program lists {len(lines)} pairs, and there are {len(self.words)}")
        now, at = bytearray(self.words), 0
        for row, places in zip(self.rows, self.places):
            found = lines[at : at + len(row)]
            at += len(row)
            if found != row:
                self.hear_row(row, places, found, now)
        changed = changes(self.words, now)
        self.words = now
        return changed

    @staticmethod
    def hear_row(row: List[bytes], places: List[int], found: List[bytes], now: bytearray) -> None:
        for number, (old, new) in enumerate(zip(row, found)):
            if old == new:
                continue
            place, word = places[number], new[PREFIX:]
            if old[:PREFIX] != new[:PREFIX] or word not in LETTERS:
                raise OtherPairs(f"the program lists `{new[:200].decode('ascii', 'replace')}` among the pairs")
            now[max(place, ~place)] = (LETTERS if place >= 0 else TURNED)[word]
            row[number] = new


def changes(before: bytearray, now: bytearray) -> str:
    """What has changed between two lists of letters that are equally long: runs of a letter, or of `=` where
    nothing has, each behind its length, where that isn't 1. What is the same at the end is left out."""
    differ = (int.from_bytes(before, "big") ^ int.from_bytes(now, "big")).to_bytes(len(now), "big")
    text, at = [], 0
    for found in re.finditer(rb"[^\0]+", differ):
        text.append(run_of("=", found.start() - at))
        text += runs(now[found.start() : found.end()])
        at = found.end()
    return "".join(text)


def runs(letters: bytearray) -> Iterator[str]:
    for found in re.finditer(rb"(.)\1*", bytes(letters)):
        yield run_of(chr(found[1][0]), found.end() - found.start())


def run_of(letter: str, length: int) -> str:
    return "" if not length else letter if length == 1 else f"{length}{letter}"
