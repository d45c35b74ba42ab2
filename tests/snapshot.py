#!/usr/bin/env python3
"""Copies the journal of a node at work, a thousand times, by `bin/spectre snapshot`.

    python3 tests/snapshot.py [COPIES]

Two callers at a time copy the journals of nodes that get one block after another, with payments, as fast as they
take them. Each copy is shown: it is a journal, its records are the first ones of the node's, byte for byte, and every
block whose line the node had written when the copy began is among them. After forty seconds no more copies are begun,
and it says how many lack. Where the environment names a program as SPECTRE it takes the place of the one that
`bin/spectre` builds."""

from __future__ import annotations

import concurrent.futures
import pathlib
import subprocess
import sys
import tempfile
import threading
import time

from harness import DONE, PROGRAM, call, feed_of, make_tree, run_all, see

COPIES = int(sys.argv[1]) if len(sys.argv) > 1 else 1000
CALLERS = 2
# So many blocks come to each node, each with so many payments: a journal is longer than what is read at once.
BLOCKS, PAYMENTS = 150, 4
SECONDS = 40


def payments() -> bytes:
    """A scenario of blocks, each on the one before, in which coins go from hand to hand."""
    lines = [f"grant c{coin}-0 100 to w{coin}" for coin in range(PAYMENTS)]
    last = "G"
    for block in range(1, BLOCKS + 1):
        lines += [f"tx c{coin}-{block} spends c{coin}-{block - 1}.0 pays 100 to w{coin}-{block}" for coin in range(PAYMENTS)]
        lines.append(f"block b{block} on {last} carries " + " ".join(f"c{coin}-{block}" for coin in range(PAYMENTS)))
        last = f"b{block}"
    return "\n".join(lines).encode() + b"\n"


class Node:
    """A node at work, and the count of the lines that it has written."""

    def __init__(self, launcher: pathlib.Path, journal: pathlib.Path, feed: bytes) -> None:
        self.acknowledged = 0
        self.has_begun = threading.Event()
        self.journal = journal
        self._process = subprocess.Popen([launcher, "node", journal], stdin=subprocess.PIPE, stdout=subprocess.PIPE)
        self._threads = [threading.Thread(target=self._feed, args=(feed,)), threading.Thread(target=self._count)]
        for thread in self._threads:
            thread.start()

    def _feed(self, feed: bytes) -> None:
        assert self._process.stdin
        self._process.stdin.write(feed)
        self._process.stdin.close()

    def _count(self) -> None:
        assert self._process.stdout
        for line in self._process.stdout:
            self.acknowledged += line.startswith(b"kept ")
            self.has_begun.set()

    def is_at_work(self) -> bool:
        return self._process.poll() is None

    def end(self) -> int:
        for thread in self._threads:
            thread.join()
        return self._process.wait(60)


def end_of_records(journal: bytes) -> int:
    """Where the closed gate stands behind a journal's records."""
    at = 10 + 4 + int.from_bytes(journal[10:14], "little")
    while journal[at] == 0xA5:
        at += 5 + int.from_bytes(journal[at + 1:at + 5], "little")
    return at


def copy_while(launcher: pathlib.Path, node: Node, folder: pathlib.Path, name: str, most: int, until: float) -> list[tuple[pathlib.Path, int]]:
    """At most so many copies as long as the node works: each copy, and how many blocks had been acknowledged when it began."""
    found: list[tuple[pathlib.Path, int]] = []
    node.has_begun.wait(30)
    while node.is_at_work() and len(found) < most and time.monotonic() < until:
        before, copy = node.acknowledged, folder / f"{name}.{len(found)}"
        done = call([launcher, "snapshot", node.journal, copy])
        if done.returncode != DONE:
            see(f"a copy: {done.returncode} {done.stderr!r}", False)
            break
        found.append((copy, before))
    return found


def look_at(copy: pathlib.Path, before: int, whole: bytes, records: list[int]) -> int:
    """Shows a copy, and answers how many records it has."""
    shown = call([PROGRAM, "show", copy])
    first = shown.stdout.split(b"\n", 1)[0].split()
    see(f"{copy.name} is shown: {shown.returncode} {shown.stdout[:40]!r}", shown.returncode == DONE and first[0] == b"recovered")
    held = int(first[1]) if len(first) == 2 else -1
    see(f"{copy.name} holds {held}, and {before} were acknowledged", before <= held < len(records))
    bytes_held = copy.read_bytes()
    end = records[held]
    see(f"{copy.name} holds the first records", bytes_held[:end] == whole[:end] and end_of_records(bytes_held) == end)
    return held


def try_copies(folder: pathlib.Path) -> None:
    """Nodes one after another, until there are enough copies."""
    launcher = make_tree(folder / "tree")
    feed = feed_of(payments())
    made, run, began = 0, 0, time.monotonic()
    held: set[int] = set()
    while made < COPIES and time.monotonic() < began + SECONDS:
        run += 1
        place = folder / str(run)
        place.mkdir()
        node = Node(launcher, place / "journal", feed)
        with concurrent.futures.ThreadPoolExecutor(CALLERS) as pool:
            most = (COPIES - made + CALLERS - 1) // CALLERS
            callers = [pool.submit(copy_while, launcher, node, place, f"copy{number}", most, began + SECONDS) for number in range(CALLERS)]
            copies = [each for caller in callers for each in caller.result()]
        see(f"the node ended: {node.end()}", node.end() == DONE)
        whole = (place / "journal").read_bytes()
        records = [10 + 4 + int.from_bytes(whole[10:14], "little")]
        while whole[records[-1]] == 0xA5:
            records.append(records[-1] + 5 + int.from_bytes(whole[records[-1] + 1:records[-1] + 5], "little"))
        see("the node kept what it acknowledged", len(records) - 1 == node.acknowledged)
        see("nothing else is left", len(list(place.iterdir())) == len(copies) + 1)
        with concurrent.futures.ThreadPoolExecutor(CALLERS) as pool:
            looks = [pool.submit(look_at, copy, before, whole, records) for copy, before in copies]
            held |= {look.result() for look in looks}
        made += len(copies)
        if not copies:
            see("copies were made while the node worked", False)
            break
    if made < COPIES:
        print(f"not run: {COPIES - made} of {COPIES} copies, since {SECONDS} s were over")
    print(f"{made} copies of {run} nodes' journals, with {len(held)} different counts of records")


def main() -> int:
    with tempfile.TemporaryDirectory() as folder:
        return run_all([try_copies], pathlib.Path(folder))


if __name__ == "__main__":
    sys.exit(main())
