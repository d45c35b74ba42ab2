#!/usr/bin/env python3
"""Sees that few bytes don't ask for much memory: feeds of many tips, whose views have few rows in common.

    python3 tests/memory.py

335 blocks on genesis, six that take in 64 of these each, and tips on these six ask for a view of some 58,000 pairs for
each tip, which takes 7.5 MB: 60 tips would take 450 MB. So would kin of that shape, in which tips leave some of the six
out, have one more block of their own, or are gone on from in turns. Each is answered within 256 MB. Where the environment
names a program as SPECTRE it takes the place of the one that `bin/spectre` builds."""

from __future__ import annotations

import pathlib
import resource
import sys
import tempfile

from harness import DONE, PROGRAM, call, feed_of, run_all, see

MEGABYTE = 1 << 20
MOST = 256 * MEGABYTE
TIPS = 60

Graph = list[list[int]]


def bases_and_middles(bases: int) -> tuple[Graph, list[int]]:
    """So many blocks on genesis, one on each 64 of them, and the numbers of the latter."""
    graph: Graph = [[], *([0] for _ in range(bases))]
    graph += [list(range(first, min(first + 64, bases + 1))) for first in range(1, bases + 1, 64)]
    return graph, list(range(bases + 1, len(graph)))


def gathered() -> Graph:
    """Tips that have one past."""
    graph, middles = bases_and_middles(335)
    return graph + [list(middles) for _ in range(TIPS)]


def with_own() -> Graph:
    """Tips each of which has a block more in its past, that no other one has."""
    graph, middles = bases_and_middles(335)
    for _ in range(TIPS):
        graph.append([0])
        graph.append([*middles, len(graph) - 1])
    return graph


def leaving_out() -> Graph:
    """Tips that leave out one or two of the six, each two of these as often as others."""
    graph, middles = bases_and_middles(335)
    pairs = [(one, other) for one in middles for other in middles if one <= other]
    for number in range(TIPS):
        graph.append([middle for middle in middles if middle not in pairs[number % len(pairs)]])
    return graph


def in_turns() -> Graph:
    """Tips, and then a block on every second one of them."""
    graph = gathered()
    tips = range(len(graph) - TIPS, len(graph))
    return graph + [[tip] for tip in tips[::2]]


def scenario(graph: Graph, profile: int, children_first: bool) -> bytes:
    """The blocks in order, or the other way round, and behind them what is said of all pairs."""
    word = "make" if children_first else "block"
    lines = [f"profile {profile}"]
    for block, parents in enumerate(graph[1:], 1):
        lines.append(f"{word} b{block} on {' '.join(f'b{parent}' if parent else 'G' for parent in parents)}")
    if children_first:
        lines += [f"send b{block}" for block in range(len(graph) - 1, 0, -1)]
    return "\n".join([*lines, "pairs", ""]).encode()


def limit_to(size: int) -> None:
    resource.setrlimit(resource.RLIMIT_AS, (size, size))


def try_shape(name: str, graph: Graph, profile: int, children_first: bool = False) -> None:
    """A run within the most that is granted."""
    feed = feed_of(scenario(graph, profile, children_first))
    done = call([PROGRAM, "replay"], feed, preexec_fn=lambda: limit_to(MOST))
    see(f"{name}: ended with {done.returncode}", done.returncode == DONE)
    see(f"{name}: each block is kept", done.stdout.count(b"kept ") == len(graph) - 1)


def try_shapes(_folder: pathlib.Path) -> None:
    try_shape("tips on all of six", gathered(), 2)
    try_shape("tips on all of six, which come first", gathered(), 1, children_first=True)
    try_shape("tips with one more block each", with_own(), 1)
    try_shape("tips that leave some out", leaving_out(), 1)
    try_shape("tips gone on from", in_turns(), 1)


def main() -> int:
    with tempfile.TemporaryDirectory() as folder:
        return run_all([try_shapes], pathlib.Path(folder))


if __name__ == "__main__":
    sys.exit(main())
