#!/usr/bin/env python3
"""Times the program on drills and feeds of hundreds of blocks.

    python3 examples/speed.py [--instructions] [WORD]
    python3 examples/speed.py --draw N

Each run is made five times, and one that takes longer than five seconds twice. What is printed is the
least time of a processor in which the program and the system for it were at work, and the most memory;
less than about 10 MB of memory isn't seen. With `--instructions` the program's instructions are counted,
too, by valgrind, which takes some fifty times as long. With a WORD only those runs are made whose name has
it, as `votes`, `payments` or `spends`. With `--draw` graphs of many tips are drawn by the seeds from 1 to N
(`drawn_tips` in timing/graphs.py) and run once each, and those are named that took most memory and most time.

Each answer to a feed is checked (timing/answers.py): that each block is kept and present, and of payments,
which are accepted, by what is worked out by hand in timing/feeds.py, and what is left under each lock. The
feeds: timing/feeds.py has the payments, timing/graphs.py the graphs. Behind the runs stands what payments
cost, which is the difference between the same graph with and without them, and with which exponent it
grows where the blocks are twice as many.

The program is the one that bin/spectre has built, and not that script, which looks at the sources first.
This can be run from anywhere; SPECTRE names another program.
"""

from __future__ import annotations

import argparse
import math
import os
import pathlib
import sys
from functools import partial
from typing import Callable, Dict, List, Optional, Sequence, Tuple

sys.dont_write_bytecode = True

import package  # noqa: F401
from timing import feeds, graphs
from timing.answers import Misfit, check
from timing.feeds import Feed
from timing.graphs import Graph
from timing.runs import instructions, run

TOP = pathlib.Path(__file__).resolve().parent.parent
SPECTRE = os.environ.get("SPECTRE") or str(TOP / "crates/spectre/out/spectre")
LONG = 5  # seconds
COUNTS = (125, 250, 500)
# A name, the words of a run, and what makes its feed, where it has one.
Build = Callable[[], Feed]
Job = Tuple[str, List[str], Optional[Build]]


def drill(*numbers: int) -> Job:
    return f"votes: drill {' '.join(map(str, numbers))}", ["drill", *map(str, numbers)], None


def votes(name: str, graph: Graph) -> Job:
    return f"votes: {name}", ["replay"], lambda: feeds.unpaid(graph)


def payments(name: str, build: Build) -> Job:
    return f"payments: {name}", ["replay"], build


def paid_and_unpaid(name: str, graph: Graph, paid: Build) -> List[Job]:
    """The same graph with payments and without."""
    return [payments(name, paid), payments(f"{name}, without them", lambda: feeds.unpaid(graph))]


def step(count: int) -> str:
    return f"{count} blocks in step"


def own(block: int) -> int:
    """A payee for each block."""
    return block


def half(count: int) -> Callable[[int], int]:
    """One payee for the first so many blocks, and another for those behind."""
    return lambda block: int(block > count)


RUNS: List[Job] = [
    drill(128, 1, 4),
    drill(300, 7, 4),
    drill(511, 1, 4),
    drill(511, 1, 16),
    votes("511 blocks on genesis", graphs.star(511)),
    votes("two chains of 255 and 256", graphs.two_chains(511)),
    votes("two chains of 255 and 256 in turns", graphs.in_turns(511)),
    votes("341 blocks on genesis, 170 on 64 of them each", graphs.crowd(511)),
    votes("335 blocks on genesis, six on 64 of them each, 170 on all six", graphs.gathered(335, 170)),
    votes("layers of 64, each on all of the one below", graphs.layers(511)),
    votes("511 blocks, each on the four that stand 19 to 16 before it", graphs.lagging(511, 19)),
    votes("511 blocks, each on the four that stand 40 to 37 before it", graphs.lagging(511, 40)),
    votes("a chain takes in 255 blocks on genesis", graphs.taken_in(511)),
    ("votes: a chain takes in 255 blocks on genesis, children first", ["replay"], lambda: feeds.taken_in_at_once(511)),
    *(
        each
        for count in COUNTS
        for each in paid_and_unpaid(step(count), graphs.in_step(count), partial(feeds.paid_in_step, count))
    ),
    payments("500 blocks in step, children first", lambda: feeds.children_first(500)),
    *paid_and_unpaid("500 blocks as drawn", graphs.drawn(500, 1, 4), lambda: feeds.paid(graphs.drawn(500, 1, 4))),
    payments("1000 spends that turn 25 times", lambda: feeds.turning(250, 4, 49, True)),
    payments("4000 spends that turn 25 times", lambda: feeds.turning(250, 16, 49, True)),
    payments("the blocks of these spends, without them", lambda: feeds.turning(250, 4, 49, False)),
    *(
        payments(
            f"two chains in turns, {count} blocks with the same 256 spends or their rivals",
            partial(feeds.contested, graphs.in_turns(count), graphs.turn, 256, 1),
        )
        for count in (255, 511)
    ),
    *(
        payments(
            f"{count} blocks in a chain, and {count} on genesis with the rivals of their 102 payments of 16 coins",
            partial(feeds.contested, graphs.chain_and_star(2 * count), half(count), 102, 16),
        )
        for count in (128, 255)
    ),
    *(
        payments(
            f"{count} blocks at width 128, each with rivals of all others' 256 spends",
            partial(feeds.contested, graphs.broad(count, 128), own, 256, 1),
        )
        for count in (255, 511)
    ),
    payments(
        "two chains in turns, 511 blocks with 102 payments of 16 coins, of three kinds in turns in each chain",
        lambda: feeds.contested(graphs.in_turns(511), graphs.turn_and_third, 102, 16),
    ),
    payments(
        "two chains in turns, 511 blocks, each with rivals of all others' 102 payments of 16 coins",
        lambda: feeds.contested(graphs.in_turns(511), own, 102, 16),
    ),
    payments(
        "two chains in turns, 511 blocks that hand on 256 coins each, with rivals in the first ones",
        lambda: feeds.handed_on(graphs.in_turns(511), graphs.turn, 256),
    ),
]


CERTIFIED = [
    ("511 blocks on genesis", graphs.star(511)),
    ("two chains of 255 and 256 in turns", graphs.in_turns(511)),
    ("511 blocks at width 4", graphs.drawn(511, 1, 4)),
    ("layers of 64, each on all of the one below", graphs.layers(511)),
]


def measured(words: Sequence[str], text: bytes) -> Tuple[float, int, bytes]:
    """The least seconds and the most memory of some runs, and the answers of the last one."""
    runs = [run(words, text)]
    while len(runs) < (2 if runs[0].seconds > LONG else 5):
        runs.append(run(words, text))
    return min(each.seconds for each in runs), max(each.memory for each in runs), runs[-1].answers


def growth(costs: Sequence[float]) -> str:
    """The exponent with which the last cost of these grew, when the blocks were twice as many."""
    return f", exponent {math.log2(costs[-1] / costs[-2]):.2f}" if len(costs) > 1 and min(costs[-2:]) > 0 else ""


def show_differences(results: Dict[str, float], unit: str) -> None:
    """What payments cost, by what each run took."""
    costs: List[float] = []
    for count in COUNTS:
        name = f"payments: {step(count)}"
        if results.keys() >= {name, f"{name}, without them"}:
            costs.append(results[name] - results[f"{name}, without them"])
            print(f"{step(count)}: payments take {costs[-1]:,.3f} {unit}{growth(costs)}")


def first_apart(graph: Graph) -> Tuple[int, int]:
    """The first two blocks of which neither is in the other's past."""
    found = graphs.pasts(graph)
    return next((x, y) for y in range(len(graph)) for x in range(1, y) if not found[y] >> x & 1)


def show_certificates(word: str) -> None:
    """What a certificate of the first pair takes, and its check."""
    for name, graph in CERTIFIED:
        name = f"certificates: {name}"
        if word not in name:
            continue
        feed = feeds.unpaid(graph)
        pair = [feed.ledger.ids[block].hex() for block in first_apart(graph)]
        seconds, memory, certificate = measured([SPECTRE, "certify", *pair], feed.text)
        print(f"{name}: {len(certificate):,} bytes, {seconds:.3f} s, {memory / 1024:.0f} MB", flush=True)
        seconds, memory, shown = measured([SPECTRE, "check"], certificate)
        if not shown.decode().startswith(f"shown {' '.join(pair)} "):
            raise Misfit(f"{name}: {shown.decode()}")
        print(f"{name}, checked: {seconds:.3f} s, {memory / 1024:.0f} MB", flush=True)


def show_drawn(count: int) -> None:
    """Which of the graphs of many tips by so many seeds take most memory, and most time."""
    taken = []
    for seed in range(1, count + 1):
        feed = feeds.unpaid(graphs.drawn_tips(511, seed))
        once = run([SPECTRE, "replay"], feed.text)
        check(feed, once.answers)
        taken.append((once.memory, once.seconds, seed))
    for name, (memory, seconds, seed) in (("memory", max(taken)), ("time", max(taken, key=lambda each: each[1]))):
        print(f"most {name}: seed {seed}, {seconds:.3f} s, {memory / 1024:.0f} MB", flush=True)


def main() -> None:
    parser = argparse.ArgumentParser(description="Times the program on hundreds of blocks.")
    parser.add_argument("--instructions", action="store_true", help="count instructions, too, by valgrind")
    parser.add_argument("--draw", type=int, default=0, help="run graphs of many tips by so many seeds instead")
    parser.add_argument("word", nargs="?", default="", help="make only the runs whose name has this word")
    given = parser.parse_args()
    names = [name for name, *_ in RUNS] + [f"certificates: {name}" for name, _ in CERTIFIED]
    if given.draw < 0 or not any(given.word in name for name in names):
        parser.error(f"no run has `{given.word}` in its name" if given.word else "N is at least 1")
    if not os.access(SPECTRE, os.X_OK):
        parser.error(f"there is no program {SPECTRE}; bin/spectre builds it")
    if given.draw:
        show_drawn(given.draw)
        return
    seconds: Dict[str, float] = {}
    counted: Dict[str, float] = {}
    for name, words, build in RUNS:
        if given.word not in name:
            continue
        feed = build() if build else None
        command, text = [SPECTRE, *words], feed.text if feed else b""
        seconds[name], memory, answers = measured(command, text)
        line = f"{name}: {seconds[name]:.3f} s, {memory / 1024:.0f} MB"
        if given.instructions:
            counted[name] = instructions(command, text) / 1e6
            line += f", {counted[name]:,.1f} million instructions"
        if feed and feed.ledger.txs:
            line += ", {} accepted, {} rejected".format(*check(feed, answers))
        elif feed:
            check(feed, answers)
        print(line, flush=True)
    show_differences(seconds, "s")
    show_differences(counted, "million instructions")
    show_certificates(given.word)


if __name__ == "__main__":
    main()
