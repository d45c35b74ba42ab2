"""Graphs: the numbers of each block's parents, those of genesis, which is block 0, first."""

from __future__ import annotations

from typing import Iterator, List, Sequence

Graph = List[List[int]]


def star(count: int) -> Graph:
    """All on genesis."""
    return [[], *([0] for _ in range(count))]


def two_chains(count: int) -> Graph:
    """Each on the last but one."""
    return [[], *([max(0, block - 2)] for block in range(1, count + 1))]


def crowd(count: int) -> Graph:
    """341 on genesis, and all others on 64 of these each."""
    upper = ([(block * 7 + step * 5) % 341 + 1 for step in range(64)] for block in range(342, count + 1))
    return [[], *([0] for _ in range(341)), *upper]


def gathered(bases: int, tips: int) -> list[list[int]]:
    """So many blocks on genesis, one on each 64 of them, and so many tips on all of the latter."""
    middles = [list(range(first, min(first + 64, bases + 1))) for first in range(1, bases + 1, 64)]
    upper = range(bases + 1, bases + len(middles) + 1)
    return [[], *([0] for _ in range(bases)), *middles, *(list(upper) for _ in range(tips))]


def drawn_tips(count: int, seed: int) -> list[list[int]]:
    """Of the kind of `gathered`, by the numbers of a seed: blocks on genesis, some that take in up to 64 of them
    each, tips on all of the latter or on some, maybe each on one more block of its own, and chains that go on from
    the tips in turns."""
    numbers = draws(seed)

    def pick(low: int, high: int) -> int:
        return low + next(numbers) % (high - low + 1)

    bases, width, own, whole = pick(120, 380), pick(24, 64), pick(0, 1), pick(0, 1)
    graph: Graph = [[], *([0] for _ in range(bases))]
    graph += [[(first + step) % bases + 1 for step in range(width)] for first in range(0, bases, width)]
    middles = list(range(bases + 1, len(graph)))
    tops = []
    for _ in range(pick(12, (count + 1 - len(graph)) // (1 + own))):
        on = middles if whole else [middle for middle in middles if pick(0, 3)] or middles[:1]
        if own:
            graph.append([0])
            on = [*on, len(graph) - 1]
        graph.append(list(on))
        tops.append(len(graph) - 1)
    for turn in range(count + 1 - len(graph)):
        graph.append([tops[turn % len(tops)]])
        tops[turn % len(tops)] = len(graph) - 1
    return graph


def layers(count: int) -> Graph:
    """Layers of 64, each block on all of the layer below."""
    below = (range((block - 1) // 64 * 64 - 63, (block - 1) // 64 * 64 + 1) for block in range(65, count + 1))
    return [[], *([0] for _ in range(64)), *(list(each) for each in below)]


def taken_in(count: int) -> Graph:
    """Half of them on genesis, and a chain that takes them in one by one: its first block is on the first of
    them, and each other one on the next and on the block before."""
    leaves = (count - 1) // 2
    chain = ([leaf, block - 1] if leaf > 1 else [1] for leaf, block in enumerate(range(leaves + 1, 2 * leaves + 1), 1))
    return [[], *([0] for _ in range(leaves)), *chain, *([block - 1] for block in range(2 * leaves + 1, count + 1))]


def in_turns(count: int) -> Graph:
    """Two chains on genesis that take the lead from one another: the first block is of the first chain, two of
    the other, two of the first and so on."""
    graph: Graph = [[]]
    tops = [0, 0]
    for block in range(1, count + 1):
        graph.append([tops[turn(block)]])
        tops[turn(block)] = block
    return graph


def turn(block: int) -> int:
    """Which of the two chains of `in_turns` a block is of."""
    return block // 2 % 2


def turn_and_third(block: int) -> int:
    """The same, and which of three its place in its chain is, where these take turns: a number from 0 to 5."""
    place = block // 4 * 2 + block % 2
    return turn(block) * 3 + place % 3


def chain_and_star(count: int) -> Graph:
    """The first half a chain, and each of the others on genesis."""
    return [[], *([block - 1 if block <= count // 2 else 0] for block in range(1, count + 1))]


def broad(count: int, width: int) -> Graph:
    """Each on the one that stands so many before it."""
    return [[], *([max(0, block - width)] for block in range(1, count + 1))]


def lagging(count: int, far: int) -> Graph:
    """Each on the four that stand so many to three fewer before it, and the first ones on the first four."""
    return [[], *(list(range(max(0, block - far), min(block, max(0, block - far) + 4))) for block in range(1, count + 1))]


def in_step(count: int) -> Graph:
    """Four blocks are under way at any time: each sees all but the three before it, and stands on the tips
    of what it sees. So block n is on n - 7 to n - 4, the first four are on genesis, and n stands side by
    side with n - 3 to n + 3 alone."""
    return [[], *([0] if block <= 4 else list(range(max(1, block - 7), block - 3)) for block in range(1, count + 1))]


def draws(state: int) -> Iterator[int]:
    """What a seed draws, one number after another (docs/FORMATS.md, "Scenarios from numbers")."""
    while True:
        state = (state * 6364136223846793005 + 1442695040888963407) % 2**64
        yield state >> 32


def drawn(count: int, seed: int, width: int) -> Graph:
    """That of `make count seed width`: each on one or two drawn among the last blocks."""
    graph: Graph = [[]]
    numbers = draws(seed)
    for block in range(1, count + 1):
        among = range(max(0, block - width), block)
        picked = {among[next(numbers) % len(among)] for _ in range(2)} if len(among) > 1 else set(among)
        graph.append(sorted(picked))
    return graph


def pasts(graph: Sequence[Sequence[int]]) -> List[int]:
    """The past of each block, as a number with a bit for each block in it."""
    found: List[int] = []
    for parents in graph:
        past = 0
        for parent in parents:
            past |= found[parent] | 1 << parent
        found.append(past)
    return found
