#!/usr/bin/env python3
"""Writes a feed of real blocks to standard output, for the command `replay`:

    python3 examples/feed.py first | bin/spectre replay

The word is the feed's name, `first` where there is none. The formats are those of
docs/FORMATS.md. examples/README.md has the lines that each feed is answered with.
"""

from __future__ import annotations

import itertools
import sys
from typing import List, Sequence, Tuple

sys.dont_write_bytecode = True

import package  # noqa: F401
from zorimarl.feeds import Coin, frame, head, lock_of, meets, sha256, spelled, transaction

BITS = 8  # the first bits of an id that have to be zero


def block(salt: int, *parents: bytes, txs: Sequence[bytes] = (), works: bool = True) -> bytes:
    """A block on these blocks, with the least nonce that meets the work, or that misses it."""
    ids = sorted(sha256(parent) for parent in parents)
    tries = (spelled(salt, nonce, ids, txs) for nonce in itertools.count())
    return next(made for made in tries if meets(sha256(made), BITS) == works)


def pay(sources: Sequence[Tuple[bytes, bytes]], amount: int, owner: bytes) -> bytes:
    """A transaction that spends the first output of each source, given with the word that opens
    it, and has one output, which the owner's word opens."""
    spent = [Coin(sha256(source), 0, amount, word) for source, word in sources]
    return transaction(spent, [(amount, owner)]).text


def send(block: bytes) -> bytes:
    return frame(b"B", block)


def vote(x: bytes, y: bytes) -> bytes:
    return frame(b"V", sha256(x) + sha256(y))


def ask(tx: bytes) -> bytes:
    return frame(b"T", sha256(tx))


def balance(word: bytes) -> bytes:
    return frame(b"U", lock_of(word))


PAIRS = frame(b"P")
REPORT = frame(b"R")

G = spelled(0, 0, [])  # genesis, which isn't judged for work
HEAD = head(G, BITS)
END = frame(b"E")


def first() -> bytes:
    """Two blocks on genesis, a third on the first of them, and the question on the two."""
    a, b = block(1, G), block(2, G)
    c = block(3, a)
    return HEAD + send(a) + send(b) + send(c) + vote(a, b) + END


def waiting() -> bytes:
    """A child that comes before its parent, and then the parent twice."""
    a = block(1, G)
    b = block(2, a)
    return HEAD + send(b) + vote(G, b) + send(a) + send(a) + vote(b, a) + END


def refused() -> bytes:
    """Bytes that are no valid block, and a question on a block that was refused."""
    a, b = block(1, G), block(2, G)
    turned = spelled(3, 0, sorted([sha256(a), sha256(b)], reverse=True))
    lazy = block(4, G, works=False)
    return (
        HEAD
        + send(turned)
        + send(a + b"\x00")
        + send(a[:-1])
        + send(G)
        + send(b"\x00" * 65537)
        + send(lazy)
        + vote(G, lazy)
        + END
    )


def spends() -> bytes:
    """A grant that is spent twice side by side, and a spend of one of these payments. A block on one
    side decides between them, and two on the other side turn it round."""
    grant = pay([], 100, b"alice")
    to_bob = pay([(grant, b"alice")], 100, b"bob")
    to_carol = pay([(grant, b"alice")], 100, b"carol")
    to_dave = pay([(to_bob, b"bob")], 100, b"dave")
    genesis = spelled(0, 0, [], [grant])
    a, b = block(1, genesis, txs=[to_bob]), block(2, genesis, txs=[to_carol])
    c = block(3, a, txs=[to_dave])
    d, e = block(4, b), block(5, b)
    all_of_them = b"".join(map(ask, [grant, to_bob, to_carol, to_dave]))
    return (
        head(genesis, BITS)
        + all_of_them
        + send(a)
        + send(b)
        + all_of_them
        + send(c)
        + all_of_them
        + send(d)
        + send(e)
        + all_of_them
        + END
    )


def balances() -> bytes:
    """A grant that is spent twice side by side, as in `spends`: what is left under each lock, a report
    before and after a third block decides, and all pairs."""
    grant = pay([], 100, b"alice")
    to_bob = pay([(grant, b"alice")], 100, b"bob")
    to_carol = pay([(grant, b"alice")], 100, b"carol")
    genesis = spelled(0, 0, [], [grant])
    a, b = block(1, genesis, txs=[to_bob]), block(2, genesis, txs=[to_carol])
    c, d = block(3, a), block(4, block(5, b))
    all_of_them = b"".join(map(balance, [b"alice", b"bob", b"carol"]))
    return (
        head(genesis, BITS)
        + all_of_them
        + send(a)
        + send(b)
        + all_of_them
        + REPORT
        + send(c)
        + send(d)
        + all_of_them
        + REPORT
        + PAIRS
        + END
    )


def cut() -> bytes:
    """A feed that ends within its last block, one byte early."""
    a, b = block(1, G), block(2, G)
    return HEAD + send(a) + send(b)[:-1]


def malformed() -> bytes:
    """A frame of a kind that there isn't. What follows it isn't read."""
    a, b = block(1, G), block(2, G)
    return HEAD + send(a) + frame(b"Z") + send(b) + END


def cycle() -> bytes:
    """Three blocks, each before the next and the last before the first, as in cycle.txt."""
    a, b, c = block(1, G), block(2, G), block(3, G)
    x1, x2, x3 = block(4, a), block(6, b), block(8, c)
    y1, y2, y3 = block(5, x1, b), block(7, x2, c), block(9, x3, a)
    blocks = [a, b, c, x1, y1, x2, y2, x3, y3]
    return HEAD + b"".join(map(send, blocks)) + vote(a, b) + vote(b, c) + vote(c, a) + END


def full() -> bytes:
    """One block more than there is room for, all on a block that isn't sent, and the first again."""
    unsent = block(1, G)
    blocks = [block(salt, unsent) for salt in range(2, 514)]
    return HEAD + b"".join(map(send, blocks)) + send(blocks[0]) + END


FEEDS = {
    feed.__name__: feed
    for feed in (first, waiting, refused, spends, balances, cut, malformed, cycle, full)
}


def main(words: List[str]) -> None:
    name = words[0] if words else "first"
    if len(words) > 1 or name not in FEEDS:
        print("usage: feed.py [" + " | ".join(FEEDS) + "]", file=sys.stderr)
        sys.exit(2)
    sys.stdout.buffer.write(FEEDS[name]())


main(sys.argv[1:])
