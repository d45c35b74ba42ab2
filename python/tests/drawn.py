"""Ledgers that hypothesis draws: blocks on one another, with payments that spend, rival and spend again."""

from __future__ import annotations

from typing import List, NamedTuple

from hypothesis import strategies as st

from zorimarl.blocks import Coin, Tx, block, genesis, sha256, transaction

WORDS = [b"alice", b"bob", b"carol", b"dave"]


class Drawn(NamedTuple):
    """A genesis block, and blocks in the order in which they are offered: parents may come behind children."""

    genesis: bytes
    blocks: List[bytes]


@st.composite
def ledgers(draw: st.DrawFn, most: int = 9) -> Drawn:
    grants = [transaction([], draw(pays(1, 3))) for _ in range(draw(st.integers(1, 2)))]
    grants = list({each.id: each for each in grants}.values())
    first = genesis(grants)
    txs: List[Tx] = list(grants)
    made: List[bytes] = []
    for salt in range(1, draw(st.integers(1, most)) + 1):
        below = [sha256(first), *map(sha256, made)]
        parents = draw(st.lists(st.sampled_from(below[-4:]), min_size=1, max_size=3, unique=True))
        made.append(block(salt, parents, draw(payments(txs))))
    order = draw(st.permutations(made)) if draw(st.booleans()) else made
    return Drawn(first, list(order[: len(order) - draw(st.integers(0, 1))]))


def pays(least: int, most: int) -> st.SearchStrategy[List[tuple[int, bytes]]]:
    return st.lists(st.tuples(st.integers(1, 50), st.sampled_from(WORDS)), min_size=least, max_size=most)


@st.composite
def payments(draw: st.DrawFn, txs: List[Tx]) -> List[Tx]:
    """Transactions of one block, which spend different outputs, and some of which stand in others, too."""
    coins = [coin for tx in txs for coin in tx.coins]
    taken: set[tuple[bytes, int]] = set()
    found: List[Tx] = []
    for coin in draw(st.lists(st.sampled_from(coins), max_size=3, unique=True)):
        tx = draw(spend(coin))
        if tx.id not in [each.id for each in found] and not taken & set(tx.spent):
            taken |= set(tx.spent)
            found.append(tx)
            txs.append(tx)
    return found


@st.composite
def spend(draw: st.DrawFn, coin: Coin) -> Tx:
    """Of a coin, with what it has, or less, and now and then with another word or more than it has."""
    word = coin.word if draw(st.integers(0, 9)) else draw(st.sampled_from(WORDS))
    amount = coin.amount + (1 if not draw(st.integers(0, 9)) else 0)
    first = draw(st.integers(1, amount))
    rest = [(amount - first, draw(st.sampled_from(WORDS)))] if amount > first and draw(st.booleans()) else []
    return transaction([coin._replace(word=word)], [(first, draw(st.sampled_from(WORDS))), *rest])
