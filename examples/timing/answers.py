"""What a feed is answered with, held against what is known of it."""

from __future__ import annotations

from collections import Counter
from typing import Collection, Dict, List, Tuple

from zorimarl.feeds import sha256

from .feeds import Feed, Ledger


class Misfit(Exception):
    """The answers aren't those of the feed."""


def balances(ledger: Ledger, accepted: Collection[bytes]) -> Dict[bytes, int]:
    """What is left under each lock."""
    txs = [ledger.txs[tx] for tx in accepted]
    spent = {outpoint for tx in txs for outpoint in tx.spent}
    left: Counter[bytes] = Counter()
    for tx in txs:
        for coin in tx.coins:
            if (coin.tx, coin.place) not in spent:
                left[coin.word] += coin.amount
    return {sha256(word): amount for word, amount in left.items()}


def report(ledger: Ledger, accepted: Collection[bytes]) -> List[str]:
    """The lines of the report, where all blocks are present."""
    left = balances(ledger, accepted)
    return [
        f"blocks {len(ledger.blocks)} waiting 0",
        f"accepted {len(accepted)}",
        *(f"tx {tx.hex()} accepted" for tx in sorted(accepted)),
        f"balances {len(left)}",
        *(f"balance {lock.hex()} {left[lock]}" for lock in sorted(left)),
    ]


def granted_and_lost(ledger: Ledger, accepted: Collection[bytes]) -> Tuple[int, int]:
    """What genesis grants, and what the accepted transactions lose."""
    txs = [ledger.txs[tx] for tx in accepted]
    amounts = {(coin.tx, coin.place): coin.amount for tx in ledger.txs.values() for coin in tx.coins}
    granted = sum(coin.amount for tx in txs if not tx.spent for coin in tx.coins)
    spending = [tx for tx in txs if tx.spent]
    paid = sum(coin.amount for tx in spending for coin in tx.coins)
    return granted, sum(amounts[outpoint] for tx in spending for outpoint in tx.spent) - paid


def check(feed: Feed, answers: bytes) -> Tuple[int, int]:
    """Holds the answers against the feed: each block is kept and present as foreseen, each question has its
    answer, the accepted transactions are those worked out by hand, or at least spend accepted ones and no
    output twice, and each balance is what these leave. Answers how many are accepted and rejected."""
    lines = answers.decode().splitlines()
    if lines[: len(feed.lines)] != feed.lines:
        raise Misfit("a block or a question has another answer")
    told = lines[len(feed.lines) :]
    accepted = {bytes.fromhex(line.split()[1]) for line in told if line.startswith("tx ")}
    if not accepted <= feed.ledger.txs.keys():
        raise Misfit("a transaction is accepted that no block carries")
    if feed.accepted is not None and accepted != feed.accepted:
        raise Misfit("other transactions are accepted")
    spent = [outpoint for tx in accepted for outpoint in feed.ledger.txs[tx].spent]
    if len(spent) != len(set(spent)) or not {tx for tx, _ in spent} <= accepted:
        raise Misfit("accepted transactions conflict, or spend rejected ones")
    if told != report(feed.ledger, accepted):
        raise Misfit("the report is another one")
    granted, lost = granted_and_lost(feed.ledger, accepted)
    if sum(balances(feed.ledger, accepted).values()) != granted - lost:
        raise Misfit("the balances don't add up")
    return len(accepted), len(feed.ledger.txs) - len(accepted)
