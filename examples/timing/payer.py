"""Payments in the blocks of a graph: each block spends what blocks in its past made, and one coin that a
block beside it spends, too."""

from __future__ import annotations

from typing import Dict, List, Optional, Sequence, Tuple

from zorimarl.feeds import Coin, Tx, transaction

GRANTS, PER_GRANT, GRANTED = 100, 16, 10**9
CARRIED = 100  # transactions of a block
PAYEES = 1000
SHARE = 1000  # what every other transaction pays to a second payee, where it has more than twice as much


def payee(number: int) -> bytes:
    return b"payee%d" % (number % PAYEES)


def spending(coin: Coin, number: int, is_split: bool) -> Tx:
    """Spends a coin and loses 1 of it. It pays the rest to one payee, or 1000 of it to another."""
    rest = coin.amount - 1
    if not is_split or coin.amount <= 2 * SHARE:
        return transaction([coin], [(rest, payee(number))])
    return transaction([coin], [(SHARE, payee(7 * number + 3)), (rest - SHARE, payee(number))])


class Payer:
    """Makes the transactions of one block after another, and knows the second spends among them, each with
    the transaction that it rivals.

    Genesis grants 1,600 coins. Each transaction spends one coin that was made in the past of its block: in
    the newest block there, and of its coins the largest. It loses 1, and every other one makes two coins of
    the rest. No other spends that coin, but for one transaction of each block, the last one: of the three
    blocks before block n that stand beside it, it takes the earliest, and spends the coin that the
    transaction at place n mod 99 spends there. (Where that coin wasn't made in the past of block n, it
    takes the next place, and at last the next block; where none is left, it is as the others.) Nobody
    spends what such a second spend pays."""

    def __init__(self) -> None:
        self.coins: List[List[Coin]] = []  # of each block, those that nobody spent, ascending by amount
        self.maker: Dict[bytes, int] = {}  # the block that carries a transaction
        self.spends: List[List[Tuple[Coin, Tx]]] = []  # of each block, the first 99 coins that it spends, and the spenders
        self.seconds: List[Tuple[Tx, Tx]] = []

    def grants(self) -> List[Tx]:
        pays = [(GRANTED, payee(number)) for number in range(GRANTS * PER_GRANT)]
        txs = [transaction([], pays[first : first + PER_GRANT]) for first in range(0, len(pays), PER_GRANT)]
        return self.note([], txs)

    def next(self, past: int) -> List[Tx]:
        """The transactions of the next block, which has this past."""
        number = len(self.spends)
        twice = self.rivalled(number, past)
        spent = self.newest(past, CARRIED - (twice is not None))
        txs = [spending(coin, CARRIED * number + place, place % 2 == 1) for place, coin in enumerate(spent)]
        self.note(spent[: CARRIED - 1], txs)
        if twice:
            coin, rival = twice
            txs.append(spending(coin, CARRIED * number + CARRIED - 1, False))
            self.seconds.append((txs[-1], rival))
        return txs

    def note(self, spent: Sequence[Coin], txs: List[Tx]) -> List[Tx]:
        self.maker.update((tx.id, len(self.spends)) for tx in txs)
        self.coins.append(sorted((coin for tx in txs for coin in tx.coins), key=lambda coin: coin.amount))
        self.spends.append(list(zip(spent, txs)))
        return txs

    def newest(self, past: int, count: int) -> List[Coin]:
        taken: List[Coin] = []
        for maker in reversed(range(len(self.coins))):
            while past >> maker & 1 and self.coins[maker] and len(taken) < count:
                taken.append(self.coins[maker].pop())
        return taken

    def rivalled(self, number: int, past: int) -> Optional[Tuple[Coin, Tx]]:
        """The coin that is spent a second time, and who spends it, or None."""
        start = number % (CARRIED - 1)
        for other in range(max(1, number - 3), number):
            spends = [] if past >> other & 1 else self.spends[other]
            for coin, tx in spends[start:] + spends[:start]:
                if past >> self.maker[coin.tx] & 1:
                    return coin, tx
        return None
