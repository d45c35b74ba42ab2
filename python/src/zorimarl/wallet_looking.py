"""What a wallet has by a ledger, and how its payments stand there."""

from __future__ import annotations

import functools
from typing import Any, Callable, Concatenate, Dict, List, Optional, ParamSpec, Set, TypeVar

from .errors import LedgerError
from .payment import Outpoint, Unspent
from .wallet_coins import Look, Node, look
from .wallet_errors import NoSuchPayment
from .wallet_store import Store, TxRow
from .wallet_values import Coin, Money, Payment, Standing, payment_of


Asks = ParamSpec("Asks")
Answer = TypeVar("Answer")
Call = Callable[Concatenate[Any, Asks], Answer]


def asked(request: str) -> Callable[[Call[Asks, Answer]], Call[Asks, Answer]]:
    """Puts the wallet's file and what was asked for into an error that hasn't told them yet."""

    def around(call: Call[Asks, Answer]) -> Call[Asks, Answer]:
        @functools.wraps(call)
        def told(self: Any, /, *args: Asks.args, **kwargs: Asks.kwargs) -> Answer:
            try:
                return call(self, *args, **kwargs)
            except LedgerError as why:
                raise why.at(self.store.path, request)

        return told

    return around


class Looking:
    """A wallet's file, and what a ledger says of it."""

    store: Store

    @asked("the wallet's coins")
    def coins(self, ledger: Node) -> List[Coin]:
        """What is unspent under the wallet's locks, by ascending outpoint. It is computed here, and compared with
        the program's balances.

        Errors: `Misfit`, and those of the ledger."""
        found = self._look(ledger)
        bound = self._bound(found)
        burnt = {each.lock for each in self.store.words() if each.burnt}

        def standing(coin: Unspent) -> Standing:
            return "bound" if coin.outpoint in bound else "exposed" if coin.lock in burnt else "spendable"

        return sorted(Coin(*coin, standing(coin)) for coin in found.unspent)

    def balance(self, ledger: Node) -> Money:
        """What the wallet has, in units; see `coins`."""
        coins = self.coins(ledger)

        def total(standing: Standing) -> int:
            return sum(coin.amount for coin in coins if coin.standing == standing)

        return Money(total("spendable"), total("bound"), total("exposed"))

    def _look(self, ledger: Node) -> Look:
        """What the ledger says of the wallet's locks. Words that it shows are burnt from here on, and what it accepts
        was accepted."""
        words = self.store.words()
        found = look(ledger, {each.lock for each in words})
        seen = [each.lock for each in words if each.lock in found.shown and not each.burnt]
        new = [each.id for each in self.store.txs() if each.id in found.accepted and not each.was_accepted]
        if seen or new:
            with self.store.change():
                self.store.burn(seen)
                for tx_id in new:
                    self.store.note_state(tx_id, "accepted")
        return found

    def _bound(self, seen: Look, but: Optional[Payment] = None) -> Set[Outpoint]:
        """What the transactions of payments that aren't accepted spend; of all of these but one."""
        spent: Set[Outpoint] = set()
        for each in self.payments():
            if each.number != (but and but.number) and seen.accepted.isdisjoint(sent.tx.id for sent in each.sent):
                spent.update(outpoint for sent in each.sent for outpoint in sent.tx.spent)
        return spent

    @asked("the wallet's payments")
    def payments(self, ledger: Optional[Node] = None) -> List[Payment]:
        """All payments, the oldest first, with the states that the program says now. Without a ledger they have the
        states of when it was last asked.

        Errors: those of the ledger."""
        if ledger is not None:
            rows = self.store.txs()
            now = [(row.id, ledger.tx(row.id).state) for row in rows]
            with self.store.change():
                for tx_id, state in now:
                    self.store.note_state(tx_id, state)
        txs: Dict[int, List[TxRow]] = {}
        for each in self.store.txs():
            txs.setdefault(each.payment, []).append(each)
        return [payment_of(row, txs[row.number]) for row in self.store.payments() if row.number in txs]

    @asked("a payment of the wallet's")
    def payment(self, number: int, ledger: Optional[Node] = None) -> Payment:
        """The payment of this number; see `payments`.

        Errors: `NoSuchPayment`, and those of the ledger."""
        for each in self.payments(ledger):
            if each.number == number:
                return each
        raise NoSuchPayment(f"there is no payment {number}")
