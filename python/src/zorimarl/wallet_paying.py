"""How a wallet pays, pays again, and brings home what is exposed."""

from __future__ import annotations

import secrets
from typing import Dict, List, Optional, Sequence

from .blocks import lock_of
from .payment import NoPayment, Unspent, check_amount, check_lock, choose, pay, worth
from .wallet_coins import Look, Node, excluding, fill, with_siblings
from .wallet_errors import BurntLock, MayPayTwice, NameTaken, NotTurned
from .wallet_looking import Looking, asked
from .wallet_store import WORD_BYTES
from .wallet_values import Payment


LONGEST_NAME = 1_000


def check_name(name: Optional[str]) -> None:
    """A name is a text of at most 1,000 letters; anything else is a `NoPayment`."""
    if name is not None and not (isinstance(name, str) and len(name) <= LONGEST_NAME and name.isprintable()):
        raise NoPayment(f"`{name!r:.80}` is no name for a payment: that is a text that can be printed, of up to {LONGEST_NAME} letters")


class Paying(Looking):
    """A wallet that pays."""

    @asked("a payment")
    def pay(self, ledger: Node, lock: bytes, amount: int, name: Optional[str] = None) -> Payment:
        """Pays an amount (1 to 2^63 - 1 units) to a lock (32 bytes), out of what is spendable. Nothing is sent: hand
        the transaction, `tx`, to those who make blocks. Where the wallet has a payment of this name already, that
        one is answered, and nothing is paid: so a program that was killed can ask again.

        The transaction is computed here. It is what `spend` makes of all spendable coins with a new word as the
        first, but that it spends whatever else its words open, too.

        Errors: `NoPayment`, `NotEnough`, `TooLarge`, `BurntLock`, `NameTaken`, `Misfit`, and those of the ledger and file."""
        check_amount(amount)
        lock = check_lock(lock)
        check_name(name)
        found = self._named(name, lock, amount)
        if found:
            return found
        seen = self._look(ledger)
        self._refuse_burnt(lock, seen)
        with self.store.change():
            found = self._named(name, lock, amount)
            if found:
                return found
            spendable = self._spendable(seen)
            number = self.store.add_payment("payment", name, lock, amount)
            taken, left = with_siblings(choose(spendable, amount), spendable)
            self._send(number, taken, left, lock, amount)
        return self.payment(number)

    @asked("paying again")
    def again(self, ledger: Node, payment: Payment, lock: Optional[bytes] = None, may_pay_twice: bool = False) -> Payment:
        """Pays once more what isn't accepted, to the same lock or to another one. Where all that an earlier
        transaction to this lock spends is unspent, that one is to be handed on again, for another block. Else there
        is a new one, out of what the earlier ones have left, and of coins whose words nobody has seen. It can't be
        accepted beside an earlier one, by what both would spend; where nothing is left for that, it is only made
        with `may_pay_twice`.

        Errors: `NotTurned`, `MayPayTwice`, `NoSuchPayment`, and those of `pay`."""
        now = self.payment(payment.number, ledger)
        if now.kind != "payment":
            raise NoPayment(f"{now.number} is a sweep: what it left is swept by `sweep`")
        if now.times:
            raise NotTurned(f"payment {now.number} is accepted")
        seen = self._look(ledger)
        to = now.lock if lock is None else check_lock(lock)
        self._refuse_burnt(to, seen)
        unspent = {coin.outpoint for coin in seen.unspent}
        with self.store.change():
            now = self.payment(now.number)  # with what another process may have made by now
            for each in reversed(now.sent):
                if each.lock == to and unspent.issuperset(each.tx.spent):
                    self.store.renew_tx(each.tx.id)
                    return self.payment(now.number)
            bound = self._bound(seen, now)
            free = [coin for coin in seen.unspent if coin.outpoint not in bound]
            own = [sent.tx for each in self.payments() for sent in each.sent]
            first, excluded = excluding([each.tx for each in now.sent], own, free)
            if not excluded and not may_pay_twice:
                raise MayPayTwice(f"an earlier transaction of payment {now.number} could be accepted beside a new one")
            others = [coin for coin in self._spendable(seen) if coin not in first]
            taken, left = with_siblings(choose(others, now.amount, first), free)
            self._send(now.number, taken, left, to, now.amount)
        return self.payment(now.number)

    @asked("a sweep")
    def sweep(self, ledger: Node, payment: Optional[Payment] = None) -> Optional[Payment]:
        """Brings what is exposed to a new lock of the wallet's own, as much as one transaction can; None where
        nothing is. With a payment that isn't accepted, brings what that one would spend: so it is taken back,
        once the sweep is accepted. The transaction is computed here; hand it on as one of `pay`.

        Errors: `NotTurned`, `NoSuchPayment`, `Misfit`, and those of the ledger and file."""
        now = None if payment is None else self.payment(payment.number, ledger)
        if now and now.times:
            raise NotTurned(f"payment {now.number} is accepted")
        seen = self._look(ledger)
        with self.store.change():
            bound = self._bound(seen, now)
            free = [coin for coin in seen.unspent if coin.outpoint not in bound]
            spendable = set(self._spendable(seen))
            spent = {outpoint for sent in now.sent for outpoint in sent.tx.spent} if now else set()
            wanted = [coin for coin in free if (coin.outpoint in spent if now else coin not in spendable)]
            if not wanted:
                return None
            taken, left = with_siblings(fill([], wanted)[0], free)
            word = secrets.token_bytes(WORD_BYTES)
            self.store.add_word(word, is_change=True)
            number = self.store.add_payment("sweep", None, lock_of(word), worth(taken))
            self._send(number, taken, left, lock_of(word), worth(taken))
        return self.payment(number)

    def _named(self, name: Optional[str], lock: bytes, amount: int) -> Optional[Payment]:
        """The payment of a name, where there is one."""
        for row in self.store.payments() if name is not None else ():
            if row.name == name:
                if (row.lock, row.amount) != (lock, amount):
                    raise NameTaken(f"payment {row.number} has the name {name!r}, and pays {row.amount} to {row.lock.hex()}")
                return self.payment(row.number)
        return None

    def _refuse_burnt(self, lock: bytes, seen: Look) -> None:
        if lock in seen.shown or any(each.lock == lock and each.burnt for each in self.store.words()):
            raise BurntLock(f"the word of the lock {lock.hex()} was seen, so that anybody could take what is paid to it")

    def _spendable(self, seen: Look) -> List[Unspent]:
        """The coins whose words nobody has seen."""
        burnt = {each.lock for each in self.store.words() if each.burnt}
        return [coin for coin in seen.unspent if coin.lock not in burnt]

    def _send(self, number: int, taken: Sequence[Unspent], left: int, lock: bytes, amount: int) -> None:
        """Notes a new transaction of a payment; within `change`."""
        words: Dict[bytes, bytes] = {each.lock: each.word for each in self.store.words()}
        locks = {coin.lock for coin in taken}
        if lock in locks:
            raise BurntLock(f"the payment to the lock {lock.hex()} would show its word")
        fresh = secrets.token_bytes(WORD_BYTES)
        tx = pay([fresh, *(words[each] for each in locks)], taken, amount, lock)
        if len(tx.coins) > 1:
            self.store.add_word(fresh, is_change=True)
        self.store.burn(locks)
        self.store.add_tx(number, tx.id, tx.text, lock, left)
