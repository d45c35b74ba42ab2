"""Payments in the very form of the program's `spend`, made here, so that no word stands in the list of processes
or in a shell's history.

    from zorimarl.payment import Unspent, spend
    tx = spend([b"alice"], unspent, 40, lock_of(b"bob"))

What `spend AMOUNT to WORD from WORD ..` writes for the same words and the same unspent outputs are `tx.text`, byte
for byte: of the outputs whose lock one of the words opens the largest are taken, and of equal ones those of the
lower outpoint, as few as reach the amount; inputs ascend by outpoint; the amount goes to the lock, and what is more
to the lock of the first word. This module works that out by itself and asks no program; a test compares it with
the program over drawn ledgers. Which outputs are unspent it is told, and can't know.

Amounts are whole units, 1 to 2^63 - 1. Locks and ids are 32 bytes, words 1 to 64.
"""

from __future__ import annotations

from typing import Iterable, List, NamedTuple, Sequence, Tuple

from .blocks import Coin, Tx, lock_of, locked
from .errors import LedgerError, NoRequest

MOST_INPUTS = 16
AMOUNT_LIMIT = 1 << 63  # what the outputs of a transaction stay below together
LONGEST_WORD = 64

Outpoint = Tuple[bytes, int]


class PaymentError(LedgerError):
    """A payment that isn't made."""


class NoPayment(PaymentError, NoRequest):
    """What is asked for is no payment: an amount, a lock or a word is out of its range."""


class NotEnough(PaymentError):
    """No 16 or fewer of the unspent outputs reach the amount: the `fault poor` of `spend`. `amount` was asked for,
    and `reach` is what the 16 largest come to, or all where there are fewer; in units."""

    def __init__(self, amount: int, reach: int) -> None:
        self.amount, self.reach = amount, reach
        super().__init__(f"{amount} can't be paid: {MOST_INPUTS} or fewer of what may be spent come to {reach} at most")


class TooLarge(PaymentError):
    """What is chosen comes to 2^63 or more, which no transaction's outputs do: the `fault large` of `spend`.
    `amount` was asked for, and `total` is what is chosen; in units."""

    def __init__(self, amount: int, total: int) -> None:
        self.amount, self.total = amount, total
        super().__init__(f"{amount} can't be paid: what reaches it comes to {total}, and a transaction stays below 2^63")


class Unspent(NamedTuple):
    """An unspent output: its transaction's id, its place among that one's outputs (0 to 15), its amount in units,
    and its lock."""

    tx: bytes
    place: int
    amount: int
    lock: bytes

    @property
    def outpoint(self) -> Outpoint:
        """Its name, by which outputs are ordered where their amounts are the same."""
        return self.tx, self.place


def check_amount(amount: int) -> int:
    """The amount, where it is 1 to 2^63 - 1 units; else it is a `NoPayment`."""
    if isinstance(amount, bool) or not isinstance(amount, int) or not 0 < amount < AMOUNT_LIMIT:
        raise NoPayment(f"`{amount!r:.40}` is no amount: that is a whole number of units from 1 to 2^63 - 1")
    return amount


def check_lock(lock: bytes) -> bytes:
    """The lock, where it is 32 bytes; else it is a `NoPayment`."""
    if not isinstance(lock, (bytes, bytearray)) or len(lock) != 32:
        raise NoPayment(f"`{lock!r:.80}` is no lock: that is 32 bytes")
    return bytes(lock)


def largest_first(unspent: Iterable[Unspent]) -> List[Unspent]:
    """The larger amount first; of one amount, the lower outpoint."""
    return sorted(unspent, key=lambda coin: (-coin.amount, coin.tx, coin.place))


def worth(coins: Iterable[Unspent]) -> int:
    """What outputs come to, in units."""
    return sum(coin.amount for coin in coins)


def choose(unspent: Iterable[Unspent], amount: int, first: Sequence[Unspent] = ()) -> List[Unspent]:
    """As few of these outputs as reach an amount, the largest first; and before them those that are named as
    `first`, whatever they come to.

    Errors: `NotEnough`, `TooLarge`."""
    coins = [*first, *largest_first(unspent)][:MOST_INPUTS]
    total = 0
    for count, coin in enumerate(coins, 1):
        total += coin.amount
        if amount <= total and len(first) <= count:
            if AMOUNT_LIMIT <= total:
                raise TooLarge(amount, total)
            return coins[:count]
    raise NotEnough(amount, total)


def pay(words: Sequence[bytes], chosen: Iterable[Unspent], amount: int, to: bytes) -> Tx:
    """The transaction that spends these outputs, each by the first of the words that opens its lock, and pays an
    amount to a lock, and what is more to the lock of the first word. The outputs are worth at least the
    amount, and less than 2^63."""
    opens = {lock_of(word): word for word in reversed(words)}
    coins = [Coin(coin.tx, coin.place, coin.amount, opens[coin.lock]) for coin in chosen]
    rest = sum(coin.amount for coin in coins) - amount
    outputs = [(amount, to)] + ([(rest, lock_of(words[0]))] if rest else [])
    return locked(coins, outputs)


def spend(words: Sequence[bytes], unspent: Iterable[Unspent], amount: int, to: bytes) -> Tx:
    """The transaction that the program's `spend` makes of these words and outputs. `words` may be more than the 16
    that the program takes; outputs that none of them opens are passed over.

    It is computed here. Errors: `NoPayment`, `NotEnough`, `TooLarge`."""
    if not words or any(not 0 < len(word) <= LONGEST_WORD for word in words):
        raise NoPayment(f"a payment needs words, and each has 1 to {LONGEST_WORD} bytes")
    check_amount(amount)
    to = check_lock(to)
    locks = {lock_of(word) for word in words}
    return pay(words, choose((coin for coin in unspent if coin.lock in locks), amount), amount, to)
