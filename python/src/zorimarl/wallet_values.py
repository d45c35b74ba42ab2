"""What a wallet answers, as values."""

from __future__ import annotations

from typing import Iterable, Literal, NamedTuple, Optional, Tuple

from .blocks import Coin as Output
from .blocks import Cursor, Tx, read_tx
from .wallet_store import PaymentRow, TxRow

PaymentState = Literal["accepted", "rejected", "pending", "turned back"]
Standing = Literal["spendable", "bound", "exposed"]


class OwnLock(NamedTuple):
    """A lock of the wallet: whether it is one for change, and whether its word may have been seen."""

    lock: bytes
    is_change: bool
    burnt: bool


class Coin(NamedTuple):
    """An unspent output of the wallet's: its transaction's id, its place, its amount in units, its lock, and whether
    it is `spendable`, `bound` (an input of a payment that isn't accepted), or `exposed` (the word was seen, and no
    such payment spends it)."""

    tx: bytes
    place: int
    amount: int
    lock: bytes
    standing: Standing


class Money(NamedTuple):
    """What the wallet has, in units: the sums of its coins by their standing."""

    spendable: int
    bound: int
    exposed: int

    @property
    def total(self) -> int:
        """What the program says of all locks of the wallet together."""
        return self.spendable + self.bound + self.exposed


class Sent(NamedTuple):
    """A transaction of a payment, with the lock that it pays. `leaves` is what was left under the words that it
    shows, in units."""

    tx: Tx
    lock: bytes
    state: PaymentState
    leaves: int


class Payment(NamedTuple):
    """A payment, by its number in the wallet: `kind` is `payment`, or `sweep` of what was exposed to a lock of the
    wallet's own. `amount` is in units, and `name` is the caller's. `sent` has its transactions, the one
    last answered at the end; there are more than one where it was paid again."""

    number: int
    kind: str
    name: Optional[str]
    amount: int
    sent: Tuple[Sent, ...]

    @property
    def tx(self) -> Tx:
        """The newest transaction, which is to be handed to those who make blocks."""
        return self.sent[-1].tx

    @property
    def lock(self) -> bytes:
        """The lock that the newest transaction pays."""
        return self.sent[-1].lock

    @property
    def state(self) -> PaymentState:
        """`accepted` where a transaction of it is. Else that of the newest one: `pending` where no present block
        carries it, `turned back` where the wallet once saw it accepted and it isn't, else `rejected`."""
        return "accepted" if self.times else self.sent[-1].state

    @property
    def times(self) -> int:
        """How many of its transactions are accepted: more than 1 says that it is paid more than once."""
        return sum(each.state == "accepted" for each in self.sent)

    @property
    def leaves(self) -> int:
        """What the newest transaction left under the words that it shows, in units: 0, or `sweep` it."""
        return self.sent[-1].leaves


def tx_of(text: bytes) -> Tx:
    """A transaction by its bytes. Of its outputs no word is known."""
    read = read_tx(Cursor(text))
    coins = [Output(read.id, place, output.amount) for place, output in enumerate(read.outputs)]
    return Tx(read.id, text, [(each.tx, each.place) for each in read.inputs], coins)


def sent_of(row: TxRow) -> Sent:
    state: PaymentState = "pending"
    if row.state == "accepted":
        state = "accepted"
    elif row.was_accepted:
        state = "turned back"
    elif row.state == "rejected":
        state = "rejected"
    return Sent(tx_of(row.text), row.lock, state, row.leaves)


def payment_of(row: PaymentRow, txs: Iterable[TxRow]) -> Payment:
    """A payment with its transactions."""
    return Payment(row.number, row.kind, row.name, row.amount, tuple(map(sent_of, txs)))
