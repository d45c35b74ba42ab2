"""A wallet: words in one file, locks to be paid to, and payments out of what a ledger says.

    from zorimarl.wallet import Wallet
    with Wallet.create("alice.wallet") as wallet:
        lock = wallet.receive()                     # for one payment to this wallet
        ..
        payment = wallet.pay(ledger, bobs_lock, 40)
        ledger.offer(ledger.mine([tip], [payment.tx]))
        print(wallet.payments(ledger)[0].state)     # accepted

A lock is the SHA-256 of a word, and whoever knows the word can spend what has the lock: there are no signatures. A
payment shows the words of its inputs to all who see it. So the wallet holds to this:

- A word has 32 bytes from `secrets`. It stands in the file, committed and synced, before its lock is shown to
  anybody, and is never handed out twice.
- Change goes to a new word's lock, which nobody has seen.
- A word that a payment shows, or that a kept block shows, is burnt. What is left under its lock is *exposed*: `pay`
  never takes it, `balance` tells it apart, and `sweep` brings it to a new lock.
- A payment spends all that its words open, as far as one transaction can; `leaves` says what it couldn't.
- A payment stands in the file, with its words burnt, before it is answered. So a wallet that is killed at any
  moment has each lock and each payment that it has answered.
- What is paid again can't be accepted beside the first payment, unless you say that it may.

It doesn't promise that a payment gets through: who sees it before it is decided can spend the same outputs by the same
words. Nor that an `accepted` stays. The words aren't encrypted, so the file's mode is 600; and a copy of the
file has just the words that were made before it.

What is unspent and which coins a payment takes is computed here, out of the ledger's blocks and the program's report,
and compared with the balances that the program says; states are the program's own. Amounts are whole units. All
errors are a `LedgerError`: those of `zorimarl.wallet_errors` and `zorimarl.payment`, and those of the ledger.
"""

from __future__ import annotations

import secrets
from typing import Any, List, Optional, Type

from .blocks import lock_of
from .program import Path
from .wallet_paying import Paying
from .wallet_store import WORD_BYTES, Store, make
from .wallet_values import Coin, Money, OwnLock, Payment

__all__ = ["Wallet", "Coin", "Money", "OwnLock", "Payment"]


class Wallet(Paying):
    """A wallet's file, open. Several processes may have it open; what one of them does is done whole before another
    one's begins. `timeout` is how many seconds to wait for that. After a fork, open it anew."""

    def __init__(self, path: Path, timeout: float = 30.0) -> None:
        """As `open`."""
        self.store = Store(path, timeout)

    @classmethod
    def create(cls, path: Path, timeout: float = 30.0) -> Wallet:
        """A new wallet in a file that isn't there yet, with mode 600.

        Errors: `WalletExists`, `WalletFault`."""
        make(path)
        return cls(path, timeout)

    @classmethod
    def open(cls, path: Path, timeout: float = 30.0) -> Wallet:
        """Opens a wallet's file.

        Errors: `NoWallet`, `NotPrivate`, `WalletDamaged`, `WalletBusy`, `WalletFault`."""
        return cls(path, timeout)

    def copy(self, path: Path) -> None:
        """Makes a copy of the file as it is now, with mode 600, where nothing is of that name: for safe keeping, and
        not to pay by both. It has just the words that were made before it.

        Errors: `WalletExists`, `WalletFault`."""
        self.store.copy(path)

    def close(self) -> None:
        """Closes the file. All that was answered stands in it."""
        self.store.close()

    def __enter__(self) -> Wallet:
        return self

    def __exit__(self, kind: Optional[Type[BaseException]], *_: Any) -> None:
        self.close()

    # Being paid

    def receive(self) -> bytes:
        """A new lock (32 bytes) to be paid to, for one payer and once. Its word is on the disk."""
        word = secrets.token_bytes(WORD_BYTES)
        with self.store.change():
            self.store.add_word(word, is_change=False)
        return lock_of(word)

    def locks(self) -> List[OwnLock]:
        """All locks of the wallet, the oldest first."""
        return [OwnLock(each.lock, each.is_change, each.burnt) for each in self.store.words()]
