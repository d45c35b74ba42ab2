"""The errors of a wallet's file and of its payments, each a `LedgerError`. Those of amounts stand in payment.py."""

from __future__ import annotations

from .errors import LedgerError
from .payment import PaymentError

# The file


class WalletError(LedgerError):
    """Something about a wallet's file, which `file` names."""


class NoWallet(WalletError):
    """The file isn't there, or holds something else than a wallet."""


class WalletExists(WalletError):
    """A wallet is to be made, and there is something of that name. It was left as it is."""


class NotPrivate(WalletError):
    """Others than the owner may read or write the file: its mode has to be 600."""


class WalletDamaged(WalletError):
    """The file was changed by something else than a wallet, or by a fault of the disk."""


class WalletBusy(WalletError):
    """Another process held the file for longer than the timeout. Nothing was changed."""


class WalletFault(WalletError):
    """A call of the disk failed: there is no room, or it may not be written. Nothing was handed out."""


class WalletClosed(WalletError):
    """The wallet was closed, or was opened by the process that this one was forked from."""


# Payments


class BurntLock(PaymentError):
    """The word of the lock that would be paid was seen, so that anybody could take the money. Ask for another lock."""


class NameTaken(PaymentError):
    """The wallet has another payment of this name."""


class NoSuchPayment(PaymentError):
    """The wallet has no payment of this number."""


class NotTurned(PaymentError):
    """A transaction of the payment is accepted, so it isn't paid again or taken back."""


class MayPayTwice(PaymentError):
    """An earlier transaction of the payment could be accepted beside a new one, if the order turns again: nothing
    is left that both would have to spend. `may_pay_twice=True` makes it all the same."""
