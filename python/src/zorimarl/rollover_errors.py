"""What hinders that a ledger goes on in a new one. Nothing is made then."""

from __future__ import annotations

from typing import Sequence, Tuple

from .errors import LedgerError


class RolloverFault(LedgerError):
    """The new genesis block isn't made. `txs` has the ids of the transactions that hinder, where any do."""

    def __init__(self, what: str = "", txs: Sequence[bytes] = ()) -> None:
        super().__init__(what)
        self.txs: Tuple[bytes, ...] = tuple(txs)
        self.args = (what, self.txs)


class NoClosing(RolloverFault):
    """No present block has the id of the closing block; or none was named, and several blocks are tips."""


class Undecided(RolloverFault):
    """These payments aren't accepted, and nothing that is accepted stands against them: ties, or rivals that come
    before each other in a circle."""


class LeftBehind(RolloverFault):
    """By all blocks that are kept these payments are accepted and by the past of the closing block they aren't, or
    the other way round."""


class TooManyBalances(RolloverFault):
    """A genesis block has no room for all balances: it has 65,536 bytes and so 1,632 outputs."""


class OtherGenesis(RolloverFault):
    """What is held to be the opening of the new ledger isn't what these blocks and this closing block give."""
