"""The errors of an exchange with another node. After each of them what was taken stands in the journal."""

from __future__ import annotations

from .errors import LedgerError


class PeerFault(LedgerError):
    """The other side is at fault, or can't be heard any more. `place` is that of the byte at fault among those that
    it sent, counted from 0, or how many there were."""

    def __init__(self, what: str = "", place: int = 0) -> None:
        super().__init__(what)
        self.place = place
        self.args = (what, place)


class OtherLedger(PeerFault):
    """It has other bits of work, another genesis block or another profile. Nothing was taken."""


class PeerEnded(PeerFault):
    """What it sends ended before the frame E, or it reads no more. Start again: what was taken isn't sent twice."""


class PeerSlow(PeerFault):
    """The time has passed."""


class PeerMalformed(PeerFault):
    """Its bytes aren't what has to stand there."""


class NotListed(PeerFault):
    """It sent a block that isn't one of those that it listed and this side lacks, or sent one twice. It wasn't taken."""


class BadBlock(PeerFault):
    """It sent a block that the program refuses; `answer` is the program's line."""


class Withheld(PeerFault):
    """It listed blocks and didn't send them."""


class TooMany(PeerFault):
    """It has more blocks than there is room for, or than may be taken. Nothing was taken."""
