"""The refusals of blocks, a class for each reason. `zorimarl.errors` hands them on."""

from __future__ import annotations

import functools
from typing import Dict, Type

from .errors_base import LedgerError


@functools.lru_cache(maxsize=None)
def first_sentence(text: str) -> str:
    """What the text of a class says first."""
    return text.split(". ")[0].split(".\n")[0].strip(" .\n")


class Refused(LedgerError):
    """A block wasn't kept. `answer` is the program's line, `block` the bytes' id."""

    why = ""

    def __init__(self, answer: str = "", block: bytes = b"") -> None:
        super().__init__(": ".join(filter(None, [f"`{answer}`", first_sentence(type(self).__doc__ or "")])), answer=answer)
        self.block = block
        self.args = (answer, block)


class Full(Refused):
    """There is no room: 512 blocks are kept."""

    why = "full"


class BlockTooLong(Refused):
    """It has more than 65,536 bytes."""

    why = "too-long"


class BlockShort(Refused):
    """Its bytes end within its head."""

    why = "short"


class BadVersion(Refused):
    """Its version isn't 1."""

    why = "version"


class BadParentCount(Refused):
    """It has no parents, as genesis has none, or more than 64."""

    why = "parent-count"


class BadParentOrder(Refused):
    """Its parents don't ascend."""

    why = "parent-order"


class BadTxCount(Refused):
    """It has more than 256 transactions."""

    why = "tx-count"


class TxShort(Refused):
    """Its bytes end within a transaction."""

    why = "tx-short"


class BadInputCount(Refused):
    """A transaction has more than 16 inputs."""

    why = "tx-input-count"


class BadInputOrder(Refused):
    """A transaction's outpoints don't ascend."""

    why = "tx-input-order"


class BadPreimage(Refused):
    """A preimage doesn't have 1 to 64 bytes."""

    why = "tx-preimage"


class BadOutputCount(Refused):
    """A transaction has no outputs, or more than 16."""

    why = "tx-output-count"


class BadAmount(Refused):
    """An amount is 0."""

    why = "tx-amount"


class BadSum(Refused):
    """A transaction's amounts are 2^63 or more together."""

    why = "tx-sum"


class BadGrant(Refused):
    """A transaction without inputs stands outside of genesis."""

    why = "grant"


class SameTx(Refused):
    """It has one transaction twice."""

    why = "same-tx"


class SameOutpoint(Refused):
    """Two of its transactions spend one output."""

    why = "same-outpoint"


class Trailing(Refused):
    """Something follows the block."""

    why = "trailing"


class NoWork(Refused):
    """Its id misses the bits of work."""

    why = "work"


REFUSALS: Dict[str, Type[Refused]] = {each.why: each for each in Refused.__subclasses__() if each is not Full}
