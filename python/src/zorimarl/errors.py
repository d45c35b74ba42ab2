"""The errors of this package: one tree, with a class for each refusal, each fault line and each exit code.

All are a `LedgerError`. A `Refused` says that a block wasn't kept; the ledger goes on. An `Ended` says that
the program has ended; the ledger is closed then, what it acknowledged stands in the journal, and `reopen` goes
on from there. What comes from outside, be it bytes, words, files or the program's lines, is never the cause of
another error than these.
"""

from __future__ import annotations

from .errors_base import (
    Closed, EndsEarly, FileFault, GateClosed, LedgerError, Misfit, NoAnswer, NoBlock, NoGenesis, NoProgram, NoRequest, NotReached, NotThisForm,
    OtherFrame, OtherName, OtherVersion, OutOfRange, Surplus, Unexpected, fault_of,
)  # fmt: skip
from .errors_ended import (
    BadLine, CODES, CutLine, Damaged, DiskFault, Ended, EndedEarly, InUse, Killed, Large, Malformed, Memory, NoPair, NotJournal, NotStarted,
    OtherChain, Poor, ReadFault, Refuted, TooLong, Truncated, Usage, WriteFault, ended,
)  # fmt: skip
from .errors_refused import (
    BadAmount, BadGrant, BadInputCount, BadInputOrder, BadOutputCount, BadParentCount, BadParentOrder, BadPreimage, BadSum, BadTxCount, BadVersion,
    BlockShort, BlockTooLong, Full, NoWork, REFUSALS, Refused, SameOutpoint, SameTx, Trailing, TxShort,
)  # fmt: skip

__all__ = [
    "BadAmount", "BadGrant", "BadInputCount", "BadInputOrder", "BadLine", "BadOutputCount", "BadParentCount", "BadParentOrder", "BadPreimage",
    "BadSum", "BadTxCount", "BadVersion", "BlockShort", "BlockTooLong", "CODES", "Closed", "CutLine", "Damaged", "DiskFault", "Ended", "EndedEarly",
    "EndsEarly", "FileFault", "Full", "GateClosed", "InUse", "Killed", "Large", "LedgerError", "Malformed", "Memory", "Misfit", "NoAnswer", "NoBlock",
    "NoGenesis", "NoPair", "NoProgram", "NoRequest", "NoWork", "NotJournal", "NotReached", "NotStarted", "NotThisForm", "OtherChain", "OtherFrame",
    "OtherName", "OtherVersion", "OutOfRange", "Poor", "REFUSALS", "ReadFault", "Refused", "Refuted", "SameOutpoint", "SameTx", "Surplus", "TooLong",
    "Trailing", "Truncated", "TxShort", "Unexpected", "Usage", "WriteFault", "ended", "fault_of",
]  # fmt: skip
