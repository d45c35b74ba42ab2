"""The ends of the program, a class for each exit code and each other way. `zorimarl.errors` hands them on."""

from __future__ import annotations

from typing import Dict, List, Optional, Type

from .errors_base import LedgerError


class Ended(LedgerError):
    """The program has ended, and not because it was asked to.

    `code` is what it ended with (below 0 a signal), `answer` (and `line`) its fault line or "", `numbers` and
    `ids` what that line says, `cut` what was written of a line that isn't whole, `said` what stood on standard
    error.
    """

    def __init__(self, code: int = 0, line: str = "", cut: bytes = b"", said: str = "") -> None:
        self.code, self.line, self.cut, self.said = code, line, cut, said
        words = line.split(" ")[2:]
        self.numbers: List[int] = [int(word) for word in words if word.isascii() and word.isdigit() and len(word) < 64]
        self.ids: List[bytes] = [bytes.fromhex(word) for word in words if len(word) == 64 and is_hexadecimal(word)]
        ended = f"signal {-code}" if code < 0 else f"exit code {code}"
        told = f"the last line is cut: {cut[:80]!r}" if cut else ""
        parts = [f"the program ended with {ended}", f"`{line}`" if line else "", told, said.strip()]
        super().__init__("; ".join(filter(None, parts)), answer=line)
        self.args = (code, line, cut, said)

    @property
    def place(self) -> Optional[int]:
        """The first number of the fault line."""
        return self.numbers[0] if self.numbers else None


def is_hexadecimal(word: str) -> bool:
    return all(digit in "0123456789abcdefABCDEF" for digit in word)


class Usage(Ended):
    """The words are no command."""


class Malformed(Ended):
    """What was sent is no feed or no certificate. `place` says where."""


class BadLine(Malformed):
    """A line of a scenario has a fault. `place` is its number, `reason` the fault's word."""

    @property
    def reason(self) -> str:
        return self.line.split(" ")[-1]


class Truncated(Ended):
    """What was sent ends before the frame E. `place` is the number of bytes."""


class ReadFault(Ended):
    """A read of the input failed."""


class WriteFault(Ended):
    """A write of the output failed."""


class DiskFault(Ended):
    """A call of the disk failed."""


class NotJournal(Ended):
    """The file holds something else than a journal."""


class OtherChain(Ended):
    """The journal has other bits of work, another genesis block or another profile: `numbers` are bits and
    profile and `ids` the genesis ids, first of the journal and then of what was asked for."""


class Memory(Ended):
    """Memory was refused to the program."""


class Damaged(Ended):
    """The journal is damaged at `place`."""


class TooLong(Ended):
    """More bytes were sent than a feed may have: `place` is their number."""


class NoPair(Ended):
    """There is no vote on these two: they are one block, or one of them isn't present."""


class Refuted(Ended):
    """A certificate doesn't hold. `reason` is `parent`, `pair`, `world`, `vote` or `sum`, and `numbers` its
    numbers."""

    @property
    def reason(self) -> str:
        return (self.line.split(" ") + ["", "", ""])[2]


class Poor(Ended):
    """What may be spent doesn't reach the amount: it comes to `place`."""


class Large(Ended):
    """What would be spent comes to `place`, which is 2^63 or more."""


class InUse(Ended):
    """Another call uses the file. Nothing was read or written."""


class NotStarted(Ended):
    """bin/spectre couldn't start the program."""


class Killed(Ended):
    """The program was ended by a signal, which is `-code`."""


class CutLine(Ended):
    """The program ended within a line, and with no status that says why."""


class EndedEarly(Ended):
    """The program ended before it was asked to, with a code that says nothing."""


CODES: Dict[int, Type[Ended]] = {
    1: Usage,
    2: Malformed,
    3: Truncated,
    4: ReadFault,
    5: WriteFault,
    6: DiskFault,
    7: NotJournal,
    8: OtherChain,
    9: Memory,
    10: Damaged,
    11: TooLong,
    12: NoPair,
    13: Refuted,
    14: Poor,
    15: Large,
    124: InUse,
    125: NotStarted,
    126: NotStarted,
    127: NotStarted,
}


def ended(code: int, line: str = "", cut: bytes = b"", said: str = "") -> Ended:
    """The error of an end."""
    named: Optional[Type[Ended]] = BadLine if line.startswith("fault line ") and code == 2 else CODES.get(code)
    if named is None:
        named = CutLine if cut else Killed if code < 0 else EndedEarly
    return named(code, line, cut, said)
