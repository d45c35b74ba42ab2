"""The error that all others are, those of a call that can't be answered, and those of bytes. `zorimarl.errors` hands them on."""

from __future__ import annotations

from typing import TypeVar

Error = TypeVar("Error", bound="LedgerError")


class LedgerError(Exception):
    """Any of the errors below.

    `what` says what happened; `file` is the journal's name as it was given, `request` what was asked, and
    `answer` the program's line, each "" where there is none. The text has what, file and request.
    """

    def __init__(self, what: str = "", file: str = "", request: str = "", answer: str = "") -> None:
        super().__init__(what, file, request, answer)
        self.what, self.file, self.request, self.answer = what, file, request, answer

    def at(self: Error, file: str, request: str) -> Error:
        """The same error, with the file and the request where it has none."""
        self.file, self.request = self.file or file, self.request or request
        return self

    def __str__(self) -> str:
        return ": ".join(part for part in (self.file, self.request, self.what) if part)


class NoGenesis(LedgerError):
    """A new ledger needs a genesis block, and none was given, or what was given is none."""


class NoProgram(LedgerError):
    """There is no program `spectre` where it was looked for, which the text lists."""


class NoRequest(LedgerError):
    """What was asked for can't be: an id or a lock that isn't 32 bytes, a number that is out of its range, words
    that are no request. Nothing was sent."""


class NoBlock(LedgerError):
    """No kept block has this id."""


class NotReached(LedgerError):
    """The blocks that were to come have ended, and the state that was waited for wasn't reached."""


class FileFault(LedgerError):
    """This package couldn't read or write a file. The ledger goes on."""


class Closed(LedgerError):
    """The ledger was closed, or its program has ended before."""


class Misfit(LedgerError):
    """An input can't be shown, or the program's answers don't fit it."""


class NoAnswer(LedgerError):
    """The program answered nothing within the time that was given. It was killed."""


class Unexpected(LedgerError):
    """A line that isn't the answer to what was asked. The program was killed."""


def fault_of(error: OSError, file: str = "", request: str = "") -> FileFault:
    """A call of the system that failed, as an error of this package."""
    name = error.filename if isinstance(error.filename, str) else ""
    what = error.strerror or str(error)
    return FileFault(f"{name}: {what}" if name and name != file else what, file, request)


# Bytes


class NotThisForm(LedgerError):
    """Bytes don't spell what was looked for. `place` is that of the first field that doesn't, counted in bytes
    from 0."""

    def __init__(self, what: str = "", place: int = 0) -> None:
        super().__init__(what)
        self.place = place
        self.args = (what, place)

    def __str__(self) -> str:
        return ": ".join(part for part in (self.file, self.request, f"{self.what}, at place {self.place}") if part)


class EndsEarly(NotThisForm):
    """The bytes end within a field, or before one."""


class OtherName(NotThisForm):
    """The first bytes are those of no feed, journal or certificate of a known profile."""


class OtherVersion(NotThisForm):
    """A block's version isn't 1."""


class OtherFrame(NotThisForm):
    """The kind of a frame is unknown, or not the one that has to stand here, or its length isn't one of its kind's."""


class OutOfRange(NotThisForm):
    """A number is beyond what its field may have."""


class GateClosed(NotThisForm):
    """The first gate of a journal isn't open."""


class Surplus(NotThisForm):
    """Something follows what was read."""
