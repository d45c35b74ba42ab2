"""Certificates of the vote on two blocks: made by `spectre certify`, judged by `spectre check`.

    data = certify(ledger, x, y)          # what a node sends
    found = check(data)                   # what who gets it runs: `Refuted` where it doesn't hold
    blocks = read_certificate(data).blocks

`check` says what the certificate's blocks say of the two. Whether these are blocks of one's own ledger, with its
genesis block first, and with its work, is to be looked at besides; and which blocks the node left out can't be
seen.
"""

from __future__ import annotations

import re
from typing import NamedTuple, Optional, Union

from .blocks import bytes_of, id_of
from .errors import Unexpected
from .feeds import Certificate, read_certificate
from .ledger import Ledger
from .program import Path
from .runs import run

__all__ = ["Certificate", "Shown", "certify", "check", "read_certificate"]

SHOWN = re.compile("shown ([0-9a-f]{64}) ([0-9a-f]{64}) (before|after|tie)\n")


class Shown(NamedTuple):
    """What a certificate shows: that block x comes `before` y, or `after` it, or that there is a `tie`. `line` is
    the program's line."""

    x: bytes
    y: bytes
    word: str
    line: str


def feed_of(source: Union[bytes, Ledger], timeout: Optional[float]) -> bytes:
    """A feed, or that of a ledger's blocks."""
    return source.export(timeout=timeout) if isinstance(source, Ledger) else bytes_of(source, "a feed")


def certify(
    source: Union[bytes, Ledger], x: bytes, y: bytes, timeout: Optional[float] = None, program: Optional[Path] = None
) -> bytes:
    """The certificate of the vote on two blocks of a feed, or of an open ledger. `NoPair` where they are one, or
    one of them isn't present; `Malformed`, `Truncated` or `TooLong` where the feed has a fault."""
    x, y = id_of(x), id_of(y)
    return run(["certify", x.hex(), y.hex()], feed_of(source, timeout), f"the certificate of {x.hex()} {y.hex()}", timeout, program)


def check(certificate: bytes, timeout: Optional[float] = None, program: Optional[Path] = None) -> Shown:
    """What a certificate shows, as the program says by its bytes alone. `Refuted` where something refuses it,
    `Malformed` or `Truncated` where it is none."""
    text = run(["check"], bytes_of(certificate, "a certificate"), "the check of a certificate", timeout, program)
    line = text.decode("ascii", "replace")
    found = SHOWN.fullmatch(line)
    if not found:
        raise Unexpected(f"`{line[:200]}` is no answer to a certificate", "", "the check of a certificate", line)
    return Shown(bytes.fromhex(found[1]), bytes.fromhex(found[2]), found[3], line.rstrip("\n"))
