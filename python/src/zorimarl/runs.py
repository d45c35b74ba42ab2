"""Runs of the program to its end: bytes go in, bytes come out, and a code other than 0 is an error."""

from __future__ import annotations

import subprocess
from typing import Optional, Sequence

from .errors import LedgerError, NoAnswer, NotStarted, ended
from .program import Path, ready
from .talk import MOST_SAID, TIMEOUT


def run(
    words: Sequence[str],
    given: bytes = b"",
    request: str = "",
    timeout: Optional[float] = None,
    program: Optional[Path] = None,
) -> bytes:
    """What the program writes for these words and this input."""
    request = request or " ".join(words[:1])
    found = ready(program)
    try:
        done = subprocess.run(
            [found.path, *words], input=given, capture_output=True, check=False, timeout=TIMEOUT if timeout is None else timeout
        )
    except subprocess.TimeoutExpired:
        raise NoAnswer("the program didn't end in time, and was killed", "", request) from None
    except OSError as why:
        raise NotStarted(127, said=f"{found.path}: {why.strerror}").at("", request) from None
    if done.returncode:
        raise failed(done).at("", request)
    return done.stdout


def failed(done: subprocess.CompletedProcess[bytes]) -> LedgerError:
    """The error of a run that didn't end with 0."""
    *lines, cut = done.stdout.split(b"\n")
    fault = lines[-1].decode("ascii", "replace") if lines and lines[-1].startswith(b"fault ") else ""
    return ended(done.returncode, fault, cut if fault == "" and len(cut) < 200 else b"", done.stderr[:MOST_SAID].decode("utf-8", "replace"))
