"""A journal's file as this package reads it: its head, its blocks, and a copy of it while a node is at work.

A node opens a record's gate once the record was synced, and writes nothing in front of an open gate any more. So
what is read from the front to the end, with no length asked for before, is a journal of the first records.
"""

from __future__ import annotations

import os
import tempfile
from typing import Optional

from .blocks import EMPTY, Cursor
from .errors import FileFault, NotThisForm, fault_of
from .feeds import LONGEST_HEAD, Head, Journal, read_journal, read_journal_head
from .program import Path, file_name

PIECE = 1 << 16


def found_head(file: Path) -> Optional[Head]:
    """The head of the journal in a file, or None where the file is empty or isn't there. Where it holds
    something else, the smallest head: the program then says what is wrong."""
    try:
        if not os.path.isfile(file):
            return None
        with open(file, "rb") as opened:
            first = opened.read(LONGEST_HEAD)
    except OSError:
        return None
    if not first:
        return None
    try:
        return read_journal_head(Cursor(first))
    except NotThisForm:
        return Head(1, 0, EMPTY)


def read_whole(file: Path) -> bytes:
    """All of a file, read from the front until nothing is left."""
    try:
        with open(file, "rb", buffering=0) as opened:
            return b"".join(iter(lambda: opened.read(PIECE), b""))
    except OSError as why:
        raise fault_of(why, os.fspath(file)) from None


def journal_in(file: Path) -> Journal:
    """The journal in a file, which may be that of a node at work."""
    try:
        return read_journal(read_whole(file))
    except NotThisForm as why:
        raise why.at(os.fspath(file), "the blocks of the journal")


def copy(file: Path, target: Path) -> None:
    """Copies a journal, also that of a node at work, as `spectre snapshot FILE COPY` does: it gets its name once
    it is whole and synced, and takes the place of no other file."""
    name = file_name(target)
    request = f"the snapshot {name}"
    if os.path.lexists(name):
        raise FileFault(f"{name} is there already, and nothing is copied over it", os.fspath(file), request)
    try:
        number, part = tempfile.mkstemp(prefix=".snapshot.", dir=os.path.dirname(name) or ".")
    except OSError as why:
        raise fault_of(why, os.fspath(file), request) from None
    try:
        with open(number, "wb") as made:
            made.write(read_whole(file))
            made.flush()
            os.fsync(made.fileno())
        os.link(part, name)
    except FileExistsError:
        raise FileFault(f"{name} is there already, and nothing is copied over it", os.fspath(file), request) from None
    except OSError as why:
        raise fault_of(why, os.fspath(file), request) from None
    finally:
        os.unlink(part)
