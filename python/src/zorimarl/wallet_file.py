"""How a wallet's file is made, and who may read it."""

from __future__ import annotations

import contextlib
import glob
import os
import secrets
import sqlite3
import stat
from typing import Iterator

from .program import Path
from .wallet_errors import NotPrivate, NoWallet, WalletExists, WalletFault

MAKING, OPENING = "making a wallet", "opening a wallet"
APPLICATION = 0x5A4F5257  # "ZORW", in the database's head
NEW = ".new"  # behind the name of a file that is being made


@contextlib.contextmanager
def made(path: Path) -> Iterator[sqlite3.Connection]:
    """A new file with mode 600, to be filled. It is there whole and synced, or not at all: it is made under another
    name, and linked to its own where nothing has that, be it a link that leads nowhere.

    Errors: `WalletExists`, `WalletFault`."""
    name = os.path.abspath(path)
    new = f"{name}.{secrets.token_hex(8)}{NEW}"
    try:
        opened = os.open(new, os.O_CREAT | os.O_EXCL | os.O_RDWR | os.O_CLOEXEC, 0o600)
        try:
            os.fchmod(opened, 0o600)  # whatever the umask took away
        finally:
            os.close(opened)
        try:
            with contextlib.closing(sqlite3.connect(new, isolation_level=None)) as database:
                database.executescript("PRAGMA journal_mode = MEMORY; PRAGMA synchronous = FULL;")
                yield database
            os.link(new, name)
        finally:
            os.unlink(new)
        sync_folder(os.path.dirname(name))
    except FileExistsError:
        raise WalletExists("there is something of that name", name, MAKING) from None
    except (OSError, ValueError, sqlite3.Error) as why:
        raise WalletFault(str(why), name, MAKING) from None


def sync_folder(folder: str) -> None:
    opened = os.open(folder, os.O_RDONLY | os.O_DIRECTORY | os.O_CLOEXEC)
    try:
        os.fsync(opened)
    finally:
        os.close(opened)


def look_at(path: str) -> None:
    """Sees that a wallet's file is one, and its owner's alone. It isn't opened for that: to close it again would
    let go the locks that this process holds on it.

    Errors: `NoWallet`, `NotPrivate`, `WalletFault`."""
    try:
        found = os.stat(path)
        if found.st_nlink > 1:
            forget_new(path)
    except FileNotFoundError:
        raise NoWallet("it isn't there", path, OPENING) from None
    except (OSError, ValueError) as why:
        raise WalletFault(str(why), path, OPENING) from None
    if not stat.S_ISREG(found.st_mode) or not found.st_size:
        raise NoWallet("it holds no wallet", path, OPENING)
    if found.st_mode & 0o077:
        mode = f"{found.st_mode & 0o777:o}"
        raise NotPrivate(f"its mode is {mode}, so others may use its words: `chmod 600` makes it its owner's alone", path, OPENING)


def forget_new(path: str) -> None:
    """Takes away the other name under which the file was made, where that was killed before it did so itself."""
    for each in glob.glob(f"{glob.escape(path)}.*{NEW}"):
        if os.path.samefile(each, path):
            os.unlink(each)
