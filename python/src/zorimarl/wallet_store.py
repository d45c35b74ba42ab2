"""The one file of a wallet: an sqlite3 database of its words and its payments.

What `change` has let go is on the disk. The journal's mode is TRUNCATE, and `synchronous` is FULL: a commit syncs the
file, then cuts the journal to no bytes and syncs that, so that neither a kill nor a loss of power brings back a
journal that takes the commit back. (With DELETE it could, as the folder isn't synced; and with WAL the
words last committed stood in a second file, which a copy of the first one lacks.)
"""

from __future__ import annotations

import contextlib
import os
import sqlite3
import threading
import urllib.parse
from typing import Iterable, Iterator, List, NamedTuple, Optional

from .blocks import lock_of
from .errors import LedgerError
from .program import Path
from .wallet_errors import NoWallet, WalletBusy, WalletClosed, WalletDamaged, WalletFault
from .wallet_file import APPLICATION, OPENING, look_at, made

READING, CHANGING = "reading the wallet", "changing the wallet"
FORM = 1
WORD_BYTES = 32
SCHEMA = f"""
PRAGMA application_id = {APPLICATION};
PRAGMA user_version = {FORM};
CREATE TABLE words (
    number INTEGER PRIMARY KEY AUTOINCREMENT,
    word BLOB NOT NULL UNIQUE,
    lock BLOB NOT NULL UNIQUE,
    is_change INTEGER NOT NULL,
    burnt INTEGER NOT NULL DEFAULT 0
);
CREATE TABLE payments (
    number INTEGER PRIMARY KEY AUTOINCREMENT,
    kind TEXT NOT NULL,
    name TEXT UNIQUE,
    lock BLOB NOT NULL,
    amount INTEGER NOT NULL
);
CREATE TABLE txs (
    number INTEGER PRIMARY KEY AUTOINCREMENT,
    payment INTEGER NOT NULL REFERENCES payments,
    id BLOB NOT NULL UNIQUE,
    text BLOB NOT NULL,
    lock BLOB NOT NULL,
    leaves TEXT NOT NULL,  -- a number, which may be 2^63 or more
    state TEXT NOT NULL DEFAULT 'absent',
    was_accepted INTEGER NOT NULL DEFAULT 0
);
"""


class Word(NamedTuple):
    """A word with its lock: whether it is for change, and whether somebody may have seen it."""

    word: bytes
    lock: bytes
    is_change: bool
    burnt: bool


class PaymentRow(NamedTuple):
    """A payment as it was first asked for."""

    number: int
    kind: str
    name: Optional[str]
    lock: bytes
    amount: int


class TxRow(NamedTuple):
    """A transaction of a payment, with the lock that it pays. `leaves` is what is left under the words that it
    shows, in units; `state` is what the program said when it was last asked."""

    payment: int
    id: bytes
    text: bytes
    lock: bytes
    leaves: int
    state: str
    was_accepted: bool


def make(path: Path) -> None:
    """Makes a wallet's file without words. Errors: `WalletExists`, `WalletFault`."""
    with made(path) as database:
        database.executescript(f"BEGIN; {SCHEMA} COMMIT;")


class Store:
    """An open file of a wallet. Other processes may have it open, too; one thread at a time is let in."""

    def __init__(self, path: Path, timeout: float) -> None:
        self.path = os.path.abspath(path)
        self.process = os.getpid()
        self.guard = threading.RLock()
        self.database: Optional[sqlite3.Connection] = None
        look_at(self.path)
        with self.told(OPENING):
            name = f"file:{urllib.parse.quote(os.fsencode(self.path))}?mode=rw"
            self.database = sqlite3.connect(name, timeout, uri=True, isolation_level=None, check_same_thread=False)
        try:
            with self.told(OPENING):
                self.set_up(self.database)
        except BaseException:
            self.close()
            raise

    def set_up(self, database: sqlite3.Connection) -> None:
        """Sees whether it is a wallet, and how commits are to be synced."""
        database.execute("PRAGMA trusted_schema = OFF")
        database.execute("PRAGMA temp_store = MEMORY")
        (application,) = database.execute("PRAGMA application_id").fetchone()
        (form,) = database.execute("PRAGMA user_version").fetchone()
        if (application, form) != (APPLICATION, FORM):
            raise NoWallet("it holds no wallet of this form", self.path, OPENING)
        (mode,) = database.execute("PRAGMA journal_mode = TRUNCATE").fetchone()
        database.execute("PRAGMA synchronous = FULL")
        if mode != "truncate":
            raise WalletFault(f"it can't have the journal that it needs, but `{mode}`", self.path, OPENING)
        (said,) = database.execute("PRAGMA quick_check(1)").fetchone()
        if said != "ok":
            raise WalletDamaged(said, self.path, OPENING)
        for each in self.words():
            if lock_of(each.word) != each.lock:
                raise WalletDamaged(f"the word of the lock {each.lock.hex()} doesn't open it", self.path, OPENING)

    @contextlib.contextmanager
    def told(self, request: str) -> Iterator[None]:
        """Tells a fault of the database as a wallet's error."""
        try:
            yield
        except LedgerError:
            raise
        except sqlite3.OperationalError as why:
            kind = WalletBusy if "locked" in str(why) else WalletFault
            raise kind(str(why), self.path, request) from None
        except sqlite3.Error as why:
            raise WalletDamaged(str(why), self.path, request) from None

    def opened(self) -> sqlite3.Connection:
        if self.database is None:
            raise WalletClosed("it was closed", self.path)
        if os.getpid() != self.process:
            raise WalletClosed("another process opened it: open it in this one", self.path)
        return self.database

    @contextlib.contextmanager
    def change(self) -> Iterator[None]:
        """What is done within is done whole and synced once this is left, or not at all. No other process changes
        the file meanwhile."""
        with self.guard, self.told(CHANGING):
            database = self.opened()
            database.execute("BEGIN IMMEDIATE")
            try:
                yield
                database.execute("COMMIT")
            except BaseException:
                if database.in_transaction:
                    database.execute("ROLLBACK")
                raise

    def rows(self, question: str, *values: object) -> List[sqlite3.Row]:
        with self.guard, self.told(READING):
            return self.opened().execute(question, values).fetchall()

    def close(self) -> None:
        with self.guard:
            database, self.database = self.database, None
            if database is not None and os.getpid() == self.process:
                database.close()

    def copy(self, path: Path) -> None:
        """Makes another file with all that this one has. Errors: `WalletExists`, `WalletFault`."""
        with self.guard, made(path) as database:
            self.opened().backup(database)

    # Words

    def words(self) -> List[Word]:
        """All words, the oldest first."""
        found = self.rows("SELECT word, lock, is_change, burnt FROM words ORDER BY number")
        return [Word(word, lock, bool(is_change), bool(burnt)) for word, lock, is_change, burnt in found]

    def add_word(self, word: bytes, is_change: bool) -> None:
        """A new word; within `change`."""
        made = (word, lock_of(word), is_change)
        self.opened().execute("INSERT INTO words (word, lock, is_change) VALUES (?, ?, ?)", made)

    def burn(self, locks: Iterable[bytes]) -> None:
        """The words of these locks may be seen from now on; within `change`."""
        self.opened().executemany("UPDATE words SET burnt = 1 WHERE lock = ?", [(lock,) for lock in locks])

    # Payments

    def payments(self) -> List[PaymentRow]:
        return [PaymentRow(*row) for row in self.rows("SELECT number, kind, name, lock, amount FROM payments ORDER BY number")]

    def txs(self) -> List[TxRow]:
        """The transactions of all payments, the oldest first."""
        found = self.rows("SELECT payment, id, text, lock, leaves, state, was_accepted FROM txs ORDER BY number")
        return [TxRow(payment, tx_id, text, lock, int(leaves), state, bool(was)) for payment, tx_id, text, lock, leaves, state, was in found]

    def add_payment(self, kind: str, name: Optional[str], lock: bytes, amount: int) -> int:
        """A payment without a transaction, and its number; within `change`."""
        values = (kind, name, lock, amount)
        made = self.opened().execute("INSERT INTO payments (kind, name, lock, amount) VALUES (?, ?, ?, ?)", values)
        assert made.lastrowid is not None
        return made.lastrowid

    def add_tx(self, payment: int, tx_id: bytes, text: bytes, lock: bytes, leaves: int) -> None:
        """One more transaction of a payment; within `change`."""
        made = (payment, tx_id, text, lock, str(leaves))
        self.opened().execute("INSERT INTO txs (payment, id, text, lock, leaves) VALUES (?, ?, ?, ?, ?)", made)

    def renew_tx(self, tx_id: bytes) -> None:
        """Makes a transaction the newest one; within `change`."""
        self.opened().execute("UPDATE txs SET number = (SELECT MAX(number) + 1 FROM txs) WHERE id = ?", (tx_id,))

    def note_state(self, tx_id: bytes, state: str) -> None:
        """What the program says of a transaction; within `change`."""
        now = (state, state == "accepted", tx_id)
        self.opened().execute("UPDATE txs SET state = ?, was_accepted = was_accepted OR ? WHERE id = ?", now)
