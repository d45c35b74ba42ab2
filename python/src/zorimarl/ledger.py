"""A node and its journal, for programs in Python.

    from zorimarl.ledger import Ledger, genesis, transaction
    with Ledger("payments.journal", genesis([transaction([], [(100, b"alice")])]), bits=8) as ledger:
        ledger.offer(ledger.mine([ledger.genesis_id]))
        print(ledger.report())

`Ledger` keeps `spectre node FILE` as a co-process over pipes. A block for which `offer` answers was acknowledged:
it stands in FILE, and the next start finds it, however the program or the machine ends. What is refused, each
fault line and each exit code has an error of its own (`zorimarl.errors`). Votes, states, balances and reports are
lines of the program (`zorimarl.answers`); `tips`, `children`, `coins` and `history` are worked out here of the
program's report and of the kept blocks (`zorimarl.kept`), and so is which of these are present. Ids and locks are
32 bytes, amounts whole numbers, times seconds.

This module is outside of what is proved: see docs/USE.md of the repository.
"""

from __future__ import annotations

import os
import secrets
import tempfile
import time
from typing import Iterable, Iterator, List, Optional

from . import answers, files, runs
from .answers import Answered, Arrival, Balance, Report, State, Vote
from .blocks import MOST_BLOCKS, Coin, Tx, block, genesis, id_of, lock_of, locked, mined, transaction
from .errors import Full, Misfit, NoRequest, NotReached, Refused
from .feeds import PROFILES
from .kept import Block, Entry, Kept
from .program import Path
from .session import Session

__all__ = ["Ledger", "genesis", "block", "mined", "transaction", "locked", "lock_of"]

STATES = ("accepted", "rejected", "absent")
NONCES = 1 << 13  # that are tried between two looks at the time
PAUSE = 0.02  # seconds, where no block has come


class Ledger(Session):
    """A journal with the program that keeps it.

    `genesis` is the genesis block's bytes, and `bits` the bits of work; where FILE holds a journal already
    they may be left out, and where they are given they have to be the journal's. `fresh` makes a new journal
    over other bytes, never over a journal. `timeout` is how many seconds a call may take, and each call takes
    a `timeout` of its own; where it passes, the program is killed, and the call is a `NoAnswer`. `program` is
    the program or its launcher, where it isn't to be looked for.

    While a ledger is open no other call uses its file, be it one of a launcher or of this class: that is
    `InUse`. It is for one thread at a time; `zorimarl.aio` has the form for asyncio. A call that is interrupted
    (by Ctrl-C) ends the program, and `reopen` goes on.
    """

    @property
    def left(self) -> int:
        """How many more blocks can be kept. The program's report says how many are."""
        found = self.report()
        return MOST_BLOCKS - found.present - found.waiting

    @property
    def full(self) -> bool:
        """Whether no other block can be kept."""
        return self.left == 0

    # Blocks

    def offer(self, data: bytes, timeout: Optional[float] = None) -> Arrival:
        """Sends a block's bytes. Once this answers, the block is in the journal. A block that isn't kept is a
        `Refused`, each reason a class of its own."""
        found = self._pipe.one(data, timeout)
        if isinstance(found, Refused):
            raise found
        return found

    def offer_all(self, blocks: Iterable[bytes], timeout: Optional[float] = None) -> Iterator[Answered]:
        """Sends blocks one behind the other, and hands on each one's answer, in their order: an `Arrival`, or the
        `Refused` that `offer` would raise. Blocks are taken ahead of the answers, some thousands or a megabyte
        of them; where the next block isn't there at once, the answers come first. The ledger can be asked
        in between. `timeout` is for each answer."""
        return self._pipe.all(blocks, timeout)

    def mine(
        self, parents: Iterable[bytes], txs: Iterable[Tx] = (), salt: Optional[int] = None, timeout: Optional[float] = None
    ) -> bytes:
        """The bytes of a block on these ones that meets the work, with a random salt where none is given. It
        isn't sent. Each bit doubles the time; 16 take some tenths of a second. `NotReached` where the time passes."""
        made = block(secrets.randbits(64) if salt is None else salt, parents, txs)
        until, first = self.talk.deadline(timeout), 0
        while True:
            done = mined(made, self.bits, NONCES, first)
            if done is not None:
                return done
            first += NONCES
            if until is not None and time.monotonic() > until:
                raise NotReached(f"none of {first} nonces meets {self.bits} bits of work, and the time has passed", self.file, "a block's work")

    def wait(
        self, tx_id: bytes, word: str = "accepted", offers: Iterable[Optional[bytes]] = (), timeout: Optional[float] = None
    ) -> State:
        """Offers the blocks that come, one by one, until a transaction is `accepted`, `rejected` or `absent`, as
        `word` says, and answers its state. A source that has no block just now gives None. Blocks that are
        refused are passed over; `Full` is an error, since nothing changes then. `NotReached` where the blocks
        end first, or the time passes, which is looked at between two blocks."""
        if word not in STATES:
            raise NoRequest(f"a state is one of {', '.join(STATES)}, and `{word!r:.80}` was given", self.file, "a wait")
        until, count, found = self.talk.deadline(timeout), 0, self.tx(tx_id)
        source, why = iter(offers), ""
        while found.state != word:
            data = None
            if until is not None and time.monotonic() > until:
                why = "the time has passed"
            else:
                try:
                    data = next(source)
                except StopIteration:
                    why = "no other block comes"
            if why:
                raise NotReached(f"it is {found.state} behind {count} blocks, and {why}", self.file, f"waiting for {word} of {found.tx.hex()}")
            if data is None:
                time.sleep(PAUSE)
                continue
            count += 1
            if self._brings(data):
                found = self.tx(tx_id)
        return found

    def _brings(self, data: bytes) -> bool:
        """Offers a block, and says whether any became present with it."""
        try:
            return self.offer(data).became > 0
        except Full:
            raise
        except Refused:
            return False

    # Questions

    def vote(self, x: bytes, y: bytes, timeout: Optional[float] = None) -> Vote:
        """What is said of the order of two blocks."""
        return answers.vote(self._settled(), id_of(x), id_of(y), timeout)

    def tx(self, tx_id: bytes, timeout: Optional[float] = None) -> State:
        """The state of a transaction."""
        return answers.tx_states(self._settled(), [id_of(tx_id)], timeout)[0]

    def balance(self, lock: bytes, timeout: Optional[float] = None) -> Balance:
        """What is left under a lock (`lock_of(word)` is that of a word)."""
        return answers.balances(self._settled(), [id_of(lock)], timeout)[0]

    def pairs(self, timeout: Optional[float] = None) -> List[Vote]:
        """All pairs of different present blocks."""
        return answers.pairs(self._settled(), timeout)

    def report(self, timeout: Optional[float] = None) -> Report:
        """How many blocks are present and wait, what is accepted, and what is left."""
        return answers.report(self._settled(), timeout)

    # What is kept

    def blocks(self) -> List[Block]:
        """The kept blocks in the order in which they were kept, genesis first: those of the journal, and those
        offered since. Which of them are present is worked out here."""
        return self._blocks().blocks()

    def block(self, block_id: bytes) -> Block:
        """A kept block. `NoBlock` where none has this id."""
        return self._blocks().block(id_of(block_id))

    def tips(self) -> List[Block]:
        """The present blocks on which no present one stands, as worked out here of the kept blocks."""
        return self._blocks().tips()

    def children(self, block_id: bytes) -> List[Block]:
        """The kept blocks that have this one among their parents, as worked out here. The block itself needn't be kept."""
        return self._blocks().children(id_of(block_id))

    def coins(self, lock: bytes, timeout: Optional[float] = None) -> List[Coin]:
        """The unspent outputs under a lock, by their outpoints. It is worked out here: the outputs of the
        transactions that the program's report accepts, without those that one of them spends. Together they
        come to the program's balance. `coin.opened_by(word)` is one that can be spent."""
        lock = id_of(lock)
        return self._reported(found := self.report(timeout)).coins(lock, found.accepted)

    def history(self, lock: bytes, timeout: Optional[float] = None) -> List[Entry]:
        """The transactions of present blocks that pay to a lock or spend from it, in the order in which these
        blocks became present. What each receives and spends is worked out here; its state is the program's."""
        lock = id_of(lock)
        return self._reported(found := self.report(timeout)).history(lock, found.accepted)

    def _blocks(self) -> Kept:
        self._settled()
        if not self.is_open:
            self.talk.send(b"")  # tells that it is closed
        if self._pipe.kept is None:
            journal = files.journal_in(self.path)
            self._pipe.kept = Kept(journal.head.genesis, journal.blocks)
        return self._pipe.kept

    def _reported(self, report: Report) -> Kept:
        """The kept blocks, which have to be as many as the program reports."""
        kept = self._blocks()
        here = len(kept.present), len(kept) - len(kept.present)
        if here != (report.present, report.waiting):
            told = f"{report.present} blocks are present and {report.waiting} wait by the report, and by the journal {here[0]} and {here[1]}"
            raise Misfit(told, self.file, "the report")
        return kept

    # Copies

    def snapshot(self, target: Path) -> None:
        """Copies the journal while the ledger is open, as `spectre snapshot FILE COPY` does: the copy is a
        journal with each block whose offer was answered. It takes the place of no other file."""
        self._settled()
        files.copy(self.path, target)

    def export(self, profile: Optional[int] = None, timeout: Optional[float] = None) -> bytes:
        """The feed of the kept blocks, in this profile or in the ledger's own, as `spectre export` writes it
        for a copy of the journal."""
        profile = self.profile if profile is None else profile
        if profile not in PROFILES:
            raise NoRequest(f"a profile is {' or '.join(map(str, PROFILES))}, and `{profile!r:.80}` was given", self.file, "the export")
        with tempfile.TemporaryDirectory(prefix="zorimarl.") as folder:
            copy = os.path.join(folder, "journal")
            self.snapshot(copy)
            return runs.run(["export", copy, str(profile)], b"", "the export", timeout, self.program)
