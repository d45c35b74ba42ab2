"""A ledger's run of the program: its start, its end, and its start again.

`zorimarl.ledger.Ledger` is a `Session` with the calls of a ledger.
"""

from __future__ import annotations

import collections
import os
from types import TracebackType
from typing import Deque, List, Optional, Sequence, Type, TypeVar

from . import answers, files
from .answers import Answered
from .blocks import EMPTY, number_of, read_block, sha256
from .errors import FileFault, InUse, LedgerError, NoGenesis, NoRequest, NotThisForm
from .feeds import MOST_BITS, Head, head
from .pipe import Pipe
from .program import Path, Program, file_name, held, is_file, name_of, ready
from .talk import TIMEOUT, Talk

Opened = TypeVar("Opened", bound="Session")


class Session:
    """A run of `spectre node` over a journal, and what is on its way to it."""

    def __init__(
        self,
        file: Path,
        genesis: Optional[bytes] = None,
        bits: Optional[int] = None,
        profile: Optional[int] = None,
        fresh: bool = False,
        timeout: Optional[float] = TIMEOUT,
        program: Optional[Path] = None,
    ) -> None:
        self.file = file_name(file)
        self.path = os.path.abspath(self.file) if is_file(self.file) else self.file
        self.timeout, self.program, self.fresh = timeout, program, fresh
        self.head = self._head(genesis, bits, profile)
        self.genesis_id = sha256(self.head.genesis)
        self.talk = self._start()
        self._pipe = Pipe(self.talk)

    def _head(self, genesis: Optional[bytes], bits: Optional[int], profile: Optional[int]) -> Head:
        """The head of the feed that is sent: what was given, and else what the journal has."""
        try:
            found = files.found_head(self.path)
            if genesis is None and (found is None or self.fresh and found.genesis == EMPTY):
                raise NoGenesis("it holds no journal, so a genesis block has to be named")
            first = found or Head(1, 0, EMPTY)
            made = Head(
                first.profile if profile is None else profile,
                first.bits if bits is None else number_of(bits, MOST_BITS, "the bits of work"),
                first.genesis if genesis is None else genesis_of(genesis),
            )
            head(made.genesis, made.bits, made.profile)  # refuses what has no room there
        except LedgerError as why:
            raise why.at(self.file, "the start")
        return made

    def _start(self) -> Talk:
        """The program, once it has told that it is at work."""
        try:
            program = ready(self.program)
            opened = held(self.path, program)
        except LedgerError as why:
            raise why.at(self.file, "the start")
        if opened:
            try:
                return self._begin(program, opened)
            except InUse:  # a launcher by a name that isn't known as one: it takes the lock itself
                pass
        return self._begin(program, [])

    def _begin(self, program: Program, opened: Sequence[int]) -> Talk:
        name = name_of(self.path, opened)
        try:
            talk = Talk(["node", *(["--fresh"] if self.fresh else []), name], self.timeout, opened, program, self.file)
        finally:
            for each in opened:  # the program has it now
                os.close(each)
        talk.send(head(self.head.genesis, self.head.bits, self.head.profile))
        answers.vote(talk, self.genesis_id, self.genesis_id)  # the start is over once this is answered
        return talk

    # What it is

    @property
    def bits(self) -> int:
        """The bits of work that a block's id has to meet."""
        return self.head.bits

    @property
    def profile(self) -> int:
        """1 or 2: the rule on ties."""
        return self.head.profile

    @property
    def is_open(self) -> bool:
        return not self.talk.is_over

    def _settled(self) -> Talk:
        """The program, with nothing on its way."""
        self._pipe.settle()
        return self.talk

    # The end, and after it

    def close(self, timeout: Optional[float] = None) -> None:
        """Ends the program. Where it doesn't end well, that is the error. A ledger that is closed already
        stays so."""
        if self.is_open:
            left = self._settled().finish(timeout)
            if left:
                raise self.talk.unexpected(left[0], "the end")

    def kill(self) -> None:
        """Ends the program at once. What was acknowledged stands in the journal."""
        self.talk.kill()

    def reopen(self) -> List[Answered]:
        """Starts the program again over the same journal, where it has ended, and sends again each block that
        wasn't answered: these are the answers, in their order. One that had come to stand in the journal is
        `known`. What the program ends with again is the error, and `reopen` can be called once more."""
        if self.is_open:
            return []
        if files.found_head(self.path) is None:
            raise FileFault("the journal isn't there any more", self.file, "the start")
        before, again = self._pipe, collections.deque()  # type: Pipe, Deque[Answered]
        self.talk = self._start()
        self._pipe = Pipe(self.talk)
        for each in before.unanswered():
            self._pipe.send(each, again)
        self._pipe.settle()
        return list(again)

    def __enter__(self: Opened) -> Opened:
        return self

    def __exit__(self, kind: Optional[Type[BaseException]], error: Optional[BaseException], _: Optional[TracebackType]) -> None:
        if kind is None:
            self.close()
        elif self.is_open:
            try:
                self.close()
            except LedgerError:  # the error that is under way says more
                pass


def genesis_of(data: bytes) -> bytes:
    """The bytes of a genesis block, as far as its form goes."""
    try:
        read_block(data)
    except (NotThisForm, NoRequest) as why:
        raise NoGenesis(f"what is given as the genesis block is none: {why}") from None
    return bytes(data)
