"""The calls of a ledger for asyncio.

    async with await Ledger.open("payments.journal", genesis([grant]), bits=8) as ledger:
        await ledger.offer(data)
        async for answer in ledger.offer_all(blocks): ...

Each ledger has one thread of its own, which makes the calls one after another, in the order in which they were
made; so any number of tasks may call it. A task that is cancelled while its call waits for its turn never sends
it. One that is cancelled while the program is at work stops waiting: the call goes on in the thread, its answer
is dropped, and the next call comes behind it. So answers never get mixed up, and a block whose offer was
cancelled may be kept, as when a program is interrupted anywhere. A call that hangs ends by its timeout.
"""

from __future__ import annotations

import asyncio
import concurrent.futures
import functools
import itertools
from typing import AsyncIterable, AsyncIterator, Callable, Iterable, List, Optional, TypeVar, Union

from . import ledger as plain
from .answers import Answered, Arrival, Balance, Report, State, Vote
from .blocks import Coin, Tx, block, genesis, lock_of, locked, mined, transaction
from .errors import Closed, Full, LedgerError, NotReached, Refused
from .feeds import Head
from .kept import Block, Entry
from .program import Path
from .talk import TIMEOUT

__all__ = ["Ledger", "genesis", "block", "mined", "transaction", "locked", "lock_of"]

Result = TypeVar("Result")
Blocks = Union[Iterable[bytes], AsyncIterable[bytes]]
AT_A_TIME = 256  # blocks that are handed to the thread together


class Ledger:
    """A journal with the program that keeps it: `zorimarl.ledger.Ledger`, call for call. It is made by `open`."""

    def __init__(self, thread: concurrent.futures.ThreadPoolExecutor, kept: plain.Ledger) -> None:
        self._thread, self._ledger = thread, kept

    @classmethod
    async def open(
        cls,
        file: Path,
        genesis: Optional[bytes] = None,
        bits: Optional[int] = None,
        profile: Optional[int] = None,
        fresh: bool = False,
        timeout: Optional[float] = TIMEOUT,
        program: Optional[Path] = None,
    ) -> "Ledger":
        """Starts the program, as `zorimarl.ledger.Ledger` does."""
        thread = concurrent.futures.ThreadPoolExecutor(1, "zorimarl")
        made = thread.submit(plain.Ledger, file, genesis, bits, profile, fresh, timeout, program)
        try:
            return cls(thread, await asyncio.shield(asyncio.wrap_future(made)))
        except BaseException:  # where it was cancelled, what it had started is ended once it is there
            made.add_done_callback(end)
            thread.shutdown(wait=False)
            raise

    async def _call(self, call: Callable[..., Result], *given: object) -> Result:
        try:
            waiting = self._thread.submit(functools.partial(call, *given))
        except RuntimeError:
            raise Closed("the ledger is closed", self._ledger.file) from None
        return await asyncio.wrap_future(waiting)

    # What it is

    @property
    def head(self) -> Head:
        return self._ledger.head

    @property
    def genesis_id(self) -> bytes:
        return self._ledger.genesis_id

    @property
    def bits(self) -> int:
        return self._ledger.bits

    @property
    def profile(self) -> int:
        return self._ledger.profile

    @property
    def is_open(self) -> bool:
        return self._ledger.is_open

    async def left(self) -> int:
        """How many more blocks can be kept."""
        return await self._call(lambda: self._ledger.left)

    async def full(self) -> bool:
        """Whether no other block can be kept."""
        return await self.left() == 0

    # Blocks

    async def offer(self, data: bytes, timeout: Optional[float] = None) -> Arrival:
        return await self._call(self._ledger.offer, data, timeout)

    async def offer_all(self, blocks: Blocks, timeout: Optional[float] = None) -> AsyncIterator[Answered]:
        """Sends blocks, and hands on each one's answer, in their order. They may come of an asynchronous source;
        what such a one has ready is sent together."""
        if isinstance(blocks, AsyncIterable):
            async for each in blocks:
                for answer in await self._call(self._offered, [each], timeout):
                    yield answer
            return
        source = iter(blocks)
        while part := list(itertools.islice(source, AT_A_TIME)):
            for answer in await self._call(self._offered, part, timeout):
                yield answer

    def _offered(self, blocks: List[bytes], timeout: Optional[float]) -> List[Answered]:
        return list(self._ledger.offer_all(blocks, timeout))

    async def mine(
        self, parents: Iterable[bytes], txs: Iterable[Tx] = (), salt: Optional[int] = None, timeout: Optional[float] = None
    ) -> bytes:
        return await self._call(self._ledger.mine, list(parents), list(txs), salt, timeout)

    async def wait(
        self, tx_id: bytes, word: str = "accepted", offers: Optional[AsyncIterable[bytes]] = None, timeout: Optional[float] = None
    ) -> State:
        """Offers the blocks that come until a transaction has this state. The time counts while none comes, too.
        `NotReached` where the blocks end first, or the time passes."""
        try:
            return await asyncio.wait_for(self._reached(tx_id, word, offers), timeout)
        except asyncio.TimeoutError:
            raise NotReached("the time has passed", self._ledger.file, f"waiting for {word} of {bytes(tx_id).hex()}") from None

    async def _reached(self, tx_id: bytes, word: str, offers: Optional[AsyncIterable[bytes]]) -> State:
        if offers is None:
            return await self._call(self._ledger.wait, tx_id, word)
        source, found = offers.__aiter__(), await self.tx(tx_id)
        while found.state != word:
            try:
                data = await source.__anext__()
            except StopAsyncIteration:
                return await self._call(self._ledger.wait, tx_id, word)
            offered = asyncio.ensure_future(self.offer(data))
            offered.add_done_callback(take)
            try:
                await asyncio.shield(offered)  # a block that was taken is offered, also where the time passes meanwhile
            except Full:
                raise
            except Refused:
                continue
            found = await self.tx(tx_id)
        return found

    # Questions

    async def vote(self, x: bytes, y: bytes, timeout: Optional[float] = None) -> Vote:
        return await self._call(self._ledger.vote, x, y, timeout)

    async def tx(self, tx_id: bytes, timeout: Optional[float] = None) -> State:
        return await self._call(self._ledger.tx, tx_id, timeout)

    async def balance(self, lock: bytes, timeout: Optional[float] = None) -> Balance:
        return await self._call(self._ledger.balance, lock, timeout)

    async def pairs(self, timeout: Optional[float] = None) -> List[Vote]:
        return await self._call(self._ledger.pairs, timeout)

    async def report(self, timeout: Optional[float] = None) -> Report:
        return await self._call(self._ledger.report, timeout)

    # What is kept

    async def blocks(self) -> List[Block]:
        return await self._call(self._ledger.blocks)

    async def block(self, block_id: bytes) -> Block:
        return await self._call(self._ledger.block, block_id)

    async def tips(self) -> List[Block]:
        return await self._call(self._ledger.tips)

    async def children(self, block_id: bytes) -> List[Block]:
        return await self._call(self._ledger.children, block_id)

    async def coins(self, lock: bytes, timeout: Optional[float] = None) -> List[Coin]:
        return await self._call(self._ledger.coins, lock, timeout)

    async def history(self, lock: bytes, timeout: Optional[float] = None) -> List[Entry]:
        return await self._call(self._ledger.history, lock, timeout)

    async def snapshot(self, target: Path) -> None:
        return await self._call(self._ledger.snapshot, target)

    async def export(self, profile: Optional[int] = None, timeout: Optional[float] = None) -> bytes:
        return await self._call(self._ledger.export, profile, timeout)

    async def use(self, call: Callable[[plain.Ledger], Result]) -> Result:
        """Any other call over the plain ledger, in this one's thread and turn: a wallet's, as
        `await ledger.use(lambda plain: wallet.pay(plain, lock, 40))`."""
        return await self._call(call, self._ledger)

    # The end, and after it

    async def reopen(self) -> List[Answered]:
        """Starts the program again where it has ended, and sends again what wasn't answered."""
        return await self._call(self._ledger.reopen)

    async def close(self, timeout: Optional[float] = None) -> None:
        """Ends the program, behind the calls that were made before, and the thread. It is closed for good:
        a new one is made by `open`."""
        try:
            await self._call(self._ledger.close, timeout)
        except Closed:
            pass
        finally:
            self._thread.shutdown(wait=False)

    async def __aenter__(self) -> "Ledger":
        return self

    async def __aexit__(self, kind: object, *_: object) -> None:
        if kind is None:
            await self.close()
            return
        try:
            await asyncio.shield(self.close())
        except LedgerError:  # the error that is under way says more
            pass


def take(offered: "asyncio.Future[Arrival]") -> None:
    """Takes an answer that nobody may wait for any more."""
    if not offered.cancelled():
        offered.exception()


def end(made: "concurrent.futures.Future[plain.Ledger]") -> None:
    """Ends a ledger that nobody waits for any more."""
    if not made.cancelled() and made.exception() is None:
        made.result().kill()
