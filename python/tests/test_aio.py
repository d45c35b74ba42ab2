"""The form for asyncio: the same answers, and nothing mixed up by tasks that are cancelled."""

from __future__ import annotations

import asyncio
import os
import random
import signal
import threading
from typing import AsyncIterator, Coroutine, List

import pytest

from samples import A, B, C, G, GRANT, ID_A, ID_B, ID_C, START, TO_BOB, TO_CAROL, instead
from test_leaks import children, descriptors
from zorimarl import aio, errors
from zorimarl.feeds import block, genesis, locked, lock_of, read_feed
from zorimarl.ledger import Ledger
from zorimarl.wallet import Wallet


def run(main: Coroutine[object, object, None]) -> None:
    asyncio.run(main)


async def blocks_of(*blocks: bytes, pause: float = 0.0) -> AsyncIterator[bytes]:
    for each in blocks:
        await asyncio.sleep(pause)
        yield each


def test_a_wallet_in_its_turn(file: str, tmp_path: os.PathLike[str]) -> None:
    with Wallet.create(os.path.join(tmp_path, "alice.wallet")) as alice, Wallet.create(os.path.join(tmp_path, "bob.wallet")) as bob:
        start = genesis([locked([], [(100, alice.receive())])])

        async def main() -> None:
            async with await aio.Ledger.open(file, start, 0) as ledger:
                payment = await ledger.use(lambda plain: alice.pay(plain, bob.receive(), 70))
                await ledger.offer(await ledger.mine([ledger.genesis_id], [payment.tx]))
                assert (await ledger.use(lambda plain: alice.payment(payment.number, plain))).state == "accepted"
                assert (await ledger.use(bob.balance)).spendable == 70

        run(main())


def test_the_same_calls(file: str, tmp_path: os.PathLike[str]) -> None:
    async def main() -> None:
        async with await aio.Ledger.open(file, START, 0) as ledger:
            assert (await ledger.offer(A)).standing == "present"
            with pytest.raises(errors.BlockShort):
                await ledger.offer(b"")
            assert [type(each).__name__ async for each in ledger.offer_all([B, b"", C])] == ["Arrival", "BlockShort", "Arrival"]
            assert [each.standing async for each in ledger.offer_all(blocks_of(A, B))] == ["known", "known"]  # type: ignore[union-attr]
            assert (await ledger.vote(ID_A, ID_B)).word == "before"
            assert (await ledger.tx(TO_BOB.id)).state == "accepted"
            assert (await ledger.balance(lock_of(b"bob"))).amount == 100
            assert len(await ledger.pairs()) == 6 and (await ledger.report()).present == 4
            assert [each.id for each in await ledger.blocks()] == [G, ID_A, ID_B, ID_C]
            assert (await ledger.block(ID_A)).data == A and {each.id for each in await ledger.tips()} == {ID_B, ID_C}
            assert [each.id for each in await ledger.children(ID_A)] == [ID_C]
            assert [each.amount for each in await ledger.coins(lock_of(b"bob"))] == [100]
            assert {each.tx for each in await ledger.history(lock_of(b"alice"))} == {GRANT.id, TO_BOB.id, TO_CAROL.id}
            assert (await ledger.left(), await ledger.full()) == (508, False)
            await ledger.snapshot(os.path.join(tmp_path, "copy"))
            assert len(read_feed(await ledger.export())[1]) == 3
            assert (await ledger.offer(await ledger.mine([ID_C]))).standing == "present"
            assert (ledger.genesis_id, ledger.bits, ledger.profile, ledger.head.genesis, ledger.is_open) == (G, 0, 1, START, True)
        assert not ledger.is_open
        with pytest.raises(errors.Closed):
            await ledger.report()
        await ledger.close()

    run(main())
    with Ledger(os.path.join(tmp_path, "copy")) as copied:
        assert copied.report().present == 4


def test_every_call_is_there() -> None:
    """What `Ledger` has, this one has, by the same names; `kill` alone is the plain one's."""
    plain = {name for name in dir(Ledger) if not name.startswith("_")} - {"kill"}
    assert plain <= {name for name in dir(aio.Ledger) if not name.startswith("_")}


def test_many_tasks(file: str) -> None:
    async def main() -> None:
        async with await aio.Ledger.open(file, START, 0) as ledger:
            made = [block(salt, [G]) for salt in range(40)]
            found = await asyncio.gather(*(ledger.offer(each) for each in made), *(ledger.vote(G, G) for _ in made))
            assert [each.line.split(" ")[0] for each in found] == ["kept"] * 40 + ["vote"] * 40
            assert (await ledger.report()).present == 41

    run(main())


def test_cancelled(file: str) -> None:
    """Tasks are cancelled at any moment; each answer that comes is to its own question, and close works."""
    async def ask(ledger: aio.Ledger, number: int) -> None:
        made = block(number, [G])
        found = await ledger.offer(made)
        assert (await ledger.vote(found.block, G)).x == found.block
        assert (await ledger.tx(TO_BOB.id)).tx == TO_BOB.id

    async def main() -> None:
        drawn = random.Random(5)
        async with await aio.Ledger.open(file, START, 0) as ledger:
            for round_ in range(12):
                tasks = [asyncio.ensure_future(ask(ledger, 20 * round_ + number)) for number in range(20)]
                await asyncio.sleep(drawn.random() * 0.1)
                for each in drawn.sample(tasks, 12):
                    each.cancel()
                done = await asyncio.gather(*tasks, return_exceptions=True)
                assert all(each is None or isinstance(each, asyncio.CancelledError) for each in done)
            assert (await ledger.vote(G, G)).word == "same"
            report, kept = await ledger.report(), await ledger.blocks()
            assert report.present == len(kept)

    run(main())


def test_cancelled_while_it_opens(file: str) -> None:
    before = descriptors(), children()

    async def main() -> None:
        for pause in (0.0, 0.001, 0.01, 0.05):
            task = asyncio.ensure_future(aio.Ledger.open(file, START, 0))
            await asyncio.sleep(pause)
            task.cancel()
            try:
                await (await task).close()
            except asyncio.CancelledError:
                pass
            for _ in range(200):  # what was started is ended soon
                if children() == before[1] and threading.active_count() == 1:
                    break
                await asyncio.sleep(0.05)
            assert children() == before[1]
        async with await aio.Ledger.open(file, START, 0) as ledger:
            assert (await ledger.report()).present == 1

    run(main())
    assert (descriptors(), children()) == before


def test_waiting(file: str) -> None:
    async def main() -> None:
        async with await aio.Ledger.open(file, START, 0) as ledger:
            with pytest.raises(errors.NotReached):
                await ledger.wait(TO_BOB.id, "accepted", timeout=5)
            with pytest.raises(errors.NotReached):
                await ledger.wait(TO_BOB.id, "accepted", blocks_of(B, pause=3), timeout=0.1)
            found = await ledger.wait(TO_BOB.id, "rejected", blocks_of(A, b"", B, C), timeout=300)
            assert found.state == "rejected" and (await ledger.report()).present == 3
            assert (await ledger.wait(TO_BOB.id, "accepted", blocks_of(C))).state == "accepted"
            with pytest.raises(errors.NoRequest):
                await ledger.wait(TO_BOB.id, "sure", blocks_of(C))

    run(main())


def test_killed(file: str) -> None:
    async def main() -> None:
        ledger = await aio.Ledger.open(file, START, 0)
        await ledger.offer(A)
        os.kill(ledger._ledger.talk.process.pid, signal.SIGKILL)
        with pytest.raises(errors.Killed):
            await ledger.offer(B)
        (again,) = await ledger.reopen()
        assert not isinstance(again, errors.Refused) and again.block == ID_B
        with pytest.raises(KeyError):
            async with ledger:
                raise KeyError
        assert not ledger.is_open

    run(main())


def test_errors_of_the_start(file: str) -> None:
    async def main() -> None:
        with pytest.raises(errors.NoGenesis):
            await aio.Ledger.open(file)
        with instead("exec sleep 9"), pytest.raises(errors.NoAnswer):
            await aio.Ledger.open(file, START, 0, timeout=0.2)

    before: List[object] = [descriptors(), children()]
    run(main())
    assert [descriptors(), children()] == before


def test_waiting_without_asyncio(file: str) -> None:
    with Ledger(file, START, 0) as ledger:
        assert ledger.wait(GRANT.id).state == "accepted"
        with pytest.raises(errors.NotReached):
            ledger.wait(TO_BOB.id, "accepted", [b"", None, B], timeout=60)
        assert ledger.wait(TO_BOB.id, "rejected", [None, A, C]).state == "rejected" and ledger.report().present == 3
        assert ledger.wait(TO_BOB.id, "accepted", [C]).state == "accepted"
        with pytest.raises(errors.NotReached):
            ledger.wait(TO_BOB.id, "absent", iter(lambda: None, 0), timeout=0.1)
        with pytest.raises(errors.NoRequest):
            ledger.wait(TO_BOB.id, "sure")
