"""Each answer and each refusal of a ledger is the program's."""

from __future__ import annotations

import copy
import pickle
from typing import Callable, List, Type

import pytest

from conftest import Opener
from samples import A, B, C, G, GRANT, ID_A, ID_B, ID_C, REFUSED, START, TO_BOB, TO_CAROL, ran, replayed
from zorimarl import errors
from zorimarl.blocks import EMPTY
from zorimarl.feeds import END, Cursor, block, frame, frames_of, head, lock_of, meets, read_head, sha256


def test_arrivals(opened: Opener) -> None:
    with opened() as ledger:
        waits = ledger.offer(C)
        assert (waits.block, waits.standing, waits.became) == (ID_C, "waiting", 0)
        came = ledger.offer(A)
        assert (came.block, came.standing, came.became) == (ID_A, "present", 2)
        again = ledger.offer(C)
        assert (again.block, again.standing, again.became) == (ID_C, "known", 0)
        told = [each.line for each in (waits, came, again)]
    assert told == replayed(head(START) + b"".join(frame(b"B", each) for each in (C, A, C)) + END)


@pytest.mark.parametrize("data, error", REFUSED, ids=[f"{each.__name__}-{len(data)}" for data, each in REFUSED])
def test_refusals(opened: Opener, data: bytes, error: Type[errors.Refused]) -> None:
    with opened() as ledger:
        with pytest.raises(errors.Refused) as caught:
            ledger.offer(data)
        assert type(caught.value) is error
        assert caught.value.answer == f"refused {error.why}" and caught.value.block == sha256(data[:65_537])
        assert str(caught.value).startswith(f"{ledger.file}: the offer of block {sha256(data[:65_537]).hex()}: `refused {error.why}`")
        assert [type(each) for each in ledger.offer_all([data])] == [error]
        assert ledger.report().present == 1


def test_each_refusal_is_tried() -> None:
    assert {error.why for _, error in REFUSED} | {"work"} == set(errors.REFUSALS)


def test_work(opened: Opener) -> None:
    with opened(EMPTY, bits=12) as ledger:
        made = ledger.mine([ledger.genesis_id], salt=7)
        assert meets(sha256(made), 12)
        assert ledger.offer(made).standing == "present"
        lazy = next(each for each in (block(salt, [ledger.genesis_id]) for salt in range(99)) if not meets(sha256(each), 12))
        with pytest.raises(errors.NoWork):
            ledger.offer(lazy)


def test_work_in_time(opened: Opener) -> None:
    with opened(EMPTY, bits=64) as ledger:
        with pytest.raises(errors.NotReached):
            ledger.mine([ledger.genesis_id], timeout=0.05)
        assert ledger.report().present == 1


def test_full(opened: Opener) -> None:
    with opened(EMPTY) as ledger:
        assert (ledger.left, ledger.full) == (511, False)
        assert {each.standing for each in ledger.offer_all(block(salt, [bytes(32)]) for salt in range(511))} == {"waiting"}  # type: ignore[union-attr]
        with pytest.raises(errors.Full):
            ledger.offer(block(511, [bytes(32)]))
        assert ledger.offer(block(0, [bytes(32)])).standing == "known"
        assert ledger.report()[:2] == (1, 511)
        assert (ledger.left, ledger.full) == (0, True)
        assert len(ledger.blocks()) == 512


def test_votes(opened: Opener) -> None:
    with opened() as ledger:
        assert ledger.vote(ID_A, ID_B).word == "absent"
        ledger.offer(A), ledger.offer(B)
        assert ledger.vote(ID_A, ID_B).word == "tie"
        ledger.offer(C)
        assert ledger.vote(ID_A, ID_B)[:3] == (ID_A, ID_B, "before")
        assert ledger.vote(ID_B, ID_A).word == "after"
        assert ledger.vote(ID_B, ID_B).word == "same"


@pytest.mark.parametrize("name", [b"short", b"", bytes(33), "a" * 32, None, 7])
def test_no_ids(opened: Opener, name: bytes) -> None:
    """What isn't 32 bytes is never sent, and is an error of the package."""
    with opened() as ledger:
        asks: List[Callable[[bytes], object]] = [ledger.tx, ledger.balance, ledger.block, ledger.children, ledger.coins, ledger.history]
        for ask in asks:
            with pytest.raises(errors.NoRequest):
                ask(name)
        with pytest.raises(errors.NoRequest):
            ledger.vote(ID_A, name)
        with pytest.raises(errors.LedgerError):
            ledger.mine([name])
        assert ledger.report().present == 1


def test_pairs(opened: Opener) -> None:
    with opened() as ledger:
        assert ledger.pairs() == []
        for each in (A, B, C):
            ledger.offer(each)
        found = ledger.pairs()
        ids = sorted([G, ID_A, ID_B, ID_C])
        assert [each[:2] for each in found] == [(x, y) for at, x in enumerate(ids) for y in ids[at + 1 :]]
        assert [each.word for each in found] == [ledger.vote(each.x, each.y).word for each in found]


def test_payments(opened: Opener) -> None:
    with opened() as ledger:
        assert ledger.tx(TO_BOB.id).state == "absent"
        ledger.offer(A), ledger.offer(B)
        assert [ledger.tx(each.id).state for each in (GRANT, TO_BOB, TO_CAROL)] == ["accepted", "rejected", "rejected"]
        assert ledger.balance(lock_of(b"alice"))[:2] == (lock_of(b"alice"), 100)
        ledger.offer(C)
        assert [ledger.tx(each.id).state for each in (GRANT, TO_BOB, TO_CAROL)] == ["accepted", "accepted", "rejected"]
        assert [ledger.balance(lock_of(each)).amount for each in (b"alice", b"bob", b"carol")] == [0, 100, 0]
        report = ledger.report()
    assert (report.present, report.waiting) == (4, 0)
    assert report.accepted == tuple(sorted([GRANT.id, TO_BOB.id]))
    assert report.balances == {lock_of(b"bob"): 100}


def test_of_many(opened: Opener) -> None:
    """A graph of 60 blocks: the answers through the ledger are those of `replay`."""
    built = ran("build", given=ran("make", "60", "7", "4"))
    cursor = Cursor(built)
    first = read_head(cursor)
    blocks = [each.payload for each in frames_of(cursor)]
    with opened(first.genesis) as ledger:
        told = [ledger.offer(each).line for each in blocks] + [each.line for each in ledger.pairs()]
        report = ledger.report()
    lines = replayed(built[:-5] + frame(b"P") + frame(b"R") + END)
    assert told == [line for line in lines if line.startswith(("kept", "vote"))]
    assert [f"tx {each.hex()} accepted" for each in report.accepted] == [line for line in lines if line.startswith("tx")]
    told = [f"balance {lock.hex()} {amount}" for lock, amount in report.balances.items()]
    assert told == [line for line in lines if line.startswith("balance ")]


def every_error() -> list[errors.LedgerError]:
    made: list[errors.LedgerError] = [errors.NotThisForm("what", 3), errors.Full("full", b"x"), errors.NoRequest("what", "file", "request", "answer")]
    return made + [errors.ended(code, "fault malformed 7", b"cut", "said") for code in errors.CODES]


@pytest.mark.parametrize("error", every_error(), ids=lambda each: type(each).__name__)
def test_errors_are_values(error: errors.LedgerError) -> None:
    """They can be copied, and sent to another process, with all that they say."""
    error.at("file", "request")
    for again in (copy.copy(error), pickle.loads(pickle.dumps(error))):
        assert type(again) is type(error) and str(again) == str(error) and vars(again) == vars(error)
