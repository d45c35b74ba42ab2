"""What the package works out of the kept blocks, compared with what the program says of drawn ledgers."""

from __future__ import annotations

import pathlib
import tempfile
from typing import Dict, List

import pytest
from hypothesis import HealthCheck, event, given, settings
from hypothesis import strategies as st

from conftest import Opener
from drawn import WORDS, Drawn, ledgers
from samples import A, B, C, G, GRANT, ID_A, ID_B, ID_C, START, TO_BOB, TO_CAROL, ran
from zorimarl import errors
from zorimarl.blocks import block, lock_of, read_block, sha256, transaction
from zorimarl.kept import Kept
from zorimarl.ledger import Ledger


def shown_of(ledger: Ledger) -> Dict[str, List[str]]:
    return {"tips": [each.id.hex() for each in ledger.tips()], "blocks": [each.id.hex() for each in ledger.blocks()]}


@settings(max_examples=60, deadline=None, suppress_health_check=list(HealthCheck))
@given(ledgers(), st.data())
def test_drawn(drawn: Drawn, data: st.DataObject) -> None:
    """Behind some of the blocks, and over the rest, too, once the journal was read: presence, tips, coins, history."""
    with tempfile.TemporaryDirectory() as folder, Ledger(pathlib.Path(folder) / "journal", drawn.genesis, 0) as ledger:
        cut = data.draw(st.integers(0, len(drawn.blocks)))
        for each in ledger.offer_all(drawn.blocks[:cut]):
            assert not isinstance(each, errors.Refused)
        same_as_told(ledger)
        for each in ledger.offer_all(drawn.blocks[cut:]):
            assert not isinstance(each, errors.Refused)
        assert [each.data for each in ledger.blocks()] == [drawn.genesis, *drawn.blocks]
        same_as_told(ledger)
        report = ledger.report()
        event(f"{min(len(report.accepted), 4)} accepted, {min(report.waiting, 2)} waiting")


def same_as_told(ledger: Ledger) -> None:
    """By the program's own answers, and by what they come to."""
    blocks = ledger.blocks()
    told = {each.id: ledger.vote(each.id, each.id).word for each in blocks}
    assert told == {each.id: "same" if each.present else "absent" for each in blocks}
    present = [each for each in blocks if each.present]
    tips = {each.id for each in present if not any(each.id in other.parents for other in present)}
    assert {each.id for each in ledger.tips()} == tips
    for each in blocks:
        assert {other.id for other in ledger.children(each.id)} == {other.id for other in blocks if each.id in other.parents}
    for word in WORDS:
        lock = lock_of(word)
        left = ledger.balance(lock).amount
        coins = ledger.coins(lock)
        assert sum(coin.amount for coin in coins) == left
        for coin in coins:
            assert ledger.tx(coin.tx).state == "accepted"
        history = ledger.history(lock)
        assert sum(each.received - each.spent for each in history if each.state == "accepted") == left
        assert all(ledger.tx(each.tx).state == each.state for each in history)


@settings(max_examples=25, deadline=None, suppress_health_check=list(HealthCheck))
@given(ledgers(6))
def test_coins_can_be_spent(drawn: Drawn) -> None:
    """Each coin, spent in a block on all tips, is accepted; and no other output of a present transaction is, but
    where it stood in the coins."""
    with tempfile.TemporaryDirectory() as folder, Ledger(pathlib.Path(folder) / "journal", drawn.genesis, 0) as ledger:
        list(ledger.offer_all(drawn.blocks))
        coins = [coin.opened_by(word) for word in WORDS for coin in ledger.coins(lock_of(word))]
        spends = [transaction([coin], [(coin.amount, b"new")]) for coin in coins]
        ledger.offer(ledger.mine([each.id for each in ledger.tips()], spends))
        assert [ledger.tx(each.id).state for each in spends] == ["accepted"] * len(spends)
        assert ledger.balance(lock_of(b"new")).amount == sum(coin.amount for coin in coins)
        assert all(ledger.coins(lock_of(word)) == [] for word in WORDS)


def test_by_hand(opened: Opener) -> None:
    """The double spend: A and its child C against B."""
    with opened() as ledger:
        for each in (C, B, A):
            ledger.offer(each)
        assert [(each.id, each.present) for each in ledger.blocks()] == [(G, True), (ID_C, True), (ID_B, True), (ID_A, True)]
        assert {each.id for each in ledger.tips()} == {ID_B, ID_C}
        assert [each.id for each in ledger.children(G)] == [ID_B, ID_A]
        assert ledger.block(ID_A).parents == [G] and ledger.block(ID_A).data == A
        assert [(coin.tx, coin.place, coin.amount) for coin in ledger.coins(lock_of(b"bob"))] == [(TO_BOB.id, 0, 100)]
        assert ledger.coins(lock_of(b"alice")) == [] == ledger.coins(lock_of(b"carol"))
        entries = [each[:4] for each in ledger.history(lock_of(b"alice"))]
        assert sorted(entries) == sorted([(GRANT.id, "accepted", 100, 0), (TO_BOB.id, "accepted", 0, 100), (TO_CAROL.id, "rejected", 0, 100)])
        with pytest.raises(errors.NoBlock):
            ledger.block(bytes(32))


def test_without_a_parent(opened: Opener) -> None:
    with opened() as ledger:
        ledger.offer(C)
        assert [each.id for each in ledger.children(ID_A)] == [ID_C]
        assert not ledger.block(ID_C).present and [each.id for each in ledger.tips()] == [G]
        with pytest.raises(errors.NoBlock):
            ledger.block(ID_A)


@pytest.mark.parametrize("seed", range(3))
def test_journals(opened: Opener, file: str, seed: int) -> None:
    """What stands in a journal is found at the start, in its order."""
    made = ran("build", given=ran("make", "40", str(seed), "4"))
    from zorimarl.feeds import read_feed

    first, frames = read_feed(made)
    blocks = [each.payload for each in frames if each.kind == b"B"]
    with opened(first.genesis) as ledger:
        list(ledger.offer_all(blocks[:20]))
    with Ledger(file) as ledger:
        before = shown_of(ledger)
        assert before["blocks"] == [read_block(each).id.hex() for each in [first.genesis, *blocks[:20]]]
        list(ledger.offer_all(blocks))
        assert shown_of(ledger)["blocks"] == [read_block(each).id.hex() for each in [first.genesis, *blocks]]
        kept = Kept(first.genesis, reversed(blocks))
        assert sorted(each.id for each in kept.tips()) == sorted(each.id for each in ledger.tips())


def test_a_journal_of_others(opened: Opener, file: str) -> None:
    """A journal that says something else than the program's report is told, and nothing is worked out of it."""
    with opened() as ledger:
        ledger.offer(A)
        data = pathlib.Path(file).read_bytes()
        pathlib.Path(file).write_bytes(data[: len(data) - len(A) - 6] + b"\0")
        with pytest.raises(errors.Misfit):
            ledger.coins(lock_of(b"bob"))
        pathlib.Path(file).write_bytes(data)


def test_long_chains_settle() -> None:
    """511 blocks that come in the worst order."""
    chain, last = [], sha256(START)
    for salt in range(511):
        chain.append(block(salt, [last]))
        last = sha256(chain[-1])
    kept = Kept(START, reversed(chain))
    assert len(kept.present) == 512 and [each.id for each in kept.tips()] == [last]
