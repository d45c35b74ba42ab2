"""What blocks change, as values, compared with the lines of `spectre watch`."""

from __future__ import annotations

from typing import List

import pytest
from hypothesis import HealthCheck, given, settings

from conftest import Opener
from drawn import WORDS, Drawn, ledgers
from samples import A, B, C, G, GRANT, ID_A, ID_B, REFUSED, START, TO_BOB, TO_CAROL, ran
from zorimarl import errors
from zorimarl.blocks import lock_of, read_block, sha256
from zorimarl.feeds import END, Head, block, feed, frame, head
from zorimarl.watch import BalanceChange, Held, Item, LockItem, PairItem, TxChange, TxItem, VoteChange, Watch, watch, word_of

FIRST = Head(1, 0, START)
ITEMS: List[Item] = [TxItem(TO_BOB.id), LockItem(lock_of(b"alice")), PairItem(ID_A, ID_B)]


def test_by_hand() -> None:
    """A pays Bob, B pays Carol, C stands on A: the block C decides for A."""
    found = list(watch(feed(FIRST, [A, B, C]), ITEMS))
    alice = lock_of(b"alice")
    assert [each[:-1] for each in found] == [
        (1, TO_BOB.id, "absent", "accepted"),
        (1, alice, 100, 0),
        (2, TO_BOB.id, "accepted", "rejected"),
        (2, alice, 0, 100),
        (2, ID_A, ID_B, "absent", "tie"),
        (3, TO_BOB.id, "rejected", "accepted"),
        (3, alice, 100, 0),
        (3, ID_A, ID_B, "tie", "before"),
        (ITEMS[0], 3, 3),
        (ITEMS[1], 3, 3),
        (ITEMS[2], 3, 2),
    ]
    assert [type(each) for each in found[3:6]] == [BalanceChange, VoteChange, TxChange] and type(found[-1]) is Held


def lines_of(data: bytes, items: List[Item]) -> List[str]:
    """The lines of the program on changes, and behind its end."""
    told = ran("watch", *map(word_of, items), given=data).decode().splitlines()
    return [line for line in told if " from " in line or line.startswith("held")]


@settings(max_examples=15, deadline=None, suppress_health_check=list(HealthCheck))
@given(ledgers())
def test_drawn(drawn: Drawn) -> None:
    txs = {tx.id: None for each in [drawn.genesis, *drawn.blocks] for tx in read_block(each).txs}
    blocks = [sha256(each) for each in drawn.blocks]
    items: List[Item] = [*map(TxItem, txs), *(LockItem(lock_of(word)) for word in WORDS)]
    items += [PairItem(x, y) for x, y in zip(blocks, blocks[1:])]
    data = feed(Head(1, 0, drawn.genesis), drawn.blocks)
    assert [each.line for each in watch(data, items[:64])] == lines_of(data, items[:64])


def test_one_by_one() -> None:
    """Blocks that come one by one, refused ones too; questions in a feed are left out."""
    refused = [data for data, _ in REFUSED][:6]
    given, told = [A, *refused, B, A, C, block(9, [bytes(32)])], []
    with Watch(FIRST, ITEMS) as run:
        for each in given:
            answer, changes = run.offer(each)
            assert isinstance(answer, errors.Refused) == (each in refused)
            told += [change.line for change in changes]
        told += [each.line for each in run.close()]
        assert run.close() == run.held
    data = head(START) + frame(b"P") + b"".join(frame(b"B", each[:65_537]) + frame(b"V", ID_A + ID_B) + frame(b"R") for each in given) + END
    assert told == lines_of(data, ITEMS) == [each.line for each in watch(data, ITEMS)]


def test_of_a_ledger(opened: Opener) -> None:
    with opened() as ledger:
        list(ledger.offer_all([A, B, C]))
        assert list(watch(ledger, ITEMS)) == list(watch(feed(FIRST, [A, B, C]), ITEMS))


def test_faults() -> None:
    for items in ([], [b"x"], [TxItem(b"x")], [LockItem(bytes([number] * 32)) for number in range(65)]):
        with pytest.raises(errors.NoRequest):
            list(watch(feed(FIRST, []), items))  # type: ignore[arg-type]
    with pytest.raises(errors.EndsEarly):
        list(watch(head(START), ITEMS))
    with pytest.raises(errors.NotThisForm):
        list(watch(b"SPCTRF09", ITEMS))
    with pytest.raises(errors.Malformed):
        Watch(Head(1, 0, b"none"), ITEMS)
    assert [type(each) for each in watch(feed(FIRST, []), [TxItem(GRANT.id), TxItem(GRANT.id), TxItem(TO_CAROL.id), PairItem(G, G)])] == [Held] * 3
