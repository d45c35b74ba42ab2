"""The bytes of transactions, blocks, feeds, journals and certificates: made, read, and refused at a place."""

from __future__ import annotations

from typing import Callable, List, Type

import pytest
from hypothesis import given
from hypothesis import strategies as st

from samples import A, B, G, GRANT, ID_A, ID_B, START, ran
from zorimarl import errors
from zorimarl.feeds import (
    EMPTY,
    END,
    Coin,
    Cursor,
    Frame,
    Head,
    block,
    feed,
    frame,
    genesis,
    head,
    lock_of,
    locked,
    meets,
    mined,
    read_block,
    read_certificate,
    read_feed,
    read_frame,
    read_head,
    read_journal,
    read_tx,
    sha256,
    spelled,
    transaction,
)

TX_MOST = 2_210
# The journal that docs/FORMATS.md spells.
JOURNAL = bytes.fromhex(
    "a5 53 50 43 54 52 4a 30 31 00 14 00 00 00 01 00"
    "00 00 00 00 00 00 00 00 00 00 00 00 00 00 00 00"
    "00 00 a5 34 00 00 00 01 01 00 00 00 00 00 00 00"
    "00 00 00 00 00 00 00 00 01 21 fc 3f 95 5c 14 30"
    "5e d6 6b 2f 60 64 de 08 2e 84 47 f2 90 48 da 3a"
    "b7 c5 c0 10 90 c1 b7 22 ab 00 00 00"
)
ids = st.binary(min_size=32, max_size=32)
u64s = st.integers(0, 2**64 - 1)
coins = st.builds(Coin, ids, st.integers(0, 255), st.just(0), st.binary(min_size=1, max_size=64))
txs = st.builds(locked, st.lists(coins, max_size=4), st.lists(st.tuples(u64s, ids), max_size=4))
heads = st.builds(Head, st.sampled_from([1, 2]), st.integers(0, 64), st.binary(max_size=200))


def test_vectors() -> None:
    """Those of docs/FORMATS.md."""
    grant = transaction([], [(100, b"abc")])
    lock = "ba7816bf8f01cfea414140de5dae2223b00361a396177a9cb410ff61f20015ad"
    assert grant.text.hex() == "00016400000000000000" + lock
    assert genesis([grant]).hex() == "01" + "00" * 17 + "0100" + grant.text.hex()
    assert EMPTY.hex() == "01" + "00" * 19
    assert lock_of(b"abc").hex() == lock
    assert locked([], [(100, lock_of(b"abc"))]).text == grant.text
    assert (head(EMPTY) + END).hex() == "5350435452463031" + "00" + "4214000000" + EMPTY.hex() + "4500000000"


def test_the_journal_of_the_document() -> None:
    """92 bytes: the smallest genesis block, and on it a block with the salt 1."""
    assert len(JOURNAL) == 92
    assert read_journal(JOURNAL) == (Head(1, 0, EMPTY), [block(1, [sha256(EMPTY)])])


def test_mined() -> None:
    made = mined(block(5, [bytes(32)]), 10)
    assert made and meets(sha256(made), 10)
    assert (made[:9], made[17:]) == (block(5, [bytes(32)])[:9], block(5, [bytes(32)])[17:])
    assert mined(block(5, [bytes(32)]), 64, tries=3) is None
    nonce = read_block(made).nonce
    assert mined(made, 10, nonce) is None and mined(made, 10, nonce + 1) == made == mined(made, 10, 1, nonce)


def test_longest() -> None:
    pays = [(1, b"%d" % number) for number in range(16)]
    coins = [transaction([], [(1, b"w" * 64)] * 16).coins[place] for place in range(16)]
    assert len(transaction(coins, pays).text) == TX_MOST


@given(u64s, u64s, st.lists(ids, max_size=5), st.lists(txs, max_size=4))
def test_blocks_read_as_made(salt: int, nonce: int, parents: List[bytes], carried: List[object]) -> None:
    made = spelled(salt, nonce, parents, [each.text for each in carried])  # type: ignore[attr-defined]
    found = read_block(made)
    assert (found.id, found.salt, found.nonce, found.parents) == (sha256(made), salt, nonce, parents)
    assert [each.id for each in found.txs] == [each.id for each in carried]  # type: ignore[attr-defined]
    for tx, was in zip(found.txs, carried):
        assert [(each.tx, each.place) for each in tx.inputs] == was.spent  # type: ignore[attr-defined]
        assert [each.amount for each in tx.outputs] == [each.amount for each in was.coins]  # type: ignore[attr-defined]


@given(heads, st.lists(st.binary(max_size=200), max_size=5))
def test_feeds_read_as_made(first: Head, blocks: List[bytes]) -> None:
    made = feed(first, blocks)
    found, frames = read_feed(made + b"what follows the end")
    assert found == first and [each.payload for each in frames] == blocks
    assert all(made[each.place : each.place + 1] == b"B" for each in frames)


READERS = [read_block, read_feed, read_journal, read_certificate]
BEGINNINGS = [b"", A, head(START), JOURNAL[:40], b"SPCTRC01\x01\x01\0"]


@given(st.sampled_from(READERS), st.binary(max_size=300), st.sampled_from(BEGINNINGS))
def test_any_bytes(read: Callable[[bytes], object], data: bytes, before: bytes) -> None:
    """No bytes are the cause of another error, and the place lies within them."""
    try:
        read(before + data)
    except errors.NotThisForm as why:
        assert 0 <= why.place <= len(before + data)
        assert str(why)


@given(st.integers(0, len(A) - 1))
def test_cut_blocks(size: int) -> None:
    with pytest.raises(errors.EndsEarly) as caught:
        read_block(A[:size])
    assert caught.value.place <= size


@pytest.mark.parametrize(
    "read, data, error, place",
    [
        (read_block, b"\x02" + A[1:], errors.OtherVersion, 0),
        (read_block, A + b"\0", errors.Surplus, len(A)),
        (read_block, A[:40], errors.EndsEarly, 18),
        (read_feed, b"SPCTRF03" + head(START)[8:], errors.OtherName, 0),
        (read_feed, b"SPCTRF01" + b"\x41" + head(START)[9:] + END, errors.OutOfRange, 8),
        (read_feed, b"SPCTRF01" + b"\0" + END, errors.OtherFrame, 9),
        (read_feed, head(EMPTY) + b"Z" + END, errors.OtherFrame, 34),
        (read_feed, head(EMPTY) + b"V" + b"\x41\0\0\0" + bytes(65), errors.OtherFrame, 35),
        (read_feed, head(EMPTY) + frame(b"B", A), errors.EndsEarly, 34 + 5 + len(A)),
        (read_journal, b"\0" + JOURNAL[1:], errors.GateClosed, 0),
        (read_journal, b"\xa5SPCTRJ09" + JOURNAL[9:], errors.OtherName, 1),
        (read_journal, JOURNAL[:9] + b"\x41" + JOURNAL[10:], errors.OutOfRange, 9),
        (read_journal, JOURNAL[:10] + b"\xff\xff\xff\xff" + JOURNAL[14:], errors.OutOfRange, 10),
        (read_journal, JOURNAL[:-1], errors.EndsEarly, 91),
        (read_journal, JOURNAL[:34] + b"\xa5\x01\0\0\0\x01" * 512, errors.OutOfRange, 34 + 6 * 511),
        (read_certificate, b"SPCTRC02", errors.OtherName, 0),
        (read_certificate, b"SPCTRC01\x03", errors.OutOfRange, 8),
        (read_certificate, b"SPCTRC01\x01\0\0", errors.OutOfRange, 9),
    ],
)
def test_named_errors(read: Callable[[bytes], object], data: bytes, error: Type[errors.NotThisForm], place: int) -> None:
    """Each has the place that a hand counts."""
    with pytest.raises(errors.NotThisForm) as caught:
        read(data)
    assert (type(caught.value), caught.value.place) == (error, place)
    assert f"at place {place}" in str(caught.value)


@pytest.mark.parametrize("kind, size", [(b"B", 65_537), (b"V", 64), (b"T", 32), (b"U", 32), (b"P", 0), (b"R", 0), (b"E", 0)])
def test_frames(kind: bytes, size: int) -> None:
    assert read_frame(Cursor(frame(kind, bytes(size)))) == Frame(kind, bytes(size), 0)
    with pytest.raises(errors.OtherFrame):
        read_frame(Cursor(frame(kind, bytes(size + 1))))


@pytest.mark.parametrize(
    "make",
    [
        lambda: locked([], [(2**64, bytes(32))]),
        lambda: locked([], [(-1, bytes(32))]),
        lambda: locked([], [("7", bytes(32))]),  # type: ignore[list-item]
        lambda: locked([], [(7, bytes(31))]),
        lambda: locked([], [(7, bytes(32))] * 256),
        lambda: locked([Coin(bytes(32), 256, 1, b"w")], []),
        lambda: locked([Coin(bytes(33), 0, 1, b"w")], []),
        lambda: locked([Coin(bytes(32), 0, 1, b"w" * 256)], []),
        lambda: transaction([], [(7, "word")]),  # type: ignore[list-item]
        lambda: block(2**64, []),
        lambda: block(1, [b"short"]),
        lambda: block(1, [bytes(32)] * 256),
        lambda: head(EMPTY, 65),
        lambda: head(EMPTY, 0, 3),
        lambda: head("x"),  # type: ignore[arg-type]
        lambda: read_block("x"),  # type: ignore[arg-type]
        lambda: lock_of("x"),  # type: ignore[arg-type]
    ],
)
def test_what_has_no_room(make: Callable[[], object]) -> None:
    with pytest.raises((errors.NoRequest, errors.OutOfRange)):
        make()


def test_built(tmp_path: object) -> None:
    """The feed that the program builds of a scenario is the one that is made here, and is read back."""
    scenario = b"grant g 100 to alice\ntx t spends g.0 pays 100 to bob\nblock A on G carries t\nvote G A\n"
    to_bob = transaction(GRANT.coins, [(100, b"bob")])
    assert ran("build", given=scenario) == head(START) + frame(b"B", A) + frame(b"V", G + ID_A) + END
    assert read_block(A).txs[0].id == to_bob.id == read_tx(Cursor(to_bob.text)).id
    cursor = Cursor(ran("build", given=scenario))
    assert read_head(cursor) == Head(1, 0, START)


def test_certificates() -> None:
    data = ran("certify", ID_A.hex(), ID_B.hex(), given=feed(Head(1, 0, START), [A, B]))
    assert read_certificate(data) == (1, [START, A, B] if sha256(A) < sha256(B) else read_certificate(data).blocks, ID_A, ID_B, "tie")
    assert sorted(read_certificate(data).blocks) == sorted([START, A, B])
