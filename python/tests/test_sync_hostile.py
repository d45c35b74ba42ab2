"""Another side that isn't what it should be: each of its faults is named, and harms nothing."""

from __future__ import annotations

import os
import pathlib
import threading
import time
from typing import List, Tuple, Type

import pytest
from hypothesis import given
from hypothesis import strategies as st

from samples import A, B, C, G, ID_A, ID_B, ID_C, START
from sync_world import hear, made
from zorimarl import errors, sync_errors
from zorimarl.blocks import block, genesis, sha256
from zorimarl.feeds import BALANCE, BLOCK, END, PAIRS, REPORT, TX, VOTE, frame, head
from zorimarl.ledger import Ledger
from zorimarl.sync import LONGEST, exchange
from zorimarl.sync_peer import Incoming

HEAD = head(START, 0, 1)
UNSOUND = block(9, [G])[:-1]


def listed(*ids: bytes) -> bytes:
    return HEAD + b"".join(frame(VOTE, each * 2) for each in ids) + frame(REPORT)


def sends(*blocks: bytes) -> bytes:
    """Lists these blocks and sends them."""
    return listed(*map(sha256, blocks)) + b"".join(frame(BLOCK, each) for each in blocks)


def raw(kind: bytes, length: int) -> bytes:
    return kind + length.to_bytes(4, "little")


MANY = [sha256(bytes([number % 256, number // 256])) for number in range(520)]
# What the other side sends; the error, its place, and which blocks are taken before.
HOSTILE: List[Tuple[bytes, Type[errors.LedgerError], int, List[bytes]]] = [
    (b"", sync_errors.PeerEnded, 0, []),
    (b"hello", sync_errors.PeerMalformed, 0, []),
    (b"SPCTRF03" + HEAD[8:], sync_errors.PeerMalformed, 7, []),
    (head(START, 0, 2), sync_errors.OtherLedger, 7, []),
    (head(START, 1, 1), sync_errors.OtherLedger, 8, []),
    (head(genesis(), 0, 1), sync_errors.OtherLedger, 10, []),
    (HEAD[:-1] + bytes([HEAD[-1] ^ 1]), sync_errors.OtherLedger, len(HEAD) - 1, []),
    (HEAD[:9] + b"R", sync_errors.PeerMalformed, 9, []),
    (HEAD + frame(BLOCK, A), sync_errors.PeerMalformed, len(HEAD), []),
    (HEAD + END, sync_errors.PeerMalformed, len(HEAD), []),
    (HEAD + frame(PAIRS), sync_errors.PeerMalformed, len(HEAD), []),
    (HEAD + frame(TX, ID_A), sync_errors.PeerMalformed, len(HEAD), []),
    (HEAD + frame(BALANCE, ID_A), sync_errors.PeerMalformed, len(HEAD), []),
    (HEAD + b"\0", sync_errors.PeerMalformed, len(HEAD), []),
    (HEAD + frame(VOTE, ID_A + ID_B), sync_errors.PeerMalformed, len(HEAD) + 37, []),
    (HEAD + frame(VOTE, ID_A * 2) * 2, sync_errors.PeerMalformed, len(HEAD) + 69, []),
    (HEAD + raw(VOTE, 2**32 - 1), sync_errors.PeerMalformed, len(HEAD) + 1, []),
    (HEAD + raw(REPORT, 1), sync_errors.PeerMalformed, len(HEAD) + 1, []),
    (listed(*MANY), sync_errors.PeerMalformed, len(HEAD) + 511 * 69, []),
    (listed(*MANY[:511]), sync_errors.TooMany, len(HEAD) + 511 * 69 + 5, []),
    (listed(ID_A) + frame(REPORT), sync_errors.PeerMalformed, len(listed(ID_A)), []),
    (listed(ID_A) + raw(BLOCK, 65_537), sync_errors.PeerMalformed, len(listed(ID_A)) + 1, []),
    (listed(ID_A) + raw(b"E", 1), sync_errors.PeerMalformed, len(listed(ID_A)) + 1, []),
    (listed(ID_A) + frame(BLOCK, B), sync_errors.NotListed, len(listed(ID_A)), []),
    (listed(G, ID_A) + frame(BLOCK, START), sync_errors.NotListed, len(listed(G, ID_A)), []),
    (sends(A, B) + frame(BLOCK, A), sync_errors.NotListed, len(sends(A, B)), [A, B]),
    (sends(C), sync_errors.NotListed, len(listed(ID_C)), []),  # this side has it already
    (sends(UNSOUND), sync_errors.BadBlock, len(sends(UNSOUND)), []),
    (sends(A, UNSOUND, B) + END, sync_errors.BadBlock, len(sends(A, UNSOUND, B)) + 5, [A]),
    (sends(A) + b"R", sync_errors.PeerMalformed, len(sends(A)), [A]),
    (listed(ID_A, ID_B) + frame(BLOCK, A) + END, sync_errors.Withheld, len(listed(ID_A, ID_B)) + 5 + len(A) + 5, [A]),
    (listed() + END + b"anything", errors.LedgerError, 0, []),  # what follows E isn't looked at
]


@pytest.mark.parametrize("number", range(len(HOSTILE)))
def test_hostile(number: int, tmp_path: pathlib.Path) -> None:
    data, kind, place, taken = HOSTILE[number]
    with Ledger(made(tmp_path / "one", [C])) as ledger:
        if kind is errors.LedgerError:
            assert hear(ledger, data).took == 0
        else:
            with pytest.raises(kind) as why:
                hear(ledger, data, is_open=kind is not sync_errors.PeerEnded)
            assert type(why.value) is kind and why.value.file == ledger.file and why.value.request == "the exchange"
            assert getattr(why.value, "place") == place, why.value
        assert {each.data for each in ledger.blocks()} == {START, C, *taken}
        assert ledger.report().waiting == (0 if A in taken else 1)


def test_what_may_be_taken(tmp_path: pathlib.Path) -> None:
    """`most` bounds what another side can bring, and room does."""
    with Ledger(made(tmp_path / "one", [C])) as ledger:
        with pytest.raises(sync_errors.TooMany):
            hear(ledger, sends(A, B) + END, most=1)
        assert len(ledger.blocks()) == 2
        assert hear(ledger, sends(A, B) + END, most=2).took == 2
        for salt in range(ledger.left - 1):
            ledger.offer(block(100 + salt, [G]))
        more = [block(1_000 + salt, [G]) for salt in range(2)]
        with pytest.raises(sync_errors.TooMany, match="513 blocks together"):
            hear(ledger, sends(*more) + END)
        assert ledger.left == 1 and hear(ledger, sends(more[0]) + END).present == 512


def test_time(tmp_path: pathlib.Path) -> None:
    """A side that says nothing, one that says a byte now and then, and one that reads nothing, each ends with the time."""
    with Ledger(made(tmp_path / "one", [C, A])) as ledger:
        for data in (b"", HEAD[:20], listed(ID_B)):
            begun = time.monotonic()
            with pytest.raises(sync_errors.PeerSlow):
                hear(ledger, data, timeout=0.3, is_open=True)
            assert time.monotonic() - begun < 10
        reader, writer, over = *os.pipe(), threading.Event()

        def drips() -> None:
            for byte in listed(*MANY[:400]):
                if over.wait(0.02):
                    return
                os.write(writer, bytes([byte]))

        thread = threading.Thread(target=drips)
        thread.start()
        with open(os.devnull, "wb") as nowhere, pytest.raises(sync_errors.PeerSlow):
            exchange(ledger, reader, nowhere.fileno(), 0.5)
        over.set()
        thread.join()
        ledger.offer(B)
        again, full = os.pipe(), os.pipe()  # in the first pipe a byte may be left
        with pytest.raises(sync_errors.PeerSlow):
            large = [block(50 + salt, [G, ID_A, ID_B]) for salt in range(300)]
            for each in large:
                ledger.offer(each)
            os.write(again[1], listed())
            exchange(ledger, again[0], full[1], 0.5)
        assert os.get_blocking(full[1])
        for number in (reader, writer, *again, *full):
            os.close(number)
        assert ledger.is_open and ledger.report().present == 304


def test_it_reads_no_more(tmp_path: pathlib.Path) -> None:
    """A side that sends all and closes its input: what it sent is kept, and the rest is told."""
    with Ledger(made(tmp_path / "one", [C, A])) as ledger:
        to_side, to_peer = os.pipe(), os.pipe()
        os.close(to_peer[0])
        os.write(to_side[1], sends(B) + END)
        with pytest.raises(sync_errors.PeerEnded, match="reads no more"):
            exchange(ledger, to_side[0], to_peer[1], 10)
        for each in (*to_side, to_peer[1]):
            os.close(each)
        assert ledger.report().present == 4


@given(st.data())
def test_any_bytes_and_pieces(data: st.DataObject) -> None:
    """Whatever comes, and in whatever pieces, is a named error or what was listed; and no more is held than a frame."""
    whole = bytearray(sends(A, B, C) + END)
    for _ in range(data.draw(st.integers(0, 3))):
        whole[data.draw(st.integers(0, len(whole) - 1))] = data.draw(st.integers(0, 255))
    results = []
    for most in (len(whole), data.draw(st.integers(1, 50))):
        incoming, found = Incoming(HEAD, {G}), list[bytes]()
        try:
            for start in range(0, len(whole), most):
                piece = bytes(whole[start : start + most])
                while blocks := incoming.push(piece):
                    found, piece = found + blocks, b""
            incoming.end()
            end = "end"
        except sync_errors.PeerFault as why:
            end = f"{type(why).__name__} {why.place}"
        assert len(incoming.waiting) <= max(most, 5 + 65_536 + most) and set(found) <= {A, B, C}
        results.append((found, end))
    assert results[0] == results[1]


def test_longest() -> None:
    """What a side can make its peer read is bounded, by 34 MB."""
    assert LONGEST == 14 + 65_536 + 511 * (69 + 5 + 65_536) + 10 < 34_000_000
