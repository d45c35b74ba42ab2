"""Many offers: all at once, in the midst of other calls, quickly, and with no growth of memory."""

from __future__ import annotations

import os
import time
from typing import Iterator, List

import pytest

from conftest import Opener
from samples import A, B, C, G, ID_A, ID_B
from zorimarl import errors
from zorimarl.answers import Answered
from zorimarl.blocks import EMPTY, block, sha256
from zorimarl.pipe import MOST_BLOCKS, MOST_BYTES

START_ID = sha256(EMPTY)


def standing(answer: Answered) -> str:
    return answer.answer if isinstance(answer, errors.Refused) else answer.standing


def test_all_answers(opened: Opener) -> None:
    given = [C, b"", A, A, B, bytes(70_000)]
    told = ["waiting", "refused short", "present", "known", "present", "refused too-long"]
    with opened() as ledger:
        assert [standing(each) for each in ledger.offer_all(given)] == told
        assert list(ledger.offer_all([])) == []
        assert ledger.report().present == 4


def test_asked_in_the_midst(opened: Opener) -> None:
    """Other calls, another `offer_all` among them, take no answer away."""
    blocks = [block(salt, [G]) for salt in range(50)]
    with opened() as ledger:
        for number, answer in enumerate(ledger.offer_all(blocks)):
            assert not isinstance(answer, errors.Refused) and answer.block == sha256(blocks[number])
            assert ledger.vote(answer.block, answer.block).word == "same"
            assert [standing(each) for each in ledger.offer_all(blocks[: number + 1])] == ["known"] * (number + 1)
        assert ledger.report().present == 51


def test_left_in_the_midst(opened: Opener) -> None:
    """An iterator that is left, or whose source fails, leaves the ledger fit for what comes."""
    def broken() -> Iterator[bytes]:
        yield A
        yield B
        raise KeyError("a source that fails")

    with opened() as ledger:
        for _ in ledger.offer_all(block(salt, [G]) for salt in range(200)):
            break
        with pytest.raises(KeyError):
            list(ledger.offer_all(broken()))
        assert ledger.vote(ID_A, ID_A).word == ledger.vote(ID_B, ID_B).word == "same"
        assert ledger.offer(C).standing == "present"
        with pytest.raises(errors.NoRequest):
            list(ledger.offer_all([A, "no bytes"]))  # type: ignore[list-item]
        assert ledger.offer(A).standing == "known"


def test_a_source_that_waits(opened: Opener) -> None:
    """Where the next block isn't there at once, the answer to the one before comes first."""
    taken: List[bytes] = []

    def slow() -> Iterator[bytes]:
        for each in (A, B, C):
            time.sleep(0.05)
            taken.append(each)
            yield each

    with opened() as ledger:
        for number, answer in enumerate(ledger.offer_all(slow())):
            assert standing(answer) == "present" and len(taken) == number + 1


def rate(blocks: int, seconds: float) -> float:
    return blocks / seconds


def test_quickly(opened: Opener, capsys: pytest.CaptureFixture[str]) -> None:
    """What bounds one at a time is the way there and back, where nothing is kept. Where a block is kept, it is the
    two syncs of its record, which the program makes before its line, be the pipe full or not."""
    blocks = [block(salt, [START_ID]) for salt in range(300)]
    with opened(EMPTY) as ledger:
        begun = time.monotonic()
        for each in blocks[:150]:
            ledger.offer(each)
        alone = rate(150, time.monotonic() - begun)
        begun = time.monotonic()
        assert {standing(each) for each in ledger.offer_all(blocks[150:])} == {"present"}
        together = rate(150, time.monotonic() - begun)
        ratios = []
        for _ in range(7):
            begun = time.monotonic()
            for each in blocks:
                ledger.offer(each)
            single = rate(len(blocks), time.monotonic() - begun)
            begun = time.monotonic()
            assert {standing(each) for each in ledger.offer_all(blocks * 20)} == {"known"}
            ratios.append((rate(20 * len(blocks), time.monotonic() - begun) / single, single))
        best, single = max(ratios)
    with capsys.disabled():
        print(f"\nkept: {alone:.0f} blocks a second one at a time, {together:.0f} in a full pipe; known: {single:.0f} and {best * single:.0f}")
    assert best > 2


def resident() -> int:
    with open("/proc/self/statm", encoding="ascii") as file:
        return int(file.read().split()[1]) * os.sysconf("SC_PAGE_SIZE")


def test_no_growth(opened: Opener, capsys: pytest.CaptureFixture[str]) -> None:
    """100,000 offers, of which 511 are kept: what this process has doesn't grow behind the first of them."""
    def blocks(count: int) -> Iterator[bytes]:
        for number in range(count):
            yield block(number, [START_ID]) if number % 3 else b"\x01" + number.to_bytes(40, "little")

    counts = {"present": 0, "known": 0, "full": 0}
    with opened(EMPTY) as ledger:
        assert len(ledger.blocks()) == 1
        for answer in ledger.offer_all(blocks(2_000)):
            pass
        ledger.blocks()
        before, begun = resident(), time.monotonic()
        for answer in ledger.offer_all(blocks(100_000)):
            told = standing(answer)
            counts[told] = counts.get(told, 0) + 1
        grown, took = resident() - before, time.monotonic() - begun
        pid = ledger.talk.process.pid
        with open(f"/proc/{pid}/status", encoding="ascii") as file:
            program = next(line.split()[1] for line in file if line.startswith("VmRSS"))
    with capsys.disabled():
        print(f"\n100,000 offers in {took:.1f} s: {grown / 1e6:.1f} MB more here, and {program} kB in the program")
    assert sum(counts.values()) == 100_000 and counts["known"] == 511
    assert grown < 8 << 20
    assert MOST_BLOCKS < 100_000 and MOST_BYTES < 8 << 20
