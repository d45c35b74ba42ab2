"""Nothing leaks a process or a descriptor: counted over hundreds of ledgers, errors and kills."""

from __future__ import annotations

import gc
import os
import pathlib
import signal
from typing import Set

import pytest

from samples import A, G, START, instead
from zorimarl import errors
from zorimarl.feeds import read_feed
from zorimarl.ledger import Ledger
from zorimarl.proofs import certify, check
from zorimarl.watch import LockItem, watch


def descriptors() -> Set[str]:
    return set(os.listdir("/proc/self/fd"))


def children() -> Set[int]:
    """The processes whose parent is this one, ended ones that nobody has waited for among them."""
    found = set()
    for name in os.listdir("/proc"):
        if name.isdigit():
            try:
                text = pathlib.Path(f"/proc/{name}/stat").read_text()
            except OSError:
                continue
            if int(text.rpartition(")")[2].split()[1]) == os.getpid():
                found.add(int(name))
    return found


def opens(folder: pathlib.Path, number: int) -> None:
    with Ledger(folder / f"opens {number % 4}", START, 0) as ledger:
        ledger.report()


def errs(folder: pathlib.Path, number: int) -> None:
    with Ledger(folder / "errs", START, 0) as ledger:
        with pytest.raises(errors.Refused):
            ledger.offer(b"")
        with pytest.raises(errors.InUse):
            Ledger(folder / "errs")
    with pytest.raises(errors.OtherChain):
        Ledger(folder / "errs", START, 1)


def kills(folder: pathlib.Path, number: int) -> None:
    ledger = Ledger(folder / "kills", START, 0)
    os.kill(ledger.talk.process.pid, signal.SIGKILL)
    with pytest.raises(errors.Killed):
        ledger.offer(A)
    ledger.reopen()
    if number % 2:
        ledger.kill()
    else:
        ledger.close()


def leaves(folder: pathlib.Path, number: int) -> None:
    """Nobody closes it."""
    ledger = Ledger(folder / "leaves", START, 0)
    source = ledger.offer_all([A, A, A])
    next(source)


def begins_otherwise(folder: pathlib.Path, number: int) -> None:
    with instead(("exit 9", "echo what; exec sleep 9", "printf vote; kill -9 $$")[number % 3]), pytest.raises(errors.LedgerError):
        Ledger(folder / "otherwise", START, 0, timeout=5)


def asks_aside(folder: pathlib.Path, number: int) -> None:
    with Ledger(folder / "aside", START, 0) as ledger:
        one = ledger.offer(A).block
        check(certify(ledger, G, one))
        with pytest.raises(errors.NoPair):
            certify(ledger, G, G)
        with pytest.raises(errors.FileFault):
            ledger.snapshot(folder / "aside")
        feed = ledger.export()
        assert len(read_feed(feed)[1]) == 1
        next(watch(feed, [LockItem(bytes(32))]))


@pytest.mark.parametrize("what, times", [(opens, 100), (errs, 60), (kills, 60), (leaves, 60), (begins_otherwise, 60), (asks_aside, 20)])
def test_nothing_is_left(what: object, times: int, tmp_path: pathlib.Path) -> None:
    assert callable(what)
    what(tmp_path, 0)
    gc.collect()
    before = descriptors(), children()
    for number in range(times):
        what(tmp_path, number)
    gc.collect()
    assert (descriptors(), children()) == before
