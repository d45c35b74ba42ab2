"""What was acknowledged is what the next start finds: behind a disk that fails, and behind refused memory."""

from __future__ import annotations

import os
import pathlib
import subprocess
import sys
from typing import List, Optional, Tuple

import pytest

from conftest import Opener
from samples import EXAMPLES, G, START, instead, raw
from zorimarl import errors
from zorimarl.feeds import Coin, block, transaction
from zorimarl.ledger import Ledger


def coins_of(salt: int) -> List[Coin]:
    """Coins that nobody granted, so that their spends are carried and rejected."""
    return transaction([], [(1, b"w" * 60 + b"%d" % salt)] * 4).coins


def blocks(count: int) -> List[bytes]:
    return [block(salt, [G], [transaction([coin], [(1, b"w" * 64)]) for coin in coins_of(salt)]) for salt in range(count)]


def offered(opened: Opener, made: List[bytes], together: bool = False) -> Tuple[List[bytes], Optional[errors.Ended]]:
    """The blocks that were acknowledged, and the error that came."""
    kept = []
    try:
        ledger = opened()
        if together:
            for each, _ in zip(made, ledger.offer_all(made)):
                kept.append(each)
        else:
            for each in made:
                ledger.offer(each)
                kept.append(each)
        ledger.close()
    except errors.Ended as error:
        return kept, error
    return kept, None


def found(file: str, kept: List[bytes], made: List[bytes]) -> int:
    """How many of the blocks the next start knows, which has to know all that were acknowledged, and others
    only in their order."""
    with Ledger(file, START) as ledger:
        standings = [ledger.offer(each).standing for each in made]
    count = standings.count("known")
    assert count >= len(kept)
    assert standings == ["known"] * count + ["present"] * (len(made) - count)
    return count


@pytest.mark.parametrize("together", [False, True])
@pytest.mark.parametrize("most", range(1, 12))  # kilobytes, or half of them
def test_a_disk_that_fails(opened: Opener, file: str, most: int, together: bool) -> None:
    made = blocks(12)
    with instead(f"trap '' XFSZ; ulimit -f {most}; exec '{raw()}' \"$@\""):
        kept, error = offered(opened, made, together)
        assert isinstance(error, errors.DiskFault) and error.file == file
    found(file, kept, made)


def shim(folder: pathlib.Path) -> str:
    """The library of examples/refused.py, which refuses memory."""
    sys.path.append(str(EXAMPLES))
    from refused import SHIM  # type: ignore[import]

    path = str(folder / "shim.so")
    try:
        subprocess.run(["gcc", "-shared", "-fPIC", "-x", "c", "-", "-o", path, "-ldl"], input=SHIM.encode(), check=True)
    except OSError:
        pytest.skip("refused memory, since there is no gcc")
    return path


def test_memory(opened: Opener, file: str, tmp_path: pathlib.Path) -> None:
    library = shim(tmp_path)
    made, numbers, count, refused = blocks(6), set(), 0, 0
    while count < 5000:
        with instead(f"LD_PRELOAD='{library}' REFUSED={count} ALL=1 exec '{raw()}' \"$@\""):
            kept, error = offered(opened, made)
        if error is None:
            break
        assert isinstance(error, errors.Memory)
        numbers.add(len(kept))
        refused += 1
        if os.path.exists(file):
            found(file, kept, made)
            os.remove(file)
        count += 1 if count < 60 else 7
    assert error is None and refused > 20
    assert numbers >= set(range(6))
