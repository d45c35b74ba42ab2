"""Killed at each of its calls of the disk, a wallet has each lock that it has shown."""

import itertools
import shutil
import subprocess
import sys
from pathlib import Path
from typing import List, Optional

import pytest

from zorimarl.wallet import Wallet
from zorimarl.wallet_errors import NoWallet

# Which calls, and how many of a kind it goes on by: of the writes, which are many, each third one is met.
CALLS = {"pwrite64": 3, "fsync": 1, "fdatasync": 1, "ftruncate": 1, "link": 1, "unlink": 1, "fchmod": 1}
STEPS = """
import sys
from zorimarl.wallet import Wallet
from zorimarl.wallet_errors import NoWallet
try:
    wallet = Wallet.open(sys.argv[1])
except NoWallet:
    wallet = Wallet.create(sys.argv[1])
for _ in range(2):
    print(wallet.receive().hex(), flush=True)
wallet.close()
"""


def can_trace() -> bool:
    return shutil.which("strace") is not None and subprocess.run(["strace", "-qq", "-o", "/dev/null", "true"], check=False).returncode == 0


def killed_at(kind: str, number: int, file: Path) -> Optional[List[bytes]]:
    """The locks that were shown before the call of this kind and number, at which it was killed; None where it has
    fewer such calls."""
    inject = f"inject={kind}:signal=KILL:when={number}"
    words = ["strace", "-qq", "-o", "/dev/null", "-e", f"trace={kind}", "-e", inject, sys.executable, "-c", STEPS, str(file)]
    done = subprocess.run(words, capture_output=True, text=True, timeout=300, check=False)
    if done.returncode == 0:
        return None
    assert not done.stderr, done.stderr
    return [bytes.fromhex(line) for line in done.stdout.split()]


@pytest.mark.skipif(not can_trace(), reason="a kill at each call of a wallet, since there is no strace, or it may not trace")
@pytest.mark.parametrize("kind", CALLS)
def test_killed_at_each_call(kind: str, tmp_path: Path) -> None:
    """And it goes on where it was killed."""
    count = 0
    for number in itertools.count(1, CALLS[kind]):
        file = tmp_path / f"{kind}-{number}"
        shown = killed_at(kind, number, file)
        if shown is None:
            break
        count += 1
        look(file, shown)
    print(f"killed at {count} calls of {kind}")
    assert count >= 1


def look(file: Path, shown: List[bytes]) -> None:
    try:
        wallet = Wallet.open(file)
    except NoWallet:
        assert not file.exists() and not shown
        wallet = Wallet.create(file)
    with wallet:
        found = [each.lock for each in wallet.locks()]
        assert found[: len(shown)] == shown and len(found) <= len(shown) + 1
        new = wallet.receive()
    with Wallet.open(file) as wallet:
        assert [each.lock for each in wallet.locks()] == [*found, new]
    assert file.stat().st_nlink == 1
