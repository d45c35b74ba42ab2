"""Two sides of an exchange for the tests: journals, and processes with real pipes between them."""

from __future__ import annotations

import os
import pathlib
import shutil
import subprocess
import sys
import threading
from typing import Iterable, List, NamedTuple, Optional

from samples import A, B, C, ID_B, ID_C, START, shown
from zorimarl.blocks import block, sha256
from zorimarl.ledger import Ledger
from zorimarl.sync import Synced, exchange

COMMAND = [sys.executable, "-m", "zorimarl.sync_command"]
D = block(4, [ID_B, ID_C])
E = block(5, [sha256(D)])
# A block that waits, as its parent isn't there; the side that has the parent hasn't the block.
WAITS = block(7, [sha256(E)])
ONE, OTHER = [A, C, WAITS], [B, A, C, D, E]


def made(file: pathlib.Path, blocks: Iterable[bytes], profile: int = 1, genesis: bytes = START) -> str:
    with Ledger(file, genesis, 0, profile) as ledger:
        for each in blocks:
            ledger.offer(each)
    return str(file)


def report(file: str) -> List[str]:
    """What the program shows of a journal, behind its first line."""
    return shown(file)[1:]


def side(file: str, *words: str) -> subprocess.Popen[bytes]:
    """A side that talks over its standard input and output."""
    return subprocess.Popen([*COMMAND, file, *words], stdin=subprocess.PIPE, stdout=subprocess.PIPE, stderr=subprocess.PIPE)


def synced(one: str, other: str) -> subprocess.CompletedProcess[bytes]:
    """The one side starts the other as its command."""
    return subprocess.run([*COMMAND, one, "--", *COMMAND, other], stdin=subprocess.DEVNULL, capture_output=True, check=False)


class Ends(NamedTuple):
    """What two sides in one process came to."""

    one: Synced
    other: Synced


def both(one: Ledger, other: Ledger) -> Ends:
    """An exchange of two open ledgers over two pipes."""
    to_other, to_one = os.pipe(), os.pipe()
    found: List[Synced] = []
    thread = threading.Thread(target=lambda: found.append(exchange(other, to_other[0], to_one[1], 60)))
    thread.start()
    try:
        done = exchange(one, to_one[0], to_other[1], 60)
        thread.join(60)
    finally:
        for each in (*to_other, *to_one):
            os.close(each)
    return Ends(done, found[0])


def hear(ledger: Ledger, data: bytes, timeout: float = 20.0, is_open: bool = False, most: int = 512) -> Synced:
    """An exchange with another side that says just this, and ends, or doesn't; and that reads all."""
    to_side, to_peer = os.pipe(), os.pipe()
    writer: Optional[int] = to_side[1]

    def says() -> None:
        nonlocal writer
        assert writer is not None
        rest = data
        try:
            while rest:
                rest = rest[os.write(writer, rest[:1000]) :]
        except BrokenPipeError:
            pass
        if not is_open:
            os.close(writer)
            writer = None

    def reads() -> None:
        while os.read(to_peer[0], 1 << 16):
            pass

    threads = [threading.Thread(target=each) for each in (says, reads)]
    for each in threads:
        each.start()
    try:
        return exchange(ledger, to_side[0], to_peer[1], timeout, most)
    finally:
        os.close(to_side[0])
        os.close(to_peer[1])
        for each in threads:
            each.join(20)
        os.close(to_peer[0])
        if writer is not None:
            os.close(writer)


def copied(source: str, target: pathlib.Path) -> str:
    shutil.copy(source, target)
    return str(target)
