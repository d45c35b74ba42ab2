"""Blocks that many tests use, bytes that aren't kept, and runs of the program beside the package."""

from __future__ import annotations

import contextlib
import os
import pathlib
import subprocess
import tempfile
from typing import Iterator, List

from zorimarl import errors
from zorimarl.blocks import genesis, sha256
from zorimarl.feeds import block, spelled, transaction
from zorimarl.program import find

ROOT = pathlib.Path(__file__).resolve().parents[2]
EXAMPLES = ROOT / "examples"
LAUNCHER = ROOT / "bin" / "spectre"

GRANT = transaction([], [(100, b"alice")])
TO_BOB = transaction(GRANT.coins, [(100, b"bob")])
TO_CAROL = transaction(GRANT.coins, [(60, b"carol"), (40, b"dave")])
START = genesis([GRANT])
G = sha256(START)
A = block(1, [G], [TO_BOB])
B = block(2, [G], [TO_CAROL])
C = block(3, [sha256(A)])
ID_A, ID_B, ID_C = map(sha256, (A, B, C))


def raw() -> str:
    """The program itself, without its launcher."""
    return os.environ.get("SPECTRE") or str(ROOT / "crates/spectre/out/spectre")


def ran(*words: str, given: bytes = b"") -> bytes:
    """What the program writes, however it ends."""
    return subprocess.run([find().path, *words], input=given, capture_output=True, check=False).stdout


def replayed(data: bytes) -> List[str]:
    """The lines that the program writes for a feed."""
    return ran("replay", given=data).decode().splitlines()


def shown(file: str) -> List[str]:
    """What the program shows of a journal: its lines."""
    return ran("show", file).decode().splitlines()


@contextlib.contextmanager
def instead(text: str) -> Iterator[str]:
    """A script of the shell in place of the program."""
    before = os.environ.get("SPECTRE")
    with tempfile.TemporaryDirectory() as folder:
        path = os.path.join(folder, "program")
        pathlib.Path(path).write_text("#!/bin/sh\n" + text)
        os.chmod(path, 0o700)
        os.environ["SPECTRE"] = path
        try:
            yield path
        finally:
            os.environ.pop("SPECTRE")
            if before is not None:
                os.environ["SPECTRE"] = before


def coin_bytes(count: int, preimage: bytes = b"w") -> bytes:
    """So many inputs, ascending."""
    return b"".join(bytes(32) + bytes([place, len(preimage)]) + preimage for place in range(count))


def tx_bytes(inputs: int = 1, outputs: int = 1, amount: int = 1, preimage: bytes = b"w") -> bytes:
    paid = amount.to_bytes(8, "little") + bytes(32)
    return bytes([inputs]) + coin_bytes(inputs, preimage) + bytes([outputs]) + paid * outputs


def with_txs(*texts: bytes) -> bytes:
    return spelled(1, 0, [G], texts)


# Bytes that aren't kept, and the error of each.
REFUSED = [
    (bytes(65_537), errors.BlockTooLong),
    (bytes(200_000), errors.BlockTooLong),
    (b"", errors.BlockShort),
    (A[:40], errors.BlockShort),
    (b"\x02" + A[1:], errors.BadVersion),
    (START, errors.BadParentCount),
    (A[:17] + b"\x41" + A[18:], errors.BadParentCount),
    (spelled(1, 0, [ID_A, ID_A]), errors.BadParentOrder),
    (spelled(1, 0, [G])[:-2] + b"\x01\x01", errors.BadTxCount),
    (A[:-1], errors.TxShort),
    (with_txs(b"\x11" + tx_bytes()[1:]), errors.BadInputCount),
    (with_txs(b"\x02" + coin_bytes(1) * 2 + tx_bytes()[-41:]), errors.BadInputOrder),
    (with_txs(tx_bytes(preimage=b"")), errors.BadPreimage),
    (with_txs(tx_bytes(preimage=b"w" * 65)), errors.BadPreimage),
    (with_txs(tx_bytes(outputs=0)), errors.BadOutputCount),
    (with_txs(tx_bytes(amount=0)), errors.BadAmount),
    (with_txs(tx_bytes(outputs=2, amount=2**62)), errors.BadSum),
    (with_txs(tx_bytes(inputs=0)), errors.BadGrant),
    (with_txs(tx_bytes(), tx_bytes()), errors.SameTx),
    (with_txs(tx_bytes(), tx_bytes(amount=2)), errors.SameOutpoint),
    (A + b"\x00", errors.Trailing),
]
