"""The examples of python/README.md, each run in an empty folder, and the service that was written by it."""

from __future__ import annotations

import os
import pathlib
import re
import subprocess
import sys
import time
from typing import List

import pytest

from samples import ROOT
from zorimarl.feeds import block, genesis, sha256, transaction
from zorimarl.ledger import Ledger

README = (ROOT / "python" / "README.md").read_text(encoding="utf-8")
USE = (ROOT / "docs" / "USE.md").read_text(encoding="utf-8")
CODE = re.findall(r"^```python\n(.*?)^```", README + USE, re.MULTILINE | re.DOTALL)
BOB = sha256(b"bob's").hex()
# What each of them prints, by its own remarks.
PRINTED: List[List[str]] = [
    ["present", "accepted"],
    ["5", "accepted 105 0", "accepted 0 100"],
    [r".*many\.journal: .*the offer of block [0-9a-f]{64}: the program ended with signal 9", r"101 \[.*refused version.*\]", "101 411"],
    ["accepted"],
    ["before", "True", f"balance {BOB} from 0 to 100", f"balance {BOB} from 100 to 0", "vote .* from absent to tie"]
    + [f"balance {BOB} from 0 to 100", "vote .* from tie to before", "held balance .*", "held vote .*"],
    ["accepted", "120 70"],
    ["accepted"],  # that of docs/USE.md
]


def test_each_is_here() -> None:
    assert len(CODE) == len(PRINTED)


@pytest.mark.parametrize("number", range(len(PRINTED)))
def test_examples(number: int, tmp_path: pathlib.Path) -> None:
    done = subprocess.run([sys.executable, "-c", CODE[number]], cwd=tmp_path, capture_output=True, text=True, check=False)
    assert done.returncode == 0 and done.stderr == "", done.stderr
    lines = done.stdout.splitlines()
    assert len(lines) == len(PRINTED[number]), lines
    for line, form in zip(lines, PRINTED[number]):
        assert re.fullmatch(form, line), (line, form)


GRANT = transaction([], [(100, b"alice"), (100, b"carol")])
START = genesis([GRANT])
PAYS = transaction(GRANT.coins[:1], [(70, b"order-1"), (30, b"alice's second")])
RIVAL = transaction(GRANT.coins[:1], [(100, b"mallory")])


def test_service(file: str, tmp_path: pathlib.Path) -> None:
    """An order is paid, the payment is turned back by more blocks on a rival, and paid again; and the shop is killed
    in the midst, twice."""
    Ledger(file, START, 0).close()
    folder = tmp_path / "blocks"
    folder.mkdir()
    pays = [block(1, [sha256(START)], [PAYS])]
    rivals = [block(2, [sha256(START)], [RIVAL])]
    for chain, count in ((pays, 7), (rivals, 4)):
        for salt in range(count):
            chain.append(block(10 + len(chain) + (100 if chain is rivals else 0), [sha256(chain[-1])]))
    words = [sys.executable, str(ROOT / "python/examples/shop.py"), file, str(folder), "70", "order-1", "order-2"]
    told: List[str] = []
    number = 0

    def leave(blocks: List[bytes]) -> None:
        nonlocal number
        for each in blocks:
            number += 1
            part = folder / f"{number:03}.part"
            part.write_bytes(each)
            part.rename(folder / f"{number:03}.block")

    for blocks, is_end in ((pays[:3] + [b"no block"], False), (rivals, False), (pays[3:], True)):
        leave(blocks)
        if is_end:
            (folder / "end").touch()
        process = subprocess.Popen(words, stdout=subprocess.PIPE, text=True)
        until = time.monotonic() + 120
        while not is_end and any(folder.glob("*.block")) and time.monotonic() < until:
            time.sleep(0.05)
        if not is_end:
            time.sleep(0.3)
            process.kill()
        told += (process.communicate(timeout=120)[0]).splitlines()
    # Started again it tells anew what is paid, once a block comes: so the second run says nothing of an order that it
    # finds turned back.
    assert told[:2] == ["paid order-1", "refused 004: refused version"]
    assert told[-1] == "paid order-1"
    assert {line for line in told[2:-1]} <= {"paid order-1", "turned back order-1"} and "turned back order-1" in told[2:-1]
    assert not any(folder.glob("*.block"))
    with Ledger(file) as ledger:
        assert ledger.report().present == 1 + len(pays) + len(rivals)


def test_what_it_says_of_the_environment() -> None:
    """The launcher's name for it, and Python's version, stand as they are."""
    assert "requires-python = \">=3.10\"" in (ROOT / "python/pyproject.toml").read_text(encoding="utf-8")
    assert os.access(ROOT / "python/test", os.X_OK)
