"""The command `zorimarl-ledger`: a line of JSON for each request."""

from __future__ import annotations

import json
import subprocess
import sys
from typing import Any, List, Tuple

import pytest

from samples import A, G, GRANT, ID_A, START, TO_BOB
from zorimarl.blocks import lock_of
from zorimarl.command import REQUESTS
from zorimarl.feeds import Head, feed, read_feed
from zorimarl.ledger import Ledger

COMMAND = [sys.executable, "-m", "zorimarl.command"]


def run_on(file: str, *words: str, given: str = "") -> Tuple[int, List[Any]]:
    done = subprocess.run([*COMMAND, file, *words], input=given, capture_output=True, text=True, check=False)
    assert done.stderr == ""
    return done.returncode, [json.loads(line) for line in done.stdout.splitlines()]


def test_requests(file: str) -> None:
    lines = ["report", f"offer {A.hex()}", f"vote {G.hex()} {ID_A.hex()}", f"tx {TO_BOB.id.hex()}"]
    lines += ["balance of bob", f"balance {lock_of(b'bob').hex()}", "pairs", f"mine {ID_A.hex()}"]
    status, found = run_on(file, "--genesis", START.hex(), "--bits", "0", given="\n".join(lines))
    assert status == 0
    told = [found[1]["standing"], found[2]["word"], found[3]["state"], found[4]["amount"], found[5]["amount"], len(found[6])]
    assert told == ["present", "before", "accepted", 100, 100, 1]
    assert found[0]["balances"] == {lock_of(b"alice").hex(): 100}
    assert run_on(file, "report")[1][0]["present"] == 3


def test_what_is_kept(file: str, tmp_path: object) -> None:
    copy = f"{tmp_path}/copy"
    lines = [f"offer {A.hex()}", "blocks", f"block {ID_A.hex()}", f"children {G.hex()}", "tips", "coins of bob", f"history {lock_of(b'alice').hex()}"]
    status, found = run_on(file, "--genesis", START.hex(), given="\n".join([*lines, "left", "export", "export 2", f"snapshot {copy}"]))
    assert status == 0
    assert [each["id"] for each in found[1]] == [G.hex(), ID_A.hex()] and found[2]["data"] == A.hex()
    assert [each["id"] for each in found[3]] == [each["id"] for each in found[4]] == [ID_A.hex()]
    assert found[5] == [{"tx": TO_BOB.id.hex(), "place": 0, "amount": 100, "word": ""}]
    assert [(each["tx"], each["received"], each["spent"]) for each in found[6]] == [(GRANT.id.hex(), 100, 0), (TO_BOB.id.hex(), 0, 100)]
    assert found[7] == 510 and found[8] == feed(Head(1, 0, START), [A]).hex()
    assert read_feed(bytes.fromhex(found[9]))[0].profile == 2 and found[10] == copy
    with Ledger(copy) as ledger:
        assert ledger.report().present == 2


def test_errors(file: str) -> None:
    assert run_on(file, "report") == (1, [{"error": "NoGenesis", "what": f"{file}: the start: it holds no journal, so a genesis block has to be named"}])
    lines = "offer 01\nhello\ntx 12\nvote zz zz\noffer zz\nreport\nexport 3\nblock\ncoins of\nreport more\nbalance of a b\nmine\n"
    lines += f"block {ID_A.hex()}\nsnapshot {file}\n"
    status, found = run_on(file, "--genesis", "empty", given=lines)
    told = [each.get("error") for each in found]
    assert (status, told) == (1, ["BlockShort"] + ["NoRequest"] * 4 + [None] + ["NoRequest"] * 6 + ["NoBlock", "FileFault"])
    done = subprocess.run([*COMMAND, file], input=b"\xff\xfe\nbalance of \xff\n", capture_output=True, check=False)
    assert [json.loads(line).get("error") for line in done.stdout.splitlines()] == ["NoRequest", None]
    assert json.loads(done.stdout.splitlines()[1])["lock"] == lock_of(b"\xff").hex()
    status, found = run_on(file, "--bits", "9", "report")
    assert (status, found[0]["error"]) == (2, "OtherChain")


def test_help_lists_each_request() -> None:
    done = subprocess.run([*COMMAND, "--help"], capture_output=True, text=True, check=False)
    assert done.returncode == 0 and all(f" {name} " in done.stdout or f"{name}\n" in done.stdout for name in REQUESTS)


def test_no_program(file: str, monkeypatch: pytest.MonkeyPatch) -> None:
    monkeypatch.setenv("SPECTRE", "/no/such")
    status, found = run_on(file, "--genesis", "empty", "report")
    assert status == 2 and found == [{"error": "NoProgram", "what": f"{file}: the start: the variable SPECTRE names /no/such, which is no program that can be started"}]


def test_nobody_reads(file: str) -> None:
    """An output that is closed ends it without a word of Python's."""
    Ledger(file, START, 0).close()
    process = subprocess.Popen([*COMMAND, file], stdin=subprocess.PIPE, stdout=subprocess.PIPE, stderr=subprocess.PIPE)
    assert process.stdin and process.stdout and process.stderr
    process.stdout.close()
    process.stdin.write(b"report\n" * 3)
    process.stdin.close()
    assert process.stderr.read() == b""
    process.stderr.close()
    assert process.wait() == 2
