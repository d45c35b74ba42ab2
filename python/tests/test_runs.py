"""Any command of the program, run to its end: what it writes, or the error of its exit code."""

from __future__ import annotations

import pytest

from samples import A, EXAMPLES, G, GRANT, ID_A, START, instead
from zorimarl import errors
from zorimarl.feeds import Head, feed, transaction
from zorimarl.runs import run

FEED = feed(Head(1, 0, START), [A])
PLAYED = (EXAMPLES / "double_spend.txt").read_bytes()


def test_each_command() -> None:
    """Those that name no journal. `spend` writes the transaction that pays, by hand the one that is made here."""
    assert run(["replay"], FEED) == b"kept %s present 1\n" % ID_A.hex().encode()
    assert run(["replay"], run(["build"], PLAYED)).count(b"\n") == run(["play"], PLAYED).count(b"\n")
    assert run(["play"], run(["make", "20", "7", "3"])).startswith(b"kept ")
    assert run(["drill", "20", "7", "3"]).startswith(b"blocks ")
    assert b"at " in run(["gossip"], (EXAMPLES / "partition.txt").read_bytes())
    paid = transaction(GRANT.coins, [(40, b"bob"), (60, b"alice")])
    assert run(["spend", "40", "to", "bob", "from", "alice"], feed(Head(1, 0, START), [])) == paid.text


@pytest.mark.parametrize(
    "words, given, error",
    [
        (["nothing"], b"", errors.Usage),
        (["play"], b"what\n", errors.BadLine),
        (["replay"], b"", errors.Truncated),
        (["replay"], b"SPCTRX01", errors.Malformed),
        (["show", "/no/such"], b"", errors.DiskFault),
        (["certify", G.hex(), G.hex()], FEED, errors.NoPair),
        (["spend", "101", "to", "bob", "from", "alice"], FEED, errors.Poor),
    ],
)
def test_errors(words: list[str], given: bytes, error: type) -> None:
    with pytest.raises(errors.Ended) as caught:
        run(words, given)
    assert type(caught.value) is error and caught.value.request == words[0]


def test_reasons() -> None:
    with pytest.raises(errors.BadLine) as line:
        run(["play"], b"bits 0\nblock A on B\n")
    assert (line.value.place, line.value.reason, line.value.answer) == (2, "unknown", "fault line 2 unknown")
    with pytest.raises(errors.Poor) as poor:
        run(["spend", "101", "to", "bob", "from", "alice"], feed(Head(1, 0, START), []))
    assert poor.value.place == 100


def test_time() -> None:
    with instead("exec sleep 9"), pytest.raises(errors.NoAnswer):
        run(["replay"], b"", timeout=0.2)
