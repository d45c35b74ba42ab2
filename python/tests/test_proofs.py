"""Certificates: made of a feed and of a ledger, checked, and refuted."""

from __future__ import annotations

import pytest

from conftest import Opener
from samples import A, B, C, G, ID_A, ID_B, START, ran
from zorimarl import errors
from zorimarl.feeds import END, Head, feed, head
from zorimarl.proofs import certify, check, read_certificate

FEED = feed(Head(1, 0, START), [A, B, C])


def test_shown(opened: Opener) -> None:
    with opened() as ledger:
        list(ledger.offer_all([A, B, C]))
        data = certify(ledger, ID_A, ID_B)
    assert data == certify(FEED, ID_A, ID_B) == ran("certify", ID_A.hex(), ID_B.hex(), given=FEED)
    assert check(data)[:3] == (ID_A, ID_B, "before")
    assert check(certify(FEED, ID_B, ID_A))[:3] == (ID_B, ID_A, "after")
    assert check(data).line == ran("check", given=data).decode().strip()
    found = read_certificate(data)
    assert (found.profile, found.blocks[0], sorted(found.blocks), found.x, found.y, found.word) == (1, START, sorted([START, A, B, C]), ID_A, ID_B, "before")


def test_profile_of_a_ledger(opened: Opener) -> None:
    with opened(profile=2) as ledger:
        list(ledger.offer_all([A, B]))
        assert read_certificate(certify(ledger, ID_A, ID_B)).profile == 2


@pytest.mark.parametrize("x, y", [(G, G), (ID_A, bytes(32))])
def test_no_pair(x: bytes, y: bytes) -> None:
    with pytest.raises(errors.NoPair) as caught:
        certify(FEED, x, y)
    assert x.hex() in str(caught.value)


def test_refuted() -> None:
    """A vote that was turned: the last bytes are the world's entries."""
    data = certify(FEED, ID_A, ID_B)
    sign = data.index(ID_A + ID_B) + 64
    with pytest.raises(errors.Refuted) as caught:
        check(data[:sign] + b"\x02" + data[sign + 1 :])
    assert (caught.value.reason, caught.value.answer) == ("sum", "fault refuted sum")
    with pytest.raises(errors.Refuted) as caught:
        check(data[:-1] + bytes([data[-1] ^ 2]))
    assert caught.value.reason == "vote" and len(caught.value.numbers) == 2


def test_faults() -> None:
    for data, error in ((b"", errors.Truncated), (b"SPCTRC0x", errors.Malformed), (certify(FEED, G, ID_A) + b"\0", errors.Malformed)):
        with pytest.raises(error):
            check(data)
    for data, error in ((b"", errors.Truncated), (head(START), errors.Truncated), (head(START) + b"Z", errors.Malformed)):
        with pytest.raises(error):
            certify(data, G, ID_A)
    for source in ("x", None):
        with pytest.raises(errors.NoRequest):
            certify(source, G, ID_A)  # type: ignore[arg-type]
    with pytest.raises(errors.NoRequest):
        certify(END, b"x", ID_A)


def test_closed(opened: Opener) -> None:
    """A ledger that is closed still has its journal, of which a feed is made."""
    ledger = opened()
    list(ledger.offer_all([A, B]))
    ledger.close()
    assert check(certify(ledger, ID_A, ID_B)).word == "tie"
