#!/usr/bin/env python3
"""Plays a payment service that asks a node for a certificate, and checks it apart from the node:

    python3 examples/certificate.py feed         # the node's feed: a payment in block 1, a rival in block 2
    python3 examples/certificate.py pair         # the ids of these two, for `certify`
    python3 examples/certificate.py look FILE    # what the service looks at itself, in the certificate in FILE

Block 3 stands on block 1. `check` tells what the blocks of a certificate say of the two. That they are
those of the ledger, and that the first of the two carries the payment, is looked at here. The formats are
those of docs/FORMATS.md.
"""

from __future__ import annotations

import pathlib
import sys
from typing import Iterator, List

sys.dont_write_bytecode = True

import package  # noqa: F401
from zorimarl.feeds import Cursor, NotThisForm, frame, head, read_block, sha256, spelled, transaction

GRANT = transaction([], [(100, b"alice")])
PAYMENT = transaction(GRANT.coins, [(100, b"bob")])
RIVAL = transaction(GRANT.coins, [(100, b"carol")])
G = spelled(0, 0, [], [GRANT.text])
ONE = spelled(1, 0, [sha256(G)], [PAYMENT.text])
TWO = spelled(2, 0, [sha256(G)], [RIVAL.text])
THREE = spelled(3, 0, [sha256(ONE)])


def feed() -> bytes:
    return head(G) + b"".join(frame(b"B", block) for block in (ONE, TWO, THREE)) + frame(b"E")


def look(certificate: bytes) -> Iterator[str]:
    """Whether genesis is the ledger's, and which of the two blocks carry the payment."""
    cursor = Cursor(certificate)
    cursor.take(len(b"SPCTRC01") + 1)  # the profile stands behind the name
    blocks = [cursor.take(cursor.number(4)) for _ in range(cursor.number(2))]
    by_id = {sha256(block): read_block(block) for block in blocks}
    carries = [PAYMENT.id in [tx.id for tx in by_id[cursor.take(32)].txs] for _ in range(2)]
    yield f"blocks {len(blocks)}"
    yield f"genesis {'ours' if blocks[0] == G else 'another'}"
    yield f"payment in {' and '.join(name for name, has in zip(('first', 'second'), carries) if has) or 'neither'}"


def main(words: List[str]) -> None:
    if words == ["feed"]:
        sys.stdout.buffer.write(feed())
    elif words == ["pair"]:
        print(sha256(ONE).hex(), sha256(TWO).hex())
    elif len(words) == 2 and words[0] == "look":
        try:
            print("\n".join(look(pathlib.Path(words[1]).read_bytes())))
        except (OSError, NotThisForm) as why:
            print(f"certificate.py: {why}", file=sys.stderr)
            sys.exit(2)
    else:
        print(__doc__, file=sys.stderr)
        sys.exit(2)


if __name__ == "__main__":
    main(sys.argv[1:])
