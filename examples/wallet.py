#!/usr/bin/env python3
"""Writes the feeds of a wallet's round to standard output, for `replay`, `spend` and `watch`:

    python3 examples/wallet.py start          # Alice has 100, and her balance is asked for
    python3 examples/wallet.py round SPEND    # her payment, read from the file SPEND, in a block

In the second feed block 1 carries the payment. Block 2 beside it carries another payment of what that
one spends, to Carol; and block 3 stands on block 1. The formats are those of docs/FORMATS.md.
"""

from __future__ import annotations

import pathlib
import sys
from typing import List

sys.dont_write_bytecode = True

import package  # noqa: F401
from zorimarl.feeds import frame, head, lock_of, sha256, spelled, transaction

GRANT = transaction([], [(100, b"alice")])
G = spelled(0, 0, [], [GRANT.text])
HEAD = head(G, 0)
ASK = frame(b"U", lock_of(b"alice"))
END = frame(b"E")


def send(block: bytes) -> bytes:
    return frame(b"B", block)


def start() -> bytes:
    return HEAD + ASK + END


def around(payment: bytes) -> bytes:
    """The payment in a block, a rival of it in one beside, and a block on the first."""
    rival = transaction(GRANT.coins, [(100, b"carol")])
    one = spelled(1, 0, [sha256(G)], [payment])
    two = spelled(2, 0, [sha256(G)], [rival.text])
    three = spelled(3, 0, [sha256(one)])
    return HEAD + send(one) + send(two) + send(three) + END


def main(words: List[str]) -> None:
    if words == ["start"]:
        feed = start()
    elif len(words) == 2 and words[0] == "round":
        try:
            feed = around(pathlib.Path(words[1]).read_bytes())
        except OSError as why:
            print(f"wallet.py: {why}", file=sys.stderr)
            sys.exit(2)
    else:
        print(__doc__, file=sys.stderr)
        sys.exit(2)
    sys.stdout.buffer.write(feed)


if __name__ == "__main__":
    main(sys.argv[1:])
