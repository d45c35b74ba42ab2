"""Bytes as they stand, right or wrong: what the chosen vectors are put together from. Nothing here judges anything."""

from __future__ import annotations

import hashlib
from collections.abc import Sequence

ABC = hashlib.sha256(b"abc").digest()


def sha(text: bytes) -> bytes:
    return hashlib.sha256(text).digest()


def lock(word: str) -> bytes:
    return sha(word.encode())


def u(number: int, width: int) -> bytes:
    return number.to_bytes(width, "little")


def spent(tx: bytes, index: int, preimage: bytes) -> bytes:
    return tx + bytes([index, len(preimage)]) + preimage


def paid(amount: int, key: bytes = ABC) -> bytes:
    return u(amount, 8) + key


def tx(inputs: Sequence[bytes], outputs: Sequence[bytes], inputs_count: int | None = None, outputs_count: int | None = None) -> bytes:
    """A transaction of inputs and outputs, whose counts can be said otherwise."""
    first = len(inputs) if inputs_count is None else inputs_count
    second = len(outputs) if outputs_count is None else outputs_count
    return bytes([first]) + b"".join(inputs) + bytes([second]) + b"".join(outputs)


def block(salt: int, parents: Sequence[bytes], txs: Sequence[bytes] = (), nonce: int = 0, version: int = 1, txs_count: int | None = None) -> bytes:
    count = len(txs) if txs_count is None else txs_count
    return bytes([version]) + u(salt, 8) + u(nonce, 8) + bytes([len(parents)]) + b"".join(parents) + u(count, 2) + b"".join(txs)


def mined(bits: int, salt: int, parents: Sequence[bytes], txs: Sequence[bytes] = ()) -> bytes:
    """The block with the least nonce that meets the work."""
    nonce = 0
    while int.from_bytes(sha(block(salt, parents, txs, nonce)), "big") >> (256 - bits):
        nonce += 1
    return block(salt, parents, txs, nonce)


def frame(kind: bytes, payload: bytes = b"", length: int | None = None) -> bytes:
    return kind + u(len(payload) if length is None else length, 4) + payload


def feed(genesis: bytes, *frames: bytes, bits: int = 0, profile: int = 1) -> bytes:
    return b"SPCTRF0%d" % profile + bytes([bits]) + frame(b"B", genesis) + b"".join(frames)


def blocks_feed(genesis: bytes, *blocks: bytes, bits: int = 0, profile: int = 1) -> bytes:
    return feed(genesis, *[frame(b"B", each) for each in blocks], frame(b"E"), bits=bits, profile=profile)


def record(text: bytes, gate: int = 0xA5) -> bytes:
    return bytes([gate]) + u(len(text), 4) + text


def journal(genesis: bytes, *blocks: bytes, bits: int = 0, profile: int = 1, end: bytes = b"\0") -> bytes:
    head = b"\xa5SPCTRJ0%d" % profile + bytes([bits]) + u(len(genesis), 4) + genesis
    return head + b"".join(map(record, blocks)) + end


def cert(blocks: Sequence[bytes], x: bytes, y: bytes, sign: int, worlds: Sequence[tuple[int, str]], profile: int = 1) -> bytes:
    """A certificate; a world's votes are `-`, `0` and `+`."""
    texts = b"".join(u(len(each), 4) + each for each in blocks)
    said = b"".join(u(number, 2) + bytes("-0+".index(vote) for vote in votes) for number, votes in worlds)
    return b"SPCTRC01" + bytes([profile]) + u(len(blocks), 2) + texts + x + y + bytes([sign + 1]) + u(len(worlds), 2) + said


GENESIS = block(0, [])
G = sha(GENESIS)
A = block(1, [G])
B = block(2, [G])
