"""The bytes of transactions and blocks, made and read. `zorimarl.feeds` hands all of it on.

What reads here judges nothing: the program says what is a block, and these functions only take apart what it
took. Bytes that are none of the form are a `NotThisForm`, with the place of the field at fault. What makes here
refuses what has no room in its field, by `OutOfRange`; all else is the program's to judge.
"""

from __future__ import annotations

import hashlib
import itertools
import struct
from typing import Iterable, List, NamedTuple, Optional, Sequence, Tuple

from .errors import EndsEarly, NoRequest, OtherVersion, OutOfRange, Surplus

LONGEST_BLOCK = 65_536
MOST_BLOCKS = 512  # that a ledger keeps, genesis among them
ID = 32  # bytes of an id and of a lock


def sha256(data: bytes) -> bytes:
    return hashlib.sha256(data).digest()


def lock_of(word: bytes) -> bytes:
    """The lock that a word of 1 to 64 bytes opens."""
    return sha256(bytes_of(word, "a word"))


class Coin(NamedTuple):
    """An output: its transaction's id, its place, its amount and the word that opens its lock, b"" where that
    isn't known."""

    tx: bytes
    place: int
    amount: int
    word: bytes = b""

    def opened_by(self, word: bytes) -> Coin:
        """The same with the word that opens its lock, so that it can be spent."""
        return self._replace(word=bytes_of(word, "a word"))


class Tx(NamedTuple):
    """A transaction: its id, its bytes, the outpoints that it spends, and its outputs as coins."""

    id: bytes
    text: bytes
    spent: List[Tuple[bytes, int]]
    coins: List[Coin]


class Input(NamedTuple):
    """An outpoint that is spent, and the preimage that opens its lock."""

    tx: bytes
    place: int
    preimage: bytes


class Output(NamedTuple):
    amount: int
    lock: bytes


class ReadTx(NamedTuple):
    """A transaction as it was read off a block."""

    id: bytes
    inputs: List[Input]
    outputs: List[Output]


class ReadBlock(NamedTuple):
    """A block as it was read off its bytes."""

    id: bytes
    salt: int
    nonce: int
    parents: List[bytes]
    txs: List[ReadTx]


# What comes from outside


def bytes_of(value: object, what: str, length: Optional[int] = None) -> bytes:
    """Bytes, of this length where one is named; anything else is a `NoRequest`."""
    if not isinstance(value, (bytes, bytearray, memoryview)):
        raise NoRequest(f"{what} is bytes, and `{value!r:.80}` was given")
    made = bytes(value)
    if length is not None and len(made) != length:
        raise NoRequest(f"{what} has {length} bytes, and {len(made)} were given")
    return made


def id_of(value: object) -> bytes:
    """An id or a lock, which is 32 bytes."""
    return bytes_of(value, "an id or a lock", ID)


def number_of(value: object, most: int, what: str) -> int:
    """A number from 0 to this one."""
    if not isinstance(value, int):
        raise NoRequest(f"{what} is a number, and `{value!r:.80}` was given")
    if not 0 <= value <= most:
        raise OutOfRange(f"{what} is 0 to {most}, and {value} was given", 0)
    return value


def u64(value: int, what: str) -> bytes:
    return struct.pack("<Q", number_of(value, 2**64 - 1, what))


def counted(items: Sequence[bytes], most: int, what: str) -> bytes:
    """Fields behind their number, which is written in one byte, or in two where it may be large."""
    number = number_of(len(items), most, f"the number of {what}")
    return number.to_bytes(1 if most < 256 else 2, "little") + b"".join(items)


# Making


def transaction(spends: Iterable[Coin], pays: Iterable[Tuple[int, bytes]]) -> Tx:
    """One that spends these coins and pays each (amount, word)."""
    pays = list(pays)
    return locked(spends, [(amount, lock_of(word)) for amount, word in pays], [word for _, word in pays])


def locked(spends: Iterable[Coin], outputs: Sequence[Tuple[int, bytes]], words: Sequence[bytes] = ()) -> Tx:
    """One that spends these coins and has these outputs, each (amount, lock). Where the words that open
    the locks aren't given, neither do the coins have them."""
    spends = sorted(spends)
    paid = [u64(amount, "an amount") + id_of(lock) for amount, lock in outputs]
    text = counted([spelled_input(coin) for coin in spends], 255, "inputs") + counted(paid, 255, "outputs")
    made = sha256(text)
    named = itertools.zip_longest(outputs, words, fillvalue=b"")
    coins = [Coin(made, place, amount, word) for place, ((amount, _), word) in enumerate(named)]
    return Tx(made, text, [(coin.tx, coin.place) for coin in spends], coins)


def spelled_input(coin: Coin) -> bytes:
    word = bytes_of(coin.word, "a word")
    place, length = number_of(coin.place, 255, "an output's place"), number_of(len(word), 255, "a word's length")
    return id_of(coin.tx) + bytes([place, length]) + word


def spelled(salt: int, nonce: int, parents: Sequence[bytes], txs: Sequence[bytes] = ()) -> bytes:
    """The bytes of a block with the bytes of these transactions, its parents in the order given."""
    head = b"\x01" + u64(salt, "a salt") + u64(nonce, "a nonce")
    return head + counted([id_of(each) for each in parents], 255, "parents") + counted(txs, 65_535, "transactions")


def block(salt: int, parents: Iterable[bytes], txs: Iterable[Tx] = (), nonce: int = 0) -> bytes:
    """A block with this nonce, its parents in ascending order."""
    return spelled(salt, nonce, sorted(id_of(each) for each in parents), [tx.text for tx in txs])


EMPTY = spelled(0, 0, [])  # the smallest genesis block


def genesis(grants: Iterable[Tx] = ()) -> bytes:
    """A genesis block with these transactions, which spend nothing."""
    return block(0, [], grants)


def meets(block_id: bytes, bits: int) -> bool:
    """Whether the first `bits` bits of an id are zero."""
    return int.from_bytes(block_id, "big") >> (256 - bits) == 0


def mined(text: bytes, bits: int, tries: Optional[int] = None, first: int = 0) -> Optional[bytes]:
    """A block with the least nonce from `first` on that meets the work, or None where none of so many does."""
    for nonce in itertools.count(first) if tries is None else range(first, first + tries):
        made = text[:9] + struct.pack("<Q", nonce) + text[17:]
        if meets(sha256(made), bits):
            return made
    return None


# Reading


class Cursor:
    """Bytes that are taken one field after another."""

    def __init__(self, data: bytes) -> None:
        self.data, self.at = bytes_of(data, "what is read"), 0

    def take(self, count: int) -> bytes:
        if self.at + count > len(self.data):
            raise EndsEarly(f"the bytes end at {len(self.data)}, and {self.at + count} are needed", self.at)
        self.at += count
        return self.data[self.at - count : self.at]

    def number(self, count: int) -> int:
        return int.from_bytes(self.take(count), "little")

    def end(self, what: str) -> None:
        """Nothing follows."""
        if self.at != len(self.data):
            raise Surplus(f"something follows {what}", self.at)


def read_tx(cursor: Cursor) -> ReadTx:
    start = cursor.at
    inputs = [
        Input(cursor.take(ID), cursor.number(1), cursor.take(cursor.number(1))) for _ in range(cursor.number(1))
    ]
    outputs = [Output(cursor.number(8), cursor.take(ID)) for _ in range(cursor.number(1))]
    return ReadTx(sha256(cursor.data[start : cursor.at]), inputs, outputs)


def read_block(data: bytes) -> ReadBlock:
    """The fields of a block, genesis or another."""
    cursor = Cursor(data)
    if cursor.number(1) != 1:
        raise OtherVersion("the version of a block isn't 1", 0)
    salt, nonce = cursor.number(8), cursor.number(8)
    parents = [cursor.take(ID) for _ in range(cursor.number(1))]
    txs = [read_tx(cursor) for _ in range(cursor.number(2))]
    cursor.end("the block")
    return ReadBlock(sha256(cursor.data), salt, nonce, parents, txs)
