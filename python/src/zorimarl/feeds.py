"""The bytes of feeds, journals and certificates, made and read; and those of transactions and blocks.

The forms are those of docs/FORMATS.md. What reads here judges nothing beyond the fields themselves: whether a
block holds to the rules, and whether a certificate's votes are right, the program says. Bytes that are none of
the form are a `NotThisForm`, of the class that says what hinders, with the place of the field at fault.

    feed = head(genesis([grant]), bits=8) + frame(BLOCK, data) + frame(REPORT) + END
    first, frames = read_feed(feed)
    journal = read_journal(path.read_bytes())
"""

from __future__ import annotations

import struct
from typing import Iterable, Iterator, List, NamedTuple, Tuple

from .blocks import (
    EMPTY,
    ID,
    LONGEST_BLOCK,
    MOST_BLOCKS,
    Coin,
    Cursor,
    Input,
    Output,
    ReadBlock,
    ReadTx,
    Tx,
    block,
    bytes_of,
    genesis,
    id_of,
    lock_of,
    locked,
    meets,
    mined,
    number_of,
    read_block,
    read_tx,
    sha256,
    spelled,
    transaction,
)
from .errors import GateClosed, NoRequest, NotThisForm, OtherFrame, OtherName, OutOfRange

__all__ = [
    "BALANCE", "BLOCK", "EMPTY", "END", "ID", "LONGEST_BLOCK", "MOST_BLOCKS", "PAIRS", "REPORT", "TX", "VOTE",
    "Certificate", "Coin", "Cursor", "Frame", "Head", "Input", "Journal", "NotThisForm", "Output", "ReadBlock", "ReadTx", "Tx",
    "block", "feed", "frame", "frames_of", "genesis", "head", "id_of", "lock_of", "locked", "meets", "mined", "read_block",
    "read_certificate", "read_feed", "read_frame", "read_head", "read_journal", "read_journal_head", "read_tx", "records_of",
    "sha256", "spelled", "transaction",
]  # fmt: skip

# The first eight bytes of a feed and of a journal, for each profile, and of a certificate.
PROFILES = {1: (b"SPCTRF01", b"SPCTRJ01"), 2: (b"SPCTRF02", b"SPCTRJ02")}
FEED, JOURNAL = 0, 1
CERTIFICATE = b"SPCTRC01"

# The kinds of frames: a block; the questions on two blocks, a transaction and a balance; those for all pairs
# and for a report; the end.
BLOCK, VOTE, TX, BALANCE, PAIRS, REPORT = b"B", b"V", b"T", b"U", b"P", b"R"
# The lengths that the payload of a frame may have.
FRAMES = {BLOCK: range(LONGEST_BLOCK + 2), VOTE: [2 * ID], TX: [ID], BALANCE: [ID], PAIRS: [0], REPORT: [0], b"E": [0]}

OPEN_GATE = 0xA5
LONGEST_HEAD = 14 + LONGEST_BLOCK  # of a journal
MOST_BITS = 64


class Head(NamedTuple):
    """The head of a feed or of a journal."""

    profile: int
    bits: int
    genesis: bytes  # the block's bytes


class Frame(NamedTuple):
    kind: bytes
    payload: bytes
    place: int


class Journal(NamedTuple):
    """A journal's head and the bytes of the blocks in its records."""

    head: Head
    blocks: List[bytes]


class Certificate(NamedTuple):
    """What a certificate says of two blocks, and the bytes of the blocks that it stands on. `word` is `before`,
    `after` or `tie`. Whether its votes are right the program says: `zorimarl.proofs.check`."""

    profile: int
    blocks: List[bytes]
    x: bytes
    y: bytes
    word: str


# Making


def frame(kind: bytes, payload: bytes = b"") -> bytes:
    return kind + struct.pack("<I", len(payload)) + payload


END = frame(b"E")


def head(genesis: bytes, bits: int = 0, profile: int = 1) -> bytes:
    """The head of a feed."""
    if profile not in PROFILES:
        raise NoRequest(f"a profile is {' or '.join(map(str, PROFILES))}, and `{profile!r:.80}` was given")
    bits = number_of(bits, MOST_BITS, "the bits of work")
    return PROFILES[profile][FEED] + bytes([bits]) + frame(BLOCK, bytes_of(genesis, "a genesis block"))


def feed(first: Head, blocks: Iterable[bytes]) -> bytes:
    """A whole feed: its head, these blocks, and the end."""
    return head(first.genesis, first.bits, first.profile) + b"".join(frame(BLOCK, each) for each in blocks) + END


# Reading feeds


def profile_of(cursor: Cursor, kind: int) -> int:
    """The profile that the next eight bytes name, those of a feed or of a journal."""
    place, first = cursor.at, cursor.take(8)
    for profile, names in PROFILES.items():
        if names[kind] == first:
            return profile
    raise OtherName("the first eight bytes are those of no profile", place)


def read_bits(cursor: Cursor) -> int:
    place, bits = cursor.at, cursor.number(1)
    if bits > MOST_BITS:
        raise OutOfRange(f"the bits of work are {bits}, and {MOST_BITS} at most", place)
    return bits


def read_frame(cursor: Cursor) -> Frame:
    place = cursor.at
    kind = cursor.take(1)
    if kind not in FRAMES:
        raise OtherFrame(f"no frame has the kind {kind!r}", place)
    length = cursor.number(4)
    if length not in FRAMES[kind]:
        raise OtherFrame(f"no frame of the kind {kind.decode()} has {length} bytes", place + 1)
    return Frame(kind, cursor.take(length), place)


def read_head(cursor: Cursor) -> Head:
    """The head of a feed."""
    profile, bits = profile_of(cursor, FEED), read_bits(cursor)
    place = cursor.at
    if cursor.data[place : place + 1] not in (BLOCK, b""):
        raise OtherFrame("a head has its genesis block in a frame B", place)
    return Head(profile, bits, read_frame(cursor).payload)


def read_feed(data: bytes) -> Tuple[Head, List[Frame]]:
    """The head of a whole feed, and its frames but the last. What follows the frame E isn't looked at."""
    cursor = Cursor(data)
    first, frames = read_head(cursor), list[Frame]()
    while True:
        found = read_frame(cursor)
        if found.kind == b"E":
            return first, frames
        frames.append(found)


def frames_of(cursor: Cursor) -> Iterator[Frame]:
    """The frames behind a feed's head, up to the frame E or to what is none."""
    while True:
        try:
            found = read_frame(cursor)
        except NotThisForm:
            return
        if found.kind == b"E":
            return
        yield found


# Reading journals and certificates


def read_journal_head(cursor: Cursor) -> Head:
    """The head of a journal."""
    place = cursor.at
    if cursor.number(1) != OPEN_GATE:
        raise GateClosed("the first gate is closed, so there is no journal", place)
    profile, bits = profile_of(cursor, JOURNAL), read_bits(cursor)
    return Head(profile, bits, read_block_bytes(cursor, "the genesis block"))


def read_block_bytes(cursor: Cursor, what: str) -> bytes:
    """A length of four bytes, and the bytes of a block."""
    place, length = cursor.at, cursor.number(4)
    if length > LONGEST_BLOCK:
        raise OutOfRange(f"{what} has {length} bytes, and {LONGEST_BLOCK} at most", place)
    return cursor.take(length)


def records_of(cursor: Cursor) -> Iterator[bytes]:
    """The blocks of the records behind a journal's head, up to the closed gate."""
    count = 1  # genesis
    while cursor.number(1) == OPEN_GATE:
        count += 1
        if count > MOST_BLOCKS:
            raise OutOfRange(f"more than {MOST_BLOCKS - 1} records stand there", cursor.at - 1)
        yield read_block_bytes(cursor, "a record's block")


def read_journal(data: bytes) -> Journal:
    """A journal up to its first closed gate. What follows that has no meaning."""
    cursor = Cursor(data)
    return Journal(read_journal_head(cursor), list(records_of(cursor)))


def read_certificate(data: bytes) -> Certificate:
    """The fields of a certificate up to its sign. The votes behind it aren't looked at."""
    cursor = Cursor(data)
    if cursor.take(8) != CERTIFICATE:
        raise OtherName("the first eight bytes are those of no certificate", 0)
    profile = one_of(cursor, 1, PROFILES, "a certificate's profile")
    count = one_of(cursor, 2, range(1, MOST_BLOCKS + 1), "the number of blocks")
    blocks = [read_block_bytes(cursor, "a block") for _ in range(count)]
    x, y = cursor.take(ID), cursor.take(ID)
    return Certificate(profile, blocks, x, y, ("before", "tie", "after")[one_of(cursor, 1, range(3), "a sign")])


def one_of(cursor: Cursor, size: int, allowed: Iterable[int], what: str) -> int:
    place, number = cursor.at, cursor.number(size)
    if number not in allowed:
        raise OutOfRange(f"{number} is no number of {what}", place)
    return number
