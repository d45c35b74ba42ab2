"""What the other side of an exchange sends: a feed that comes in pieces, and of which nothing is believed.

Its head has to be this side's own, byte for byte. Behind it stands a frame `V` for each block that it has, whose
payload is that block's id, twice; then one frame `R`; then frames `B`, with blocks that this side lacks; and the
frame `E`. So it sends at most 511 ids, and each block at most once.
"""

from __future__ import annotations

from typing import Collection, Dict, List, Optional, Set

from .blocks import ID, LONGEST_BLOCK, MOST_BLOCKS, sha256
from .feeds import BLOCK, FEED, PROFILES, REPORT, VOTE
from .sync_errors import NotListed, OtherLedger, PeerEnded, PeerFault, PeerMalformed, TooMany, Withheld

END_KIND = b"E"
# What may stand behind the head, and in front of the frame R and behind it; and how long it may be.
LISTING, SENDING = (VOTE, REPORT), (BLOCK, END_KIND)
LENGTHS: Dict[bytes, Collection[int]] = {VOTE: (2 * ID,), REPORT: (0,), BLOCK: range(LONGEST_BLOCK + 1), END_KIND: (0,)}
FRAME_HEAD = 5  # bytes: a kind and a length


class Incoming:
    """The other side's bytes. `head` is that of this side's feed, and `own` has the ids that it keeps, genesis
    among them; at most `most` blocks may come."""

    def __init__(self, head: bytes, own: Collection[bytes], most: int = MOST_BLOCKS) -> None:
        self.head, self.own, self.most = head, set(own), most
        self.waiting = bytearray()
        self.place = 0  # of the first of these
        self.listed: Dict[bytes, None] = {}
        self.lacking: Set[bytes] = set()  # what it listed, this side lacks, and hasn't come yet
        self.is_listed = self.is_over = False
        self.fault: Optional[PeerFault] = None  # the first, at which reading ends

    def push(self, piece: bytes) -> List[bytes]:
        """Takes bytes, and answers the blocks that are whole with them. Where the bytes are at fault behind these
        blocks, that is told with the next call, so that no whole block is lost."""
        self.waiting += piece
        found: List[bytes] = []
        while not self.is_over and self.fault is None:
            try:
                block = self.next_block()
            except PeerFault as why:
                self.fault = why
                break
            if block is None:
                break
            found.append(block)
        if self.fault is not None and not found:
            raise self.fault
        return found

    def end(self) -> None:
        """No more bytes come."""
        self.push(b"")
        if not self.is_over:
            count = self.place + len(self.waiting)
            raise PeerEnded(f"what the other side sends ends behind {count} bytes, and before its frame E", count)

    def next_block(self) -> Optional[bytes]:
        """The next block, or None where more bytes are needed or the frame E has come."""
        if not self.has_head():
            return None
        while not self.is_over:
            start = self.place
            kind = self.kind()
            payload = self.payload(kind) if kind else None
            if kind is None or payload is None:
                return None
            if kind == BLOCK:
                self.arrives(payload, start)
                return payload
            if kind == VOTE:
                self.lists(payload, start)
            elif kind == REPORT:
                self.list_ends()
            else:
                self.is_over = True
        return None

    # The fields

    def has_head(self) -> bool:
        """Whether the head has come. Each byte is held against this side's own as soon as it is there."""
        if self.place:
            return True
        count = min(len(self.waiting), len(self.head))
        if self.waiting[:count] != self.head[:count]:
            place = next(place for place in range(count) if self.waiting[place] != self.head[place])
            raise self.other_head(place)
        if count < len(self.head):
            return False
        self.drop(count)
        return True

    def other_head(self, place: int) -> PeerFault:
        """The error of a head that differs from this side's own first at this place."""
        names = [each[FEED] for each in PROFILES.values()]
        if place < 8 and not any(bytes(self.waiting[: place + 1]) == each[: place + 1] for each in names):
            return PeerMalformed("what the other side sends begins as no feed does", place)
        if place == 9:
            return PeerMalformed("a head has its genesis block in a frame B", place)
        what = "another profile" if place < 8 else "other bits of work" if place == 8 else "another genesis block"
        return OtherLedger(f"the other side's ledger has {what}", place)

    def kind(self) -> Optional[bytes]:
        """The kind of the next frame, as soon as it is there."""
        if not self.waiting:
            return None
        kind = bytes(self.waiting[:1])
        allowed = SENDING if self.is_listed else LISTING
        if kind not in allowed:
            words = " or ".join(each.decode() for each in allowed)
            raise PeerMalformed(f"a frame {words} has to stand here, and the kind is {kind!r}", self.place)
        return kind

    def payload(self, kind: bytes) -> Optional[bytes]:
        """The payload of the next frame, once it is whole."""
        if len(self.waiting) < FRAME_HEAD:
            return None
        length = int.from_bytes(self.waiting[1:FRAME_HEAD], "little")
        if length not in LENGTHS[kind]:
            raise PeerMalformed(f"no frame {kind.decode()} has {length} bytes here", self.place + 1)
        if len(self.waiting) < FRAME_HEAD + length:
            return None
        payload = bytes(self.waiting[FRAME_HEAD : FRAME_HEAD + length])
        self.drop(FRAME_HEAD + length)
        return payload

    def drop(self, count: int) -> None:
        del self.waiting[:count]
        self.place += count

    # What they say

    def lists(self, payload: bytes, place: int) -> None:
        """It has a block."""
        block_id = payload[:ID]
        if payload[ID:] != block_id:
            raise PeerMalformed("a listed block's id has to stand twice", place + FRAME_HEAD + ID)
        if block_id in self.listed:
            raise PeerMalformed("a block is listed twice", place)
        if len(self.listed) == MOST_BLOCKS - 1:
            raise PeerMalformed(f"more than {MOST_BLOCKS - 1} blocks are listed", place)
        self.listed[block_id] = None

    def list_ends(self) -> None:
        """It has listed all. Both sides judge the sum alike."""
        self.is_listed = True
        self.lacking = set(self.listed) - self.own
        together = len(self.own) + len(self.lacking)
        if together > MOST_BLOCKS:
            raise TooMany(f"both sides have {together} blocks together, and a ledger has room for {MOST_BLOCKS}", self.place)
        if len(self.lacking) > self.most:
            raise TooMany(f"the other side has {len(self.lacking)} blocks that this one lacks, and {self.most} may be taken", self.place)

    def arrives(self, block: bytes, place: int) -> None:
        """It sends a block."""
        block_id = sha256(block)
        if block_id not in self.lacking:
            raise NotListed(f"the block {block_id.hex()} wasn't listed, or isn't lacking", place)
        self.lacking.remove(block_id)

    def judge_end(self) -> None:
        """All that it listed has to have come."""
        if self.lacking:
            first = min(self.lacking).hex()
            raise Withheld(f"{len(self.lacking)} blocks were listed and not sent, the first {first}", self.place)
