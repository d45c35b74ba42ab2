"""The blocks that a ledger keeps, as this package knows them: those of its journal, and those offered since.

What is worked out here, and not written by the program, is which blocks are present, tips, children, the
outputs that accepted transactions leave, and what a lock's transactions come to. Which transactions are accepted
is always the program's word. python/tests/test_kept.py compares all of it with the program on drawn ledgers.
"""

from __future__ import annotations

from typing import Collection, Dict, Iterable, List, NamedTuple, Set, Tuple

from .blocks import Coin, ReadBlock, ReadTx, read_block
from .errors import NoBlock


class Block(NamedTuple):
    """A kept block. It is `present` where all its ancestors are kept, and waits otherwise."""

    id: bytes
    data: bytes
    salt: int
    nonce: int
    parents: List[bytes]
    txs: List[ReadTx]
    present: bool


class Entry(NamedTuple):
    """A transaction that pays to a lock or spends from it, as a present block carries it. `received` and `spent`
    are amounts under that lock; `blocks` are the ids of the present blocks that carry it."""

    tx: bytes
    state: str
    received: int
    spent: int
    blocks: Tuple[bytes, ...]


class Kept:
    """Blocks in the order in which they were kept, genesis first."""

    def __init__(self, genesis: bytes, blocks: Iterable[bytes]) -> None:
        self.data: Dict[bytes, bytes] = {}
        self.read: Dict[bytes, ReadBlock] = {}
        self.present: Dict[bytes, None] = {}  # in the order in which they became so
        self.waiting: Dict[bytes, Set[bytes]] = {}  # the children that wait for a block, by its id
        self.below: Dict[bytes, List[bytes]] = {}  # the kept children of a block, by its id
        self.add(genesis)
        for each in blocks:
            self.add(each)

    def __len__(self) -> int:
        return len(self.data)

    def add(self, data: bytes) -> None:
        """A block that the program has kept."""
        found = read_block(data)
        if found.id in self.data:
            return
        self.data[found.id], self.read[found.id] = bytes(data), found
        for parent in found.parents:
            self.below.setdefault(parent, []).append(found.id)
        self.settle([found.id])

    def settle(self, ids: List[bytes]) -> None:
        """Marks those as present whose parents are, and then those that waited for them."""
        while ids:
            block = self.read[ids.pop(0)]
            missing = [parent for parent in block.parents if parent not in self.present]
            if missing:
                self.waiting.setdefault(missing[0], set()).add(block.id)
                continue
            self.present[block.id] = None
            ids += sorted(self.waiting.pop(block.id, ()))

    def block(self, block_id: bytes) -> Block:
        if block_id not in self.read:
            raise NoBlock(f"no kept block has the id {block_id.hex()}")
        found = self.read[block_id]
        data, present = self.data[block_id], block_id in self.present
        return Block(found.id, data, found.salt, found.nonce, found.parents, found.txs, present)

    def blocks(self) -> List[Block]:
        return [self.block(each) for each in self.data]

    def children(self, block_id: bytes) -> List[Block]:
        """The kept blocks that name this one as a parent, which itself needn't be kept."""
        return [self.block(each) for each in self.below.get(block_id, [])]

    def tips(self) -> List[Block]:
        """The present blocks on which no present one stands."""
        taken = {parent for each in self.present for parent in self.read[each].parents}
        return [self.block(each) for each in self.present if each not in taken]

    # Transactions of present blocks

    def txs(self) -> Dict[bytes, ReadTx]:
        """The transactions that present blocks carry, each once."""
        return {tx.id: tx for each in self.present for tx in self.read[each].txs}

    def coins(self, lock: bytes, accepted: Iterable[bytes]) -> List[Coin]:
        """The outputs of these transactions under this lock that none of them spends, by their outpoints."""
        txs = self.txs()
        chosen = [txs[each] for each in accepted if each in txs]
        spent = {(each.tx, each.place) for tx in chosen for each in tx.inputs}
        return sorted(
            Coin(tx.id, place, output.amount)
            for tx in chosen
            for place, output in enumerate(tx.outputs)
            if output.lock == lock and (tx.id, place) not in spent
        )

    def touching(self, lock: bytes) -> Dict[bytes, Tuple[int, int, Tuple[bytes, ...]]]:
        """What each transaction of a present block receives under this lock and spends from it, and its blocks."""
        txs = self.txs()
        found: Dict[bytes, Tuple[int, int, Tuple[bytes, ...]]] = {}
        for block_id in self.present:
            for tx in self.read[block_id].txs:
                received = sum(each.amount for each in tx.outputs if each.lock == lock)
                spent = sum(amount_under(lock, each.tx, each.place, txs) for each in tx.inputs)
                if received or spent:
                    blocks = found[tx.id][2] if tx.id in found else ()
                    found[tx.id] = received, spent, (*blocks, block_id)
        return found

    def history(self, lock: bytes, accepted: Collection[bytes]) -> List[Entry]:
        """Each of these transactions, the one first that the first present block carries."""
        names = set(accepted)
        return [
            Entry(tx, "accepted" if tx in names else "rejected", received, spent, blocks)
            for tx, (received, spent, blocks) in self.touching(lock).items()
        ]


def amount_under(lock: bytes, tx: bytes, place: int, txs: Dict[bytes, ReadTx]) -> int:
    """What an outpoint has under this lock; 0 where it has another one, or names no output that is known."""
    outputs = txs[tx].outputs if tx in txs else []
    return outputs[place].amount if place < len(outputs) and outputs[place].lock == lock else 0
