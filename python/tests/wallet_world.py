"""A ledger for the tests of wallets, with grants to their locks, and blocks made where a test wants them."""

from pathlib import Path
from typing import List, Optional, Sequence, Tuple

from zorimarl.feeds import Coin, Cursor, Tx, frame, head, lock_of, locked, read_tx, sha256, spelled
from zorimarl.ledger import Ledger

BOB = lock_of(b"bob")  # a lock of somebody else's
THIEF = lock_of(b"thief")


class World:
    """A ledger in a folder. Genesis has one grant for each (amount, lock)."""

    def __init__(self, folder: Path, grants: Sequence[Tuple[int, bytes]]) -> None:
        self.salt = 0
        self.grants = [locked([], [each]) for each in grants]
        genesis = spelled(0, 0, [], [each.text for each in self.grants])
        self.ledger = Ledger(folder / "journal", genesis, bits=0, timeout=60)
        self.genesis = self.ledger.genesis_id
        self.feed = head(genesis)  # all that was sent

    def put(self, *txs: Tx, on: Optional[Sequence[bytes]] = None) -> bytes:
        """Sends a block with these transactions, on all tips where no parents are named; its id."""
        self.salt += 1
        block = self.ledger.mine(self.tips() if on is None else on, txs, self.salt)
        self.ledger.offer(block)
        self.feed += frame(b"B", block)
        return sha256(block)

    def tips(self) -> List[bytes]:
        return [each.id for each in self.ledger.tips()]

    def heavier(self, block: bytes, by: int = 3) -> bytes:
        """A chain of so many empty blocks on a block; the last one."""
        for _ in range(by):
            block = self.put(on=[block])
        return block

    def state(self, tx: Tx) -> str:
        return self.ledger.tx(tx.id).state

    def coin(self, tx: bytes, place: int, word: bytes) -> Coin:
        """An output that some kept block has, with the word that opens it."""
        amount = next(each.outputs[place].amount for block in self.ledger.blocks() for each in block.txs if each.id == tx)
        return Coin(tx, place, amount, word)

    def steal(self, tx: Tx, *places: int) -> Tx:
        """Another spend of the inputs at these places of a transaction, or of all, by the words that it shows."""
        inputs = read_tx(Cursor(tx.text)).inputs
        coins = [self.coin(*inputs[place]) for place in places or range(len(inputs))]
        return locked(coins, [(sum(coin.amount for coin in coins), THIEF)])
