#!/usr/bin/env python3
"""Two wallets and a service over one node: an order is paid, the payment turns back, and it is paid again.

    python3 python/examples/wallets.py FOLDER

Alice has 100 and 90, and pays 70 to the shop, which Bob's wallet is for. The shop's node puts the payment in a block,
and it is accepted. But a thief has seen the word that the payment shows, and spends the same 100 in a block
beside; three blocks on that one turn the order, and the payment back. The shop names another lock, since anybody
might have seen what was paid to the first one; Alice pays again, by the 90.

Kill it wherever you like, and start it again with the same FOLDER: it goes on, and ends the same. Each step asks the
wallets' files and the node what was done before. A payment has the order's name, so that it is made but once; a
block has a salt of its own, so that it is the same block when it is sent again.
"""

import sys
import time
from pathlib import Path
from typing import List, Sequence

from zorimarl.errors import InUse
from zorimarl.feeds import Coin, Cursor, Tx, lock_of, locked, read_tx, sha256
from zorimarl.ledger import Ledger, genesis
from zorimarl.wallet import Payment, Wallet
from zorimarl.wallet_errors import NoWallet

ORDER, PRICE = "order 1", 70
COINS = (100, 90)
BITS = 4
PATIENCE = 60.0  # seconds until a node that lost its client has let go of its journal


def say(*words: object) -> None:
    print(*words, flush=True)


def wallet_in(file: Path) -> Wallet:
    try:
        return Wallet.open(file)
    except NoWallet:
        return Wallet.create(file)


def locks_for(wallet: Wallet, count: int) -> List[bytes]:
    """The first so many locks of a wallet; those that it hasn't yet are made."""
    while True:
        locks = [each.lock for each in wallet.locks() if not each.is_change]
        if count <= len(locks):
            return locks[:count]
        say("lock", wallet.receive().hex())


class Shop:
    """A service with a node, and with a wallet for what it is paid."""

    def __init__(self, folder: Path, genesis_block: bytes) -> None:
        self.wallet = wallet_in(folder / "bob.wallet")
        self.ledger = opened(folder / "ledger.journal", genesis_block)

    def invoice(self, number: int) -> bytes:
        """The lock for the payment of this number, counted from 0."""
        return locks_for(self.wallet, number + 1)[number]

    def carry(self, salt: int, parents: Sequence[bytes], *txs: Tx) -> bytes:
        """Sends a block, which the node may know already; its id."""
        block = self.ledger.mine(parents, txs, salt)
        self.ledger.offer(block)
        return sha256(block)

    def close(self) -> None:
        self.ledger.close()
        self.wallet.close()


def opened(file: Path, genesis_block: bytes) -> Ledger:
    """The node's ledger. A node whose client was killed ends by itself, a little later."""
    until = time.monotonic() + PATIENCE
    while True:
        try:
            return Ledger(file, genesis_block, bits=BITS, fresh=True, timeout=PATIENCE)
        except InUse:
            if until < time.monotonic():
                raise
            time.sleep(0.01)


def theft(tx: Tx, amount: int) -> Tx:
    """What a thief makes of the words that a payment shows."""
    coins = [Coin(each.tx, each.place, amount, each.preimage) for each in read_tx(Cursor(tx.text)).inputs]
    return locked(coins, [(amount, lock_of(b"thief"))])


def tell(payment: Payment) -> Payment:
    say("payment", payment.tx.id.hex(), payment.state)
    return payment


def play(alice: Wallet, shop: Shop) -> None:
    ledger = shop.ledger
    payment = tell(alice.pay(ledger, shop.invoice(0), PRICE, name=ORDER))
    first = payment.sent[0].tx
    one = shop.carry(1, [ledger.genesis_id], first)
    tell(alice.payment(payment.number, ledger))

    beside = shop.carry(2, [ledger.genesis_id], theft(first, COINS[0]))
    for salt in (3, 4, 5):
        beside = shop.carry(salt, [beside])
    payment = tell(alice.payment(payment.number, ledger))

    if not payment.times:  # it turned back, and isn't paid again yet
        payment = tell(alice.again(ledger, payment, lock=shop.invoice(1), may_pay_twice=True))
    shop.carry(6, [one, beside], payment.tx)
    payment = tell(alice.payment(payment.number, ledger))
    say("paid", payment.times, "alice", *alice.balance(ledger), "shop", *shop.wallet.balance(ledger))


def main(folder: Path) -> None:
    with wallet_in(folder / "alice.wallet") as alice:
        locks = locks_for(alice, len(COINS))
        shop = Shop(folder, genesis([locked([], [coin]) for coin in zip(COINS, locks)]))
        try:
            play(alice, shop)
        finally:
            shop.close()


if __name__ == "__main__":
    if len(sys.argv) != 2 or not Path(sys.argv[1]).is_dir():
        sys.exit("usage: wallets.py FOLDER, which has to be there")
    main(Path(sys.argv[1]))
