"""Wallets over drawn ledgers: what they hold to after each step, and their payments against the program's `spend`."""

import hashlib
import random
import secrets
import subprocess
from collections import Counter
from pathlib import Path
from typing import Dict, List, Set, Tuple, Union

import pytest
from wallet_world import World

from zorimarl.feeds import Cursor, Input, Tx, lock_of, locked, read_tx
from zorimarl.payment import NotEnough, PaymentError, TooLarge
from zorimarl.program import find
from zorimarl.wallet import Payment, Wallet
from zorimarl.wallet_errors import BurntLock, MayPayTwice, NotTurned

PROGRAM = find().path
WORLDS = 25
STEPS = 16


class Play:
    """A wallet, its ledger, and strangers who pay it and steal from it. Words are texts, since the program takes them
    on its command line; they are drawn all the same."""

    def __init__(self, folder: Path, seed: int, monkeypatch: pytest.MonkeyPatch) -> None:
        self.draw, self.made, self.kinds = random.Random(seed), 0, Counter[str]()
        monkeypatch.setattr(secrets, "token_bytes", self.token)
        self.wallet = Wallet.create(folder / "wallet")
        locks = [self.wallet.receive() for _ in range(self.draw.randint(2, 9))]
        usual = self.draw.choice([(1, 4), (1, 200), (2**61, 2**62)])
        mine = [(self.draw.randint(*usual), self.draw.choice(locks)) for _ in range(self.draw.choice([4, 12, 30]))]
        theirs = [(50 + number, lock_of(b"stranger %d" % number)) for number in range(4)]
        self.world = World(folder, sorted({*mine, *theirs}))
        self.strangers = {lock_of(b"stranger %d" % number): b"stranger %d" % number for number in range(4)}
        self.waiting: List[Tx] = []  # made, and in no block yet
        self.changes: Set[bytes] = set()
        self.seen: Dict[bytes, Payment] = {}

    def token(self, count: int) -> bytes:
        self.made += 1
        return hashlib.sha256(b"%d %d" % (self.draw.getrandbits(64), self.made)).hexdigest()[:count].encode()

    def words(self) -> Dict[bytes, bytes]:
        return {each.lock: each.word for each in self.wallet.store.words()}

    # Steps

    def step(self) -> None:
        kinds = [self.pay, self.pay, self.pay, self.carry, self.carry, self.carry, self.steal, self.steal, self.be_paid, self.again, self.sweep]
        self.draw.choice(kinds)()

    def parents(self) -> List[bytes]:
        blocks = [each.id for each in self.world.ledger.blocks()][-5:]
        return self.draw.choice([self.world.tips(), self.draw.sample(blocks, min(len(blocks), self.draw.randint(1, 2)))])

    def carry(self) -> None:
        count = min(len(self.waiting), self.draw.randint(0, 3))
        txs, self.waiting = self.waiting[:count], self.waiting[count:]
        self.kinds["carried"] += len(txs)
        for tx in txs:
            self.world.put(tx, on=self.parents())
        self.world.heavier(self.draw.choice(self.world.tips()), self.draw.randint(0, 2))

    def steal(self) -> None:
        payments = self.wallet.payments()
        if payments:
            tx = self.draw.choice(payments).tx
            places = self.draw.sample(range(len(tx.spent)), self.draw.randint(1, len(tx.spent)))
            theft = self.world.put(self.world.steal(tx, *places), on=self.parents())
            self.world.heavier(theft, self.draw.choice([0, 3]))
            self.kinds["stolen"] += 1

    def be_paid(self) -> None:
        """A stranger pays to one of the wallet's locks, be it burnt or not."""
        if not self.strangers:
            return
        lock, word = self.strangers.popitem()
        grant = next(each for each in self.world.grants if read_tx(Cursor(each.text)).outputs[0].lock == lock)
        to = self.draw.choice([self.draw.choice(self.wallet.locks()).lock, self.wallet.receive()])
        self.waiting.append(locked([self.world.coin(grant.id, 0, word)], [(50, to)]))

    def pay(self) -> None:
        ledger = self.world.ledger
        free = sorted((each.amount for each in self.wallet.coins(ledger) if each.standing == "spendable"), reverse=True)
        amount = sum(free[: self.draw.choice([1, 1, 2, 3, 16, 17])]) + self.draw.randint(-1, 1)
        amount = max(1, min(2**63 - 1, amount))
        before = self.wallet.locks()
        told: Union[Payment, Tuple[str, int]]
        try:
            told = self.wallet.pay(ledger, lock_of(b"bob"), amount)
            self.waiting.append(told.tx)
        except NotEnough as why:
            told = "poor", why.reach
        except TooLarge as why:
            told = "large", why.total
        self.compare(amount, told, {each.lock for each in before if not each.burnt})

    def compare(self, amount: int, told: Union[Payment, Tuple[str, int]], unburnt: Set[bytes]) -> None:
        """With what `spend` makes of the words that nobody had seen."""
        words = self.words()
        change = [each for each in words if each not in unburnt and isinstance(told, Payment) and each in locks_paid(told.tx)]
        names = [words[each] for each in change] + [word for lock, word in words.items() if lock in unburnt]
        if not 1 <= len(names) <= 16:
            self.kinds["too many words"] += 1
            return
        done = subprocess.run(
            [PROGRAM, "spend", str(amount), "to", "bob", "from", *(each.decode() for each in names)],
            input=self.world.feed + b"E\0\0\0\0",
            capture_output=True,
            timeout=60,
        )
        if not isinstance(told, Payment):
            kind, number = told
            assert done.stdout.decode() == f"fault {kind} {number}\n"
            self.kinds[kind] += 1
        elif len(told.tx.spent) == done.stdout[0]:
            assert told.tx.text == done.stdout
            self.kinds["same bytes"] += 1
        else:  # it takes the rest of what its words open, too, and so it has more inputs, and more change
            theirs = {(each.tx, each.place) for each in read_tx(Cursor(done.stdout)).inputs}
            assert theirs < set(told.tx.spent)
            more = set(told.tx.spent) - theirs
            locks = {self.lock_at(*each) for each in theirs}
            assert {self.lock_at(*each) for each in more} <= locks
            self.kinds["more inputs"] += 1

    def lock_at(self, tx: bytes, place: int) -> bytes:
        return next(each.outputs[place].lock for block in self.world.ledger.blocks() for each in block.txs if each.id == tx)

    def again(self) -> None:
        for each in self.wallet.payments(self.world.ledger)[-3:]:
            try:
                self.waiting.append(self.wallet.again(self.world.ledger, each).tx)
                self.kinds["again"] += 1
            except (NotTurned, MayPayTwice, NotEnough, BurntLock) as why:
                self.kinds[type(why).__name__] += 1
            except PaymentError:
                assert each.kind == "sweep"

    def sweep(self) -> None:
        self.wallet.payments(self.world.ledger)
        swept = self.wallet.sweep(self.world.ledger)
        if swept:
            self.waiting.append(swept.tx)
            self.kinds["swept"] += 1

    # What holds after each step

    def look(self) -> None:
        wallet, ledger = self.wallet, self.world.ledger
        payments = wallet.payments(ledger)
        coins, money = wallet.coins(ledger), wallet.balance(ledger)
        told = ledger.report().balances
        assert money.total == sum(told.get(each.lock, 0) for each in wallet.locks())
        shown = {lock_of(each.preimage) for payment in payments for sent in payment.sent for each in inputs_of(sent.tx)}
        assert not [each for each in coins if each.standing == "spendable" and each.lock in shown]
        burnt = {each.lock for each in wallet.locks() if each.burnt}
        assert shown <= burnt
        for payment in payments:
            assert payment.times <= 1
            for sent in payment.sent:
                self.look_at_change(sent.tx, payment)
        self.look_at_inputs(payments)

    def look_at_change(self, tx: Tx, payment: Payment) -> None:
        """It goes to a lock of its own, which no other transaction has paid."""
        own = [lock for lock in locks_paid(tx) if lock in self.words()]
        if tx.id not in self.seen:
            self.seen[tx.id] = payment
            assert self.changes.isdisjoint(own)
            self.changes.update(own)
        assert {each.lock for each in self.wallet.locks() if each.is_change} >= set(own)

    def look_at_inputs(self, payments: List[Payment]) -> None:
        """No two payments spend one coin, but a sweep and what it sweeps."""
        taken: Dict[Tuple[bytes, int], int] = {}
        for payment in payments:
            for outpoint in {each for sent in payment.sent for each in sent.tx.spent}:
                assert payment.kind == "sweep" or outpoint not in taken
                taken[outpoint] = payment.number


def inputs_of(tx: Tx) -> List[Input]:
    return read_tx(Cursor(tx.text)).inputs


def locks_paid(tx: Tx) -> List[bytes]:
    return [each.lock for each in read_tx(Cursor(tx.text)).outputs]


def test_drawn_wallets(tmp_path: Path, monkeypatch: pytest.MonkeyPatch) -> None:
    kinds: "Counter[str]" = Counter()
    for seed in range(WORLDS):
        folder = tmp_path / str(seed)
        folder.mkdir()
        play = Play(folder, seed, monkeypatch)
        try:
            for _ in range(STEPS):
                play.step()
                play.look()
        except BaseException:
            print(f"world {seed}: {dict(play.kinds)}")
            raise
        finally:
            play.world.ledger.close()
            play.wallet.close()
        kinds += play.kinds
    print(dict(kinds))
    for kind in ("same bytes", "more inputs", "poor", "large", "again", "swept", "stolen", "MayPayTwice", "NotTurned"):
        assert kinds[kind] >= 3, f"{kind}: {dict(kinds)}"
