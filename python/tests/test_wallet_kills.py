"""Killed at any moment, a wallet has each lock and each payment that it has answered, and goes on."""

import functools
import importlib.util
import os
import random
import signal
import sys
import time
from collections import Counter
from pathlib import Path
from types import ModuleType
from typing import Callable, Dict, List, NamedTuple

from wallet_world import BOB, World

from zorimarl.errors import InUse
from zorimarl.feeds import lock_of
from zorimarl.ledger import Ledger
from zorimarl.wallet import Wallet

EXAMPLE = Path(__file__).resolve().parent.parent / "examples" / "wallets.py"
KILLS = 200  # of the example
BUSY_KILLS = 60  # of a wallet that does nothing but receive and pay
LINES = 10  # that the example writes
COINS = 250  # for that one
END = "paid 1 alice 20 0 0 shop 70 0 0"


class Run(NamedTuple):
    """What a process wrote in whole lines, and whether it was killed before its end."""

    lines: List[str]
    killed: bool


class Moment(NamedTuple):
    """When to kill: so many seconds after so many lines."""

    line: int
    seconds: float

    @staticmethod
    def drawn(draw: random.Random, most: int) -> "Moment":
        return Moment(draw.randrange(most), draw.uniform(0.0, draw.choice([0.0, 0.002, 0.01, 0.05])))


NEVER = Moment(1_000_000, 0.0)


def run(work: Callable[[], None], moment: Moment) -> Run:
    """Does this in a process of its own, which is killed at a moment."""
    reader, writer = os.pipe()
    child = os.fork()
    if not child:
        os.dup2(writer, 1)
        sys.stdout = open(1, "w", buffering=1, closefd=False)  # pytest's own goes elsewhere
        try:
            work()
            os._exit(0)
        except BaseException as why:
            os.write(2, f"{type(why).__name__}: {why}\n".encode())
            os._exit(3)
    os.close(writer)
    text = b""
    with open(reader, "rb", buffering=0) as told:
        while text.count(b"\n") < moment.line and (piece := told.read(1 << 16)):
            text += piece
        if moment.line <= text.count(b"\n"):
            time.sleep(moment.seconds)
            os.kill(child, signal.SIGKILL)
        text += b"".join(iter(lambda: told.read(1 << 16), b""))
    code = os.waitstatus_to_exitcode(os.waitpid(child, 0)[1])
    assert code in (0, -signal.SIGKILL), text
    return Run(text.decode().rpartition("\n")[0].splitlines(), code != 0)


class Memory:
    """What was seen of a wallet's file, which a later look has to find again."""

    def __init__(self) -> None:
        self.words: Dict[bytes, bytes] = {}
        self.texts: Dict[bytes, bytes] = {}

    def look(self, file: Path) -> None:
        if not file.exists():
            assert not self.words
            return
        with Wallet.open(file) as wallet:
            words = {each.lock: each.word for each in wallet.store.words()}
            texts = {each.id: each.text for each in wallet.store.txs()}
        assert all(lock_of(word) == lock for lock, word in words.items())
        assert self.words.items() <= words.items() and self.texts.items() <= texts.items()
        self.words, self.texts = words, texts


def example() -> ModuleType:
    spec = importlib.util.spec_from_file_location("wallets", EXAMPLE)
    assert spec is not None and spec.loader is not None
    module = importlib.util.module_from_spec(spec)
    spec.loader.exec_module(module)
    return module


def shown(lines: List[str], kind: str) -> List[bytes]:
    """The ids or locks in lines of a kind."""
    return [bytes.fromhex(line.split()[1]) for line in lines if line.startswith(f"{kind} ")]


def test_the_example_is_killed_anywhere(tmp_path: Path) -> None:
    """It goes on each time, until it ends as it does when nobody kills it; then another one is begun."""
    draw, module = random.Random(1), example()
    kills, stories, at = 0, 0, Counter[int]()
    said: List[str]
    while kills < KILLS:
        folder = tmp_path / str(stories)
        folder.mkdir()
        alice, bob, said, done = Memory(), Memory(), [], False
        while not done:
            ran = run(functools.partial(module.main, folder), Moment.drawn(draw, LINES) if kills < KILLS else NEVER)
            done, kills = not ran.killed, kills + ran.killed
            at[len(ran.lines)] += ran.killed
            said += ran.lines
            alice.look(folder / "alice.wallet")
            bob.look(folder / "bob.wallet")
            assert {*shown(said, "lock")} <= {*alice.words, *bob.words}
            assert {*shown(said, "payment")} <= {*alice.texts}
        assert said[-1] == END and len(alice.texts) == 2 and len(bob.words) == 2
        stories += 1
    print(f"{kills} kills of {stories} stories; by the lines before a kill: {sorted(at.items())}")
    assert len(at) >= LINES - 2, at


def busy(folder: Path) -> None:
    """Receives and pays, again and again; what is told was answered."""
    with Wallet.open(folder / "wallet") as wallet, reopened(folder / "journal") as ledger:
        while True:
            print("lock", wallet.receive().hex(), flush=True)
            paid = wallet.pay(ledger, BOB, 1)
            print("payment", paid.tx.id.hex(), paid.tx.text.hex(), flush=True)


def reopened(file: Path) -> Ledger:
    until = time.monotonic() + 60
    while True:
        try:
            return Ledger(file, timeout=60)
        except InUse:  # the node of a client that was killed ends a little later
            if until < time.monotonic():
                raise
            time.sleep(0.01)


def test_a_busy_wallet_is_killed(tmp_path: Path) -> None:
    draw, memory = random.Random(2), Memory()
    with Wallet.create(tmp_path / "wallet") as wallet:
        world = World(tmp_path, [(2, wallet.receive()) for _ in range(COINS)])
        world.ledger.close()
    for _ in range(BUSY_KILLS):
        ran = run(functools.partial(busy, tmp_path), Moment.drawn(draw, 6))
        assert ran.killed
        memory.look(tmp_path / "wallet")
        assert {*shown(ran.lines, "lock")} <= {*memory.words}
        told = [line.split()[1:] for line in ran.lines if line.startswith("payment")]
        assert {bytes.fromhex(each): bytes.fromhex(text) for each, text in told}.items() <= memory.texts.items()
    print(f"{BUSY_KILLS} kills, {len(memory.words)} words and {len(memory.texts)} payments")
    inputs = [text[1:34] for text in memory.texts.values()]
    assert len(inputs) > BUSY_KILLS // 2 and len(set(inputs)) == len(inputs)
