"""A ledger goes on in a new one: the same balances to the unit, the same bytes on every side, and what is refused."""

from __future__ import annotations

import pathlib
import random
import subprocess
import sys
from typing import Dict, List

import pytest
from hypothesis import given, settings
from hypothesis import strategies as st

from drawn import Drawn, ledgers
from samples import A, B, G, GRANT, ID_A, ID_B, ROOT, START, TO_BOB, TO_CAROL, ran
from sync_world import made
from zorimarl import errors, rollover_errors
from zorimarl.blocks import Coin, Tx, block, genesis, lock_of, locked, sha256, transaction
from zorimarl.feeds import END, REPORT, Head, feed, frame, read_block, read_feed
from zorimarl.ledger import Ledger
from zorimarl.rollover import MOST_OUTPUTS, Rollover, check, genesis_of, grants_of, parts_of, roll_over
from zorimarl.wallet import Wallet

COMMAND = [sys.executable, "-m", "zorimarl.rollover_command"]
CLOSES = block(20, [ID_A, ID_B])
# Behind A, and so before B: as soon as a block stands on it.
ON_A = block(21, [ID_A])


def report_of(data: bytes) -> List[str]:
    """The program's own lines on balances, for a feed."""
    lines = ran("replay", given=data[: -len(END)] + frame(REPORT) + END).decode().splitlines()
    return [line for line in lines if line.startswith("balance ")]


def held(made: Rollover, balances: Dict[bytes, int]) -> None:
    """Old and new ledger have these balances by the program's lines, and the opening is checked by the evidence."""
    told = [f"balance {lock.hex()} {amount}" for lock, amount in sorted(balances.items())]
    assert report_of(made.opening) == report_of(made.evidence) == told and made.balances == balances
    assert check(made.evidence, made.opening, made.closing) == made._replace(left_out=0)


@pytest.mark.parametrize("profile", [1, 2])
@settings(max_examples=20)
@given(ledgers(), st.randoms(use_true_random=False))
def test_drawn(profile: int, drawn: Drawn, chance: random.Random) -> None:
    """Two sides with the same blocks in another order, and one with the closing block's past alone, make the same bytes,
    and no unit is lost or won."""
    first = Head(profile, 0, drawn.genesis)
    tips = {sha256(drawn.genesis), *map(sha256, drawn.blocks)} - {each for data in drawn.blocks for each in read_block(data).parents}
    blocks = [*drawn.blocks, block(99, tips)]
    orders = [blocks, chance.sample(blocks, len(blocks))]
    try:
        sides = [roll_over(feed(first, each)) for each in orders]
    except rollover_errors.Undecided as why:
        with pytest.raises(rollover_errors.Undecided) as other:
            roll_over(feed(first, orders[1]))
        assert why.txs == other.value.txs
        sides = [roll_over(feed(first, each), None, why.txs) for each in orders]
    except rollover_errors.NoClosing:  # one waits, so the tips aren't all present
        return
    assert sides[0] == sides[1] and sides[0].head[:2] == (profile, 0)
    held(sides[0], sides[0].balances)
    lines = ran("replay", given=feed(first, blocks)[: -len(END)] + frame(REPORT) + END).decode().splitlines()
    assert [f"balance {lock.hex()} {amount}" for lock, amount in sides[0].balances.items()] == [each for each in lines if each.startswith("balance ")]


@pytest.mark.parametrize("profile", [1, 2])
def test_ties(profile: int, tmp_path: pathlib.Path) -> None:
    """Two payments of one coin in a tie are refused by their ids. In profile 2 the block that closes settles the tie."""
    first = Head(profile, 0, START)
    tied = feed(first, [A, B, CLOSES])
    if profile == 2:
        held(roll_over(tied), {lock_of(b"bob"): 100})
        return
    with pytest.raises(rollover_errors.Undecided) as why:
        roll_over(tied)
    assert why.value.txs == tuple(sorted([TO_BOB.id, TO_CAROL.id]))
    with pytest.raises(rollover_errors.Undecided) as why:
        roll_over(tied, despite=[TO_BOB.id])
    assert why.value.txs == (TO_CAROL.id,)
    found = roll_over(tied, despite=[TO_BOB.id, TO_CAROL.id])
    held(found, {lock_of(b"alice"): 100})
    assert found.exposed == (lock_of(b"alice"),)  # both payments have shown the word
    settled = feed(first, [A, B, ON_A, block(22, [ID_B, sha256(ON_A)])])
    held(roll_over(settled), {lock_of(b"bob"): 100})


def test_what_cannot_be_accepted_hinders_nobody() -> None:
    """A stranger's payments with a wrong word, of more than there is, or of what isn't there are no undecided ones."""
    coin = GRANT.coins[0]
    wrong = transaction([coin._replace(word=b"mallory")], [(100, b"mallory")])
    dear = transaction([coin], [(101, b"mallory")])
    none = transaction([Coin(bytes(32), 0, 5, b"alice")], [(1, b"mallory")])
    blocks = [block(salt, [G], [tx]) for salt, tx in enumerate((wrong, dear, none), 1)]
    blocks.append(block(9, [sha256(each) for each in blocks]))
    held(roll_over(feed(Head(1, 0, START), blocks)), {lock_of(b"alice"): 100})


def test_late_blocks() -> None:
    """What isn't in the past of the closing block is left behind, and said where it counts."""
    first, late = Head(1, 0, START), [B, block(31, [ID_B]), block(32, [sha256(block(31, [ID_B]))])]
    blocks = [A, ON_A, *late]
    with pytest.raises(rollover_errors.NoClosing, match="2 blocks are tips"):
        roll_over(feed(first, blocks))
    with pytest.raises(rollover_errors.LeftBehind) as why:
        roll_over(feed(first, blocks), sha256(ON_A))
    assert why.value.txs == tuple(sorted([TO_BOB.id, TO_CAROL.id]))
    found = roll_over(feed(first, blocks), sha256(ON_A), leave_late=True)
    held(found, {lock_of(b"bob"): 100})
    assert found.left_out == 3 and found._replace(left_out=0) == roll_over(feed(first, [A, ON_A]))
    for wrong in (bytes(32), sha256(late[2])[::-1]):
        with pytest.raises(rollover_errors.NoClosing):
            roll_over(feed(first, blocks), wrong)
    with pytest.raises(rollover_errors.NoClosing):  # it waits
        roll_over(feed(first, [ON_A]), sha256(ON_A))
    with pytest.raises(errors.NoRequest):
        roll_over(feed(first, blocks), b"short")


def granted(amounts: Dict[bytes, int]) -> Dict[bytes, int]:
    """What the grants pay to each lock; each of them is one that the program takes."""
    found: Dict[bytes, int] = {}
    data = genesis_of(amounts, bytes(range(32)))
    read = read_block(data)
    assert read.salt == int.from_bytes(bytes(range(8)), "little") and read.nonce == int.from_bytes(bytes(range(8, 16)), "little")
    assert report_of(feed(Head(1, 0, data), [])) == [f"balance {lock.hex()} {amount}" for lock, amount in sorted(amounts.items())]
    for tx in read.txs:
        assert len(tx.outputs) <= 16 and sum(each.amount for each in tx.outputs) < 2**63
        for each in tx.outputs:
            found[each.lock] = found.get(each.lock, 0) + each.amount
    return found


@settings(max_examples=30)
@given(st.dictionaries(st.binary(min_size=32, max_size=32), st.one_of(st.integers(1, 100), st.integers(1, 2**66)), max_size=40))
def test_grants(amounts: Dict[bytes, int]) -> None:
    """Any balances, also those beyond what one transaction can pay."""
    assert granted(amounts) == amounts
    assert genesis_of(dict(reversed(amounts.items())), bytes(32)) == genesis_of(amounts, bytes(32))


def test_limits() -> None:
    """1,632 outputs have room, and not one more; equal parts never make two equal grants."""
    locks = [sha256(number.to_bytes(2, "little")) for number in range(MOST_OUTPUTS + 1)]
    assert granted(dict.fromkeys(locks[:-1], 7)) == dict.fromkeys(locks[:-1], 7)
    with pytest.raises(rollover_errors.TooManyBalances, match="1633 outputs"):
        genesis_of(dict.fromkeys(locks, 7), bytes(32))
    assert granted({locks[0]: 5 * 2**63, locks[1]: 2**63 - 1}) == {locks[0]: 5 * 2**63, locks[1]: 2**63 - 1}
    assert parts_of(3 * 2**63)[:2] == [2**63 - 1, 2**63 - 2] and sum(parts_of(3 * 2**63)) == 3 * 2**63
    assert len(grants_of(dict.fromkeys(locks[:256], 2**63 - 1))) == 256
    with pytest.raises(rollover_errors.TooManyBalances, match="257 grants"):
        genesis_of(dict.fromkeys(locks[:257], 2**63 - 1), bytes(32))
    assert genesis_of({}, bytes(32)) == genesis()


@pytest.mark.parametrize("profile", [1, 2])
def test_full_ledger(profile: int, tmp_path: pathlib.Path) -> None:
    """512 blocks with payments, on two sides that got them in another order: one opening, from which the new ledger
    begins, and goes on."""
    grant = transaction([], [(1_000 + number, b"owner %d" % number) for number in range(16)])
    start, parent, blocks = genesis([grant]), b"", list[bytes]()
    parent = sha256(start)
    for number in range(511):
        txs: List[Tx] = []
        if number < 16:
            coin = grant.coins[number]
            txs = [transaction([coin], [(coin.amount - number, b"paid %d" % number)])]
        blocks.append(block(number, [parent], txs))
        parent = sha256(blocks[-1])
    one, other = made(tmp_path / "one", blocks, profile, start), made(tmp_path / "other", blocks[::-1], profile, start)
    for name, file in (("a", one), ("b", other)):
        done = subprocess.run([*COMMAND, file, "--to", str(tmp_path / name)], capture_output=True, text=True, check=False)
        assert done.returncode == 0, done.stderr
        lines = done.stdout.splitlines()
        assert lines[:4] == [f"closing {parent.hex()}", "blocks 512 left-out 0", "balances 16 total 16000", "exposed 0 total 0"]
    for name in ("opening.feed", "evidence.feed"):
        assert (tmp_path / "a" / name).read_bytes() == (tmp_path / "b" / name).read_bytes()
    new = read_feed((tmp_path / "a" / "opening.feed").read_bytes())[0]
    assert new.profile == profile
    with Ledger(one) as old, Ledger(tmp_path / "new", new.genesis, new.bits, new.profile) as ledger:
        assert old.full and old.report().balances == ledger.report().balances and ledger.left == 511
        coin = ledger.coins(lock_of(b"paid 3"))[0].opened_by(b"paid 3")
        payment = transaction([coin], [(coin.amount, b"next")])
        ledger.offer(ledger.mine([ledger.genesis_id], [payment]))
        assert ledger.tx(payment.id).state == "accepted" and ledger.balance(lock_of(b"next")).amount == 1_000


def test_wallet_goes_on(tmp_path: pathlib.Path) -> None:
    """A wallet's words open in the new ledger what they opened in the old one, and what is exposed stays so."""
    with Wallet.create(tmp_path / "alice") as alice, Wallet.create(tmp_path / "bob") as bob:
        start = genesis([locked([], [(amount, alice.receive())]) for amount in (100, 90)])
        with Ledger(tmp_path / "old", start, 0) as old:
            payment = alice.pay(old, bob.receive(), 70)
            old.offer(block(1, [old.genesis_id], [payment.tx]))
            before = alice.balance(old), bob.balance(old)
            found = roll_over(old)
            again = roll_over(old, old.tips()[0].id)
        assert found == again and before[0].spendable == 120 and before[1].spendable == 70
        with Ledger(tmp_path / "new", found.head.genesis, found.head.bits, found.head.profile) as new:
            assert (alice.balance(new), bob.balance(new)) == before
            back = bob.pay(new, alice.receive(), 70)
            new.offer(block(1, [new.genesis_id], [back.tx]))
            assert bob.payment(back.number, new).state == "accepted" and alice.balance(new).total == 190


def test_command(tmp_path: pathlib.Path) -> None:
    """The files, the check of them, and each status; a journal that is in use can be read."""
    file, folder = made(tmp_path / "one", [A, B, CLOSES]), tmp_path / "new"

    def ask(*words: str) -> subprocess.CompletedProcess[str]:
        return subprocess.run([*COMMAND, *words], capture_output=True, text=True, check=False)

    done = ask(file, "--to", str(folder))
    assert done.returncode == 1 and f"zorimarl-rollover: Undecided: {file}: the rollover: 2 payments" in done.stderr and not folder.exists()
    with Ledger(file):
        done = ask(file, "--at", ID_A.hex(), "--leave-late", "--to", str(folder))
    assert done.returncode == 0, done.stderr
    assert done.stdout.splitlines()[1:4] == ["blocks 2 left-out 2", "balances 1 total 100", "exposed 0 total 0"]
    opening, evidence = str(folder / "opening.feed"), str(folder / "evidence.feed")
    for source in (file, evidence):
        assert ask(source, "--at", ID_A.hex(), "--check", opening).returncode == 0
    done = ask(file, "--at", G.hex(), "--check", opening)
    assert done.returncode == 1 and "OtherGenesis" in done.stderr
    done = ask(file, "--despite", TO_BOB.id.hex(), "--despite", TO_CAROL.id.hex())
    assert done.returncode == 0 and "exposed 1 total 100" in done.stdout
    wrong: List[List[str]] = [[str(tmp_path / "no such")], [file, "--at", "xy"], [file, "--check", opening], [str(ROOT / "README.md")], []]
    for words in wrong:
        assert ask(*words).returncode == 2
    assert "Refused are payments" in ask("--help").stdout
