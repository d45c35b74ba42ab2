"""What a wallet pays, how its payments stand as the order turns, and what it does with coins whose words were seen.
What is expected is worked out by hand."""

from pathlib import Path
from typing import Any, Callable, Iterator, List, Tuple

import pytest
from wallet_world import BOB, THIEF, World

from zorimarl.answers import Report, State
from zorimarl.errors import Misfit
from zorimarl.feeds import Cursor, Tx, lock_of, locked, read_tx
from zorimarl.kept import Block
from zorimarl.payment import NoPayment, NotEnough, TooLarge
from zorimarl.wallet import Payment, Wallet
from zorimarl.wallet_errors import BurntLock, MayPayTwice, NameTaken, NoSuchPayment, NotTurned

Made = Callable[..., Tuple[World, Wallet]]


@pytest.fixture
def made(tmp_path: Path) -> Iterator[Made]:
    """Makes a wallet with a lock of its own for each amount that genesis grants it; several amounts for one lock
    stand in a list."""
    open_ones: List[Tuple[World, Wallet]] = []

    def make(*amounts: "int | List[int]") -> Tuple[World, Wallet]:
        wallet = Wallet.create(tmp_path / "wallet")
        grants = []
        for each in amounts:
            lock = wallet.receive()
            grants += [(amount, lock) for amount in (each if isinstance(each, list) else [each])]
        # Grants of one amount to one lock would be one transaction.
        assert len(set(grants)) == len(grants)
        open_ones.append((World(tmp_path, grants), wallet))
        return open_ones[-1]

    yield make
    for world, wallet in open_ones:
        world.ledger.close()
        wallet.close()


def outputs(tx: Tx) -> List[Tuple[int, bytes]]:
    return [(each.amount, each.lock) for each in read_tx(Cursor(tx.text)).outputs]


def spent(world: World, tx: Tx) -> List[int]:
    """The amounts of what a transaction spends, the largest first."""
    return sorted((world.coin(*each, b"").amount for each in tx.spent), reverse=True)


def money(wallet: Wallet, world: World) -> Tuple[int, int, int]:
    """What a wallet has, as it stands with what the program says of its locks."""
    found = wallet.balance(world.ledger)
    assert found.total == sum(world.ledger.balance(each.lock).amount for each in wallet.locks())
    return found.spendable, found.bound, found.exposed


# Paying


def test_a_payment(made: Made) -> None:
    world, wallet = made(100, 50)
    before = {each.lock for each in wallet.locks()}
    assert money(wallet, world) == (150, 0, 0)
    paid = wallet.pay(world.ledger, BOB, 40)
    assert (paid.number, paid.kind, paid.lock, paid.amount, paid.state, paid.leaves) == (1, "payment", BOB, 40, "pending", 0)
    assert paid.tx.spent == [(world.grants[0].id, 0)]
    (first, change) = outputs(paid.tx)
    assert first == (40, BOB) and change[0] == 60
    (new,) = [each for each in wallet.locks() if each.lock not in before]
    assert (new.lock, new.is_change, new.burnt) == (change[1], True, False)
    assert money(wallet, world) == (50, 100, 0)
    world.put(paid.tx)
    assert wallet.payments(world.ledger)[0].state == "accepted"
    assert money(wallet, world) == (110, 0, 0)


def test_an_exact_payment_makes_no_word(made: Made) -> None:
    world, wallet = made(100, 50)
    paid = wallet.pay(world.ledger, BOB, 150)
    assert outputs(paid.tx) == [(150, BOB)] and len(wallet.locks()) == 2


def test_the_next_payment_takes_other_coins(made: Made) -> None:
    """The words of a payment are burnt once it is answered, whatever becomes of it."""
    world, wallet = made(100, 50)
    first, second = wallet.pay(world.ledger, BOB, 40), wallet.pay(world.ledger, BOB, 40)
    assert set(first.tx.spent).isdisjoint(second.tx.spent)
    with pytest.raises(NotEnough) as told:
        wallet.pay(world.ledger, BOB, 1)
    assert (told.value.amount, told.value.reach) == (1, 0)
    assert len(wallet.payments()) == 2


def test_poor_and_large_change_nothing(made: Made) -> None:
    world, wallet = made(2**63 - 2, 2)
    with pytest.raises(TooLarge) as large:
        wallet.pay(world.ledger, BOB, 2**63 - 1)
    assert large.value.total == 2**63
    for amount in (0, -1, 2**63, True):
        with pytest.raises(NoPayment):
            wallet.pay(world.ledger, BOB, amount)
    with pytest.raises(NoPayment):
        wallet.pay(world.ledger, b"bob", 1)
    paid = wallet.pay(world.ledger, BOB, 3)
    with pytest.raises(NotEnough) as poor:
        wallet.pay(world.ledger, BOB, 3)
    assert poor.value.reach == 2
    assert wallet.payments() == [paid]
    assert [each.burnt for each in wallet.locks() if not each.is_change] == [True, False]


def test_a_name_is_paid_once(made: Made) -> None:
    world, wallet = made(100, 50)
    first = wallet.pay(world.ledger, BOB, 40, name="order 7")
    assert wallet.pay(world.ledger, BOB, 40, name="order 7") == first
    with pytest.raises(NameTaken):
        wallet.pay(world.ledger, BOB, 41, name="order 7")
    with pytest.raises(NameTaken):
        wallet.pay(world.ledger, THIEF, 40, name="order 7")
    assert wallet.pay(world.ledger, BOB, 40, name="order 8").number == 2
    assert [each.name for each in wallet.payments()] == ["order 7", "order 8"]


@pytest.mark.parametrize("name", [7, b"order 7", "a\nb", "\udc80", "a" * 1_001])
def test_what_is_no_name(made: Made, name: Any) -> None:
    world, wallet = made(100)
    with pytest.raises(NoPayment) as told:
        wallet.pay(world.ledger, BOB, 40, name=name)
    assert told.value.file == wallet.store.path and told.value.request == "a payment"


def test_it_is_paid(made: Made, tmp_path: Path) -> None:
    """A second wallet has what the first one pays to its lock, and pays it on."""
    world, alice = made(100)
    with Wallet.create(tmp_path / "bob") as bob:
        lock = bob.receive()
        world.put(alice.pay(world.ledger, lock, 70).tx)
        assert money(bob, world) == (70, 0, 0) and money(alice, world) == (30, 0, 0)
        (coin,) = bob.coins(world.ledger)
        assert (coin.amount, coin.lock, coin.standing) == (70, lock, "spendable")
        world.put(bob.pay(world.ledger, alice.receive(), 20).tx)
        assert money(bob, world) == (50, 0, 0) and money(alice, world) == (50, 0, 0)


class Wrong:
    """A ledger whose report says that a lock has one unit more than it has."""

    def __init__(self, world: World, lock: bytes) -> None:
        self.ledger, self.lock = world.ledger, lock

    def report(self) -> Report:
        found = self.ledger.report()
        return found._replace(balances={**found.balances, self.lock: found.balances.get(self.lock, 0) + 1})

    def tx(self, tx_id: bytes) -> State:
        return self.ledger.tx(tx_id)

    def blocks(self) -> List[Block]:
        return self.ledger.blocks()


def test_nothing_is_paid_where_the_report_doesnt_fit(made: Made) -> None:
    world, wallet = made(100)
    for lock in (wallet.locks()[0].lock, wallet.receive()):
        with pytest.raises(Misfit):
            wallet.pay(Wrong(world, lock), BOB, 40)
        with pytest.raises(Misfit):
            wallet.balance(Wrong(world, lock))
    assert wallet.payments() == [] and wallet.balance(Wrong(world, BOB)).spendable == 100


def test_no_payment_of_that_number(made: Made) -> None:
    world, wallet = made(100)
    with pytest.raises(NoSuchPayment):
        wallet.payment(1)
    paid = wallet.pay(world.ledger, BOB, 1)
    assert wallet.payment(1) == paid
    with pytest.raises(NoSuchPayment):
        wallet.again(world.ledger, paid._replace(number=2))


# Words that were seen


def test_all_that_a_word_opens_is_spent(made: Made) -> None:
    """The first lock was paid three times. What isn't needed for the payment goes to the change."""
    world, wallet = made([60, 5, 4], 50)
    paid = wallet.pay(world.ledger, BOB, 40)
    assert spent(world, paid.tx) == [60, 5, 4] and [each for each, _ in outputs(paid.tx)] == [40, 29]
    assert paid.leaves == 0 and money(wallet, world) == (50, 69, 0)
    world.put(paid.tx)
    wallet.payments(world.ledger)
    assert money(wallet, world) == (79, 0, 0)


def test_what_has_no_room_is_told_and_swept(made: Made) -> None:
    """Of 18 coins under one word the two smallest have no room: 1 and 2."""
    world, wallet = made(list(range(1, 19)))
    paid = wallet.pay(world.ledger, BOB, 18)
    assert spent(world, paid.tx) == list(range(18, 2, -1)) and paid.leaves == 3
    assert money(wallet, world) == (0, 168, 3)
    swept = wallet.sweep(world.ledger)
    assert swept is not None and (swept.kind, swept.amount, swept.leaves) == ("sweep", 3, 0)
    assert spent(world, swept.tx) == [2, 1] and outputs(swept.tx) == [(3, swept.lock)]
    assert wallet.sweep(world.ledger) is None
    world.put(paid.tx, swept.tx)
    wallet.payments(world.ledger)
    assert money(wallet, world) == (168 + 3 - 18, 0, 0)
    assert swept.lock in [each.lock for each in wallet.locks() if each.is_change and not each.burnt]


def test_the_change_stays_below_the_limit(made: Made) -> None:
    """The second coin of the word would bring the outputs to 2^63, so it is left, and swept by itself."""
    world, wallet = made([2**63 - 2, 2])
    paid = wallet.pay(world.ledger, BOB, 1)
    assert spent(world, paid.tx) == [2**63 - 2] and paid.leaves == 2
    swept = wallet.sweep(world.ledger)
    assert swept is not None and spent(world, swept.tx) == [2]


def test_late_money_is_told_apart(made: Made) -> None:
    """Somebody pays to a lock once its word was seen: `pay` leaves that alone, and `sweep` brings it home."""
    world, wallet = made(100)
    lock = wallet.locks()[0].lock
    paid = wallet.pay(world.ledger, lock_of(b"x"), 70)
    world.put(paid.tx)
    world.put(locked([paid.tx.coins[0]._replace(word=b"x")], [(70, lock)]))
    wallet.payments(world.ledger)
    assert money(wallet, world) == (30, 0, 70)
    assert [each.standing for each in wallet.coins(world.ledger) if each.lock == lock] == ["exposed"]
    with pytest.raises(NotEnough):
        wallet.pay(world.ledger, BOB, 31)
    swept = wallet.sweep(world.ledger)
    assert swept is not None and spent(world, swept.tx) == [70]
    assert money(wallet, world) == (30, 70, 0)
    world.put(swept.tx)
    assert [each.state for each in wallet.payments(world.ledger)] == ["accepted", "accepted"]
    assert money(wallet, world) == (100, 0, 0)


def test_a_burnt_lock_isnt_paid(made: Made) -> None:
    """Not one of the wallet's own, and none whose word a block shows, though that block waits for its parent."""
    world, wallet = made(100, 50)
    first, second = [each.lock for each in wallet.locks()]
    wallet.pay(world.ledger, BOB, 100)
    with pytest.raises(BurntLock):
        wallet.pay(world.ledger, first, 10)
    with pytest.raises(BurntLock):
        wallet.pay(world.ledger, second, 10)  # whose word the payment itself would show
    assert not wallet.locks()[1].burnt and len(wallet.payments()) == 1
    assert not [each for each in wallet.locks() if each.is_change]
    world.put(locked([world.coin(world.grants[0].id, 0, b"bob")], [(1, THIEF)]), on=[bytes(32)])
    with pytest.raises(BurntLock):
        wallet.pay(world.ledger, BOB, 10)
    wallet.pay(world.ledger, THIEF, 10)


def test_a_copy_learns_from_the_blocks_which_words_were_seen(made: Made) -> None:
    """A copy of the file doesn't know of a payment that was made since; but a block carries it."""
    world, wallet = made(100, 50)
    file = Path(wallet.store.path)
    copy = file.with_name("copy")
    copy.write_bytes(file.read_bytes())
    copy.chmod(0o600)
    paid = wallet.pay(world.ledger, BOB, 40)
    world.put(paid.tx, on=[bytes(32)])  # it waits, so that the coin is still there
    with Wallet.open(copy) as other:
        assert money(other, world) == (50, 0, 100)
        assert other.pay(world.ledger, BOB, 40).tx.spent == [(world.grants[1].id, 0)]


# As the order turns


def test_a_tie_and_the_same_again(made: Made) -> None:
    """Side by side with its rival the payment is rejected. Above both it is carried once more, and accepted."""
    world, wallet = made(100)
    paid = wallet.pay(world.ledger, BOB, 40)
    world.put(paid.tx, on=[world.genesis])
    with pytest.raises(NotTurned):
        wallet.again(world.ledger, paid)
    world.put(world.steal(paid.tx), on=[world.genesis])
    assert wallet.payments(world.ledger)[0].state == "turned back"
    again = wallet.again(world.ledger, paid)
    assert again.tx == paid.tx and len(again.sent) == 1
    world.put(again.tx)
    assert wallet.payments(world.ledger)[0].state == "accepted"
    assert money(wallet, world) == (60, 0, 0)


def turned(world: World, wallet: Wallet, paid: Payment, *stolen: int) -> Tuple[bytes, bytes]:
    """Has a payment accepted in a block A, and then turned back by a heavier branch on a block B that carries a theft
    of its inputs at these places, or of all. Answers A, and the tip above B."""
    above = world.put(paid.tx, on=[world.genesis])
    assert wallet.payment(paid.number, world.ledger).state == "accepted"
    beside = world.heavier(world.put(world.steal(paid.tx, *stolen), on=[world.genesis]))
    assert wallet.payment(paid.number, world.ledger).state == "turned back"
    return above, beside


def test_what_turned_back_may_be_paid_twice(made: Made) -> None:
    """A thief has the one coin of the payment. It is paid again by another coin, and then the order turns again:
    both are accepted. So that isn't done but where it is asked for."""
    world, wallet = made(100, 90)
    paid = wallet.pay(world.ledger, BOB, 70)
    above, _ = turned(world, wallet, paid)
    assert money(wallet, world) == (90, 0, 0)
    with pytest.raises(MayPayTwice):
        wallet.again(world.ledger, paid)
    assert len(wallet.payments()[0].sent) == 1 and not wallet.locks()[1].burnt
    again = wallet.again(world.ledger, paid, may_pay_twice=True)
    assert again.tx.spent == [(world.grants[1].id, 0)] and again.state == "pending" and again.number == paid.number
    world.put(again.tx)
    (now,) = wallet.payments(world.ledger)
    assert (now.state, now.times) == ("accepted", 1) and [each.state for each in now.sent] == ["turned back", "accepted"]
    assert money(wallet, world) == (20, 0, 0)
    world.heavier(above, 12)
    (now,) = wallet.payments(world.ledger)
    assert (now.state, now.times) == ("accepted", 2)
    assert money(wallet, world) == (50, 0, 0)


def test_by_what_is_left_it_is_paid_but_once(made: Made) -> None:
    """The thief took 100 of 100 and 90. What is paid again spends the 90, too, so that it is rejected where the first
    payment is accepted after all. The 80 is exposed then, and swept."""
    world, wallet = made(100, 90, 80)
    paid = wallet.pay(world.ledger, BOB, 120)
    assert spent(world, paid.tx) == [100, 90]
    above, _ = turned(world, wallet, paid, paid.tx.spent.index((world.grants[0].id, 0)))
    assert money(wallet, world) == (80, 90, 0)
    again = wallet.again(world.ledger, paid)
    assert spent(world, again.tx) == [90, 80] and [each for each, _ in outputs(again.tx)] == [120, 50]
    world.put(again.tx)
    now = wallet.payment(1, world.ledger)
    assert (now.state, now.times) == ("accepted", 1) and money(wallet, world) == (50, 0, 0)
    world.heavier(above, 12)
    now = wallet.payment(1, world.ledger)
    assert [each.state for each in now.sent] == ["accepted", "turned back"] and (now.state, now.times) == ("accepted", 1)
    assert money(wallet, world) == (70, 0, 80)
    swept = wallet.sweep(world.ledger)
    assert swept is not None and spent(world, swept.tx) == [80]


def test_what_was_swept_excludes_the_payment_too(made: Made) -> None:
    """The 90 that the thief left was brought to a new lock. What is paid again spends it from there, and that stands
    only while the first payment doesn't."""
    world, wallet = made(100, 90, 80)
    paid = wallet.pay(world.ledger, BOB, 120)
    above, _ = turned(world, wallet, paid, paid.tx.spent.index((world.grants[0].id, 0)))
    assert wallet.sweep(world.ledger) is None  # it is an input of a payment that may yet be paid again
    swept = wallet.sweep(world.ledger, paid)
    assert swept is not None and spent(world, swept.tx) == [90]
    world.put(swept.tx)
    wallet.payments(world.ledger)
    assert money(wallet, world) == (170, 0, 0)
    again = wallet.again(world.ledger, paid)
    assert spent(world, again.tx) == [90, 80] and (swept.tx.id, 0) in again.tx.spent
    world.put(again.tx)
    assert [each.state for each in wallet.payments(world.ledger)] == ["accepted", "accepted"]
    world.heavier(above, 16)
    first, second = wallet.payments(world.ledger)
    assert (first.times, [each.state for each in first.sent]) == (1, ["accepted", "turned back"])
    assert second.state == "turned back"


def test_a_payment_is_taken_back(made: Made) -> None:
    """No block has carried it yet. Its coins are brought to a new lock, and then it comes too late."""
    world, wallet = made(100, 50)
    paid = wallet.pay(world.ledger, BOB, 40)
    swept = wallet.sweep(world.ledger, paid)
    assert swept is not None and outputs(swept.tx) == [(100, swept.lock)]
    world.put(swept.tx)
    world.put(paid.tx)
    assert [each.state for each in wallet.payments(world.ledger)] == ["rejected", "accepted"]
    assert money(wallet, world) == (150, 0, 0)
    with pytest.raises(NotTurned):
        wallet.sweep(world.ledger, swept)
    with pytest.raises(NoPayment):
        wallet.again(world.ledger, swept)


def test_a_lost_sweep_is_swept_again(made: Made) -> None:
    """The thief was faster with one of two exposed coins. The other one is brought home by a new sweep."""
    world, wallet = made(list(range(1, 19)))
    world.put(wallet.pay(world.ledger, BOB, 18).tx)
    wallet.payments(world.ledger)
    first = wallet.sweep(world.ledger)
    assert first is not None and spent(world, first.tx) == [2, 1]
    world.put(world.steal(first.tx, 0))
    world.put(first.tx)
    assert wallet.payment(first.number, world.ledger).state == "rejected"
    second = wallet.sweep(world.ledger, first)
    assert second is not None and second.tx.spent == first.tx.spent[1:]
    world.put(second.tx)
    assert wallet.payment(second.number, world.ledger).state == "accepted"
    assert wallet.sweep(world.ledger, first) is None


def test_the_payees_word_may_be_burnt_by_then(made: Made) -> None:
    """Bob has spent what he was paid before that turned back, and so his word is known: he has to name a new lock."""
    world, wallet = made(100, 90)
    paid = wallet.pay(world.ledger, BOB, 70, name="order 7")
    above = world.put(paid.tx, on=[world.genesis])
    world.put(locked([paid.tx.coins[0]._replace(word=b"bob")], [(70, lock_of(b"dave"))]), on=[above])
    wallet.payments(world.ledger)
    world.heavier(world.put(world.steal(paid.tx), on=[world.genesis]), 6)
    with pytest.raises(BurntLock):
        wallet.again(world.ledger, paid, may_pay_twice=True)
    new = lock_of(b"bob's second")
    again = wallet.again(world.ledger, paid, lock=new, may_pay_twice=True)
    assert (again.lock, outputs(again.tx)[0]) == (new, (70, new))
    assert wallet.pay(world.ledger, BOB, 70, name="order 7") == again


def test_what_isnt_carried_yet_is_handed_out_again(made: Made) -> None:
    world, wallet = made(100, 50)
    paid = wallet.pay(world.ledger, BOB, 40)
    assert wallet.again(world.ledger, paid) == paid
    other = wallet.again(world.ledger, paid, lock=lock_of(b"bob's second"))
    assert other.tx.spent == paid.tx.spent and [each.tx for each in other.sent] == [paid.tx, other.tx]
    back = wallet.again(world.ledger, paid, lock=BOB)
    assert back.tx == paid.tx and [each.tx for each in back.sent] == [other.tx, paid.tx]
    world.put(other.tx, on=[world.genesis])
    world.put(paid.tx)
    assert wallet.payment(1, world.ledger).times == 1


def test_a_source_that_turns_takes_the_payment_with_it(made: Made, tmp_path: Path) -> None:
    """Bob pays on what Alice paid him. Her payment turns back, his with it, and then both stand again."""
    world, alice = made(100)
    with Wallet.create(tmp_path / "bob") as bob:
        paid = alice.pay(world.ledger, bob.receive(), 70)
        above = world.put(paid.tx, on=[world.genesis])
        on = bob.pay(world.ledger, lock_of(b"carol"), 20)
        above = world.put(on.tx, on=[above])
        assert bob.payments(world.ledger)[0].state == "accepted" and money(bob, world) == (50, 0, 0)
        world.heavier(world.put(world.steal(paid.tx), on=[world.genesis]), 6)
        assert bob.payments(world.ledger)[0].state == "turned back" and money(bob, world) == (0, 0, 0)
        with pytest.raises(MayPayTwice):
            bob.again(world.ledger, on)
        world.heavier(above, 20)
        assert bob.payments(world.ledger)[0].state == "accepted" and money(bob, world) == (50, 0, 0)


def test_states_stay_without_a_ledger(made: Made) -> None:
    world, wallet = made(100)
    paid = wallet.pay(world.ledger, BOB, 70)
    world.put(paid.tx)
    assert wallet.payments()[0].state == "pending"
    wallet.payments(world.ledger)
    with Wallet.open(wallet.store.path) as other:
        assert other.payments()[0].state == "accepted" and other.payments()[0].tx == paid.tx
