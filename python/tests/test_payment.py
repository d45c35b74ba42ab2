"""Payments that the package makes: by hand, and against what the program's `spend` writes over drawn ledgers."""

import os
import random
import struct
import subprocess
from collections import Counter
from concurrent.futures import ThreadPoolExecutor
from typing import Dict, List, NamedTuple, Sequence, Tuple, Union

import pytest

from zorimarl.errors import LedgerError
from zorimarl.feeds import Coin, Cursor, ReadBlock, Tx, frame, head, lock_of, read_block, read_tx, sha256, spelled, transaction
from zorimarl.payment import NoPayment, NotEnough, TooLarge, Unspent, spend
from zorimarl.program import find

PROGRAM = find().path
MOST = 2**63 - 1
TX = bytes(31)  # the first bytes of an id, of which the last one is named


def coin(last: int, place: int, amount: int, word: bytes) -> Unspent:
    return Unspent(TX + bytes([last]), place, amount, lock_of(word))


def amounts(tx: Tx) -> List[int]:
    return [each.amount for each in tx.coins]


# By hand


def test_the_bytes_of_a_payment() -> None:
    made = spend([b"alice"], [coin(7, 2, 100, b"alice")], 40, lock_of(b"bob"))
    expected = b"\x01" + TX + b"\x07" + b"\x02" + b"\x05alice" + b"\x02"
    expected += struct.pack("<Q", 40) + lock_of(b"bob") + struct.pack("<Q", 60) + lock_of(b"alice")
    assert made.text == expected and made.id == sha256(expected) and len(expected) == 121
    assert made.spent == [(TX + b"\x07", 2)]


def test_an_exact_payment_has_one_output() -> None:
    made = spend([b"alice"], [coin(7, 2, 100, b"alice")], 100, lock_of(b"bob"))
    assert made.text.endswith(b"\x01" + struct.pack("<Q", 100) + lock_of(b"bob"))


def test_change_goes_to_the_first_word() -> None:
    made = spend([b"new", b"alice"], [coin(7, 2, 100, b"alice")], 40, lock_of(b"bob"))
    assert made.text.endswith(struct.pack("<Q", 60) + lock_of(b"new")) and b"\x05alice" in made.text


def test_the_largest_are_taken_and_inputs_ascend() -> None:
    coins = [coin(3, 0, 5, b"a"), coin(1, 0, 7, b"b"), coin(2, 0, 6, b"a"), coin(1, 1, 1, b"a")]
    made = spend([b"a", b"b"], coins, 12, lock_of(b"c"))
    assert made.spent == [(TX + b"\x01", 0), (TX + b"\x02", 0)] and amounts(made) == [12, 1]


def test_of_equal_coins_the_lower_outpoint_is_taken() -> None:
    coins = [coin(2, 0, 5, b"a"), coin(1, 9, 5, b"a"), coin(1, 10, 5, b"a")]
    assert spend([b"a"], coins, 5, lock_of(b"c")).spent == [(TX + b"\x01", 9)]
    assert spend([b"a"], coins, 6, lock_of(b"c")).spent == [(TX + b"\x01", 9), (TX + b"\x01", 10)]


def test_coins_of_other_words_are_passed_over() -> None:
    with pytest.raises(NotEnough) as told:
        spend([b"a"], [coin(1, 0, 100, b"b"), coin(2, 0, 3, b"a")], 4, lock_of(b"c"))
    assert (told.value.amount, told.value.reach) == (4, 3)


def test_sixteen_inputs_and_no_more() -> None:
    """As fifteen threes and a nine come to 54, and to no more, with sixteen inputs."""
    coins = [coin(1, place, 3, b"w") for place in range(16)] + [coin(2, 0, 9, b"w"), coin(2, 1, 1, b"w")]
    assert len(spend([b"w"], coins, 54, lock_of(b"c")).spent) == 16
    with pytest.raises(NotEnough) as told:
        spend([b"w"], coins, 55, lock_of(b"c"))
    assert told.value.reach == 54


def test_the_edges_of_amounts() -> None:
    coins = [coin(1, 0, MOST - 1, b"a"), coin(2, 0, 1, b"a")]
    assert amounts(spend([b"a"], coins, MOST, lock_of(b"b"))) == [MOST]
    assert amounts(spend([b"a"], coins, MOST - 1, lock_of(b"b"))) == [MOST - 1]
    with pytest.raises(TooLarge) as told:
        spend([b"a"], [coins[0], coin(2, 0, 2, b"a")], MOST, lock_of(b"b"))
    assert (told.value.amount, told.value.total) == (MOST, 2**63)


@pytest.mark.parametrize(
    "words, amount, to",
    [
        ([], 1, lock_of(b"b")),
        ([b""], 1, lock_of(b"b")),
        ([b"a", b"w" * 65], 1, lock_of(b"b")),
        ([b"a"], 0, lock_of(b"b")),
        ([b"a"], -1, lock_of(b"b")),
        ([b"a"], MOST + 1, lock_of(b"b")),
        ([b"a"], True, lock_of(b"b")),
        ([b"a"], 1.0, lock_of(b"b")),
        ([b"a"], "1", lock_of(b"b")),
        ([b"a"], 1, b"bob"),
        ([b"a"], 1, lock_of(b"b").hex()),
    ],
)
def test_what_is_no_payment(words: List[bytes], amount: int, to: bytes) -> None:
    with pytest.raises(NoPayment) as told:
        spend(words, [coin(1, 0, 5, b"a")], amount, to)
    assert isinstance(told.value, LedgerError) and str(told.value)


# Against the program

LEDGERS = 2_000
SPENDS = 2  # of each ledger
WORDS = [b"a", b"bob", b"to", b"from", b"w" * 64] + [b"word %d" % number for number in range(20)]
Answer = Union[bytes, Tuple[str, int]]


class Drawn(NamedTuple):
    """A ledger: its genesis block, the others, and its profile."""

    genesis: bytes
    blocks: List[bytes]
    profile: int

    def feed(self, more: bytes = b"") -> bytes:
        sent = b"".join(frame(b"B", each) for each in self.blocks)
        return head(self.genesis, 0, self.profile) + sent + more + frame(b"E")


class Wish(NamedTuple):
    """A spend that is asked for."""

    amount: int
    to: bytes
    words: List[bytes]


RANGES = [(1, 3), (1, 3), (1, 1000), (2**60, 2**62)]


def draw_pays(draw: random.Random, words: Sequence[bytes]) -> List[Tuple[int, bytes]]:
    """Up to 16 outputs: most of one range of amounts, so that some are equal."""
    pays: List[Tuple[int, bytes]] = []
    usual = draw.choice(RANGES)
    for _ in range(draw.randint(1, 16)):
        amount = draw.randint(*(usual if draw.random() < 0.9 else draw.choice(RANGES)))
        if sum(each for each, _ in pays) + amount <= MOST:
            pays.append((amount, draw.choice(words)))
    return pays or [(1, words[0])]


def draw_ledger(draw: random.Random, block_count: int) -> Drawn:
    """Grants to a few words, and blocks on any earlier ones, whose payments spend any earlier output: many of them
    twice, and some by a word that doesn't open it, or for more than it is worth."""
    words = draw.sample(WORDS, draw.choice([1, 2, 6]))
    grants = {each.id: each for each in (transaction([], draw_pays(draw, words)) for _ in range(draw.randint(1, 4)))}
    genesis = spelled(0, 0, [], [each.text for each in grants.values()])
    coins = [each for grant in grants.values() for each in grant.coins]
    blocks = [genesis]
    for salt in range(block_count):
        parents = sorted({sha256(each) for each in draw.sample(blocks[-4:], min(len(blocks[-4:]), draw.randint(1, 3)))})
        txs = draw_payments(draw, words, coins)
        blocks.append(spelled(salt, 0, parents, [each.text for each in txs]))
        coins += [each for tx in txs for each in tx.coins]
    return Drawn(genesis, blocks[1:], draw.choice([1, 2]))


def draw_payments(draw: random.Random, words: Sequence[bytes], coins: List[Coin]) -> List[Tx]:
    free = draw.sample(coins, min(len(coins), draw.randint(0, 5)))
    txs = []
    while free:
        spent, free = free[:2], free[2:]
        worth = sum(each.amount for each in spent)
        amount = min(MOST, draw.choice([worth, draw.randint(1, worth), worth + 1]))
        pays = [(amount, draw.choice(words))] + ([(worth - amount, draw.choice(words))] if amount < worth <= MOST else [])
        if draw.random() < 0.1:
            spent[0] = spent[0]._replace(word=b"another word")
        txs.append(transaction(spent, pays))
    return txs


def draw_wish(draw: random.Random, unspent: Sequence[Unspent]) -> Wish:
    """Words of which most have something, and an amount that some number of coins just reaches, or about that."""
    locks = {each.lock for each in unspent}
    words = [each for each in WORDS if draw.random() < (0.8 if lock_of(each) in locks else 0.2)][:16] or WORDS[:1]
    draw.shuffle(words)
    reach = sorted((each.amount for each in unspent if each.lock in map(lock_of, words)), reverse=True)
    count = draw.choice([draw.randint(1, 18), draw.randint(14, 17), 16])
    return Wish(max(1, min(MOST, sum(reach[:count]) + draw.randint(-1, 1))), draw.choice(WORDS), words)


def run(words: Sequence[bytes], given: bytes) -> "subprocess.CompletedProcess[bytes]":
    return subprocess.run([PROGRAM, *words], input=given, capture_output=True, timeout=60)


def unspent_of(drawn: Drawn) -> List[Unspent]:
    """What is unspent, by which transactions the program calls accepted; where genesis stands alone it isn't asked,
    as grants are accepted and nothing spends them."""
    blocks: List[ReadBlock] = [read_block(each) for each in (drawn.genesis, *drawn.blocks)]
    txs = {tx.id: tx for block in blocks for tx in block.txs}
    if drawn.blocks:
        told = run([b"replay"], drawn.feed(frame(b"R")))
        assert told.returncode == 0
        accepted = [bytes.fromhex(line.split()[1]) for line in told.stdout.decode().splitlines() if line.endswith(" accepted")]
        txs = {each: txs[each] for each in accepted}
    spent = {(each.tx, each.place) for tx in txs.values() for each in tx.inputs}
    outputs = [Unspent(tx.id, place, *output) for tx in txs.values() for place, output in enumerate(tx.outputs)]
    return [each for each in outputs if each.outpoint not in spent]


def told_by_the_program(drawn: Drawn, wish: Wish) -> Answer:
    done = run([b"spend", b"%d" % wish.amount, b"to", wish.to, b"from", *wish.words], drawn.feed())
    if done.returncode == 0:
        return done.stdout
    kinds = {14: "poor", 15: "large"}
    fault, kind, number = done.stdout.decode().split()
    assert fault == "fault" and kind == kinds[done.returncode]
    return kind, int(number)


def made_here(unspent: Sequence[Unspent], wish: Wish) -> Answer:
    try:
        return spend(wish.words, unspent, wish.amount, lock_of(wish.to)).text
    except NotEnough as why:
        return "poor", why.reach
    except TooLarge as why:
        return "large", why.total


def compare(seed: int) -> "Counter[str]":
    """Draws a ledger and spends of it, and says what came of them."""
    draw = random.Random(seed)
    drawn = draw_ledger(draw, draw.choice([0, 0, 0, 2, 4, 8]))
    unspent, kinds = unspent_of(drawn), Counter[str]()
    draw.shuffle(unspent)
    for _ in range(SPENDS):
        wish = draw_wish(draw, unspent)
        here = made_here(unspent, wish)
        assert here == told_by_the_program(drawn, wish), f"ledger {seed}, {wish}"
        kinds[kind_of(here)] += 1
    kinds["with blocks"] += bool(drawn.blocks)
    return kinds


def kind_of(answer: Answer) -> str:
    if isinstance(answer, tuple):
        return answer[0]
    read = read_tx(Cursor(answer))
    inputs = "16 inputs" if len(read.inputs) == 16 else "some inputs" if len(read.inputs) > 1 else "1 input"
    return f"{inputs}, {'change' if len(read.outputs) > 1 else 'no change'}"


def test_the_bytes_are_those_of_the_program() -> None:
    kinds: "Counter[str]" = Counter()
    with ThreadPoolExecutor(len(os.sched_getaffinity(0))) as pool:
        for each in pool.map(compare, range(LEDGERS)):
            kinds += each
    seen: Dict[str, int] = dict(kinds)
    assert min(seen.get(each, 0) for each in ("poor", "large", "with blocks")) > 100, seen
    assert min(seen.get(f"some inputs, {each}", 0) for each in ("change", "no change")) > 100, seen
    assert min(seen.get(f"16 inputs, {each}", 0) for each in ("change", "no change")) > 5, seen
    print(seen)
