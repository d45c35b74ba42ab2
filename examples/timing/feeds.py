"""Feeds of many blocks, each with the lines that answer it."""

from __future__ import annotations

from dataclasses import dataclass, field
from typing import AbstractSet, Callable, Dict, Iterable, List, Mapping, Optional, Sequence, Tuple

from zorimarl.feeds import Coin, Tx, block, frame, head, sha256, transaction

from .graphs import Graph, in_step, pasts, taken_in
from .payer import CARRIED, GRANTED, GRANTS, Payer, payee, spending


@dataclass
class Ledger:
    """The blocks of a graph, genesis first, and their transactions by id."""

    blocks: List[bytes] = field(default_factory=list)
    ids: List[bytes] = field(default_factory=list)
    txs: Dict[bytes, Tx] = field(default_factory=dict)

    def add(self, parents: Iterable[int], txs: Sequence[Tx] = ()) -> None:
        made = block(len(self.blocks), [self.ids[parent] for parent in parents], txs)
        self.blocks.append(made)
        self.ids.append(sha256(made))
        self.txs.update((tx.id, tx) for tx in txs)


@dataclass
class Feed:
    """The bytes, the lines of the answer up to the report, and what the report is on: the ledger, and the
    ids of the accepted transactions where they were worked out by hand."""

    text: bytes
    lines: List[str]
    ledger: Ledger
    accepted: Optional[AbstractSet[bytes]] = None


def plain(graph: Graph) -> Ledger:
    """The graph without transactions."""
    ledger = Ledger()
    for parents in graph:
        ledger.add(parents)
    return ledger


def payments(graph: Graph) -> Tuple[Ledger, List[Tuple[Tx, Tx]]]:
    """The blocks of the graph with 100 transactions each, and the second spends, with their rivals."""
    ledger, payer = Ledger(), Payer()
    ledger.add([], payer.grants())
    for parents, past in list(zip(graph, pasts(graph)))[1:]:
        ledger.add(parents, payer.next(past))
    assert len(ledger.txs) == GRANTS + CARRIED * (len(graph) - 1)
    return ledger, payer.seconds


def accepted_in_step(ledger: Ledger, seconds: Sequence[Tuple[Tx, Tx]]) -> AbstractSet[bytes]:
    """Which transactions are accepted in the end where the graph is `in_step`.

    Say x and y = x + 3 carry the two spends. When y comes, x - 3 to x - 1 have y above them and not x, so
    they vote for y: y is first, and the second spend is accepted. x + 4 sees x and not y, and puts x first;
    x + 5 and x + 6 see the same, and what comes later sees the votes of these: x stays first, and the first
    spend is accepted with all that spends it. So of all second spends the last one alone is accepted,
    in whose place its rival isn't. (Blocks 2 to 4 rival block 1: a tie until block 5 comes, on 1.)"""
    lost = {second.id for second, _ in seconds[:-1]} | {seconds[-1][1].id}
    return ledger.txs.keys() - lost


def sent(
    ledger: Ledger, order: Iterable[int], answers: Mapping[int, str], asked: Optional[Mapping[int, Tuple[bytes, str]]] = None
) -> Tuple[bytes, List[str]]:
    """The feed that sends the blocks in this order, which are answered so, and ends with a report. Behind
    the blocks that `asked` names comes a question on a transaction, with its answer."""
    frames, lines = [head(ledger.blocks[0])], []
    for number in order:
        frames.append(frame(b"B", ledger.blocks[number]))
        lines.append(f"kept {ledger.ids[number].hex()} {answers.get(number, 'present 1')}")
        if asked and number in asked:
            tx, state = asked[number]
            frames.append(frame(b"T", tx))
            lines.append(f"tx {tx.hex()} {state}")
    return b"".join(frames) + frame(b"R") + frame(b"E"), lines


def in_order(
    ledger: Ledger, accepted: Optional[AbstractSet[bytes]] = None, asked: Optional[Mapping[int, Tuple[bytes, str]]] = None
) -> Feed:
    """The feed of the blocks in their order, each of which is present at once."""
    return Feed(*sent(ledger, range(1, len(ledger.blocks)), {}, asked), ledger, accepted)


def children_first(count: int) -> Feed:
    """The blocks of `in_step` with their payments in reverse order. Blocks 4 to 2 are present at once, and
    with block 1, which comes last, all others are."""
    ledger, seconds = payments(in_step(count))
    answers = {number: "waiting" for number in range(5, count + 1)} | {1: f"present {count - 3}"}
    text, lines = sent(ledger, range(count, 0, -1), answers)
    return Feed(text, lines, ledger, accepted_in_step(ledger, seconds))


def taken_in_at_once(count: int) -> Feed:
    """The blocks of `taken_in` without payments in reverse order. With block 1, which comes last, the whole
    chain is present."""
    ledger, leaves = plain(taken_in(count)), (count - 1) // 2
    answers = {number: "waiting" for number in range(leaves + 1, count + 1)} | {1: f"present {count - leaves + 1}"}
    text, lines = sent(ledger, range(count, 0, -1), answers)
    return Feed(text, lines, ledger)


def turning(length: int, width: int, turns: int, is_paying: bool) -> Feed:
    """A tree of spends of which the first one turns.

    Blocks 1 and 2 on genesis spend one grant, the first into `width` coins. Block 3 stands on both, and on
    it a chain of `length` blocks in all. Each carries `width` transactions, each of which spends what the
    one at its place in the block below paid: length * width of them. All these blocks see both 1 and 2,
    and nothing that decides between them, so they vote for neither. Then the side blocks come, in two
    chains, on 1 and on 2: one on 1, two on 2, two on 1, two on 2 and so on. Of the side blocks, counted
    from 0, the one with number k leaves block 1 ahead by 1 where k is 0 modulo 4, behind by 1 where it is
    2, and a tie where it is odd. So with each that is 0 modulo 4 all spends are accepted, and with the next
    one all are rejected. A question on the last of them stands behind each side block."""
    ledger = Ledger()

    def add(parents: Iterable[int], *txs: Tx) -> int:
        ledger.add(parents, txs if is_paying else ())
        return len(ledger.blocks) - 1

    grant = transaction([], [(GRANTED, b"payer")])
    first = transaction(grant.coins, [(GRANTED // width - 1, payee(place)) for place in range(width)])
    second = transaction(grant.coins, [(GRANTED - 1, payee(width))])
    add([], grant)
    add([0], first)
    add([0], second)
    coins, below = first.coins, [1, 2]
    for number in range(length):
        txs = [spending(coin, width * number + place, False) for place, coin in enumerate(coins)]
        coins, below = [tx.coins[0] for tx in txs], [add(below, *txs)]
    tops = [1, 2]
    asked: Dict[int, Tuple[bytes, str]] = {}
    for side in range(turns):
        on = (side + 1) // 2 % 2
        tops[on] = add([tops[on]])
        asked[tops[on]] = coins[-1].tx, "accepted" if side % 4 == 0 else "rejected"
    assert turns % 4 == 1
    return in_order(ledger, ledger.txs.keys() - {second.id}, asked if is_paying else None)


def contested(graph: Graph, payee_of: Callable[[int], int], count: int, width: int) -> Feed:
    """A graph whose blocks all spend the same coins, which genesis grants: `count` transactions in each, with
    `width` coins each. Two blocks carry the same transactions where `payee_of` is the same of both, and
    rivals of one another elsewhere. Which ones are accepted isn't worked out."""
    pays = [(GRANTED + number, b"a") for number in range(count * width)]
    grants = [transaction([], pays[first : first + 16]) for first in range(0, len(pays), 16)]
    coins = [coin for grant in grants for coin in grant.coins]
    spends = [coins[first : first + width] for first in range(0, len(coins), width)]
    ledger = Ledger()
    made: Dict[bytes, List[Tx]] = {}
    ledger.add([], grants)
    for number, parents in list(enumerate(graph))[1:]:
        word = b"%d" % payee_of(number)
        if word not in made:
            made[word] = [transaction(each, [(1, word)]) for each in spends]
        ledger.add(parents, made[word])
    return in_order(ledger)


def handed_on(graph: Graph, side_of: Callable[[int], int], count: int) -> Feed:
    """Two chains, each of whose blocks pays on, coin by coin, what the block before it in its chain was paid:
    `count` transactions of one coin each. The first blocks spend the same coins, which genesis grants, so that
    all of one chain are rivals of all of the other by what they come from. Which ones are accepted isn't worked
    out."""
    pays = [(GRANTED + number, b"a") for number in range(count)]
    grants = [transaction([], pays[first : first + 16]) for first in range(0, len(pays), 16)]
    ledger = Ledger()
    ledger.add([], grants)
    coins = [coin for grant in grants for coin in grant.coins]
    left: List[List[Coin]] = [coins, coins]
    amounts = [1, 2]
    for number, parents in list(enumerate(graph))[1:]:
        side = side_of(number)
        txs = [transaction([coin], [(amounts[side], b"a")]) for coin in left[side]]
        left[side], amounts[side] = [tx.coins[0] for tx in txs], 1
        ledger.add(parents, txs)
    return in_order(ledger)


def paid_in_step(count: int) -> Feed:
    ledger, seconds = payments(in_step(count))
    return in_order(ledger, accepted_in_step(ledger, seconds))


def paid(graph: Graph) -> Feed:
    """The payments of any graph; which ones are accepted isn't worked out."""
    return in_order(payments(graph)[0])


def unpaid(graph: Graph) -> Feed:
    return in_order(plain(graph))
