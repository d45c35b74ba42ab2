"""What a ledger says of a wallet's coins, and which of them a payment takes."""

from __future__ import annotations

from typing import Collection, Dict, Iterable, List, NamedTuple, Protocol, Sequence, Set, Tuple

from .answers import Report, State
from .blocks import ReadTx, Tx, lock_of
from .errors import Misfit
from .payment import AMOUNT_LIMIT, MOST_INPUTS, Outpoint, Unspent, largest_first, worth


class Carrier(Protocol):
    """A block, as far as a wallet looks at it."""

    @property
    def txs(self) -> Sequence[ReadTx]: ...


class Node(Protocol):
    """What a wallet asks of a ledger: its report, the state of a transaction, and its kept blocks, present and
    waiting. `zorimarl.ledger.Ledger` has it."""

    def report(self) -> Report: ...

    def tx(self, tx_id: bytes) -> State: ...

    def blocks(self) -> Iterable[Carrier]: ...


class Look(NamedTuple):
    """What a ledger says, at one moment: the unspent outputs under some locks, each lock whose word a kept block
    shows, be it present or waiting, and the ids of the accepted transactions."""

    unspent: List[Unspent]
    shown: Set[bytes]
    accepted: Set[bytes]


def look(node: Node, locks: Collection[bytes]) -> Look:
    """Looks a ledger through for what is unspent under these locks. It is computed here, out of the blocks and of
    which transactions the report calls accepted, in a pass over all kept blocks; and what it comes to under each
    lock has to be what the report says.

    Errors: `Misfit`, and those of the ledger."""
    report = node.report()
    accepted = set(report.accepted)
    shown: Set[bytes] = set()
    found: Dict[Outpoint, Unspent] = {}
    spent: Set[Outpoint] = set()
    for block in node.blocks():
        for tx in block.txs:
            shown.update(lock_of(each.preimage) for each in tx.inputs)
            if tx.id in accepted:
                spent.update((each.tx, each.place) for each in tx.inputs)
                for place, output in enumerate(tx.outputs):
                    if output.lock in locks:
                        found[tx.id, place] = Unspent(tx.id, place, output.amount, output.lock)
    unspent = [coin for outpoint, coin in found.items() if outpoint not in spent]
    left: Dict[bytes, int] = {}
    for coin in unspent:
        left[coin.lock] = left.get(coin.lock, 0) + coin.amount
    told = {lock: amount for lock, amount in report.balances.items() if lock in locks}
    if left != told:
        here, there = sum(left.values()), sum(told.values())
        raise Misfit(f"what the wallet has comes to {here} by the blocks, and to {there} by the report, or under other locks")
    return Look(unspent, shown, accepted)


def with_siblings(chosen: Sequence[Unspent], unspent: Iterable[Unspent]) -> Tuple[List[Unspent], int]:
    """The chosen coins with the others that their words open, as far as there is room; and what is left under these
    words, in units. Whoever sees the payment could take that."""
    locks = {coin.lock for coin in chosen}
    return fill(chosen, (coin for coin in unspent if coin.lock in locks))


def excluding(earlier: Sequence[Tx], own: Sequence[Tx], unspent: Sequence[Unspent]) -> Tuple[List[Unspent], bool]:
    """The coins that a new transaction spends so that it can't be accepted beside any of the earlier ones, and whether
    there are such for each of them. An earlier one is excluded by a coin that it spends, too; or by a coin out of
    another transaction of the wallet that spends what the earlier one does. Behind these stand the other coins
    of the earlier ones, as many as there is room for, since their words were seen."""
    coins: List[Unspent] = []
    whole = True
    for tx in earlier:
        rivals = {each.id for each in own if each.id != tx.id and not set(each.spent).isdisjoint(tx.spent)}
        shared = [coin for coin in unspent if coin.outpoint in tx.spent]
        ways = shared or [coin for coin in unspent if coin.tx in rivals]
        if ways and set(ways).isdisjoint(coins):
            coins += largest_first(ways)[:1]
        whole = whole and bool(ways)
    if MOST_INPUTS < len(coins) or AMOUNT_LIMIT <= worth(coins):
        return [], False
    spent = {outpoint for tx in earlier for outpoint in tx.spent}
    return fill(coins, (coin for coin in unspent if coin.outpoint in spent))[0], whole


def fill(chosen: Sequence[Unspent], others: Iterable[Unspent]) -> Tuple[List[Unspent], int]:
    """The chosen coins, and behind them the largest of the others that one transaction has room for; and what those
    come to that it hasn't, in units."""
    taken, total, left = list(chosen), worth(chosen), 0
    for coin in largest_first(set(others).difference(chosen)):
        if len(taken) < MOST_INPUTS and total + coin.amount < AMOUNT_LIMIT:
            taken.append(coin)
            total += coin.amount
        else:
            left += coin.amount
    return taken, left
