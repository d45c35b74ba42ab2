"""The data of a page, as python/README.md has their form."""

from dataclasses import dataclass
from typing import Any, Dict, List, Optional, Union

from ..feeds import ReadTx
from .layers import quick_layout_of
from .subject import Subject
from .asked import MOST_LINES, Arrived, Stop, Watch

FORM = 1
WIDTH = 78  # of a block, in the layout


@dataclass(eq=False)
class Placed:
    """A block as the layout wants it."""

    parents: List[int]


def data_of(subject: Subject, most_lines: int = MOST_LINES) -> Dict[str, Any]:
    head, watch = subject.head, None
    if head is not None:
        watch = Watch(subject, most_lines).run()
    data = {
        "form": FORM,
        "kind": subject.kind,
        "name": subject.name,
        "profile": head.profile if head else None,
        "bits": head.bits if head else None,
        "status": subject.status,
        "fault": subject.fault,
        "sent": len(subject.arrivals),
        "unlisted": watch.unlisted if watch else {},
    }
    return {**data, **(lists_of(subject, watch) if watch else EMPTY)}


EMPTY: Dict[str, Any] = {"blocks": [], "txs": [], "locks": [], "arrivals": [], "stops": []}


class Lists:
    """The lists of a page, in which blocks have new numbers: those that are present by their ranks, and those
    that wait behind them."""

    def __init__(self, subject: Subject, watch: Watch) -> None:
        self.names, self.watch = subject.names, watch
        self.order = watch.ranks + watch.parents_first(watch.waiting)
        self.number = {kept: number for number, kept in enumerate(self.order)}
        self.since = {kept: at for at, each in enumerate(watch.arrivals, 1) for kept in each.present}
        self.came = {each.block: at for at, each in enumerate(watch.arrivals, 1) if each.block is not None}
        self.places = self.layout()
        self.tx_numbers = {tx: number for tx, (number, _) in watch.txs.items()}
        self.txs = [tx for _, tx in watch.txs.values()]
        self.locks = dict(watch.locks)
        for kept in watch.waiting:  # what only waiting blocks have was never asked for
            for tx in watch.kept[kept].block.txs:
                self.add(tx)

    def add(self, tx: ReadTx) -> None:
        if tx.id not in self.tx_numbers:
            self.tx_numbers[tx.id] = len(self.txs)
            self.txs.append(tx)
        for output in tx.outputs:
            self.locks.setdefault(output.lock, len(self.locks))

    def layout(self) -> List[List[float]]:
        """Where each block stands: its middle, and its row, counted from genesis."""
        numbers = self.watch.numbers
        blocks = {}
        for number, kept in enumerate(self.order):
            known = [numbers[each] for each in self.watch.kept[kept].block.parents if each in numbers]
            blocks[number] = Placed([self.number[each] for each in known] or [0] * (number > 0))
        layout = quick_layout_of(blocks, {number: WIDTH for number in blocks})
        where = {id(item.block): [round(item.x, 1), item.row] for row in layout.rows for item in row}
        return [where[id(blocks[number])] for number in blocks]

    def block(self, number: int) -> Dict[str, Any]:
        kept = self.order[number]
        block, size = self.watch.kept[kept]
        return {
            "id": block.id.hex(),
            "name": self.names.blocks.get(block.id),
            "size": size,
            "salt": str(block.salt),
            "nonce": str(block.nonce),
            "parents": [self.parent(each) for each in block.parents],
            "txs": [self.tx_numbers[tx.id] for tx in block.txs],
            "came": self.came.get(kept, 0),
            "present": 0 if kept == 0 else self.since.get(kept),
            "x": self.places[number][0],
            "row": self.places[number][1],
        }

    def parent(self, block_id: bytes) -> Union[int, str]:
        kept = self.watch.numbers.get(block_id)
        return block_id.hex() if kept is None else self.number[kept]

    def tx(self, tx: ReadTx) -> Dict[str, Any]:
        return {
            "id": tx.id.hex(),
            "name": self.names.txs.get(tx.id),
            "inputs": [
                [self.tx_numbers.get(each.tx, each.tx.hex()), each.place, each.preimage.hex()] for each in tx.inputs
            ],
            "outputs": [[str(each.amount), self.locks[each.lock]] for each in tx.outputs],
        }

    def lock(self, lock: bytes) -> Dict[str, Any]:
        return {"id": lock.hex(), "name": self.names.locks.get(lock)}

    def arrival(self, arrived: Arrived) -> Dict[str, Any]:
        block: Optional[int] = None if arrived.block is None else self.number[arrived.block]
        return {
            "line": arrived.line,
            "size": arrived.size,
            "block": block,
            "present": [self.number[each] for each in arrived.present],
        }


def stop_of(stop: Stop) -> Dict[str, Any]:
    return {
        "arrivals": stop.arrivals,
        "blocks": stop.present,
        "waiting": stop.waiting,
        "accepted": stop.accepted,
        "left": stop.left,
        "words": stop.words,
        "states": stop.states,
        "balances": [[lock, str(amount)] for lock, amount in stop.balances],
    }


def lists_of(subject: Subject, watch: Watch) -> Dict[str, Any]:
    lists = Lists(subject, watch)
    return {
        "blocks": [lists.block(number) for number in range(len(lists.order))],
        "txs": [lists.tx(tx) for tx in lists.txs],
        "locks": [lists.lock(lock) for lock in lists.locks],
        "arrivals": [lists.arrival(each) for each in watch.arrivals],
        "stops": [stop_of(each) for each in watch.stops],
    }
