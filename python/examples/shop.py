#!/usr/bin/env python3
"""A shop that sells for one price, and says when an order is paid, and when its payment was turned back:

    python3 python/examples/shop.py JOURNAL FOLDER PRICE ORDER ..

A block is a file FOLDER/NAME.block that others leave, and is taken away once it is answered. The shop can be killed
anywhere, and started again; it ends once FOLDER/end is there. An ORDER's word is its name here: draw it at random."""

import asyncio
import pathlib
import sys
from typing import List

from zorimarl.aio import Ledger
from zorimarl.errors import LedgerError, Refused
from zorimarl.feeds import lock_of

DEEP = 2  # so many blocks stand on the one that pays before it counts


async def is_deep(ledger: Ledger, block: bytes) -> bool:
    """Whether enough present blocks stand on this one, each on the one before."""
    above = {block}
    for _ in range(DEEP):
        above = {child.id for each in above for child in await ledger.children(each) if child.present}
    return bool(above)


async def is_paid(ledger: Ledger, order: str, price: int) -> bool:
    paid = [entry for entry in await ledger.history(lock_of(order.encode())) if entry.state == "accepted"]
    return price <= sum([entry.received for entry in paid if any([await is_deep(ledger, each) for each in entry.blocks])])


async def take(ledger: Ledger, path: pathlib.Path) -> None:
    try:
        await ledger.offer(path.read_bytes())
    except Refused as why:
        print(f"refused {path.stem}: {why.answer}", flush=True)
    except LedgerError:
        if ledger.is_open:
            raise
        await ledger.reopen()  # from the journal; it sends again what wasn't answered
    path.unlink()


async def serve(journal: str, folder: pathlib.Path, price: int, orders: List[str]) -> None:
    states, is_end = dict.fromkeys(orders, False), False
    async with await Ledger.open(journal) as ledger:
        while not is_end:
            is_end = (folder / "end").exists()  # looked at before the blocks are
            for path in sorted(folder.glob("*.block")):
                await take(ledger, path)
                for order, was in states.items():
                    states[order] = await is_paid(ledger, order, price)
                    if states[order] != was:
                        print(f"{'turned back' if was else 'paid'} {order}", flush=True)
            await asyncio.sleep(0.05)


asyncio.run(serve(sys.argv[1], pathlib.Path(sys.argv[2]), int(sys.argv[3]), sys.argv[4:]))
