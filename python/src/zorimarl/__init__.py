"""Wallets, explorers and services over the ledger that the program `spectre` keeps.

`zorimarl.ledger` has a node and its journal, and `zorimarl.aio` the same for asyncio; `zorimarl.proofs` has
certificates, `zorimarl.watch` what blocks change, `zorimarl.feeds` the bytes of blocks, feeds and journals,
`zorimarl.errors` each error, and `zorimarl.explore` a page that shows a ledger. Each answer is a line of the
program. `zorimarl.wallet` is a wallet over such a node, and `zorimarl.payment` makes its transactions.
"""

__version__ = "1.0.0"
