"""A ledger goes on in a new one: a genesis block whose grants are what a closing block leaves.

    made = roll_over(ledger, closing)        # or a feed's bytes
    made.opening                             # the feed that makes the new journal
    made.evidence                            # the feed of the blocks that it rests on

The state that is taken over is that of the closing block and its past, and of no other block. A block's id settles
its past, so one id settles all of it: whoever has that block, whatever else they have and in whatever order it came,
works out the same bytes. Balances are the program's report; which payments are undecided is worked out here. The
new genesis block is asked for its balances by the program, too, and these have to be the old ones, to the unit.
docs/ROLLOVER.md of the repository says what to agree on before, and what isn't taken over.
"""

from __future__ import annotations

from typing import Collection, Dict, Iterable, List, Mapping, NamedTuple, Optional, Sequence, Set, Tuple, Union

from . import answers
from .answers import Report
from .blocks import LONGEST_BLOCK, ReadTx, Tx, id_of, lock_of, locked, sha256, spelled
from .errors import LedgerError, Misfit, Refused
from .feeds import BLOCK, Head, feed, frame, head, read_feed
from .kept import Block, Kept
from .ledger import Ledger
from .program import Path, ready
from .proofs import feed_of
from .rollover_errors import LeftBehind, NoClosing, OtherGenesis, TooManyBalances, Undecided
from .sync import parents_first
from .talk import TIMEOUT, Talk

__all__ = ["MOST_OUTPUTS", "Rollover", "check", "genesis_of", "grants_of", "roll_over"]

LARGEST = 2**63 - 1  # what the amounts of one transaction come to at most
MOST_OF_GRANT = 16  # outputs
MOST_OUTPUTS = 1_632  # that a genesis block of 65,536 bytes has room for, 16 in each grant
REQUEST = "the rollover"


class Rollover(NamedTuple):
    """A new ledger's beginning. `opening` is its feed, without blocks, and `evidence` the feed of the closing block
    and its past, parents first and else by ids; `balances` are those of both ledgers by lock, `exposed` the locks
    among these whose word the old blocks show, and `left_out` how many kept blocks aren't in the evidence."""

    closing: bytes
    head: Head
    opening: bytes
    evidence: bytes
    balances: Dict[bytes, int]
    exposed: Tuple[bytes, ...]
    blocks: int
    left_out: int

    @property
    def genesis_id(self) -> bytes:
        return sha256(self.head.genesis)


# The new genesis block


def parts_of(amount: int) -> List[int]:
    """A balance as amounts that an output may have, all different: the most that is left, but one less each time."""
    parts: List[int] = []
    while amount:
        parts.append(min(amount, LARGEST - len(parts)))
        amount -= parts[-1]
    return parts


def grants_of(balances: Mapping[bytes, int]) -> List[Tx]:
    """The grants of these balances: outputs by ascending locks, in transactions of up to 16 whose amounts have room
    together. `TooManyBalances` where a block has no room."""
    outputs = [(part, id_of(lock)) for lock in sorted(balances) for part in parts_of(balances[lock])]
    if len(outputs) > MOST_OUTPUTS:
        raise TooManyBalances(f"{len(outputs)} outputs are needed for {len(balances)} balances, and a genesis block has room for {MOST_OUTPUTS}")
    grants: List[List[Tuple[int, bytes]]] = []
    for amount, lock in outputs:
        if not grants or len(grants[-1]) == MOST_OF_GRANT or sum(each for each, _ in grants[-1]) + amount > LARGEST:
            grants.append([])
        grants[-1].append((amount, lock))
    return [locked([], each) for each in grants]


def genesis_of(balances: Mapping[bytes, int], closing: bytes) -> bytes:
    """The genesis block with these grants. Salt and nonce are the first 16 bytes of the closing block's id, so that
    it names what it follows. `TooManyBalances` where it has no room."""
    mark = id_of(closing)
    grants = grants_of(balances)
    made = spelled(int.from_bytes(mark[:8], "little"), int.from_bytes(mark[8:16], "little"), [], [each.text for each in grants])
    if len(grants) > 256 or len(made) > LONGEST_BLOCK:
        raise TooManyBalances(f"{len(grants)} grants with {len(made)} bytes are needed, and a genesis block has 256 in {LONGEST_BLOCK} at most")
    return made


# What the program says


def replayed(first: Head, blocks: Iterable[bytes], timeout: Optional[float], program: Optional[Path]) -> Tuple[List[bytes], Report]:
    """The blocks that the program keeps of these, and its report on them."""
    talk = Talk(["replay"], timeout, (), ready(program))
    try:
        talk.send(head(first.genesis, first.bits, first.profile))
        kept: List[bytes] = []
        for each in blocks:
            talk.ask(answers.OFFER, sha256(each), timeout=timeout)
            talk.send(frame(BLOCK, each))
            found = answers.read_arrival(talk, talk.line(), sha256(each))
            if not isinstance(found, Refused) and found.standing != "known":
                kept.append(each)
        report = answers.report(talk, timeout)
        talk.finish(timeout)
        return kept, report
    finally:
        talk.kill()


# The state


def past_of(kept: Kept, closing: bytes) -> List[Block]:
    """The closing block and its past, parents first."""
    found, left = {closing}, [closing]
    while left:
        new = set(kept.read[left.pop()].parents) - found
        found |= new
        left += new
    return parents_first([kept.block(each) for each in found])


def undecided_of(blocks: Sequence[Block], accepted: Collection[bytes]) -> List[bytes]:
    """The ids of the payments that aren't accepted though nothing accepted stands against them: some block carries
    them soundly, and all that they spend is left by accepted transactions. Worked out here, of blocks that stand
    parents first, with all their pasts."""
    txs: Dict[bytes, ReadTx] = {tx.id: tx for each in blocks for tx in each.txs}
    taken = {(each.tx, each.place) for tx in accepted for each in txs[tx].inputs}
    places = {each.id: place for place, each in enumerate(blocks)}
    pasts: List[int] = []  # by bits
    carriers: Dict[bytes, int] = {}
    found: Set[bytes] = set()
    names = set(accepted)
    for place, block in enumerate(blocks):
        past = 0
        for parent in block.parents:
            past |= pasts[places[parent]] | 1 << places[parent]
        pasts.append(past)
        for tx in block.txs:
            if tx.id not in names and tx.id not in found and may_be(tx, txs, names, taken) and all(carriers[each.tx] & past for each in tx.inputs):
                found.add(tx.id)
        for tx in block.txs:
            carriers[tx.id] = carriers.get(tx.id, 0) | 1 << place
    return sorted(found)


def may_be(tx: ReadTx, txs: Mapping[bytes, ReadTx], accepted: Collection[bytes], taken: Collection[Tuple[bytes, int]]) -> bool:
    """Whether all that a transaction spends is left by accepted ones, is opened by its words, and suffices."""
    worth = 0
    for each in tx.inputs:
        outputs = txs[each.tx].outputs if each.tx in accepted else []
        if each.place >= len(outputs) or (each.tx, each.place) in taken or lock_of(each.preimage) != outputs[each.place].lock:
            return False
        worth += outputs[each.place].amount
    return worth >= sum(each.amount for each in tx.outputs)


def listed(ids: Iterable[bytes]) -> str:
    names = sorted(each.hex() for each in ids)
    return ", ".join(names[:3]) + (f", and {len(names) - 3} more" if len(names) > 3 else "")


def closing_of(kept: Kept, closing: Optional[bytes]) -> bytes:
    """The closing block: the one that is named, or the only tip."""
    if closing is not None:
        if id_of(closing) not in kept.present:
            raise NoClosing(f"no present block has the id {id_of(closing).hex()}")
        return id_of(closing)
    tips = [each.id for each in kept.tips()]
    if len(tips) > 1:
        raise NoClosing(f"{len(tips)} blocks are tips: name the closing block, or make one on all of them: {listed(tips)}")
    return tips[0]


def judge(undecided: Collection[bytes], here: Report, whole: Report, despite: Collection[bytes], leave_late: bool) -> None:
    """Refuses what isn't decided."""
    ties = sorted(set(undecided) - set(despite))
    if ties:
        raise Undecided(f"{len(ties)} payments aren't decided: {listed(ties)}", ties)
    late = sorted(set(here.accepted) ^ set(whole.accepted))
    if late and not leave_late:
        raise LeftBehind(f"{len(late)} payments stand otherwise by blocks that aren't in the past of the closing block: {listed(late)}", late)


def roll_over(
    source: Union[bytes, Ledger],
    closing: Optional[bytes] = None,
    despite: Iterable[bytes] = (),
    leave_late: bool = False,
    timeout: Optional[float] = TIMEOUT,
    program: Optional[Path] = None,
) -> Rollover:
    """The new ledger's beginning, of an open ledger or of a feed, whose questions are left out. Without a closing block
    it is the only tip. `despite` has the ids of undecided payments that are to count as rejected, as the report says,
    and `leave_late` lets payments stand otherwise than all kept blocks say. Neither changes a byte of what is made.

    Errors: those of `zorimarl.rollover_errors`; `Misfit` where the program doesn't answer the old balances for the
    new ledger; and those of the ledger, the feed and the program."""
    name = source.file if isinstance(source, Ledger) else ""
    try:
        first, frames = read_feed(feed_of(source, timeout))
        sent, whole = replayed(first, (each.payload for each in frames if each.kind == BLOCK), timeout, program)
        kept = Kept(first.genesis, sent)
        mark = closing_of(kept, closing)
        blocks = past_of(kept, mark)
        data = [each.data for each in blocks[1:]]
        here = replayed(first, data, timeout, program)[1]
        judge(undecided_of(blocks, here.accepted), here, whole, [id_of(each) for each in despite], leave_late)
        new = Head(first.profile, first.bits, genesis_of(here.balances, mark))
        if (len(blocks), 0) != (here.present, here.waiting) or replayed(new, [], timeout, program)[1].balances != here.balances:
            raise Misfit("the program's report on the new ledger isn't what the old one leaves")
    except LedgerError as why:
        raise why.at(name, REQUEST)
    shown = {lock_of(each.preimage) for block in blocks for tx in block.txs for each in tx.inputs}
    exposed = tuple(sorted(shown & set(here.balances)))
    return Rollover(mark, new, feed(new, []), feed(first, data), here.balances, exposed, len(blocks), len(kept) - len(blocks))


def check(source: Union[bytes, Ledger], opening: bytes, closing: bytes, timeout: Optional[float] = TIMEOUT, program: Optional[Path] = None) -> Rollover:
    """Works a new ledger's beginning out anew, by its evidence or by any other feed or ledger that has the closing
    block, and holds the opening against it, byte for byte. Whether payments were decided isn't asked.

    Errors: `OtherGenesis`, and those of `roll_over`."""
    first, frames = read_feed(feed_of(source, timeout))
    kept = Kept(first.genesis, replayed(first, (each.payload for each in frames if each.kind == BLOCK), timeout, program)[0])
    blocks = past_of(kept, closing_of(kept, closing))
    undecided = undecided_of(blocks, replayed(first, [each.data for each in blocks[1:]], timeout, program)[1].accepted)
    made = roll_over(feed(first, [each.data for each in blocks[1:]]), closing, undecided, True, timeout, program)
    if made.opening != bytes(opening):
        raise OtherGenesis(f"the opening isn't that of the closing block {closing.hex()}").at("", REQUEST)
    return made
