"""A ledger goes on in a new one: the command `zorimarl-rollover`.

    zorimarl-rollover FILE [--at ID]                  says what the new ledger would begin with
    zorimarl-rollover FILE [--at ID] --to FOLDER      and writes it: opening.feed and evidence.feed
    zorimarl-rollover FILE --at ID --check OPENING    holds an opening against the blocks in FILE

FILE is a journal, which may be in use, or a feed, as evidence.feed is. ID is that of the closing block: what it and
its past leave is taken over, and nothing else. Without it, that is the only tip. The new journal is made by
`spectre node NEW < FOLDER/opening.feed`. docs/ROLLOVER.md says what to agree on before.

Refused are payments that aren't decided (Undecided), and those that stand otherwise by later blocks (LeftBehind).
`--despite TX` says of one of the first that it is to count as rejected, and `--leave-late` lets all of the second go; the
bytes that are made are the same with them. The status is 0 where all is done, 1 where it is refused or an
opening is another one, and 2 where file, words or program fail.
"""

from __future__ import annotations

import argparse
import os
import sys
from typing import List

from . import files
from .command import identity
from .errors import LedgerError, fault_of
from .feeds import FEED, PROFILES, feed
from .program import Path
from .rollover import Rollover, check, roll_over
from .rollover_errors import RolloverFault
from .sync_command import write
from .talk import TIMEOUT

NAME = "zorimarl-rollover"


def feed_in(file: Path) -> bytes:
    """A feed, or that of a journal's blocks."""
    data = files.read_whole(file)
    if any(data.startswith(each[FEED]) for each in PROFILES.values()):
        return data
    journal = files.journal_in(file)
    return feed(journal.head, journal.blocks)


def told(made: Rollover) -> List[str]:
    """What is made, in lines."""
    total, exposed = sum(made.balances.values()), sum(made.balances[each] for each in made.exposed)
    return [
        f"closing {made.closing.hex()}",
        f"blocks {made.blocks} left-out {made.left_out}",
        f"balances {len(made.balances)} total {total}",
        f"exposed {len(made.exposed)} total {exposed}",
        f"genesis {made.genesis_id.hex()} bytes {len(made.head.genesis)} bits {made.head.bits} profile {made.head.profile}",
    ]


def save(made: Rollover, folder: str) -> None:
    try:
        os.makedirs(folder, exist_ok=True)
    except OSError as why:
        raise fault_of(why, folder, "the rollover") from None
    write(os.path.join(folder, "evidence.feed"), made.evidence)
    write(os.path.join(folder, "opening.feed"), made.opening)


def main(words: List[str]) -> int:
    form = argparse.RawDescriptionHelpFormatter
    parser = argparse.ArgumentParser(prog=NAME, description="Makes the beginning of a ledger that goes on from another.", epilog=__doc__, formatter_class=form)
    parser.add_argument("file", metavar="FILE", help="a journal, or a feed")
    parser.add_argument("--at", metavar="ID", help="the closing block")
    parser.add_argument("--to", metavar="FOLDER", help="write opening.feed and evidence.feed there")
    parser.add_argument("--check", metavar="OPENING", help="an opening.feed to hold against what FILE gives")
    parser.add_argument("--despite", metavar="TX", action="append", default=[], help="an undecided payment that counts as rejected")
    parser.add_argument("--leave-late", action="store_true", help="leave payments behind that later blocks decide otherwise")
    parser.add_argument("--timeout", type=float, metavar="S", default=TIMEOUT, help="how many seconds an answer may take (600)")
    given = parser.parse_args(words)
    if given.check and (given.to or not given.at or given.despite or given.leave_late):
        parser.error("--check goes with --at alone")
    try:
        source, closing = feed_in(given.file), identity(given.at) if given.at else None
        if given.check and closing:
            made = check(source, files.read_whole(given.check), closing, given.timeout)
        else:
            made = roll_over(source, closing, [identity(each) for each in given.despite], given.leave_late, given.timeout)
        if given.to:
            save(made, given.to)
    except LedgerError as why:
        print(f"{NAME}: {type(why).__name__}: {why.at(given.file, '')}", file=sys.stderr)
        return 1 if isinstance(why, RolloverFault) else 2
    for line in told(made):
        print(line)
    return 0


def run() -> int:
    """The console command."""
    try:
        return main(sys.argv[1:])
    except (BrokenPipeError, KeyboardInterrupt):  # nobody reads any more, or wants to
        sys.stdout = open(os.devnull, "w", encoding="utf-8")
        return 2


if __name__ == "__main__":
    sys.exit(run())
