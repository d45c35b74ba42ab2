"""Two nodes tell each other their blocks: the command `zorimarl-sync`.

    zorimarl-sync FILE -- COMMAND ..     with the other side at the ends of a command, as of
                                         `ssh host zorimarl-sync FILE`
    zorimarl-sync FILE                   over standard input and output: the other end of such a command
    zorimarl-sync FILE --write OUT       by hand: writes what this side has;
    zorimarl-sync FILE --read IN --write OUT
                                         takes what the other side wrote, and writes what that one lacks

FILE is a journal that no other call uses. Both ends have to have one genesis block, bits of work and profile. By
hand three files make both alike: the list of the one, the answer of the other, and the answer to that, which the
other side takes by `--read`. Where a run ends early, start it again: what was taken stands in the journal.

The last line on standard error says how many blocks were taken and sent, how many are lacking still, and how many are
present and wait. The status is 0 where all was taken and sent, 1 where the other side is at fault or
was lost, and 2 where this side's ledger, words or files are.
"""

from __future__ import annotations

import argparse
import os
import subprocess
import sys
from typing import List, Optional, Sequence, Tuple

from .blocks import EMPTY, MOST_BLOCKS
from .command import hexadecimal
from .errors import LedgerError, NoRequest, fault_of
from .feeds import PROFILES
from .ledger import Ledger
from .program import Path
from .sync import LONGEST, TIMEOUT, Synced, carry, exchange
from .sync_errors import PeerEnded, PeerFault

NAME = "zorimarl-sync"
TO_END = 10.0  # seconds that the command has to end


def told(done: Synced) -> str:
    return f"took {done.took}, sent {done.sent}, lacking {done.lacking}; present {done.present}, waiting {done.waiting}"


def with_command(ledger: Ledger, words: Sequence[str], timeout: float, most: int) -> Synced:
    """The exchange with the other side at the ends of a command, which has to end well, too."""
    try:
        process = subprocess.Popen(words, stdin=subprocess.PIPE, stdout=subprocess.PIPE)
    except OSError as why:
        raise fault_of(why, ledger.file, f"the command {words[0]}") from None
    assert process.stdin and process.stdout
    try:
        done = exchange(ledger, process.stdout.fileno(), process.stdin.fileno(), timeout, most)
        process.stdin.close()
        code = process.wait(TO_END)
    except subprocess.TimeoutExpired:
        raise PeerEnded(f"all was sent, and the command {words[0]} doesn't end").at(ledger.file, "the exchange") from None
    finally:
        for pipe in (process.stdin, process.stdout):
            pipe.close()
        end(process)
    if code:
        raise PeerEnded(f"all was sent, and the command {words[0]} ended with {code}").at(ledger.file, "the exchange")
    return done


def end(process: subprocess.Popen[bytes]) -> None:
    """Lets a command end whose pipes are closed, and then ends it."""
    try:
        process.wait(1.0)
    except subprocess.TimeoutExpired:
        process.kill()
        process.wait()


def read(name: Path) -> bytes:
    """A file that the other side made. No more is read than it could have written."""
    try:
        with open(name, "rb") as opened:
            return opened.read(LONGEST + 1)
    except OSError as why:
        raise fault_of(why, os.fspath(name), "what the other side wrote") from None


def write(name: Path, data: bytes) -> None:
    """Writes a file whole, or leaves what was there."""
    part = f"{os.fspath(name)}.part"
    try:
        with open(part, "wb") as opened:
            opened.write(data)
            opened.flush()
            os.fsync(opened.fileno())
        os.replace(part, name)
    except OSError as why:
        raise fault_of(why, os.fspath(name), "what is for the other side") from None


def by_hand(ledger: Ledger, source: Optional[str], target: Optional[str], most: int) -> Synced:
    done, made = carry(ledger, None if source is None else read(source), most)
    if target is None:
        return done._replace(sent=0)
    write(target, made)
    return done


def parse(words: List[str]) -> Tuple[argparse.Namespace, List[str]]:
    """The words in front of `--`, and the command behind it."""
    place = words.index("--") if "--" in words else len(words)
    form = argparse.RawDescriptionHelpFormatter
    parser = argparse.ArgumentParser(prog=NAME, description="Makes two ledgers alike.", epilog=__doc__, formatter_class=form)
    parser.add_argument("file", metavar="FILE", help="the journal")
    parser.add_argument("--genesis", metavar="HEX", help="the genesis block's bytes, or `empty`, where FILE is new")
    parser.add_argument("--bits", type=int, choices=range(65), metavar="N", help="the bits of work, 0 to 64")
    parser.add_argument("--profile", type=int, choices=sorted(PROFILES), help="the rule on ties")
    parser.add_argument("--timeout", type=float, metavar="S", default=TIMEOUT, help="how many seconds all of it may take (600)")
    parser.add_argument("--most", type=int, metavar="N", default=MOST_BLOCKS, help="how many blocks may be taken (512)")
    parser.add_argument("--read", metavar="IN", help="by hand: the file that the other side wrote")
    parser.add_argument("--write", metavar="OUT", help="by hand: the file for the other side")
    given = parser.parse_args(words[:place])
    command = words[place + 1 :]
    if (given.read or given.write) and command or place < len(words) and not command:
        parser.error("behind `--` stands a command, and then neither --read nor --write does")
    if given.timeout <= 0 or given.most < 0:
        parser.error("S is above 0, and N is at least 0")
    return given, command


def main(words: List[str]) -> int:
    given, command = parse(words)
    try:
        first = EMPTY if given.genesis == "empty" else given.genesis and hexadecimal(given.genesis)
        with Ledger(given.file, first, given.bits, given.profile, timeout=given.timeout) as ledger:
            if given.read or given.write:
                done = by_hand(ledger, given.read, given.write, given.most)
            elif command:
                done = with_command(ledger, command, given.timeout, given.most)
            elif sys.stdin.isatty() or sys.stdout.isatty():
                raise NoRequest("standard input and output are a terminal, and lead to no other side: see --help", given.file)
            else:
                done = exchange(ledger, sys.stdin.fileno(), sys.stdout.fileno(), given.timeout, given.most)
    except LedgerError as why:
        print(f"{NAME}: {type(why).__name__}: {why}", file=sys.stderr)
        return 1 if isinstance(why, PeerFault) else 2
    print(f"{NAME}: {told(done)}", file=sys.stderr)
    return 0


def run() -> int:
    """The console command."""
    try:
        return main(sys.argv[1:])
    except KeyboardInterrupt:
        return 2


if __name__ == "__main__":
    sys.exit(run())
