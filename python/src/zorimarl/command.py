"""A ledger for any language: the command `zorimarl-ledger`.

It answers with one line of JSON for each request, which stands behind FILE or, where none does, in the lines of
standard input:

    zorimarl-ledger FILE [--genesis HEX] [--bits N] [--profile N] [--fresh] [--timeout S] [REQUEST ..]

    offer HEX      a block's bytes, in hexadecimal digits
    mine HEX ..    makes and offers a block without transactions on these blocks
    vote ID ID     tx ID     balance LOCK     balance of WORD     pairs     report
    blocks         block ID  children ID      tips     coins LOCK   history LOCK
    left           how many more blocks can be kept
    snapshot COPY  copies the journal
    export [1|2]   the feed of the blocks, in hexadecimal digits

A request that fails is answered by `{"error": NAME, "what": TEXT}`. The status is 0 where all are answered, 1
where a request was refused or was none, and 2 where the program has ended. `--genesis` is needed where FILE
is new; `--genesis empty` is the smallest one. The program is looked for as `zorimarl.program` says.
"""

from __future__ import annotations

import argparse
import json
import os
import sys
from typing import Any, Callable, Dict, Iterable, List, Sequence

from .blocks import EMPTY, lock_of, read_block
from .errors import Closed, Ended, LedgerError, NoAnswer, NoGenesis, NoProgram, NoRequest, NotThisForm, Unexpected, ended
from .feeds import OPEN_GATE, PROFILES
from .ledger import Ledger
from .program import Path
from .talk import TIMEOUT

Request = Callable[[Ledger], Any]


def hexadecimal(text: str) -> bytes:
    try:
        return bytes.fromhex(text)
    except ValueError:
        raise NoRequest(f"`{text[:80]}` isn't hexadecimal") from None


def identity(text: str) -> bytes:
    data = hexadecimal(text)
    if len(data) != 32:
        raise NoRequest(f"`{text[:80]}` doesn't have 64 digits")
    return data


def lock_in(words: Sequence[str]) -> bytes:
    """A lock, or that of a word behind `of`."""
    if len(words) == 2 and words[0] == "of":
        return lock_of(os.fsencode(words[1]))
    if len(words) != 1:
        raise NoRequest(f"`{' '.join(words)[:80]}` is no lock")
    return identity(words[0])


def about(call: Callable[..., Any], *given: Any) -> Request:
    return lambda ledger: call(ledger, *given)


def mine(ledger: Ledger, parents: List[bytes]) -> Any:
    return ledger.offer(ledger.mine(parents))


def profile_in(words: Sequence[str]) -> Any:
    if not words:
        return None
    if len(words) != 1 or words[0] not in map(str, PROFILES):
        raise NoRequest(f"`{' '.join(words)[:80]}` is no profile")
    return int(words[0])


def snapshot(ledger: Ledger, target: str) -> Any:
    ledger.snapshot(target)
    return target


# What each request asks, of how many words behind its first one: at least, and at most.
REQUESTS: Dict[str, Any] = {
    "offer": (1, 1, lambda words: about(Ledger.offer, hexadecimal(words[0]))),
    "mine": (1, 64, lambda words: about(mine, [identity(each) for each in words])),
    "vote": (2, 2, lambda words: about(Ledger.vote, *map(identity, words))),
    "tx": (1, 1, lambda words: about(Ledger.tx, identity(words[0]))),
    "balance": (1, 2, lambda words: about(Ledger.balance, lock_in(words))),
    "pairs": (0, 0, lambda words: about(Ledger.pairs)),
    "report": (0, 0, lambda words: about(Ledger.report)),
    "blocks": (0, 0, lambda words: about(Ledger.blocks)),
    "block": (1, 1, lambda words: about(Ledger.block, identity(words[0]))),
    "children": (1, 1, lambda words: about(Ledger.children, identity(words[0]))),
    "tips": (0, 0, lambda words: about(Ledger.tips)),
    "coins": (1, 2, lambda words: about(Ledger.coins, lock_in(words))),
    "history": (1, 2, lambda words: about(Ledger.history, lock_in(words))),
    "left": (0, 0, lambda words: lambda ledger: ledger.left),
    "snapshot": (1, 1, lambda words: about(snapshot, words[0])),
    "export": (0, 1, lambda words: about(Ledger.export, profile_in(words))),
}


def request_of(words: List[str]) -> Request:
    """What a request asks of a ledger."""
    kind, rest = words[0], words[1:]
    least, most, made = REQUESTS.get(kind, (1, 0, None))
    if not least <= len(rest) <= most:
        raise NoRequest(f"`{' '.join(words)[:80]}` is no request")
    found: Request = made(rest)
    return found


def plain(value: Any) -> Any:
    """A value as JSON has it: ids in hexadecimal digits, balances by lock."""
    if isinstance(value, bytes):
        return value.hex()
    if isinstance(value, dict):
        return {plain(key): plain(each) for key, each in value.items()}
    if hasattr(value, "_asdict"):
        return {key: plain(each) for key, each in value._asdict().items()}
    return [plain(each) for each in value] if isinstance(value, (list, tuple)) else value


def show(value: Any) -> None:
    print(json.dumps(plain(value)), flush=True)


def show_error(error: LedgerError) -> int:
    show({"error": type(error).__name__, "what": str(error)})
    return 2 if isinstance(error, (Ended, Closed, Unexpected, NoAnswer, NoProgram)) else 1


def requests(words: List[str]) -> Iterable[List[str]]:
    if words:
        yield words
        return
    for line in sys.stdin:
        if line.split():
            yield line.split()


def serve(ledger: Ledger, words: List[str]) -> int:
    status = 0
    for request in requests(words):
        try:
            show(request_of(request)(ledger))
        except LedgerError as error:
            status = max(status, show_error(error))
            if not ledger.is_open:
                break
    return status


def look(file: Path, fresh: bool) -> None:
    """Tells before the program is started, which may have to be built first, what it would tell of a file that
    can't be opened, or that begins as no journal does."""
    try:
        with open(file, "rb") as opened:
            first = opened.read(1)
    except FileNotFoundError:
        if not os.path.isdir(os.path.dirname(file) or "."):
            raise ended(6, said="there is no such folder").at(os.fspath(file), "the start") from None
        return
    except OSError as why:
        raise ended(6, said=str(why)).at(os.fspath(file), "the start") from None
    if first and first[0] != OPEN_GATE and not fresh:
        raise ended(7, said="it begins as no journal does").at(os.fspath(file), "the start")


def main(words: List[str]) -> int:
    form = argparse.RawDescriptionHelpFormatter
    parser = argparse.ArgumentParser(prog="zorimarl-ledger", description="Asks a ledger, and sends it blocks.", epilog=__doc__, formatter_class=form)
    parser.add_argument("file", metavar="FILE", help="the journal")
    parser.add_argument("--genesis", metavar="HEX", help="the genesis block's bytes, or `empty`")
    parser.add_argument("--bits", type=int, choices=range(65), metavar="N", help="the bits of work, 0 to 64")
    parser.add_argument("--profile", type=int, choices=sorted(PROFILES), help="the rule on ties")
    parser.add_argument("--fresh", action="store_true", help="make a new journal over other bytes")
    parser.add_argument("--timeout", type=float, metavar="S", default=TIMEOUT, help="how many seconds an answer may take")
    parser.add_argument("request", nargs="*", metavar="REQUEST")
    given = parser.parse_intermixed_args(words)
    sys.stdin.reconfigure(errors="surrogateescape")  # type: ignore[attr-defined]
    try:
        first = EMPTY if given.genesis == "empty" else given.genesis and hexadecimal(given.genesis)
        if first:
            read_block(first)
        if given.request:
            request_of(given.request)
        look(given.file, given.fresh)
        with Ledger(given.file, first, given.bits, given.profile, given.fresh, given.timeout) as ledger:
            return serve(ledger, given.request)
    except NotThisForm as why:
        return show_error(NoGenesis(f"no genesis block: {why}"))
    except LedgerError as error:
        return show_error(error)


def run() -> int:
    """The console command."""
    try:
        return main(sys.argv[1:])
    except (BrokenPipeError, KeyboardInterrupt):  # nobody reads any more, or wants to
        sys.stdout = open(os.devnull, "w", encoding="utf-8")  # what is left unwritten goes nowhere
        return 2


if __name__ == "__main__":
    sys.exit(run())
