"""The answers to the frames of a feed, as values. Each is read off the lines that the program wrote."""

from __future__ import annotations

import re
from typing import Dict, List, Match, NamedTuple, Optional, Pattern, Sequence, Tuple, Union

from . import feeds
from .errors import REFUSALS, Full, Refused
from .feeds import LONGEST_BLOCK, frame, sha256
from .talk import Talk

ID = "[0-9a-f]{64}"
NUMBER = "(0|[1-9][0-9]{0,19})"
ARRIVAL = re.compile(f"(kept|known) ({ID})(?: (present) {NUMBER}| (waiting))?")
VOTE = re.compile(f"vote ({ID}) ({ID}) (before|after|tie|same|absent)")
STATE = re.compile(f"tx ({ID}) (accepted|rejected|absent)")
BALANCE = re.compile(f"balance ({ID}) {NUMBER}")


class Arrival(NamedTuple):
    """A block that is kept now or was before. `standing` is `present`, `waiting` or `known`; `became` is how
    many blocks became present with it. `line` is the program's line."""

    block: bytes
    standing: str
    became: int
    line: str


class Vote(NamedTuple):
    """What is said of two blocks: whether x comes `before` y, or `after` it, or there is a `tie`; `same`
    where they are one, `absent` where one isn't present."""

    x: bytes
    y: bytes
    word: str
    line: str


class State(NamedTuple):
    """A transaction is `accepted`, `rejected`, or `absent`."""

    tx: bytes
    state: str
    line: str


class Balance(NamedTuple):
    """What is left under a lock."""

    lock: bytes
    amount: int
    line: str


class Report(NamedTuple):
    """How many blocks are present and wait, the accepted transactions, and what is left, where anything is."""

    present: int
    waiting: int
    accepted: Tuple[bytes, ...]
    balances: Dict[bytes, int]


# Blocks

Answered = Union[Arrival, Refused]
OFFER = "the offer of block"


def cut(block: bytes) -> bytes:
    """What is sent of a block. A frame has no room for a longer one; so many bytes are refused for the same
    reason."""
    return block[: LONGEST_BLOCK + 1]


def offer(talk: Talk, block: bytes, timeout: Optional[float] = None) -> Arrival:
    """Sends a block. Where it isn't kept, that is its refusal's error."""
    block = cut(block)
    block_id = sha256(block)
    talk.ask(OFFER, block_id, timeout=timeout)
    talk.send(frame(feeds.BLOCK, block))
    found = read_arrival(talk, talk.line(), block_id)
    if isinstance(found, Refused):
        raise found
    return found


def read_arrival(talk: Talk, line: str, block_id: bytes) -> Answered:
    """The answer to a block, or its refusal."""
    if line == f"known {block_id.hex()}":  # what many offers are answered by
        return Arrival(block_id, "known", 0, line)
    if line == "full":
        return refusal(talk, Full(line, block_id))
    if line.startswith("refused "):
        why = line[len("refused ") :]
        if why in REFUSALS:
            return refusal(talk, REFUSALS[why](line, block_id))
    found = ARRIVAL.fullmatch(line)
    if not found or bytes.fromhex(found[2]) != block_id or (found[1] == "known") != (found.end(2) == len(line)):
        raise talk.unexpected(line, "a block")
    return Arrival(block_id, found[3] or found[5] or found[1], int(found[4] or 0), line)


def refusal(talk: Talk, made: Refused) -> Refused:
    made.file, made.request = talk.file, f"{OFFER} {made.block.hex()}"
    return made


# Questions


def vote(talk: Talk, x: bytes, y: bytes, timeout: Optional[float] = None) -> Vote:
    talk.ask("the vote on", x, y, timeout=timeout)
    talk.send(frame(feeds.VOTE, x + y))
    return read_vote(talk, talk.line(), x, y)


def read_vote(talk: Talk, line: str, x: bytes, y: bytes) -> Vote:
    found = VOTE.fullmatch(line)
    if not found or bytes.fromhex(found[1] + found[2]) != x + y:
        raise talk.unexpected(line, "a question on two blocks")
    return Vote(x, y, found[3], line)


def tx_states(talk: Talk, ids: List[bytes], timeout: Optional[float] = None) -> List[State]:
    """The states of transactions."""
    talk.ask("the states of", *ids[:2], timeout=timeout)
    talk.send(b"".join(frame(feeds.TX, each) for each in ids))
    return [read_state(talk, talk.line(), each) for each in ids]


def read_state(talk: Talk, line: str, tx: bytes) -> State:
    found = STATE.fullmatch(line)
    if not found or bytes.fromhex(found[1]) != tx:
        raise talk.unexpected(line, "a question on a transaction")
    return State(tx, found[2], line)


def balances(talk: Talk, locks: List[bytes], timeout: Optional[float] = None) -> List[Balance]:
    """What is left under locks."""
    talk.ask("the balances of", *locks[:2], timeout=timeout)
    talk.send(b"".join(frame(feeds.BALANCE, each) for each in locks))
    return [read_balance(talk, talk.line(), each) for each in locks]


def read_balance(talk: Talk, line: str, lock: bytes) -> Balance:
    found = BALANCE.fullmatch(line)
    if not found or bytes.fromhex(found[1]) != lock:
        raise talk.unexpected(line, "a question on a balance")
    return Balance(lock, int(found[2]), line)


# Pairs and reports


def counts(talk: Talk, *words: str) -> List[int]:
    """The numbers of a line that has these words, each with a number behind it."""
    line = talk.line()
    found = re.fullmatch(" ".join(f"{word} {NUMBER}" for word in words), line)
    if not found:
        raise talk.unexpected(line, f"a question that `{words[0]}` answers")
    return [int(number) for number in found.groups()]


def pair_lines(talk: Talk, timeout: Optional[float] = None) -> List[bytes]:
    """The lines of all pairs, as they were written."""
    talk.ask("all pairs", timeout=timeout)
    talk.send(frame(feeds.PAIRS))
    (count,) = counts(talk, "pairs")
    return talk.take(count)


def pairs(talk: Talk, timeout: Optional[float] = None) -> List[Vote]:
    found = []
    for line in (each.decode("ascii", "replace") for each in pair_lines(talk, timeout)):
        words = VOTE.fullmatch(line)
        if not words:
            raise talk.unexpected(line, "a question on all pairs")
        found.append(Vote(bytes.fromhex(words[1]), bytes.fromhex(words[2]), words[3], line))
    return found


def report(talk: Talk, timeout: Optional[float] = None) -> Report:
    talk.ask("the report", timeout=timeout)
    talk.send(frame(feeds.REPORT))
    present, waiting = counts(talk, "blocks", "waiting")
    accepted = listed(talk, "accepted", STATE, ("rejected", "absent"))
    left = listed(talk, "balances", BALANCE, ("0",))
    ids = tuple(bytes.fromhex(found[1]) for found in accepted)
    return Report(present, waiting, ids, {bytes.fromhex(found[1]): int(found[2]) for found in left})


def listed(talk: Talk, word: str, form: Pattern[str], never: Sequence[str]) -> List[Match[str]]:
    """The lines behind that one that says how many there are, none of which ends with these words."""
    (count,) = counts(talk, word)
    found = []
    for line in (each.decode("ascii", "replace") for each in talk.take(count)):
        read = form.fullmatch(line)
        if read is None or read[2] in never:
            raise talk.unexpected(line, "a report")
        found.append(read)
    return found
