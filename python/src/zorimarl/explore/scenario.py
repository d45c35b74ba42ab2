"""A scenario, read as far as a picture needs it, and the same with what a picture asks for.

The program judges a scenario. Here each line is only cut into words, so that the program's answers can
be laid beside the lines.
"""

import re
from typing import Iterable, List, NamedTuple, Optional, Sequence, Set, Tuple

from ..errors import Misfit

GENESIS = "G"
MAKES = ("make", "block")
SENDS = ("block", "send")
# The bytes with which a scenario's first line may begin.
TEXT = (9, 10, 13, *range(32, 127))


class Line(NamedTuple):
    number: int  # counted from 1, skipped lines too
    words: List[str]

    def __str__(self) -> str:
        return f"line {self.number} of the scenario (`{' '.join(self.words)}`)"


def pieces_of(text: str) -> List[str]:
    """The lines of a text as they stand, each with its line end if it has one."""
    return re.findall(r"[^\n]*\n|[^\n]+", text)


def words_of(piece: str) -> List[str]:
    """The words of a line, none where it is skipped."""
    words = re.split(r"[ \t]+", re.sub(r"\r?\n?\Z", "", piece, count=1))
    words = [word for word in words if word]
    return [] if words and words[0].startswith("#") else words


def lines_of(text: str) -> List[Line]:
    """The lines that aren't skipped."""
    numbered = enumerate(map(words_of, pieces_of(text)), start=1)
    return [Line(number, words) for number, words in numbered if words]


def check_text(text: str) -> None:
    """Refuses what begins as no scenario does, and is no text then."""
    if text and ord(text[0]) not in TEXT:
        raise Misfit(f"the first byte is 0x{ord(text[0]):02x}, with which no scenario begins")


def parents_and_carried(words: List[str]) -> Tuple[List[str], List[str]]:
    """What a line `make` or `block` names: its parents, and behind them the transactions it carries.

    The first word behind `on` is a parent whatever it is.
    """
    named = words[3:]
    if "carries" not in named[1:]:
        return named, []
    end = named.index("carries", 1)
    return named[:end], named[end + 1 :]


def name_made(words: List[str]) -> Optional[str]:
    """The block that a line makes, or nothing."""
    return words[1] if words[0] in MAKES and len(words) > 1 else None


def carried_in(lines: Sequence[Line]) -> List[str]:
    """The transactions that blocks carry, genesis too, each once, in the order of their own lines."""
    carried = {line.words[1] for line in lines if line.words[0] == "grant" and len(line.words) > 1}
    for line in lines:
        if line.words[0] in MAKES:
            carried.update(parents_and_carried(line.words)[1])
    made = [line.words[1] for line in lines if line.words[0] in ("grant", "tx") and len(line.words) > 1]
    return [name for name in dict.fromkeys(made) if name in carried]


def check_pair(pair: Sequence[str], lines: Sequence[Line]) -> None:
    """Refuses a pair that no question can be put about."""
    made = {name_made(line.words) for line in lines} | {GENESIS}
    for name in pair:
        if name not in made:
            raise Misfit(f"no line of the scenario makes the block `{name}`")
    if pair[0] == pair[1]:
        raise Misfit("a pair has two different blocks")


def with_votes(text: str, pair: Sequence[str]) -> str:
    """The scenario with a question on the pair behind each line that sends a block, from the line on
    that makes the later of the two."""
    known: Set[Optional[str]] = {GENESIS}
    asked: List[str] = []
    for piece in pieces_of(text):
        words = words_of(piece)
        asked.append(piece)
        if not words:
            continue
        known.add(name_made(words))
        if words[0] in SENDS and known.issuperset(pair):
            asked.append(f"vote {pair[0]} {pair[1]}\n")
    return joined(asked)


def joined(pieces: Iterable[str]) -> str:
    """The pieces as one text, each with a line end."""
    return "".join(piece if piece.endswith("\n") else piece + "\n" for piece in pieces)


def with_questions(text: str, pair: Optional[Sequence[str]]) -> str:
    """The scenario with all that a picture asks for: the pair behind each block, and at the end the
    state of each transaction that a block carries."""
    lines = lines_of(text)
    if pair:
        check_pair(pair, lines)
    asked = with_votes(text, pair) if pair else joined(pieces_of(text))
    return asked + "".join(f"state {name}\n" for name in carried_in(lines))
