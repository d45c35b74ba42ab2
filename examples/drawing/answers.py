"""The program's answers, laid beside the lines of the scenario that they answer."""

from __future__ import annotations

import re
from typing import List, NamedTuple, Optional, Sequence, Tuple

from zorimarl.errors import Misfit
from zorimarl.explore.scenario import Line

# How many words each line has at least, if it has no fault.
LEAST = {
    "profile": 2,
    "bits": 2,
    "grant": 5,
    "tx": 8,
    "make": 4,
    "block": 4,
    "send": 2,
    "vote": 3,
    "state": 2,
    "balance": 2,
    "pairs": 1,
    "report": 1,
}

LONGEST = 192  # bytes of an answer
COUNT = "[0-9]+"
WORD = "(before|after|tie|same|absent)"
ARRIVAL = "kept {0} (present [0-9]+|waiting)|known {0}|refused [a-z-]+|full"

# The one answer to a line, {0} and {1} being the names that the line has.
ANSWERS = {
    "block": ARRIVAL,
    "send": ARRIVAL,
    "vote": "vote {0} {1} " + WORD,
    "state": "tx {0} (accepted|rejected|absent)",
    "balance": "balance {0} [0-9]+",
}


class Step(NamedTuple):
    """A line that was played, and the lines that answer it, each as its words."""

    line: Line
    answers: List[List[str]]


class Played(NamedTuple):
    steps: List[Step]
    fault: Optional[Tuple[Line, str]]  # the line at which the answers end with a fault, and the fault's reason, or None


class Answers:
    """The lines that the program wrote, taken one after another."""

    def __init__(self, text: str) -> None:
        self.left = text.splitlines()
        self.left.reverse()

    def take(self, line: Line, pattern: str) -> List[str]:
        """The words of the next answer, which has to be of this form."""
        if not self.left:
            raise Misfit(f"{line}: the answers end before it")
        if len(self.left[-1]) > LONGEST or not re.fullmatch(pattern, self.left[-1]):
            raise Misfit(f"{line}: the answers have `{self.left[-1]}` there")
        return self.left.pop().split(" ")

    def take_counted(self, line: Line, word: str, pattern: str) -> List[List[str]]:
        """A line with a word and a count, and so many lines behind it."""
        head = self.take(line, f"{word} {COUNT}")
        return [head] + [self.take(line, pattern) for _ in range(int(head[1]))]

    def take_fault(self, line: Line) -> Optional[str]:
        """The reason of the line's fault, or None where that isn't the next answer."""
        found = re.fullmatch(f"fault line {line.number} ([a-z]+)", self.left[-1]) if self.left else None
        if found is None:
            return None
        self.left.pop()
        return found[1]


def answers_to(line: Line, answers: Answers) -> List[List[str]]:
    """The lines that answer a line of the scenario: none, one, or those of a text."""
    command = line.words[0]
    if command == "pairs":
        return answers.take_counted(line, "pairs", rf"vote \S+ \S+ {WORD}")
    if command == "report":
        return (
            [answers.take(line, f"blocks {COUNT} waiting {COUNT}")]
            + answers.take_counted(line, "accepted", r"tx \S+ accepted")
            + answers.take_counted(line, "balances", r"balance \S+ [0-9]+")
        )
    if command in ANSWERS:
        return [answers.take(line, ANSWERS[command].format(*(re.escape(word) for word in line.words[1:])))]
    return []


def play(lines: Sequence[Line], text: str) -> Played:
    """Each line with its answers, up to the line whose fault ends them."""
    answers, steps = Answers(text), list[Step]()
    fault: Optional[Tuple[Line, str]] = None
    for line in lines:
        if reason := answers.take_fault(line):
            fault = line, reason
            break
        if len(line.words) < LEAST.get(line.words[0], 1 + len(line.words)):
            raise Misfit(f"{line}: it has a fault, and none is answered")
        steps.append(Step(line, answers_to(line, answers)))
    if answers.left:
        raise Misfit(f"behind the last line: the answers have `{answers.left[-1]}` there")
    return Played(steps, fault)
