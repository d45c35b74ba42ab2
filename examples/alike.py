#!/usr/bin/env python3
"""Runs `play` on scenarios, and `build` and then `replay`, and compares what they write.

    python3 examples/alike.py [SCENARIO ..]

Without a SCENARIO it takes each `.txt` beside it. The two have to be the same line for line but for
the labels: where `play` writes a name, `replay` writes 64 digits, always the same ones for the same
name. The lines of `pairs` and `report` stand in another order there, and the two of a pair may be
exchanged, so each list is compared without regard to its order, and a label that no other line
has stands for any. A scenario with a fault has no feed:
`build` has to write the last line of `play` alone.

The environment variable SPECTRE names another program than `bin/spectre`. The last line is
`N passed, M failed`. The status is 1 where something differs, and 2 where a SCENARIO can't be read.
"""

from __future__ import annotations

import os
import pathlib
import re
import subprocess
import sys
from typing import Collection, Dict, Iterable, Iterator, List, Mapping, Tuple, Union

HERE = pathlib.Path(__file__).resolve().parent
PROGRAM = os.environ.get("SPECTRE", str(HERE.parent / "bin" / "spectre"))
DIGITS = re.compile("[0-9a-f]{64}")
OTHER_WAY = {"before": "after", "after": "before"}


def run(command: str, given: bytes) -> Tuple[bytes, int]:
    """What a command writes for these bytes, and its status."""
    done = subprocess.run([PROGRAM, command], input=given, stdout=subprocess.PIPE)
    return done.stdout, done.returncode


def lists(lines: Iterable[str]) -> Iterator[Union[str, List[str]]]:
    """The lines, those behind `pairs N`, `accepted N` and `balances N` put together as one list."""
    rest = list(lines)
    while rest:
        line = rest.pop(0)
        count = re.fullmatch("(pairs|accepted|balances) ([0-9]+)", line)
        yield line
        if count:
            size = int(count[2])
            yield rest[:size]
            rest = rest[size:]


def named(line: str, names: Mapping[str, str]) -> str:
    """A line with the name in place of each 64 digits, as far as it is known."""
    return " ".join(names.get(word, word) for word in line.split(" "))


def learn(line: str, other: str, names: Dict[str, str]) -> None:
    """Takes the names of a line's digits from the same line with names."""
    for word, digits in zip(line.split(" "), other.split(" ")):
        if DIGITS.fullmatch(digits) and not DIGITS.fullmatch(word):
            names.setdefault(digits, word)


def turned(line: str) -> str:
    """The line of a pair with its two blocks exchanged."""
    words = line.split(" ")
    if words[0] != "vote":
        return line
    return " ".join(["vote", words[2], words[1], OTHER_WAY.get(words[3], words[3])])


def known(line: str, names: Collection[str]) -> str:
    """A list's line with `?` for each label that stands in no single line, where names are learnt."""
    words = line.split(" ")
    labels = (1, 2) if words[0] == "vote" else (1,)
    for place in labels:
        words[place] = words[place] if words[place] in names else "?"
    return " ".join(words)


def same_lists(ours: List[str], theirs: List[str], names: Mapping[str, str]) -> bool:
    """Whether two lists have the same lines, in whatever order."""
    labels = set(names.values())
    left = [known(line, labels) for line in ours]
    right = [known(named(line, names), labels) for line in theirs]
    sides = [sorted(min(line, turned(line)) for line in side) for side in (left, right)]
    return sides[0] == sides[1]


def alike(played: List[str], replayed: List[str]) -> Tuple[bool, str]:
    """Whether two texts say the same, and the first place where they don't."""
    ours, theirs = list(lists(played)), list(lists(replayed))
    names: Dict[str, str] = {}
    if len(ours) != len(theirs):
        return False, "they have different numbers of lines"
    for line, other in zip(ours, theirs):
        if isinstance(line, str) and isinstance(other, str):
            learn(line, other, names)
    if len(set(names.values())) != len(names):
        return False, "two ids have one name"
    for line, other in zip(ours, theirs):
        if isinstance(line, list) and isinstance(other, list):
            if not same_lists(line, other, names):
                return False, "the lists differ: %s and %s" % (line, other)
        elif isinstance(line, list) or isinstance(other, list) or named(other, names) != line:
            return False, "%s and %s" % (line, other)
    return True, ""


def check(text: bytes) -> str:
    """Compares one scenario, and answers what is wrong, or nothing."""
    played, ended = run("play", text)
    built, status = run("build", text)
    if status != ended:
        return "`play` ends with %d and `build` with %d" % (ended, status)
    if ended:
        last = played.splitlines(True)[-1:]
        return "" if [built] == last else "`build` writes more than the fault's line"
    replayed, status = run("replay", built)
    if status:
        return "`replay` ends with %d" % status
    return alike(played.decode().splitlines(), replayed.decode().splitlines())[1]


def main(words: List[str]) -> int:
    paths = [pathlib.Path(word) for word in words] or sorted(HERE.glob("*.txt"))
    try:
        texts = [path.read_bytes() for path in paths]
    except OSError as why:
        print("alike.py: %s" % why, file=sys.stderr)
        return 2
    wrong = 0
    for path, text in zip(paths, texts):
        what = check(text)
        wrong += bool(what)
        print("%s: %s" % (path.name, what or "alike"))
    print("%d passed, %d failed" % (len(paths) - wrong, wrong))
    return 1 if wrong else 0


if __name__ == "__main__":
    sys.exit(main(sys.argv[1:]))
