#!/usr/bin/env python3
"""Runs the command lines that stand in documents and compares what they write with what stands there.

    python3 examples/compare.py [DOCUMENT ..]

Without a document it is README.md, docs/USE.md and examples/README.md. In a document a block of code
(indented by four blanks, or between two lines of three backquotes) counts whose first line begins with
`$ `. Each such line is run by the shell from the top of the repository; the lines behind it, up to the
next of its kind, are what it writes to standard output. A line `..` stands for any lines, or for none.
What a command line names below `/tmp/` stands in a folder of this call's own.

Where the environment names a program as SPECTRE, `bin/spectre` is this launcher in a folder in which that
program is the one that it has built. The last line is `N passed, M failed`. The status is 1 where an output
differs, and 2 where there is nothing to run.
"""

from __future__ import annotations

import difflib
import os
import pathlib
import re
import shlex
import subprocess
import sys
import tempfile
from collections.abc import Iterator
from typing import NamedTuple

sys.dont_write_bytecode = True
ROOT = pathlib.Path(__file__).resolve().parent.parent
sys.path.append(str(ROOT / "tests"))

from harness import make_tree

PROGRAM = "bin/spectre"
PLACE = "/tmp/"
DOCUMENTS = ["README.md", "docs/USE.md", "examples/README.md"]
ANY = ".."

Block = list[tuple[int, str]]


class Example(NamedTuple):
    document: str
    number: int  # of the command's line
    command: str
    expected: list[str]


def blocks_of(text: str) -> Iterator[Block]:
    """The blocks of code: lists of numbered lines, without what sets them off."""
    block: Block = []
    fenced = False
    for number, line in enumerate(text.splitlines(), start=1):
        if line.startswith("```"):
            fenced = not fenced
        elif fenced or line.startswith("    "):
            block.append((number, line if fenced else line[4:]))
            continue
        if block:
            yield block
        block = []
    if block:
        yield block


def examples_in(document: str, text: str) -> Iterator[Example]:
    """The command lines of a document, each with what stands behind it."""
    for block in blocks_of(text):
        if not block[0][1].startswith("$ "):
            continue
        for number, line in block:
            if line.startswith("$ "):
                example = Example(document, number, line[2:], [])
                yield example
            else:
                example.expected.append(line)


def fits(expected: list[str], written: list[str]) -> bool:
    """Whether lines are the expected ones, `..` standing for any."""
    pattern = "".join("(?:.*\n)*" if line == ANY else re.escape(line) + "\n" for line in expected)
    return re.fullmatch(pattern, "".join(line + "\n" for line in written)) is not None


def run(command: str, names: dict[str, str]) -> list[str]:
    """The lines that a command writes, with other names in place of these."""
    for name, other in names.items():
        command = command.replace(name, shlex.quote(other))
    done = subprocess.run(["sh", "-c", command], cwd=ROOT, stdout=subprocess.PIPE, stdin=subprocess.DEVNULL, check=False)
    return done.stdout.decode("utf-8", "replace").splitlines()


def report(example: Example, names: dict[str, str]) -> bool:
    """Runs an example, says how it went, and answers whether it fits."""
    written = run(example.command, names)
    good = fits(example.expected, written)
    verdict = "ok     " if good else "DIFFERS"
    print(f"{verdict} {example.document}:{example.number}: {example.command}", flush=True)
    if not good:
        for line in difflib.unified_diff(example.expected, written, "document", "written", lineterm=""):
            print("    " + line)
    return good


def main(documents: list[str]) -> int:
    try:
        texts = [(document, (ROOT / document).read_text()) for document in documents or DOCUMENTS]
    except (OSError, UnicodeDecodeError) as why:
        print(f"compare.py: {why}", file=sys.stderr)
        return 2
    examples = [example for document, text in texts for example in examples_in(document, text)]
    with tempfile.TemporaryDirectory() as folder:
        names = {PROGRAM: str(make_tree(pathlib.Path(folder) / "tree"))} if os.environ.get("SPECTRE") else {}
        place = pathlib.Path(folder) / "files"
        place.mkdir()
        results = [report(example, {PLACE: f"{place}/", **names}) for example in examples]
    print(f"{results.count(True)} passed, {results.count(False)} failed")
    return 2 if not results else 0 if all(results) else 1


if __name__ == "__main__":
    sys.exit(main(sys.argv[1:]))
