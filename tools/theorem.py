#!/usr/bin/env python3
"""Writes what is proved of the program as one page: the contract of `run`, and each definition that it rests on.

    python3 tools/theorem.py [-o FILE]      writes docs/theorem.html, or FILE
    python3 tools/theorem.py --figures      says which definitions could be fewer

It reads the sources alone, and writes the same bytes for the same sources. A name that it can't place is an error: one line
on standard error that says where, and status 1."""

from __future__ import annotations

import argparse
import pathlib
import sys

from theorem_closure import Closure, word_of
from theorem_figures import figures
from theorem_frame import whole
from theorem_names import Project
from theorem_order import Order
from theorem_page import Contract, Page
from theorem_specs import paragraphs
from theorem_text import Unread, Use
from theorem_words import LIBRARY

ROOT = pathlib.Path(__file__).resolve().parent.parent
# The function whose contract is the theorem.
CRATE, MODULE, NAME = "spectre", "command", "run"


def contract_of(closure: Closure) -> Contract:
    head, comment, uses, groups = closure.contract(CRATE, [MODULE], NAME)
    told = [(paragraphs(lines, "//"), clauses) for lines, clauses in groups]
    return Contract(f"{CRATE}.{MODULE}.{NAME}", comment, head, uses, told)


def modules_of(uses: list[Use]) -> dict[str, set[str]]:
    """The words of the toolchain that are used, and from which modules."""
    found: dict[str, set[str]] = {}
    for use in uses:
        if use.key.startswith("toolchain:"):
            found.setdefault(word_of(use.key), set()).add(use.key.removeprefix("toolchain:").rsplit(".", 1)[0])
    told = {word for words in LIBRARY.values() for word in words}
    if told != set(found):
        raise Unread(f"theorem_words.py: not told: {' '.join(sorted(set(found) - told))}; not used: {' '.join(sorted(told - set(found)))}")
    return found


def everything(root: pathlib.Path) -> tuple[Project, Closure, Contract, set[str]]:
    """The sources, read; the contract; and the definitions that it rests on."""
    project = Project(root)
    closure = Closure(project)
    contract = contract_of(closure)
    reached = closure.reach([use.key for use in all_uses(contract)])
    return project, closure, contract, reached


def all_uses(contract: Contract) -> list[Use]:
    return [*contract.uses, *(use for clause in contract.clauses for use in clause.uses)]


def page_of(root: pathlib.Path) -> str:
    project, closure, contract, reached = everything(root)
    chapters = Order(project, closure, reached).chapters()
    uses = {key: closure.of(key) for key in reached}
    used = modules_of([*all_uses(contract), *(use for each in uses.values() for use in each)])
    return whole(Page(contract, chapters, uses), used)


def main(words: list[str]) -> int:
    parser = argparse.ArgumentParser(prog="theorem.py", description="Writes what is proved of the program as one page.")
    parser.add_argument("-o", metavar="FILE", type=pathlib.Path, default=ROOT / "docs/theorem.html", help="where to write it")
    parser.add_argument("--figures", action="store_true", help="say which definitions could be fewer, and write no page")
    given = parser.parse_args(words)
    try:
        if given.figures:
            print("\n".join(figures(*everything(ROOT))))
        else:
            given.o.write_text(page_of(ROOT), "utf-8")
    except (Unread, OSError) as error:
        print(f"theorem.py: {error}", file=sys.stderr)
        return 1
    return 0


if __name__ == "__main__":
    sys.exit(main(sys.argv[1:]))
