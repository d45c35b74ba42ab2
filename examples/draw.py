#!/usr/bin/env python3
"""Draws the blocks of a scenario and what the program answers about them, as SVG.

    python3 examples/draw.py run examples/first.txt --pair A B > first.svg

`run` is the three steps in one, which can be taken by themselves:

    python3 examples/draw.py questions examples/first.txt --pair A B > asked.txt
    bin/spectre play < asked.txt > answers.txt
    python3 examples/draw.py picture asked.txt answers.txt --pair A B > first.svg

`questions` writes the scenario with the question on the pair behind each block, and at the end one on
each transaction that a block carries. `picture` draws any scenario with the program's answers to it. All
that it shows of votes, of transactions and of what is kept stands in these answers. Without `--pair` no
pair is shown. Where the answers don't fit the scenario the status is 2.

`run` plays with `bin/spectre`, or with the program that the environment names as SPECTRE.
"""

from __future__ import annotations

import argparse
import os
import pathlib
import subprocess
import sys
from typing import List, Optional, Sequence, Union

sys.dont_write_bytecode = True

import package  # noqa: F401
from drawing.answers import play
from drawing.graph import graph_of
from drawing.svg import drawing
from zorimarl.errors import Misfit
from zorimarl.explore.scenario import check_text, lines_of, with_questions

PROGRAM = pathlib.Path(__file__).resolve().parent.parent / "bin" / "spectre"


def read_text(path: str) -> str:
    """A file's text, or that of standard input where the path is `-`; each byte is one letter."""
    data = sys.stdin.buffer.read() if path == "-" else pathlib.Path(path).read_bytes()
    return data.decode("latin-1")


def write_text(text: str) -> None:
    sys.stdout.buffer.write(text.encode("latin-1"))


def answers_of(program: Union[str, pathlib.Path], scenario: str) -> str:
    """What the program writes for a scenario. Its status may say that the scenario has a fault."""
    run = subprocess.run([program, "play"], input=scenario.encode("latin-1"), stdout=subprocess.PIPE)
    if run.returncode not in (0, 2):
        raise Misfit(f"{program} play ended with status {run.returncode}")
    return run.stdout.decode("latin-1")


def draw(scenario: str, answers: str, pair: Optional[Sequence[str]]) -> None:
    write_text(drawing(graph_of(play(lines_of(scenario), answers), pair)))


def commands() -> argparse.ArgumentParser:
    parser = argparse.ArgumentParser(
        prog="draw.py", description="Draws the blocks of a scenario and what the program answers about them."
    )
    each = parser.add_subparsers(dest="command", required=True)
    for name, text in [
        ("questions", "write the scenario with the questions that a picture asks"),
        ("picture", "draw a scenario and the answers to it"),
        ("run", "ask, play and draw a scenario"),
    ]:
        command = each.add_parser(name, help=text, description=text)
        command.add_argument("scenario", help="the scenario's file")
        if name == "picture":
            command.add_argument("answers", nargs="?", default="-", help="the answers' file, else standard input")
        command.add_argument("--pair", nargs=2, metavar=("A", "B"), help="the blocks whose order is shown")
    return parser


def main(words: List[str]) -> int:
    job = commands().parse_args(words)
    try:
        scenario = read_text(job.scenario)
        check_text(scenario)
        if job.command == "questions":
            write_text(with_questions(scenario, job.pair))
        elif job.command == "picture":
            draw(scenario, read_text(job.answers), job.pair)
        else:
            asked = with_questions(scenario, job.pair)
            draw(asked, answers_of(os.environ.get("SPECTRE", PROGRAM), asked), job.pair)
    except (Misfit, OSError) as why:
        print(f"draw.py: {why}", file=sys.stderr)
        return 2
    return 0


if __name__ == "__main__":
    sys.exit(main(sys.argv[1:]))
