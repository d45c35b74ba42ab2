#!/usr/bin/env python3
"""Draws the nodes of a script side by side, as SVG: what each of them keeps where the script asks for reports.

    python3 examples/draw_nodes.py examples/partition.txt > partition.svg

Reports that follow one another stand in one row. A block that didn't arrive at a node is drawn with dots
there. All that is shown of what is kept and accepted stands in the program's answers; where they don't fit
the script the status is 2.

The script is played with `bin/spectre`, or with the program that the environment names as SPECTRE.
"""

from __future__ import annotations

import os
import pathlib
import re
import subprocess
import sys
from typing import Dict, List, Sequence, Tuple

sys.dont_write_bytecode = True

import package  # noqa: F401
from drawing.answers import ARRIVAL, COUNT, Answers, answers_to
from drawing.graph import Block, Graph
from drawing.svg import drawing, element
from zorimarl.errors import Misfit
from zorimarl.explore.scenario import GENESIS, MAKES, Line, check_text, lines_of, parents_and_carried

PROGRAM = pathlib.Path(__file__).resolve().parent.parent / "bin" / "spectre"
GAP = 18
HEAD = 26  # the height of a node's name


def blocks_in(lines: Sequence[Line]) -> Dict[str, Block]:
    """The blocks that a scenario makes, none of which has arrived, and genesis with the grants."""
    blocks = {GENESIS: Block(GENESIS, [], [line.words[1] for line in lines if line.words[0] == "grant"], "present")}
    for line in lines:
        if line.words[0] in MAKES:
            parents, carried = parents_and_carried(line.words)
            blocks[line.words[1]] = Block(line.words[1], parents, carried, "not here")
    return blocks


class Nodes:
    """What each node keeps, as the answers say it, and the pictures of its reports."""

    def __init__(self, scenario: Sequence[Line], count: int) -> None:
        self.graphs = [Graph(None, blocks_in(scenario)) for _ in range(count)]
        self.brought: Dict[str, int] = {}  # how many blocks a packet of blocks brings, by its number
        self.rows: List[List[Tuple[str, str]]] = []  # of pictures
        self.reporting = False

    def arrive(self, line: Line, answers: Answers) -> None:
        """The answer to a block at a node."""
        words = answers.take(line, rf"at {COUNT} ({ARRIVAL.format('[A-Za-z0-9_-]+')})")
        graph, answer = self.graphs[int(words[1])], words[2:]
        block = graph.blocks.get(answer[1]) if len(answer) > 1 else None
        if answer[0] == "kept" and block and answer[2] == "present":
            graph.arrive(line, block, int(answer[3]))
        elif answer[0] == "kept" and block:
            block.standing = "waits"

    def hear(self, line: Line, answers: Answers) -> None:
        """A packet that is sent, or that none is."""
        words = answers.take(line, f"sent {COUNT} (have|want|blocks) {COUNT}|idle")
        if words[0] == "sent" and words[2] == "blocks":
            self.brought[words[1]] = int(words[3])

    def report(self, line: Line, answers: Answers) -> None:
        node = answers.take(line, f"at {line.words[1]}")[1]
        graph = self.graphs[int(node)]
        graph.hear_report(answers_to(Line(line.number, ["report"]), answers))
        if not self.reporting:
            self.rows.append([])
        self.rows[-1].append((f"node {node}", drawing(graph)))

    def play(self, line: Line, answers: Answers) -> None:
        command = line.words[0]
        if command == "report":
            self.report(line, answers)
        elif command == "give":
            self.arrive(line, answers)
        elif command == "deliver" and line.words[1] in self.brought:
            for _ in range(self.brought[line.words[1]]):
                self.arrive(line, answers)
        else:
            self.hear(line, answers)
        self.reporting = command == "report"


def nodes_in(lines: Sequence[Line]) -> int:
    """The place of the line `nodes` among the lines of a script."""
    first = next((at for at, line in enumerate(lines) if line.words[0] == "nodes"), None)
    if first is None or len(lines[first].words) != 2 or not lines[first].words[1].isdecimal():
        raise Misfit("the script has no line `nodes`")
    return first


def rows_of(script: str, text: str) -> List[List[Tuple[str, str]]]:
    """The pictures of a script's reports, by the answers to it."""
    lines = lines_of(script)
    first = nodes_in(lines)
    nodes, answers = Nodes(lines[:first], int(lines[first].words[1])), Answers(text)
    for line in lines[first + 1 :]:
        if answers.take_fault(line):
            break
        nodes.play(line, answers)
    if answers.left:
        raise Misfit(f"behind the last line: the answers have `{answers.left[-1]}` there")
    return nodes.rows


def size_of(picture: str) -> Tuple[float, float]:
    found = re.match(r'<svg [^>]*width="([0-9.]+)" height="([0-9.]+)"', picture)
    assert found
    return float(found[1]), float(found[2])


def placed(name: str, picture: str, x: float, y: float) -> List[str]:
    """A picture at a place, under a node's name."""
    inner = picture.replace("<svg ", f'<svg x="{x:g}" y="{y + HEAD:g}" ', 1).rstrip("\n")
    return [element("text", name, class_="name", x=x + 8, y=y + 17), inner]


def side_by_side(rows: Sequence[Sequence[Tuple[str, str]]]) -> str:
    """All pictures, row under row."""
    parts: List[str] = []
    width = y = 0.0
    for row in rows:
        x = height = 0.0
        for name, picture in row:
            own_width, own_height = size_of(picture)
            parts += placed(name, picture, x, y)
            x, height = x + own_width + GAP, max(height, own_height)
        width, y = max(width, x - GAP), y + HEAD + height + GAP
    size = f'width="{width:g}" height="{y:g}" viewBox="0 0 {width:g} {y:g}"'
    head = f'<svg xmlns="http://www.w3.org/2000/svg" {size} role="img">'
    ground = element("rect", class_="ground", width="100%", height="100%")
    return "\n".join([head, element("title", "What each node keeps"), ground] + parts + ["</svg>"]) + "\n"


def main(words: List[str]) -> int:
    if len(words) != 1:
        print("usage: draw_nodes.py SCRIPT", file=sys.stderr)
        return 1
    try:
        script = pathlib.Path(words[0]).read_bytes()
        check_text(script.decode("latin-1"))
        nodes_in(lines_of(script.decode("latin-1")))
        run = subprocess.run([os.environ.get("SPECTRE", PROGRAM), "gossip"], input=script, stdout=subprocess.PIPE)
        if run.returncode not in (0, 2):
            raise Misfit(f"the program ended with status {run.returncode}")
        rows = rows_of(script.decode("latin-1"), run.stdout.decode("latin-1"))
        sys.stdout.buffer.write(side_by_side(rows).encode("latin-1"))
    except (Misfit, OSError) as why:
        print(f"draw_nodes.py: {why}", file=sys.stderr)
        return 2
    return 0


if __name__ == "__main__":
    sys.exit(main(sys.argv[1:]))
