"""Writes a scenario, a feed or a journal as one HTML file that shows its blocks and what the program says.

    zorimarl-explore examples/double_spend.txt > page.html
    zorimarl-explore --open examples/double_spend.txt
    bin/spectre make 511 1 4 | zorimarl-explore - -o page.html

The page needs no network and no other file. It shows the graph, the words of each two blocks, the states of
transactions and the balances behind each arrival; python/README.md has its keys, and the form of the data that
stand in it. Each word, state and balance was written by the program, which is asked for them behind each
arrival (watch.py). Of an input with a fault the page shows the program's line, and what stands before it. Where the answers
behind all arrivals would have more than five million lines, or as many as `--lines` says, it is asked behind
every second arrival, every third, and so on.

With `--serve JOURNAL` a journal that a node is writing is shown live in the browser, on this machine alone; by
copies, so that its lock is never asked for.

With `--data` the data alone are written, as JSON. What the input is, is seen by its first bytes, or said by
`--kind`. A journal is read under the lock of bin/spectre. The status is 2 where nothing can be shown; what the
words and the file's first bytes tell is said before the program is started.
bin/spectre is asked, or the program that the environment names as SPECTRE. This tool is outside of what is
proved: see docs/USE.md.
"""

import argparse
import os
import pathlib
import sys
import tempfile
import webbrowser
from typing import List

from ..errors import LedgerError, Misfit
from .asked import MOST_LINES
from .data import data_of
from .page import json_of, page_of
from .serve import serve
from .subject import KINDS, subject_of


def write(text: str, target: str) -> None:
    data = text.encode("utf-8")
    if target == "-":
        sys.stdout.buffer.write(data)
    else:
        pathlib.Path(target).write_bytes(data)


def show(text: str, target: str) -> None:
    """Opens a page in the browser; without a file's name in a file of its own, which stays."""
    if target == "-":
        with tempfile.NamedTemporaryFile("w", suffix=".html", prefix="spectre-", delete=False) as file:
            target = file.name
    write(text, target)
    print(target, file=sys.stderr)
    webbrowser.open(pathlib.Path(target).resolve().as_uri())


def main(words: List[str]) -> int:
    parser = argparse.ArgumentParser(prog="zorimarl-explore", description="Writes a page that shows a ledger.")
    parser.add_argument("input", metavar="FILE", nargs="?", help="a scenario, a feed or a journal; `-` is standard input")
    parser.add_argument("-o", "--output", default="-", metavar="PAGE", help="the page's file, else standard output")
    parser.add_argument("--kind", choices=KINDS, help="what the input is")
    parser.add_argument("--lines", type=int, default=MOST_LINES, metavar="N", help="how many lines of answers are asked for at most")
    parser.add_argument("--data", action="store_true", help="write the data alone, as JSON")
    parser.add_argument("--open", action="store_true", help="open the page in the browser")
    parser.add_argument("--serve", metavar="JOURNAL", help="show this journal live, on 127.0.0.1 alone")
    parser.add_argument("--port", type=int, default=0, metavar="N", help="the port of --serve, else any that is free")
    given = parser.parse_args(words)
    if (given.input is None) == (given.serve is None):
        parser.error("name either FILE or `--serve JOURNAL`")
    if not 0 <= given.port < 65536:
        parser.error("a port is below 65536")
    if given.lines < 1:
        parser.error("N is at least 1")
    try:
        if given.serve is not None:
            return serve(given.serve, given.port, given.lines)
        if given.output != "-" and not os.access(pathlib.Path(given.output).absolute().parent, os.W_OK):
            raise Misfit(f"nothing can be written to {given.output}")
        data = data_of(subject_of(given.input, given.kind), given.lines)
        if given.data:
            write(json_of(data) + "\n", given.output)
        else:
            (show if given.open else write)(page_of(data), given.output)
    except (LedgerError, OSError) as why:
        print(f"zorimarl-explore: {why}", file=sys.stderr)
        return 2
    return 0


def run() -> int:
    """The console command."""
    return main(sys.argv[1:])
