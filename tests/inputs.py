#!/usr/bin/env python3
"""Sees that the tools and examples look at their words and files before they start the program.

    python3 tests/inputs.py

The program may have to be proved and built first, which takes long. So bad words, a file that isn't there or can't
be read, and a file that begins with an odd byte are told at once: in one line on standard error, or in the
client's line of JSON, with the tool's status. In the place of the program stands a script that notes that it was
started. With what is right each tool does start it."""

from __future__ import annotations

import json
import os
import pathlib
import sys
import tempfile

from harness import ROOT, call, run_all, see

NOTING = """#!/bin/sh
echo started >>"$NOTES"
exit 9
"""
SCENARIO = b"block A on G\nblock B on G\nvote A B\n"
SCRIPT = SCENARIO + b"nodes 2\ngive 0 A\n"
# The bytes with which a feed, a journal and a certificate don't begin, nor a scenario.
ODD = b"\xff\xfe odd"


class Tool:
    """A script that is called with this program in place of spectre."""

    def __init__(self, folder: pathlib.Path, script: str) -> None:
        self.script, self.notes, self.folder = script, folder / "notes", folder
        self.command = script.split(" ") if script.startswith("-m ") else [str(ROOT / script)]
        program = folder / "program"
        program.write_text(NOTING)
        program.chmod(0o755)
        self.env = {**os.environ, "SPECTRE": str(program), "NOTES": str(self.notes), "PYTHONDONTWRITEBYTECODE": "1", "PYTHONPATH": str(ROOT / "python/src")}
        for name, content in (("scenario", SCENARIO), ("script", SCRIPT), ("odd", ODD), ("empty", b"")):
            (folder / name).write_bytes(content)

    def run(self, words: list[str], given: bytes = b"") -> tuple[int, bytes, bytes, bool]:
        """The status, what was written to both outputs, and whether the program was started."""
        self.notes.unlink(missing_ok=True)
        done = call([sys.executable, *self.command, *words], given, cwd=self.folder, env=self.env)
        return done.returncode, done.stdout, done.stderr, self.notes.exists()

    def refuses(self, words: list[str], given: bytes = b"", status: int = 2, usage: bool = False) -> None:
        """It says at once what is wrong: in one line, or behind how it is used."""
        ended, written, said, started = self.run(words, given)
        lines = said.count(b"\n")
        name = f"{self.script} {' '.join(words)}: {ended}, {said.decode()!r}{', started' if started else ''}"
        see(name, ended == status and written == b"" and not started and b"Traceback" not in said and (lines >= 1 if usage else lines == 1))

    def starts(self, words: list[str], given: bytes = b"") -> None:
        ended, _, said, started = self.run(words, given)
        see(f"{self.script} {' '.join(words)} starts the program: {ended}, {said.decode()!r}", started)


def is_readable(path: pathlib.Path) -> bool:
    """Whether a file can be read though it may not: so it is for root."""
    path.chmod(0)
    return os.access(path, os.R_OK)


def try_explorer(folder: pathlib.Path) -> None:
    tool = Tool(folder, "-m zorimarl.explore")
    tool.refuses([], usage=True)
    tool.refuses(["scenario", "--kind", "book"], usage=True)
    tool.refuses(["scenario", "--lines", "many"], usage=True)
    tool.refuses(["scenario", "scenario"], usage=True)
    tool.refuses(["scenario", "--lines", "0"], usage=True)
    tool.refuses(["missing"])
    tool.refuses(["."])
    tool.refuses(["odd"])
    tool.refuses(["-"], ODD)
    tool.refuses(["-", "--kind", "journal"], b"\xa5SPCTRJ01")
    tool.refuses(["scenario", "-o", "no folder/page.html"])
    (folder / "closed").write_bytes(SCENARIO)
    if not is_readable(folder / "closed"):
        tool.refuses(["closed"])
    for words in (["scenario"], ["-"], ["odd", "--kind", "scenario"], ["odd", "--kind", "feed"], ["empty"]):
        tool.starts(words, SCENARIO)


def try_client(folder: pathlib.Path) -> None:
    tool = Tool(folder, "-m zorimarl.command")
    tool.refuses([], usage=True)
    tool.refuses(["journal", "--bits", "65"], usage=True)
    tool.refuses(["journal", "--profile", "3"], usage=True)
    tool.refuses(["journal", "--timeout", "soon"], usage=True)
    (folder / "closed").write_bytes(b"\xa5")
    cases: list[tuple[list[str], int, str]] = [
        (["journal"], 1, "NoGenesis"),
        (["journal", "report"], 1, "NoGenesis"),
        (["journal", "--genesis", "12x"], 1, "NoRequest"),
        (["journal", "--genesis", "1234"], 1, "NoGenesis"),
        (["journal", "--genesis", "empty", "reports"], 1, "NoRequest"),
        (["journal", "--genesis", "empty", "vote", "12", "13"], 1, "NoRequest"),
        (["journal", "--genesis", "empty", "offer", "zz"], 1, "NoRequest"),
        (["no folder/journal", "--genesis", "empty"], 2, "DiskFault"),
        ([".", "--genesis", "empty"], 2, "DiskFault"),
        (["odd", "--genesis", "empty"], 2, "NotJournal"),
        *([] if is_readable(folder / "closed") else [(["closed", "--genesis", "empty"], 2, "DiskFault")]),
    ]
    for words, status, error in cases:
        ended, written, said, started = tool.run(words, b"report\n")
        told = [json.loads(line) for line in written.splitlines()]
        name = f"zorimarl-ledger {' '.join(words)}: {ended}, {written.decode()!r}{', started' if started else ''}"
        see(name, ended == status and [each["error"] for each in told] == [error] and said == b"" and not started)
    for words in (["journal", "--genesis", "empty"], ["odd", "--genesis", "empty", "--fresh"], ["empty", "--genesis", "empty", "report"]):
        tool.starts(words)


def try_pictures(folder: pathlib.Path) -> None:
    tool = Tool(folder, "examples/draw.py")
    for words in (["paint", "scenario"], ["run"], ["run", "scenario", "--pair", "A"]):
        tool.refuses(words, usage=True)
    for words in (["run", "missing"], ["run", "."], ["run", "scenario", "--pair", "A", "Z"], ["run", "odd"], ["picture", "scenario", "missing"]):
        tool.refuses(words)
    tool.starts(["run", "scenario", "--pair", "A", "B"])
    tool = Tool(folder, "examples/draw_nodes.py")
    tool.refuses([], status=1)
    for words in (["missing"], ["."], ["scenario"], ["odd"]):
        tool.refuses(words)
    tool.starts(["script"])


def try_examples(folder: pathlib.Path) -> None:
    """Those that run examples, and those that write feeds."""
    cases: list[tuple[str, list[list[str]], list[str] | None]] = [
        ("examples/alike.py", [["missing"], ["scenario", "."]], ["scenario"]),
        ("examples/compare.py", [["missing.md"]], None),
        ("examples/locks.py", [["more"]], None),
        ("examples/refused.py", [["more"]], None),
        ("examples/feed.py", [["last"], ["first", "first"]], None),
        ("examples/wallet.py", [["round", "missing"], ["round", "."]], None),
        ("examples/certificate.py", [["look", "missing"], ["look", "odd"], ["look", "empty"]], None),
    ]
    for script, faulty, right in cases:
        tool = Tool(folder, script)
        for words in faulty:
            tool.refuses(words)
        if right:
            tool.starts(right)
    wrong: list[tuple[str, list[str]]] = [
        ("examples/node_crashes.py", ["many"]),
        ("examples/node_crashes.py", ["4", "3"]),
        ("examples/speed.py", ["no run has this"]),
        ("examples/speed.py", ["--draw", "-1"]),
        ("examples/wallet.py", ["end"]),
        ("examples/certificate.py", []),
    ]
    for script, words in wrong:
        Tool(folder, script).refuses(words, usage=True)


def main() -> int:
    with tempfile.TemporaryDirectory() as folder:
        return run_all([try_explorer, try_client, try_pictures, try_examples], pathlib.Path(folder))


if __name__ == "__main__":
    sys.exit(main())
