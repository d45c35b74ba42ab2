#!/usr/bin/env python3
"""Tries each command with each set of closed standard streams, by the program and by its launcher.

    python3 tests/streams.py

A file that is opened gets the lowest free descriptor, so that of a closed standard stream: a journal could be
read as the feed, or the answers could be written into it. A run whose input is closed and which reads has to
end with 4, one whose output is closed and which writes with 5, and none with 0 whose output is lost. The journal
is as it was, or one of a front of the feed's blocks. Where the environment names a program as SPECTRE it takes
the place of the one that `bin/spectre` builds."""

from __future__ import annotations

import itertools
import os
import pathlib
import subprocess
import sys
import tempfile
from collections.abc import Callable

from harness import DONE, PROGRAM, READ_FAULT, WRITE_FAULT, call, feed_of, finish, make_tree, see

SCENARIO = b"block A on G\nblock B on G\nblock C on A\nvote A B\n"
SCRIPT = SCENARIO + b"nodes 2\ngive 0 A\n"
FILE = "FILE"
SETS = [set(closed) for count in range(4) for closed in itertools.combinations(range(3), count)]


def run_closed(words: list[str], source: pathlib.Path, closed: set[int]) -> tuple[int, bytes]:
    """The status of a run without these streams, and what it wrote."""

    def close() -> None:
        for stream in closed:
            os.close(stream)

    with open(source, "rb") as given:
        done = subprocess.run(words, stdin=given, capture_output=True, check=False, timeout=60, preexec_fn=close)
    return done.returncode, done.stdout


def wanted(reads: bool, closed: set[int], status: int) -> int:
    """The status of a run that reads or doesn't, and writes, where with all streams open it is this one."""
    if reads and 0 in closed:
        return READ_FAULT
    if 1 in closed:
        return WRITE_FAULT
    return status


class Trials:
    """Runs on the inputs and the journals of a folder."""

    def __init__(self, folder: pathlib.Path) -> None:
        self.folder = folder
        self.launcher = str(make_tree(folder / "tree"))
        self.file = folder / "journal"
        self.feed = self.put("feed", feed_of(SCENARIO))
        ids = [line.split()[1].decode() for line in call([PROGRAM, "replay"], self.feed.read_bytes()).stdout.splitlines()]
        certify = ["certify", ids[0], ids[1]]
        certificate = self.put("certificate", call([PROGRAM, *certify], self.feed.read_bytes()).stdout)
        call([PROGRAM, "node", str(self.file)], self.feed.read_bytes())
        self.journal = self.file.read_bytes()
        scenario, script = self.put("scenario", SCENARIO), self.put("script", SCRIPT)
        # The words, the input, and whether they read it.
        self.commands: list[tuple[list[str], pathlib.Path, bool]] = [
            (["play"], scenario, True),
            (["build"], scenario, True),
            (["make", "3", "1", "1"], scenario, False),
            (["drill", "3", "1", "1"], scenario, False),
            (["replay"], self.feed, True),
            (["node", FILE], self.feed, True),
            (["node", "--fresh", FILE], self.feed, True),
            (["node", FILE, "--fresh"], self.feed, True),
            (["show", FILE], self.feed, False),
            (["export", FILE, "2"], self.feed, False),
            (certify, self.feed, True),
            (["check"], certificate, True),
            (["gossip"], script, True),
            (["spend", "1", "to", "a", "from", "b"], self.feed, True),
            (["watch", f"pair:{ids[0]},{ids[1]}"], self.feed, True),
        ]

    def put(self, name: str, content: bytes) -> pathlib.Path:
        path = self.folder / name
        path.write_bytes(content)
        return path

    def is_front(self) -> bool:
        """Whether the file is a journal of a front of the blocks, or nothing was written into it."""
        if not self.file.exists() or self.file.read_bytes() == b"":
            return True
        shown = call([PROGRAM, "show", str(self.file)])
        exported = call([PROGRAM, "export", str(self.file), "1"]).stdout
        end = b"E" + bytes(4)
        return shown.returncode == DONE and exported.endswith(end) and self.feed.read_bytes().startswith(exported[: -len(end)])

    def prepare(self, old: bool) -> None:
        if old:
            self.file.write_bytes(self.journal)
        else:
            self.file.unlink(missing_ok=True)

    def compare(self, at: int, old: bool, launched: bool) -> None:
        """One command with each set of closed streams, beside its run with all of them."""
        words, source, reads = self.commands[at]
        line = [str(self.file) if word == FILE else word for word in words]
        call_of: Callable[[set[int]], tuple[int, bytes]] = lambda closed: run_closed(
            [self.launcher if launched else PROGRAM, *line], source, closed
        )
        self.prepare(old)
        status, output = call_of(set())
        for closed in SETS:
            self.prepare(old)
            ended, written = call_of(closed)
            name = f"{' '.join(words)} without {sorted(closed)}, {'old' if old else 'new'}, {'launched' if launched else 'itself'}: {ended}"
            is_as_told = ended == (wanted(reads, closed, status) if output else status)
            see(name, is_as_told and (ended != DONE or written == output))
            if old:
                see(f"{name}, the old journal", self.file.read_bytes() == self.journal)
            else:
                see(f"{name}, the new journal", self.is_front())


def main() -> int:
    with tempfile.TemporaryDirectory() as folder:
        trials = Trials(pathlib.Path(folder))
        for at, (words, _source, _reads) in enumerate(trials.commands):
            for old in (False, True) if FILE in words else (True,):
                for launched in (False, True):
                    trials.compare(at, old, launched)
    return finish()


if __name__ == "__main__":
    sys.exit(main())
