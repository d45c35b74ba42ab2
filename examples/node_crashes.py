#!/usr/bin/env python3
"""Stops `node FILE` wherever it can be stopped, and sees that no block which it acknowledged is lost.

    python3 examples/node_crashes.py [BLOCKS [PROFILE]]

A feed of so many blocks (4 where none are named), of profile 1 where no other is named, is answered into an
empty file again and again, and stopped each time in another way: killed at each of its system calls in turn, and at random moments; with each
call on a file or a stream failing in turn; and with a file that can't grow past each of its lengths. A
kill leaves in the file what was written, synced or not. A loss of power need not, so that from the
calls of one run the bytes are put together which such a loss may leave behind each of them: with the
writes since the last sync undone, done, and filled with other bytes.

Each time `show FILE` must find a front of the blocks with all whose lines were written, or no journal
where no line was; and `node FILE` must answer these as known and keep the others. The last line is
`N passed, M failed`, with each stop counted. The status is 1 where something is wrong, and 2 where the words are.
Where there is no `strace`, by which all this is done, nothing is tried, and that is said. Where the environment
names a program as SPECTRE it takes the place of the one that `bin/spectre` builds.
"""

from __future__ import annotations

import argparse
import collections
import os
import pathlib
import random
import re
import resource
import signal
import subprocess
import sys
import tempfile
import time
from typing import Any, Iterable, Iterator, List, Sequence, Set, Tuple

sys.dont_write_bytecode = True
sys.path.append(str(pathlib.Path(__file__).resolve().parent.parent / "tests"))

from harness import can_trace

ROOT = pathlib.Path(__file__).resolve().parent.parent
PROGRAM = os.environ.get("SPECTRE") or str(ROOT / "crates/spectre/out/spectre")
# The calls on files and streams.
CALLS = "openat,open,fcntl,statx,fstat,newfstatat,lseek,read,pread64,write,pwrite64,fsync,fdatasync"
# Where one of these fails, that is a fault of the output or of the disk.
MUST_WORK = ("lseek", "write", "pwrite64", "fsync", "fdatasync")
MOMENTS = 50
TRACED = re.compile(rb"(\w+)\((?:AT_FDCWD, )?(\w+|\"[^\"]*\")?(?:, \"([^\"]*)\")?.*\) += (-?\d+)")


def run(words: Sequence[str], source: str = "/dev/null", under: Sequence[str] = (), **more: Any) -> Tuple[int, List[bytes]]:
    """The status of a run, and the whole lines that it wrote."""
    with open(source, "rb") as given:
        done = subprocess.run([*under, PROGRAM, *words], stdin=given, capture_output=True, check=False, **more)
    return done.returncode, done.stdout.split(b"\n")[:-1]


class Trials:
    """Runs of `node` on one file, each from nothing, and what was found to be wrong with them."""

    def __init__(self, folder: str, blocks: int, profile: int) -> None:
        self.feed, self.file, self.log = (os.path.join(folder, name) for name in ("feed", "file", "log"))
        scenario = subprocess.run([PROGRAM, "make", str(blocks), "3", "3"], capture_output=True, check=True).stdout
        with open(self.feed, "wb") as feed:
            head = b"profile %d\n" % profile
            subprocess.run([PROGRAM, "build"], input=head + scenario, stdout=feed, check=True)
        self.kept = run(["replay"], self.feed)[1]
        self.counts: collections.Counter[str] = collections.Counter()
        self.wrong: List[str] = []

    def node(self, under: Sequence[str] = (), **more: Any) -> Tuple[int, List[bytes]]:
        """A run from nothing."""
        if os.path.exists(self.file):
            os.remove(self.file)
        return run(["node", self.file], self.feed, under, **more)

    def judge(self, kind: str, name: object, lines: int) -> None:
        """Looks at what a stop left behind so many lines."""
        self.counts[kind] += 1
        status, shown = run(["show", self.file])
        if status == 0:
            found = int(shown[0].split()[1])
        elif status in (6, 7) and not lines:  # no file, or no journal
            found = 0
        else:
            self.wrong.append(f"{kind} {name}: {lines} lines, and then show ends with {status}")
            return
        is_text = status == 7 and os.path.getsize(self.file)
        again = run(["node", *(["--fresh"] if is_text else []), self.file], self.feed)
        known = [b"known " + line.split()[1] for line in self.kept[:found]]
        if not lines <= found <= len(self.kept) or again != (0, known + self.kept[found:]):
            self.wrong.append(f"{kind} {name}: {lines} lines, {found} records, and then {again}")
        elif run(["show", self.file])[1][0] != b"recovered %d" % len(self.kept):
            self.wrong.append(f"{kind} {name}: not all blocks in the end")

    def stop(self, kind: str, name: object, under: Sequence[str] = (), **more: Any) -> int:
        """Runs so, looks at what is left, and answers the status."""
        status, lines = self.node(under, **more)
        self.judge(kind, name, len(lines))
        return status

    def traced(self, calls: str) -> List[bytes]:
        """The calls of a run that isn't stopped."""
        self.node(["strace", "-qq", "-o", self.log, "-xx", "-s", "1000000", "-e", f"trace={calls}"])
        with open(self.log, "rb") as log:
            return log.read().splitlines()

    def inject(self, kind: str, calls: str, what: str) -> None:
        """Stops a run at each call of these."""
        for at in range(1, len(self.traced(calls)) + 1):
            under = ["strace", "-qq", "-o", self.log, "-e", f"trace={calls}", "-e", f"inject={calls}:{what}:when={at}"]
            status = self.stop(kind, f"{calls} {at}", under)
            if calls in MUST_WORK and status not in (5, 6):
                self.wrong.append(f"{kind} {calls} {at}: status {status}")

    def cut(self) -> None:
        """Stops a run at each length of its file, where a write is done in part."""
        self.node()
        for size in range(os.path.getsize(self.file)):

            def limit(size: int = size) -> None:
                signal.signal(signal.SIGXFSZ, signal.SIG_IGN)
                resource.setrlimit(resource.RLIMIT_FSIZE, (size, size))

            self.stop("lengths", size, preexec_fn=limit)

    def moments(self) -> None:
        """Kills a run at moments of the time that it takes."""
        start = time.monotonic()
        self.node()
        whole = time.monotonic() - start
        for _ in range(MOMENTS):
            moment = random.uniform(0, whole)
            self.stop("moments", moment, ["timeout", "-s", "KILL", f"{moment:.6f}"])

    def losses(self) -> None:
        """Tries what a loss of power may leave behind each call of a run."""
        for at, (lines, images) in enumerate(losses(self.traced(CALLS), self.file)):
            for image in images:
                pathlib.Path(self.file).write_bytes(image)
                self.judge("losses of power", at, lines)


def filled(image: bytes, ranges: Iterable[Tuple[int, int]], byte: int) -> bytes:
    """An image with these ranges filled."""
    made = bytearray(image)
    for start, end in ranges:
        made[start:end] = bytes([byte]) * (end - start)
    return bytes(made)


def losses(calls: Iterable[bytes], path: str) -> Iterator[Tuple[int, Set[bytes]]]:
    """The number of lines and the images behind each call that changes one of them."""
    file, at, now, synced, lines = b"", 0, b"", b"", 0
    pending: List[Tuple[int, int]] = []
    for call in calls:
        found = TRACED.match(call)
        assert found, call
        name, first, text, result = found.groups()
        data = bytes.fromhex((text or b"").replace(b"\\x", b"").decode())
        if name == b"openat" and bytes.fromhex(first.strip(b'"').replace(b"\\x", b"").decode()) == path.encode():
            file = result
        elif name == b"fcntl" and first == file and b"F_DUPFD" in call:  # the program goes on by the copy
            file = result
        elif name == b"lseek" and first == file:
            at = int(result)
        elif name in (b"write", b"pwrite64") and first == file:
            now = now[:at] + data + now[at + len(data) :]
            pending.append((at, at + len(data)))
            at += len(data)
        elif name == b"write" and first == b"1":
            lines += data.count(b"\n")
        elif name in (b"fsync", b"fdatasync") and first == file:
            synced, pending = now, []
        else:
            continue
        yield lines, {synced, now, filled(now, pending, 0), filled(now, pending, 0xA5)}


def main() -> int:
    parser = argparse.ArgumentParser(description="Stops a node wherever it can be stopped.")
    parser.add_argument("blocks", type=int, nargs="?", default=4, choices=range(1, 512), metavar="BLOCKS")
    parser.add_argument("profile", type=int, nargs="?", default=1, choices=(1, 2), metavar="PROFILE")
    given = parser.parse_args()
    if not can_trace():
        print("not run: crashes of a node, since there is no strace that may trace here\n0 passed, 0 failed")
        return 0
    if "SPECTRE" not in os.environ:
        subprocess.run([ROOT / "bin/spectre", "make", "0", "0", "1"], check=True)
    with tempfile.TemporaryDirectory() as folder:
        trials = Trials(folder, given.blocks, given.profile)
        trials.inject("kills", "all", "signal=KILL")
        names = {call.split(b"(")[0].decode() for call in trials.traced(CALLS)}
        for name in sorted(names):
            trials.inject("failing calls", name, "error=EIO")
        trials.cut()
        trials.losses()
        trials.moments()
    print(", ".join(f"{count} {kind}" for kind, count in trials.counts.items()))
    print("\n".join(trials.wrong) or f"no block of {len(trials.kept)} was lost")
    print(f"{max(0, sum(trials.counts.values()) - len(trials.wrong))} passed, {len(trials.wrong)} failed")
    return 1 if trials.wrong else 0


if __name__ == "__main__":
    sys.exit(main())
