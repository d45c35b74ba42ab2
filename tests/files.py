#!/usr/bin/env python3
"""Tries what isn't a regular file in the place of a journal, files that can't grow, and interrupted calls.

    python3 tests/files.py

A pipe, a folder, a device or a socket ends `node`, `show` and `export` with 6 at once, by the program and by its
launcher; a link to a file is that file. Where a limit stops a file's growth, the launcher's run ends with 5 or 6
and no signal, and the journal is one of all that was acknowledged. With reads, writes and seeks that a signal
interrupts, a run writes the same as without; this part needs `strace`. Where the environment names a program as
SPECTRE it takes the place of the one that `bin/spectre` builds."""

from __future__ import annotations

import os
import pathlib
import resource
import signal
import socket
import sys
import tempfile

from harness import DISK_FAULT, DONE, PROGRAM, WRITE_FAULT, call, can_trace, feed_of, lacks, make_tree, run_all, see

BLOCKS = 40
INTERRUPTED = "read,write,lseek,pread64,pwrite64"


def scenario() -> bytes:
    return call([PROGRAM, "make", str(BLOCKS), "1", "3"]).stdout


def try_kinds(folder: pathlib.Path) -> None:
    """What may stand where a journal is named."""
    feed = feed_of(scenario())
    pipe, place, heard = folder / "pipe", folder / "folder", folder / "socket"
    os.mkfifo(pipe)
    place.mkdir()
    with socket.socket(socket.AF_UNIX) as listener:
        listener.bind(str(heard))
        kinds = [pipe, place, heard, pathlib.Path("/dev/null"), pathlib.Path("/dev/zero"), pathlib.Path("/dev/full")]
        for program in (PROGRAM, str(make_tree(folder / "tree"))):
            for kind in kinds:
                for words in (["node", str(kind)], ["node", "--fresh", str(kind)], ["show", str(kind)], ["export", str(kind), "1"]):
                    done = call([program, *words], feed, seconds=20)
                    see(f"{program} {' '.join(words)}: {done.returncode}", done.returncode == DISK_FAULT and done.stdout == b"")
    see("the pipe is still there", pipe.is_fifo())


def try_links(folder: pathlib.Path) -> None:
    """A link leads to the file, which `node` makes where it isn't there yet."""
    feed = feed_of(scenario())
    file, link = folder / "file", folder / "link"
    link.symlink_to(file)
    for program in (PROGRAM, str(make_tree(folder / "tree"))):
        file.unlink(missing_ok=True)
        see("show doesn't make what a link leads to", call([program, "show", str(link)]).returncode == DISK_FAULT and not file.exists())
        see("node does", call([program, "node", str(link)], feed).returncode == DONE and link.is_symlink() and file.is_file())
        see("and show finds it", call([program, "show", str(link)]).stdout.startswith(b"recovered %d\n" % BLOCKS))


def limit_to(size: int) -> None:
    resource.setrlimit(resource.RLIMIT_FSIZE, (size, size))


def try_limits(folder: pathlib.Path) -> None:
    """A journal and an output that can't grow past a length. A process here begins with the signal's first meaning."""
    feed = feed_of(scenario())
    launcher = str(make_tree(folder / "tree"))
    journal, output = folder / "journal", folder / "output"
    for size in range(0, len(feed) - 300, 97):
        journal.unlink(missing_ok=True)
        done = call([launcher, "node", str(journal)], feed, preexec_fn=lambda: limit_to(size))
        kept = done.stdout.count(b"kept ")
        see(f"a journal of {size} bytes at most: {done.returncode}", done.returncode == DISK_FAULT)
        shown = call([PROGRAM, "show", str(journal)])
        found = int(shown.stdout.split()[1]) if shown.returncode == DONE else 0
        see(f"and holds {found} blocks behind {kept} lines", kept <= found <= kept + 1)
    with open(output, "wb") as taken:
        status = os.waitstatus_to_exitcode(spawn_into(launcher, taken.fileno(), scenario(), folder))
    see(f"an output of 512 bytes at most: {status}", status == WRITE_FAULT and output.stat().st_size == 512)


def spawn_into(launcher: str, taken: int, given: bytes, folder: pathlib.Path) -> int:
    """The wait status of `play` whose output is a file of 512 bytes at most."""
    source = folder / "given"
    source.write_bytes(given)
    child = os.fork()
    if child == 0:
        try:
            os.dup2(os.open(source, os.O_RDONLY), 0)
            os.dup2(taken, 1)
            signal.signal(signal.SIGXFSZ, signal.SIG_DFL)
            limit_to(512)
            os.execv(launcher, [launcher, "play"])
        finally:
            os._exit(255)
    return os.waitpid(child, 0)[1]


def try_interruptions(folder: pathlib.Path) -> None:
    """Each second read, write or seek on the feed, the output and the journal is interrupted."""
    if not can_trace():
        lacks("interrupted calls", "there is no strace that may trace here")
        return
    feed, output, journal, log = (folder / name for name in ("feed", "output", "journal", "log"))
    feed.write_bytes(feed_of(scenario()))
    paths = [word for path in (feed, output, journal) for word in ("-P", str(path))]
    for first in (1, 2):
        under = ["strace", "-qq", "-o", str(log), *paths, "-e", f"inject={INTERRUPTED}:error=EINTR:when={first}+2"]
        journal.unlink(missing_ok=True)
        for words, wanted in (
            (["node", str(journal)], call([PROGRAM, "replay"], feed.read_bytes())),
            (["show", str(journal)], None),
            (["export", str(journal), "1"], None),
        ):
            with open(feed, "rb") as given, open(output, "wb") as taken:
                status = call_between(under, words, given.fileno(), taken.fileno())
            right = wanted or call([PROGRAM, *words])
            interrupted = log.read_bytes().count(b"EINTR")
            see(f"{words[0]} with {interrupted} calls interrupted: {status}", status == DONE and interrupted > 2 and output.read_bytes() == right.stdout)


def call_between(under: list[str], words: list[str], given: int, taken: int) -> int:
    """The status of a run of the program between two open files."""
    child = os.fork()
    if child == 0:
        try:
            os.dup2(given, 0)
            os.dup2(taken, 1)
            os.execvp(under[0], [*under, PROGRAM, *words])
        finally:
            os._exit(255)
    return os.waitstatus_to_exitcode(os.waitpid(child, 0)[1])


def main() -> int:
    with tempfile.TemporaryDirectory() as folder:
        return run_all([try_kinds, try_links, try_limits, try_interruptions], pathlib.Path(folder))


if __name__ == "__main__":
    sys.exit(main())
