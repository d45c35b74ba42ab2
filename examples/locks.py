#!/usr/bin/env python3
"""Tries what `bin/spectre` does where two calls use one journal at a time.

    python3 examples/locks.py

A `node` that waits for its feed holds its file: another `node`, a `show` and an `export` on it end with
124, say so on standard error, write nothing and leave the file as it is. So does a `node` where the file is
shown, while a second `show` and an `export` aren't hindered. A call on another file goes on, and so does the
next one once the first has ended or was killed. Where there is no command `flock`, nothing is locked, and
that is said. What isn't a file that can be opened is left to the program, which ends with 6, and a faulty
command line makes no file.

It tries the launcher in a folder in which the program is the one that it has built: the one that the
environment names as SPECTRE, or else this tree's (`bin/spectre` builds it at its first call). The last line is
`N passed, M failed`, and the status 1 where something is otherwise. This can be run from anywhere.
"""

from __future__ import annotations

import contextlib
import fcntl
import os
import pathlib
import shutil
import signal
import subprocess
import sys
import tempfile
import time
from collections.abc import Iterator

sys.dont_write_bytecode = True
sys.path.append(str(pathlib.Path(__file__).resolve().parent.parent / "tests"))

from harness import call, finish, lacks, make_tree, see

IN_USE = 124
# What the launcher calls beside `flock`.
COMMANDS = ("sh", "env", "find", "readlink", "dirname", "cat", "nproc")
# A feed whose head is at fault: `node` opens its file, finds it empty, and ends with 2.
FAULTY = b"no feed at all"


def is_held(file: str, kind: int) -> bool:
    with open(file, "rb") as opened:
        try:
            fcntl.flock(opened, kind | fcntl.LOCK_NB)
        except BlockingIOError:
            return True
    return False


@contextlib.contextmanager
def waiting_node(launcher: str, file: str) -> Iterator[subprocess.Popen[bytes]]:
    """A `node` on the file that waits for its feed."""
    node = subprocess.Popen([launcher, "node", file], stdin=subprocess.PIPE, stdout=subprocess.PIPE, stderr=subprocess.PIPE)
    end = time.monotonic() + 30
    while not (os.path.exists(file) and is_held(file, fcntl.LOCK_SH)) and time.monotonic() < end:
        time.sleep(0.01)
    yield node
    if node.poll() is None:
        node.communicate(FAULTY)


def is_refused(done: subprocess.CompletedProcess[bytes], file: str, before: bytes) -> bool:
    return (
        done.returncode == IN_USE
        and done.stdout == b""
        and done.stderr.count(b"\n") == 1
        and file.encode() in done.stderr
        and pathlib.Path(file).read_bytes() == before
    )


class Trials:
    """Calls of the launcher on files in a folder."""

    def __init__(self, folder: str) -> None:
        self.folder = folder
        self.launcher = str(make_tree(pathlib.Path(folder) / "tree"))

    def call(self, *words: str, given: bytes = b"", **more: object) -> subprocess.CompletedProcess[bytes]:
        return call([self.launcher, *words], given, **more)  # type: ignore[arg-type]

    def refused(self, file: str, before: bytes, *words: str) -> bool:
        return is_refused(self.call(*words), file, before)

    def nodes(self) -> None:
        file, other = f"{self.folder}/a journal", f"{self.folder}/another"
        with waiting_node(self.launcher, file):
            before = pathlib.Path(file).read_bytes()
            see("a second node is refused", self.refused(file, before, "node", file))
            see("and with --fresh in front", self.refused(file, before, "node", "--fresh", file))
            see("and with --fresh behind", self.refused(file, before, "node", file, "--fresh"))
            see("a show beside a node is refused", self.refused(file, before, "show", file))
            see("and an export", self.refused(file, before, "export", file, "2"))
            see("a node on another file goes on", self.call("node", other, given=FAULTY).returncode == 2)
        see("the next node goes on once the first has ended", self.call("node", file, given=FAULTY).returncode == 2)
        with waiting_node(self.launcher, file) as node:
            os.kill(node.pid, signal.SIGKILL)
            node.wait()
            see("and once it was killed", self.call("node", file, given=FAULTY).returncode == 2)

    def shows(self) -> None:
        file = f"{self.folder}/shown"
        pathlib.Path(file).write_bytes(b"")
        with open(file, "rb") as shown:
            fcntl.flock(shown, fcntl.LOCK_SH)
            see("a second show isn't hindered", self.call("show", file).returncode == 7)
            see("nor an export", self.call("export", file, "1").returncode == 7)
            see("a node where the file is shown is refused", self.refused(file, b"", "node", file))

    def others(self) -> None:
        see("a folder is left to the program", self.call("node", self.folder).returncode == 6)
        missing = f"{self.folder}/missing"
        see("a file that isn't there is left to the program, and show doesn't make it", self.call("show", missing).returncode == 6 and not os.path.exists(missing))
        for words in (["node", missing, "--stale"], ["node", missing, missing], ["nodes", missing], ["node", "--fresh"]):
            see(f"a faulty command line makes no file: {words}", self.call(*words).returncode == 1 and not os.path.exists(missing))

    def without_flock(self) -> None:
        file, tools = f"{self.folder}/unlocked", f"{self.folder}/tools"
        os.mkdir(tools)
        for name in COMMANDS:
            if found := shutil.which(name):
                os.symlink(found, f"{tools}/{name}")
        with open(f"{self.folder}/held", "wb") as held:
            fcntl.flock(held, fcntl.LOCK_EX)
            done = self.call("node", held.name, given=FAULTY, env={"PATH": tools})
        see("without flock a node goes on, and says that nothing is locked", done.returncode == 2 and b"flock" in done.stderr)
        see("and makes its file", self.call("node", file, given=FAULTY, env={"PATH": tools}).returncode == 2 and os.path.exists(file))


def main() -> int:
    with tempfile.TemporaryDirectory() as folder:
        trials = Trials(folder)
        if shutil.which("flock"):
            trials.nodes()
            trials.shows()
        else:
            lacks("two calls on one journal", "there is no flock")
        trials.others()
        trials.without_flock()
    return finish()


if __name__ == "__main__":
    if sys.argv[1:]:
        print("usage: locks.py", file=sys.stderr)
        sys.exit(2)
    sys.exit(main())
