#!/usr/bin/env python3
"""Refuses the program its memory: each allocation of a run in turn, once, and each with all that follow.

    python3 examples/refused.py

A run has to end with the code of Memory then, and to write a front of what it writes with memory. A list
that grows asks for twice its room and, where that is refused once, again for what it needs; where that is
granted, the run has to end as it does with memory, and to write all. Of `node`, `show` then finds a journal
with at least the blocks whose lines were written, or none where no line was.

The runs: a scenario of 40 blocks with a list of all pairs and a report, one in which payments turn, a feed
of 60 blocks with payments, and a node that is sent two blocks, in either profile. It needs gcc or clang, and runs from
anywhere; SPECTRE names another program than the one that bin/spectre has built. The last line is `N passed, M failed`,
with each run counted to which memory was refused."""

from __future__ import annotations

import os
import shutil
import subprocess
import sys
import tempfile
from typing import List, Optional

TOP = os.path.dirname(os.path.dirname(os.path.abspath(__file__)))
SPECTRE = os.environ.get("SPECTRE", os.path.join(TOP, "crates", "spectre", "out", "spectre"))
MEMORY = 9
QUESTIONS = b"vote b1 b40\npairs\nreport\n"

# Counts the calls that take memory, and refuses one of them, or all from it on.
SHIM = r"""
#define _GNU_SOURCE
#include <dlfcn.h>
#include <errno.h>
#include <fcntl.h>
#include <stdlib.h>
#include <string.h>
#include <unistd.h>
static long count = 0, at = -2, all = 0;
static void *(*real_malloc)(size_t);
static void *(*real_realloc)(void *, size_t);
static void *(*real_aligned)(size_t, size_t);
static int (*real_memalign)(void **, size_t, size_t);
static int is_refused(void) {
    if (at == -2) {
        const char *given = getenv("REFUSED");
        at = given ? atol(given) : -1;
        all = getenv("ALL") != 0;
        real_malloc = dlsym(RTLD_NEXT, "malloc");
        real_realloc = dlsym(RTLD_NEXT, "realloc");
        real_aligned = dlsym(RTLD_NEXT, "aligned_alloc");
        real_memalign = dlsym(RTLD_NEXT, "posix_memalign");
    }
    long now = count++;
    if (at < 0 || (all ? now < at : now != at)) return 0;
    errno = ENOMEM;
    return 1;
}
void *malloc(size_t n) { return is_refused() ? 0 : real_malloc(n); }
void *realloc(void *old, size_t n) { return is_refused() ? 0 : real_realloc(old, n); }
void *aligned_alloc(size_t to, size_t n) { return is_refused() ? 0 : real_aligned(to, n); }
int posix_memalign(void **out, size_t to, size_t n) { return is_refused() ? ENOMEM : real_memalign(out, to, n); }
__attribute__((destructor)) static void tell(void) {
    const char *path = getenv("COUNTED");
    int file = path ? open(path, O_WRONLY | O_CREAT | O_TRUNC, 0600) : -1;
    if (file >= 0 && write(file, &count, sizeof count) != sizeof count) _exit(99);
}
"""


# Payments that turn as blocks come.
TURNS = b"""grant g 100 to alice
tx p spends g.0 pays 100 to bob
tx q spends g.0 pays 100 to carol
block A on G carries p
block B on G carries q
tx r spends p.0 pays 100 to dave
block C on A carries r
balance dave
block D on B
block E on B
state q
state p
state r
balance carol
balance dave
"""


def made(*words: str, given: bytes = b"") -> bytes:
    return subprocess.run([SPECTRE, *words], input=given, capture_output=True, check=True).stdout


class Trials:
    """Runs of one command on one input, each from nothing."""

    def __init__(self, folder: str, shim: str, name: str, words: List[str], given: bytes) -> None:
        self.name, self.words, self.given = name, words, given
        self.passed, self.wrong = 0, 0
        self.env = dict(os.environ, LD_PRELOAD=shim)
        self.file = os.path.join(folder, "journal") if "node" in words else None
        self.counted = os.path.join(folder, "counted")
        self.whole = self.run(COUNTED=self.counted)
        if self.whole.returncode != 0:
            sys.exit(f"{name}: it failed with memory")

    def run(self, **more: str) -> subprocess.CompletedProcess[bytes]:
        if self.file and os.path.exists(self.file):
            os.remove(self.file)
        words = [SPECTRE, *self.words, *([self.file] if self.file else [])]
        return subprocess.run(words, input=self.given, env=dict(self.env, **more), capture_output=True)

    def count(self) -> int:
        with open(self.counted, "rb") as file:
            return int.from_bytes(file.read(), sys.byteorder)

    def keeps(self, run: subprocess.CompletedProcess[bytes]) -> bool:
        """Whether the journal has at least the blocks whose lines were written."""
        if not self.file:
            return True
        told = run.stdout.count(b"kept ")
        shown = subprocess.run([SPECTRE, "show", self.file], capture_output=True)
        if not shown.stdout.startswith(b"recovered "):
            return told == 0
        return int(shown.stdout.split()[1]) >= told

    def judge(self, number: int, spared: Optional[int], **more: str) -> Optional[int]:
        run = self.run(REFUSED=str(number), **more)
        is_spared = spared is not None and run.returncode == 0 and run.stdout == self.whole.stdout
        if not self.keeps(run):
            self.fail(number, "a block was lost")
        elif not is_spared and (run.returncode != MEMORY or not self.whole.stdout.startswith(run.stdout)):
            self.fail(number, f"it ended with {run.returncode}")
        else:
            self.passed += 1
        return spared + 1 if spared is not None and is_spared else spared

    def fail(self, number: int, what: str) -> None:
        self.wrong += 1
        print(f"WRONG: {self.name}: allocation {number}: {what}", flush=True)

    def all(self) -> None:
        spared: Optional[int] = 0
        count = self.count()
        for number in range(count):
            spared = self.judge(number, spared)
            self.judge(number, None, ALL="1")
        if self.wrong:
            return
        print(f"{self.name}: {count} allocations, each refused once, and each with all that follow: Memory, and a front")
        print(f"of the output; but for {spared} refused once, where less was asked for, and all was written")


def compiler() -> Optional[str]:
    return shutil.which("gcc") or shutil.which("clang")


def main() -> int:
    found = compiler()
    if found is None:
        print("not run: refused memory, since there is no gcc and no clang\n0 passed, 0 failed")
        return 0
    drawn = made("make", "40", "1", "4")
    feed = made("build", given=made("make", "60", "7", "3") + b"report\n")
    blocks = b"block A on G\nblock B on G\n"
    two, ranked = made("build", given=blocks), made("build", given=b"profile 2\n" + blocks)
    with tempfile.TemporaryDirectory() as folder:
        shim = os.path.join(folder, "shim.so")
        build = [found, "-shared", "-fPIC", "-x", "c", "-o", shim, "-", "-ldl"]
        subprocess.run(build, input=SHIM.encode(), check=True)
        runs = [
            ("a scenario of 40 blocks", ["play"], drawn + QUESTIONS),
            ("payments that turn", ["play"], TURNS),
            ("a feed of 60 blocks", ["replay"], feed),
            ("a node", ["node"], two),
            ("a node of profile 2", ["node"], ranked),
        ]
        passed, wrong = 0, 0
        for name, words, given in runs:
            trials = Trials(folder, shim, name, words, given)
            trials.all()
            passed, wrong = passed + trials.passed, wrong + trials.wrong
    print(f"{passed} passed, {wrong} failed")
    return 1 if wrong else 0


if __name__ == "__main__":
    if sys.argv[1:]:
        print("usage: refused.py", file=sys.stderr)
        sys.exit(2)
    sys.exit(main())
