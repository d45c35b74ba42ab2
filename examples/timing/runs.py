"""One run of the program, measured."""

from __future__ import annotations

import os
import re
import subprocess
import sys
import tempfile
from typing import NamedTuple, Sequence

# A process counts the memory of the one that started it as its own, up to the moment at which it
# becomes the program. So a small one stands between.
BETWEEN = """
import os, sys
child = os.posix_spawn(sys.argv[1], sys.argv[1:], os.environ)
_, status, usage = os.wait4(child, 0)
print(status, usage.ru_utime + usage.ru_stime, usage.ru_maxrss, file=sys.stderr)
"""


class Run(NamedTuple):
    seconds: float  # of a processor, in the program and in the system for it
    memory: int  # at most, in kilobytes
    answers: bytes


def run(words: Sequence[str], text: bytes) -> Run:
    """Runs the program on words and an input, by way of files, so that it waits for nobody."""
    with tempfile.TemporaryFile() as source, tempfile.TemporaryFile() as sink:
        source.write(text)
        source.seek(0)
        begin = [sys.executable, "-I", "-S", "-c", BETWEEN]
        done = subprocess.run([*begin, *words], stdin=source, stdout=sink, stderr=subprocess.PIPE, check=True)
        sink.seek(0)
        status, seconds, memory = done.stderr.split()
        if int(status) != 0:
            raise SystemExit(f"{words} ended with {os.waitstatus_to_exitcode(int(status))}")
        return Run(float(seconds), int(memory), sink.read())


def instructions(words: Sequence[str], text: bytes) -> int:
    """How many instructions the program takes, by valgrind, in some fifty times the time of a run."""
    with tempfile.TemporaryFile() as source, tempfile.NamedTemporaryFile() as counts:
        source.write(text)
        source.seek(0)
        count = ["valgrind", "--tool=callgrind", f"--callgrind-out-file={counts.name}"]
        subprocess.run([*count, *words], stdin=source, stdout=subprocess.DEVNULL, stderr=subprocess.PIPE, check=True)
        found = re.search(rb"^(?:summary|totals): (\d+)", counts.read(), re.MULTILINE)
        assert found
        return int(found[1])
