#!/usr/bin/env python3
"""Sees that few bytes don't ask for much work twice, and that a run to which memory is refused loses nothing.

    python3 tests/work.py

A packet of 128 large blocks that its receiver has is delivered 40 times more: that takes at most twice the time of
the script without these lines, and half a second. With less memory than a feed needs a node ends with 9, each
block whose line was written stands in the journal, and with more memory it goes on. Where the environment names a program
as SPECTRE it takes the place of the one that `bin/spectre` builds."""

from __future__ import annotations

import pathlib
import resource
import sys
import tempfile

from harness import DONE, PROGRAM, call, feed_of, run_all, see

MEMORY = 9
BLOCKS = 128
PAYMENTS = 92
MEGABYTE = 1 << 20


def script_of(deliveries: int) -> bytes:
    """Blocks of some 62 KB that one node tells another of, and how often their packet arrives once more."""
    lines = [f"grant g{each} {each + 1} to a" for each in range(PAYMENTS)]
    pays = " ".join(["1 to b"] * 16)
    lines += [f"tx t{each} spends g{each}.0 pays {pays}" for each in range(PAYMENTS)]
    carried = " ".join(f"t{each}" for each in range(PAYMENTS))
    lines += [f"make b{each} on {f'b{each - 1}' if each else 'G'} carries {carried}" for each in range(BLOCKS)]
    lines += ["nodes 2", *(f"give 0 b{each}" for each in range(BLOCKS)), "tell 0 1", "deliver 0", "deliver 1", "deliver 2"]
    return "\n".join([*lines, *(["deliver 2"] * deliveries), ""]).encode()


def processor_time(script: bytes) -> tuple[float, int]:
    """The seconds of a processor, and how many lines were written."""
    before = resource.getrusage(resource.RUSAGE_CHILDREN).ru_utime
    done = call([PROGRAM, "gossip"], script)
    return resource.getrusage(resource.RUSAGE_CHILDREN).ru_utime - before, done.stdout.count(b"\n")


def try_deliveries(_folder: pathlib.Path) -> None:
    """Known blocks aren't read again."""
    once, lines = processor_time(script_of(0))
    again, more = processor_time(script_of(40))
    see(f"40 packets of {BLOCKS} known blocks: {again:.2f} s, without them {once:.2f} s", again <= 2 * once + 0.5)
    see("each of these is answered", more == lines + 40 * BLOCKS)


def limit_to(size: int) -> None:
    resource.setrlimit(resource.RLIMIT_AS, (size, size))


def try_memory(folder: pathlib.Path) -> None:
    """A node whose memory ends, at several limits, and once more with enough."""
    feed = feed_of(call([PROGRAM, "make", "350", "1", "16"]).stdout)
    journal = folder / "journal"
    for megabytes in (8, 12, 16, 20):
        journal.unlink(missing_ok=True)
        done = call([PROGRAM, "node", journal], feed, preexec_fn=lambda: limit_to(megabytes * MEGABYTE))
        kept = done.stdout.count(b"kept ")
        see(f"with {megabytes} MB: {done.returncode} behind {kept} lines", done.returncode == MEMORY and kept > 0)
        shown = call([PROGRAM, "show", journal])
        see(f"with {megabytes} MB, what is found", shown.stdout.startswith(b"recovered %d\n" % kept))
        again = call([PROGRAM, "node", journal], feed)
        see(f"with {megabytes} MB, and then with enough", again.returncode == DONE and again.stdout.count(b"known ") == kept)


def main() -> int:
    with tempfile.TemporaryDirectory() as folder:
        return run_all([try_deliveries, try_memory], pathlib.Path(folder))


if __name__ == "__main__":
    sys.exit(main())
