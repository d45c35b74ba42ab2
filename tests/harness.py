"""What the tests beside the gate share: the program, its launcher, and a list of what was seen.

Where the environment names a program as SPECTRE, it takes the place of the one that `bin/spectre` builds."""

from __future__ import annotations

import os
import pathlib
import shutil
import subprocess
import sys
from collections.abc import Callable, Sequence

ROOT = pathlib.Path(__file__).resolve().parent.parent
PROGRAM = os.environ.get("SPECTRE") or str(ROOT / "crates/spectre/out/spectre")
LAUNCHER = ROOT / "bin/spectre"

# The exit codes of docs/FORMATS.md that the tests name.
DONE, USAGE, READ_FAULT, WRITE_FAULT, DISK_FAULT = 0, 1, 4, 5, 6
# What stands for the exit code of a run that doesn't end.
ENDLESS = -1000

Words = Sequence[str | bytes | os.PathLike[str]]

_wrong: list[str] = []
_count = 0


def see(name: str, holds: bool) -> None:
    """Notes what was seen, and says it where it is wrong."""
    global _count
    _count += 1
    if not holds:
        _wrong.append(name)
        print(f"WRONG: {name}")


def lacks(what: str, why: str) -> None:
    """Names what can't be tried on this machine, which counts for nothing."""
    print(f"not run: {what}, since {why}")


def can_trace() -> bool:
    """Whether there is `strace`, and it may trace here."""
    return shutil.which("strace") is not None and call(["strace", "-qq", "-o", "/dev/null", "true"]).returncode == 0


def finish() -> int:
    """Says how many were right, and answers the exit code."""
    print(f"{_count - len(_wrong)} passed, {len(_wrong)} failed")
    return 1 if _wrong else 0


def call(words: Words, given: bytes = b"", seconds: int = 120, **more: object) -> subprocess.CompletedProcess[bytes]:
    """A run to its end, or of so many seconds."""
    try:
        return subprocess.run(words, input=given, capture_output=True, check=False, timeout=seconds, **more)  # type: ignore[call-overload, no-any-return]
    except subprocess.TimeoutExpired:
        return subprocess.CompletedProcess(words, ENDLESS, b"", b"")


def feed_of(scenario: bytes) -> bytes:
    """The feed of a scenario."""
    done = call([PROGRAM, "build"], scenario)
    if done.returncode != DONE:
        sys.exit(f"build ended with {done.returncode}: {done.stdout!r}")
    return done.stdout


def make_tree(folder: pathlib.Path, built: bool = True) -> pathlib.Path:
    """A repository of the program alone, as if it had just been built, or as it is before; its launcher."""
    source = folder / "crates/spectre/src"
    source.mkdir(parents=True)
    (folder / "crates.txt").write_text("spectre:\n")
    (source / "main.rt").write_text("// nothing\n")
    launcher = folder / "bin/spectre"
    launcher.parent.mkdir()
    launcher.write_bytes(LAUNCHER.read_bytes())
    launcher.chmod(0o755)
    for name in ("share", "VERSION"):  # what the launcher answers by itself
        if (ROOT / name).exists():
            (folder / name).symlink_to(ROOT / name)
    if built:
        out = folder / "crates/spectre/out"
        out.mkdir()
        (out / "spectre").write_bytes(pathlib.Path(PROGRAM).read_bytes())
        (out / "spectre").chmod(0o755)
        (out / "spectre.began").touch()
    return launcher


def run_all(tests: Sequence[Callable[[pathlib.Path], None]], folder: pathlib.Path) -> int:
    """Runs each test in a folder of its own."""
    for test in tests:
        place = folder / test.__name__
        place.mkdir()
        test(place)
    return finish()
