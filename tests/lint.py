#!/usr/bin/env python3
"""Holds the repository's scripts to what shellcheck, mypy and flake8 say.

    python3 tests/lint.py

Each file whose first line names a shell goes through `shellcheck`, each in Python through `flake8` and `mypy
--strict`, and none of them may have a word to say. Which of the three isn't there is named as not run."""

from __future__ import annotations

import os
import pathlib
import re
import shutil
import sys
import tempfile

from harness import ROOT, call, finish, lacks, see

SKIPPED = {"out", ".git", "__pycache__", ".mypy_cache", "build"}
SHELL = re.compile(rb"#!.*\b(sh|dash|bash)\b")
PYTHON = re.compile(rb"#!.*\bpython3?\b")
# Where modules of a script's stand beside its own folder. What stands in `python` is held to mypy by python/test.
BESIDE = {"tests": ["tests"], "examples": ["examples", "python/src", "tests"], "tools": ["tools"], "vectors": ["vectors"]}


def files() -> list[str]:
    """The files of the repository, by their paths from its top."""
    found = []
    for folder, folders, names in os.walk(ROOT):
        folders[:] = sorted(set(folders) - SKIPPED)
        found += [os.path.relpath(os.path.join(folder, name), ROOT) for name in sorted(names)]
    return [name for name in found if (ROOT / name).is_file() and not (ROOT / name).is_symlink()]


def first_line(name: str) -> bytes:
    with open(ROOT / name, "rb") as file:
        return file.readline(200)


def try_shell(scripts: list[str]) -> None:
    if not shutil.which("shellcheck"):
        lacks("shellcheck", "there is none")
        return
    for name in scripts:
        done = call(["shellcheck", name], cwd=ROOT)
        see(f"shellcheck {name}:\n{done.stdout.decode()}", done.returncode == 0 and done.stdout == b"")


def try_flake8(scripts: list[str]) -> None:
    if not shutil.which("flake8"):
        lacks("flake8", "there is none")
        return
    # Modules of folders that a script names first are imported behind that; and a slice may have blanks about its colon.
    done = call(["flake8", "--isolated", "--max-line-length=170", "--extend-ignore=E203,E402", *scripts], cwd=ROOT)
    said = done.stdout.decode().splitlines()
    for name in scripts:
        faults = [line for line in said if line.startswith(f"{name}:")]
        see("\n".join(["flake8:", *faults]), not faults)
    see(f"flake8 ends with {done.returncode}: {done.stderr.decode()}", (done.returncode == 0) == (not said) and not done.stderr)


def try_mypy(scripts: list[str], cache: str) -> None:
    if not shutil.which("mypy"):
        lacks("mypy", "there is none")
        return
    for top, beside in BESIDE.items():
        names = [name for name in scripts if pathlib.PurePath(name).parts[0] == top]
        env = {**os.environ, "MYPYPATH": ":".join(beside)}
        words = ["mypy", "--strict", "--config-file=", "--follow-imports=silent", f"--cache-dir={cache}/{top}"]
        words += ["--scripts-are-modules", "--hide-error-context", "--no-error-summary", *names]
        done = call(words, seconds=300, cwd=ROOT, env=env)
        said = done.stdout.decode().splitlines()
        for name in names:
            faults = [line for line in said if line.startswith(f"{name}:") and ": error: " in line]
            see("\n".join(["mypy --strict:", *faults]), not faults)
        see(f"mypy of {top} ends with {done.returncode}: {done.stdout.decode()} {done.stderr.decode()}", done.returncode == 0 and not done.stderr)


def main() -> int:
    every = files()
    python = [name for name in every if name.endswith(".py") or PYTHON.match(first_line(name))]
    try_shell([name for name in every if SHELL.match(first_line(name))])
    try_flake8(python)
    with tempfile.TemporaryDirectory() as cache:
        try_mypy(python, cache)
    return finish()


if __name__ == "__main__":
    sys.exit(main())
