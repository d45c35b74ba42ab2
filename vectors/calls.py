"""Calls of a program, and where what it does isn't what a vector says."""

from __future__ import annotations

import pathlib
import subprocess
import tempfile
from collections.abc import Sequence

from forms import Run, Vector, runs_of, said_by

LIMIT = 120
CLOSED = {"closed-input": 'exec "$@" <&-', "closed-output": 'exec "$@" >&-'}


def shortened(data: bytes) -> str:
    text = repr(data)[2:-1]
    return text if len(text) < 160 else f"{text[:100]} .. {text[-50:]} ({len(data)} bytes)"


def difference(wanted: bytes, found: bytes) -> str:
    """The first line, or byte, in which two outputs differ."""
    if all(byte == 10 or 32 <= byte < 127 for byte in wanted + found):
        ours, theirs = wanted.split(b"\n"), found.split(b"\n")
        at = next((n for n in range(max(len(ours), len(theirs))) if ours[n:n + 1] != theirs[n:n + 1]), 0)
        return f"line {at + 1} should be `{shortened(b''.join(ours[at:at + 1]))}`, and is `{shortened(b''.join(theirs[at:at + 1]))}`"
    at = next((n for n in range(max(len(wanted), len(found))) if wanted[n:n + 1] != found[n:n + 1]), 0)
    return f"byte {at} should begin `{wanted[at:at + 12].hex()}`, and begins `{found[at:at + 12].hex()}`; {len(wanted)} bytes, and {len(found)}"


def call(program: Sequence[str], run: Run, folder: str) -> list[str]:
    """What is wrong with one call."""
    file = pathlib.Path(folder, "file")
    if run.outside == "folder":
        file.mkdir()
    elif run.disk is not None:
        file.write_bytes(run.disk)
    words = [*program, *[str(file) if word == "FILE" else word for word in run.words]]
    if run.outside in CLOSED:
        words = ["sh", "-c", CLOSED[run.outside], "sh", *words]
    try:
        done = subprocess.run(words, input=run.given, stdout=subprocess.PIPE, stderr=subprocess.DEVNULL, timeout=LIMIT, check=False)
    except subprocess.TimeoutExpired:
        return [f"`{' '.join(run.words)[:60]}` takes more than {LIMIT} seconds"]
    found = said_by(done.stdout) if run.outside == "votes" else done.stdout
    wrong = []
    if done.returncode != run.code:
        wrong.append(f"the status should be {run.code}, and is {done.returncode}")
    if found != run.output:
        wrong.append(f"of the output {difference(run.output, found)}")
    after = file.read_bytes() if file.is_file() else None
    if after != run.after:
        wrong.append("the file isn't as it should be: " + ("there is one" if run.after is None else "there is none" if after is None else difference(run.after, after)))
    return [f"`{' '.join(run.words)[:60]}`: {each}" for each in wrong]


def wrongs(program: Sequence[str], kind: str, vector: Vector) -> list[str]:
    """What a program does otherwise than a vector says."""
    found = []
    for run in runs_of(kind, vector):
        with tempfile.TemporaryDirectory() as folder:
            found += call(program, run, folder)
    return found
