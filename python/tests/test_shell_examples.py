"""The examples of the shell in python/README.md and docs/ROLLOVER.md, each run in an empty folder."""

from __future__ import annotations

import os
import pathlib
import re
import subprocess
import sys
from typing import List, Tuple

import pytest

from samples import ROOT, raw

TEXTS = [(ROOT / name).read_text(encoding="utf-8") for name in ("python/README.md", "docs/ROLLOVER.md")]
BLOCKS: List[str] = [each for text in TEXTS for each in re.findall(r"^```sh\n(.*?)^```", text, re.MULTILINE | re.DOTALL)]
COMMANDS = {
    "spectre": "",
    "zorimarl-ledger": "zorimarl.command",
    "zorimarl-sync": "zorimarl.sync_command",
    "zorimarl-rollover": "zorimarl.rollover_command",
}


def test_each_is_here() -> None:
    assert len(BLOCKS) == 2


def parts(text: str) -> List[Tuple[str, str]]:
    """Each command, which stands behind `$ `, and what it writes."""
    found: List[Tuple[str, str]] = []
    for line in text.splitlines():
        if line.startswith("$ "):
            found.append((line[2:], ""))
        else:
            found[-1] = found[-1][0], f"{found[-1][1]}{line}\n"
    return found


@pytest.mark.parametrize("number", range(len(BLOCKS)))
def test_example(number: int, tmp_path: pathlib.Path) -> None:
    tools, place = tmp_path / "tools", tmp_path / "place"
    tools.mkdir()
    place.mkdir()
    for name, module in COMMANDS.items():
        words = f'"{sys.executable}" -m {module}' if module else f'"{raw()}"'
        (tools / name).write_text(f'#!/bin/sh\nexec {words} "$@"\n')
        (tools / name).chmod(0o700)
    env = {**os.environ, "PATH": f"{tools}:{os.environ['PATH']}"}
    for command, output in parts(BLOCKS[number]):
        done = subprocess.run(["bash", "-c", command], cwd=place, env=env, capture_output=True, text=True, check=False)
        assert (done.returncode, done.stderr, done.stdout) == (0, "", output), command
