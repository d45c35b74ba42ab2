"""The program is found where it is named, set, beside the package, or on the PATH; and else it is said where it was looked for."""

from __future__ import annotations

import os
import pathlib
import shutil
import subprocess
import sys

import pytest

from samples import LAUNCHER, ROOT
from zorimarl import errors
from zorimarl.program import Program, find, is_launcher, ready


def script(path: pathlib.Path, text: str = "exit 0") -> str:
    path.parent.mkdir(parents=True, exist_ok=True)
    path.write_text(f"#!/bin/sh\n{text}\n")
    path.chmod(0o755)
    return str(path)


def found_by(package: pathlib.Path, **env: str) -> str:
    """The program that a package in this place finds, or what it says."""
    words = "from zorimarl.program import find\nfrom zorimarl.errors import NoProgram\ntry: print(find().path)\nexcept NoProgram as why: print(why)"
    kept = {name: value for name, value in os.environ.items() if name not in ("SPECTRE", "PATH", "PYTHONPATH")}
    done = subprocess.run([sys.executable, "-c", words], env={**kept, "PYTHONPATH": str(package), "PATH": "/nowhere", **env}, capture_output=True, check=True)
    return done.stdout.decode().strip()


def test_order(tmp_path: pathlib.Path, monkeypatch: pytest.MonkeyPatch) -> None:
    named, set_, on_path = (script(tmp_path / name / "spectre") for name in ("named", "set", "on path"))
    package = tmp_path / "checkout/python/src"
    shutil.copytree(ROOT / "python/src/zorimarl", package / "zorimarl")
    assert found_by(package, SPECTRE=set_, PATH=str(tmp_path / "on path")) == set_
    assert found_by(package, PATH=str(tmp_path / "on path")) == on_path
    own = script(tmp_path / "checkout/bin/spectre")
    assert found_by(package, PATH=str(tmp_path / "on path")) == on_path  # a folder with a program, and no repository
    (tmp_path / "checkout/crates.txt").write_text("")
    assert found_by(package, PATH=str(tmp_path / "on path")) == own
    monkeypatch.setenv("SPECTRE", set_)
    assert find(named) == Program(named, False) and find() == Program(set_, False)


def test_none(tmp_path: pathlib.Path) -> None:
    """Each place stands in what is said."""
    shutil.copytree(ROOT / "python/src/zorimarl", tmp_path / "zorimarl")
    said = found_by(tmp_path, PATH="/nowhere:/neither")
    places = "the variable SPECTRE isn't set; this package stands in no checkout of the repository; no folder of the PATH has spectre"
    assert said == f"there is no program spectre: {places}: /nowhere:/neither"
    assert found_by(tmp_path, SPECTRE="/no/such") == "the variable SPECTRE names /no/such, which is no program that can be started"
    (tmp_path / "plain").write_text("")
    for name in (tmp_path / "plain", tmp_path):
        with pytest.raises(errors.NoProgram, match="the call names"):
            find(name)
    with pytest.raises(errors.NoRequest):
        find("a\0b")


def test_launchers(tmp_path: pathlib.Path) -> None:
    assert is_launcher(str(LAUNCHER))
    (tmp_path / "link").symlink_to(LAUNCHER)
    assert is_launcher(str(tmp_path / "link"))
    assert not is_launcher(script(tmp_path / "script")) and not is_launcher(sys.executable) and not is_launcher("/no/such")


def test_ready_once(tmp_path: pathlib.Path) -> None:
    """A launcher may have to build: it is called for that once, and where it can't, that is the error."""
    notes = tmp_path / "notes"
    launcher = script(tmp_path / "spectre", f'echo "$*" >>{notes}\n: hold_file "$@"')
    assert ready(launcher) == ready(launcher) == Program(launcher, True)
    assert notes.read_text() == "make 0 0 1\n"
    with pytest.raises(errors.NotStarted):
        ready(script(tmp_path / "broken", 'exit 125\n: hold_file "$@"'))
