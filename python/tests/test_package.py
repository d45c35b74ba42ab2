"""The package is installed with no network, and its commands work from another folder, with the program on the PATH."""

from __future__ import annotations

import importlib.util
import os
import pathlib
import shutil
import subprocess
import sys
from typing import Dict

import pytest

import zorimarl
from samples import EXAMPLES, LAUNCHER, ROOT, START, raw


def made_without_network(folder: pathlib.Path) -> Dict[str, str]:
    """An environment with the package in it, an empty home, and on the PATH a launcher with the program."""
    if importlib.util.find_spec("setuptools") is None or importlib.util.find_spec("wheel") is None:
        pytest.skip("an installation, since there is no setuptools with wheel")
    (folder / "home").mkdir()
    env = {"HOME": str(folder / "home"), "PATH": f"{folder}/prefix/bin:/usr/bin:/bin", "PYTHONDONTWRITEBYTECODE": "1"}
    source = folder / "source"
    shutil.copytree(ROOT / "python", source, ignore=shutil.ignore_patterns("build", "*.egg-info", "__pycache__"))
    base = os.path.realpath(sys.executable)
    subprocess.run([base, "-m", "venv", "--system-site-packages", "--without-pip", f"{folder}/venv"], env=env, check=True)
    words = [f"{folder}/venv/bin/python", "-m", "pip", "install", "--no-build-isolation", "--no-index", "--quiet", str(source)]
    done = subprocess.run(words, env=env, capture_output=True, text=True, check=False)
    assert done.returncode == 0, done.stderr
    for name in ("bin", "lib/spectre"):
        (folder / "prefix" / name).mkdir(parents=True)
    shutil.copy(LAUNCHER, folder / "prefix/bin/spectre")
    shutil.copy(raw(), folder / "prefix/lib/spectre/spectre")
    return env


def test_installed(tmp_path: pathlib.Path) -> None:
    env = made_without_network(tmp_path)
    (tmp_path / "elsewhere").mkdir()

    def run(name: str, *words: str, **more: str) -> "subprocess.CompletedProcess[str]":
        command = [f"{tmp_path}/venv/bin/{name}", *words]
        return subprocess.run(command, cwd=tmp_path / "elsewhere", env={**env, **more}, capture_output=True, text=True, check=False)

    told = run("python", "-c", "import zorimarl, zorimarl.program as p; print(zorimarl.__file__, zorimarl.__version__, p.find().path)").stdout.split()
    assert told[0].startswith(f"{tmp_path}/venv/") and told[1:] == [zorimarl.__version__, f"{tmp_path}/prefix/bin/spectre"]
    assert pathlib.Path(told[0]).with_name("py.typed").exists()
    done = run("zorimarl-ledger", "its.journal", "--genesis", START.hex(), "report")
    assert (done.returncode, done.stderr) == (0, "") and '"present": 1' in done.stdout
    assert run("zorimarl-explore", "its.journal", "-o", "page.html").returncode == 0
    assert "<script>" in (tmp_path / "elsewhere/page.html").read_text(encoding="utf-8")
    assert run("zorimarl-explore", str(EXAMPLES / "double_spend.txt"), "-o", "scenario.html").returncode == 0
    done = run("zorimarl-ledger", "its.journal", "report", PATH="/usr/bin:/bin")
    assert done.returncode == 2 and "no folder of the PATH has spectre: /usr/bin:/bin" in done.stdout
    assert run("zorimarl-explore", "its.journal", PATH="/usr/bin:/bin").stderr.startswith("zorimarl-explore: there is no program spectre")
    assert os.listdir(tmp_path / "home") == []


def test_by_pipx(tmp_path: pathlib.Path) -> None:
    if shutil.which("pipx") is None:
        pytest.skip("an installation by pipx, since there is none")
    env = {**os.environ, "PIPX_HOME": str(tmp_path / "home"), "PIPX_BIN_DIR": str(tmp_path / "bin"), "HOME": str(tmp_path)}
    words = ["pipx", "install", "--system-site-packages", "--pip-args=--no-build-isolation --no-index", str(ROOT / "python")]
    subprocess.run(words, env=env, check=True, capture_output=True)
    assert subprocess.run([tmp_path / "bin/zorimarl-ledger", "--help"], env=env, capture_output=True, check=False).returncode == 0


def test_version() -> None:
    """That of the repository."""
    assert zorimarl.__version__ == (ROOT / "VERSION").read_text(encoding="utf-8").strip()
