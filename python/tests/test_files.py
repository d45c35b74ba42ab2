"""Journals: what is found in them again, which are refused, and the lock."""

from __future__ import annotations

import fcntl
import os
import pathlib
import shutil
import subprocess

import pytest

from conftest import Opener
from samples import A, B, C, G, ID_A, ID_B, LAUNCHER, START, raw, shown
from zorimarl import errors
from zorimarl.blocks import EMPTY
from zorimarl.feeds import block, read_feed, sha256
from zorimarl.ledger import Ledger


def test_kept(opened: Opener, file: str) -> None:
    with opened() as ledger:
        ledger.offer(A), ledger.offer(C)
    with Ledger(file) as ledger:
        assert (ledger.bits, ledger.profile, ledger.genesis_id) == (0, 1, G)
        assert [ledger.offer(each).standing for each in (A, C, B)] == ["known", "known", "present"]
    assert shown(file)[:2] == ["recovered 3", "blocks 4 waiting 0"]


def test_other_chain(opened: Opener) -> None:
    opened().close()
    with pytest.raises(errors.OtherChain) as caught:
        opened(EMPTY, bits=3)
    assert (caught.value.numbers, caught.value.ids) == ([0, 1, 3, 1], [G, sha256(EMPTY)])


@pytest.mark.parametrize("profile, word", [(1, "tie"), (2, "before")])
def test_profiles(opened: Opener, file: str, profile: int, word: str) -> None:
    """The block on two tied ones settles the tie in profile 2, and a journal stays of its profile."""
    with opened(profile=profile) as ledger:
        ledger.offer(A), ledger.offer(B)
        assert ledger.vote(ID_A, ID_B).word == "tie"
        ledger.offer(block(4, sorted([ID_A, ID_B])))
        assert ledger.vote(ID_A, ID_B).word == word
    with Ledger(file) as ledger:
        assert (ledger.profile, ledger.vote(ID_A, ID_B).word) == (profile, word)
    with pytest.raises(errors.OtherChain) as caught:
        Ledger(file, profile=3 - profile)
    assert caught.value.numbers == [0, profile, 0, 3 - profile]


def test_other_bytes(opened: Opener, file: str) -> None:
    pathlib.Path(file).write_bytes(b"hello, this is no journal")
    with pytest.raises(errors.NotJournal):
        Ledger(file)
    with pytest.raises(errors.NoGenesis):
        Ledger(file, fresh=True)
    with opened(fresh=True) as ledger:
        ledger.offer(A)
    with Ledger(file, fresh=True) as ledger:
        assert ledger.offer(A).standing == "known"


def test_damaged(opened: Opener, file: str) -> None:
    with opened() as ledger:
        ledger.offer(A)
    data = pathlib.Path(file).read_bytes()
    pathlib.Path(file).write_bytes(data[:-3])
    with pytest.raises(errors.Damaged) as caught:
        Ledger(file)
    assert caught.value.place == len(data) - len(A) - 6
    assert str(caught.value).startswith(f"{file}: the vote on") or str(caught.value).startswith(f"{file}: the start")


def test_no_genesis(file: str) -> None:
    with pytest.raises(errors.NoGenesis):
        Ledger(file)
    assert not os.path.exists(file)


@pytest.mark.parametrize("more", [{"genesis": b"x"}, {"genesis": "x"}, {"bits": 65}, {"bits": -1}, {"bits": "3"}, {"profile": 3}, {"profile": "1"}])
def test_no_heads(file: str, more: dict[str, object]) -> None:
    with pytest.raises(errors.LedgerError):
        Ledger(file, **{"genesis": START, **more})  # type: ignore[arg-type]
    assert not os.path.exists(file)


def test_in_use(opened: Opener, file: str) -> None:
    ledger = opened()
    before = pathlib.Path(file).read_bytes()
    with pytest.raises(errors.InUse):
        Ledger(file)
    assert pathlib.Path(file).read_bytes() == before
    with open(file, "rb") as other, pytest.raises(BlockingIOError):
        fcntl.flock(other, fcntl.LOCK_SH | fcntl.LOCK_NB)
    ledger.close()
    with open(file, "rb") as other:
        fcntl.flock(other, fcntl.LOCK_SH)
        with pytest.raises(errors.InUse):
            Ledger(file)
    Ledger(file).close()


def installed(folder: pathlib.Path) -> str:
    """The launcher with the program, as `bin/install` puts them, alone."""
    for name in ("bin", "lib/spectre"):
        (folder / name).mkdir(parents=True)
    shutil.copy(LAUNCHER, folder / "bin/spectre")
    shutil.copy(raw(), folder / "lib/spectre/spectre")
    return str(folder / "bin/spectre")


@pytest.mark.parametrize("by_script", [False, True])
def test_a_launcher_locks(file: str, tmp_path: pathlib.Path, by_script: bool) -> None:
    """The launcher, also where a script of another name leads to it, holds the lock itself; each keeps the other off."""
    launcher = program = installed(tmp_path / "at")
    if by_script:
        program = str(tmp_path / "leads.sh")
        pathlib.Path(program).write_text(f'#!/bin/sh\nexec {launcher} "$@"\n')
        os.chmod(program, 0o700)
    with Ledger(file, START, 0, program=program) as ledger:
        ledger.offer(A)
        assert subprocess.run([launcher, "show", file], capture_output=True, check=False).returncode == 124
        with pytest.raises(errors.InUse):
            Ledger(file, program=program)
        with pytest.raises(errors.InUse):
            Ledger(file, program=raw())
    with Ledger(file, program=raw()):
        with pytest.raises(errors.InUse):
            Ledger(file, program=program)
        assert subprocess.run([launcher, "show", file], capture_output=True, check=False).returncode == 124


def test_a_folder(opened: Opener, tmp_path: pathlib.Path) -> None:
    with pytest.raises(errors.DiskFault):
        Ledger(tmp_path, START, 0)


def test_a_full_device() -> None:
    with pytest.raises(errors.DiskFault):
        Ledger("/dev/full", START, 0)


def test_no_file(tmp_path: pathlib.Path, monkeypatch: pytest.MonkeyPatch) -> None:
    monkeypatch.chdir(tmp_path)
    for name in ("-x", ""):
        with pytest.raises(errors.Usage) as caught:
            Ledger(name, START, 0)
        assert "usage" in caught.value.said
    with pytest.raises(errors.LedgerError):
        Ledger("a\0b", START, 0)
    assert os.listdir(tmp_path) == []


def test_another_folder(opened: Opener, tmp_path: pathlib.Path, monkeypatch: pytest.MonkeyPatch) -> None:
    """A ledger's name stays that of the same file, wherever the process goes."""
    (tmp_path / "other").mkdir()
    monkeypatch.chdir(tmp_path)
    with Ledger("relative", START, 0) as ledger:
        monkeypatch.chdir(tmp_path / "other")
        ledger.offer(A)
        assert [each.id for each in ledger.blocks()] == [G, ID_A]
        ledger.kill()
        ledger.reopen()
        assert ledger.offer(A).standing == "known"
    assert os.listdir(tmp_path / "other") == []


def test_copies(opened: Opener, file: str, tmp_path: pathlib.Path) -> None:
    """A snapshot and a feed of a ledger at work have what was acknowledged."""
    with opened() as ledger:
        ledger.offer(A), ledger.offer(B)
        ledger.snapshot(tmp_path / "copy")
        assert shown(str(tmp_path / "copy"))[0] == "recovered 2"
        for profile in (1, 2):
            first, frames = read_feed(ledger.export(profile))
            assert (first.profile, first.genesis, [each.payload for each in frames]) == (profile, START, [A, B])
        assert ledger.export() == ledger.export(1)
        ledger.offer(C)
        assert shown(str(tmp_path / "copy"))[0] == "recovered 2"
        for name in ("copy", "no folder/copy", "."):
            with pytest.raises(errors.FileFault):
                ledger.snapshot(tmp_path / name)
        with pytest.raises(errors.NoRequest):
            ledger.export(3)
    assert sorted(os.listdir(tmp_path)) == ["copy", "journal"]
