"""Two nodes tell each other their blocks: alike afterwards, wherever an exchange ends in between."""

from __future__ import annotations

import os
import pathlib
import random
import re
import subprocess
import tempfile
import time
from typing import List

import pytest
from hypothesis import given, settings
from hypothesis import strategies as st

from drawn import Drawn, ledgers
from samples import A, B, C, ROOT, START, replayed
from sync_world import COMMAND, ONE, OTHER, WAITS, both, copied, hear, made, report, side, synced
from zorimarl import errors, sync_errors
from zorimarl.blocks import block, genesis, sha256
from zorimarl.ledger import Ledger
from zorimarl.sync import carry, parents_first


@pytest.mark.parametrize("profile", [1, 2])
def test_two_processes(profile: int, tmp_path: pathlib.Path) -> None:
    """Over real pipes: what each lacks is sent, a block that waited becomes present, and both report alike."""
    one, other = made(tmp_path / "one", ONE, profile), made(tmp_path / "other", OTHER, profile)
    done = synced(one, other)
    assert done.returncode == 0 and done.stdout == b""
    told = sorted(done.stderr.decode().splitlines())
    assert told == [
        "zorimarl-sync: took 1, sent 3, lacking 0; present 7, waiting 0",
        "zorimarl-sync: took 3, sent 1, lacking 0; present 7, waiting 0",
    ]
    assert report(one) == report(other) and len(report(one)) > 4
    again = synced(other, one)
    assert again.returncode == 0 and again.stderr.count(b"took 0, sent 0") == 2


@pytest.mark.parametrize("profile", [1, 2])
@settings(max_examples=12)
@given(ledgers(), ledgers(), st.randoms(use_true_random=False))
def test_drawn(profile: int, first: Drawn, second: Drawn, chance: random.Random) -> None:
    """Any parts of a drawn ledger on either side: both keep all of it, also what waits."""
    with tempfile.TemporaryDirectory() as name:
        folder = pathlib.Path(name)
        parts: List[List[bytes]] = [[each for each in first.blocks if chance.random() < 0.6] for _ in range(2)]
        files = [made(folder / str(number), part, profile, first.genesis) for number, part in enumerate(parts)]
        with Ledger(files[0]) as one, Ledger(files[1]) as other:
            done = both(one, other)
            assert {each.id for each in one.blocks()} == {each.id for each in other.blocks()}
            assert len(one.blocks()) == 1 + len(set(parts[0]) | set(parts[1]))
            assert done.one.took == done.other.sent and done.one.sent == done.other.took
        assert report(files[0]) == report(files[1])


def stream_of(one: str, other: str) -> bytes:
    """All that the other side sends to the one, taken down on copies of both."""
    with Ledger(one) as ledger:
        listed = carry(ledger)[1]
    with Ledger(other) as ledger:
        return carry(ledger, listed)[1]


def test_end_at_each_byte(tmp_path: pathlib.Path) -> None:
    """What comes ends behind each number of its bytes: what was whole is kept, the end is named with its place, and
    the next exchange makes both alike."""
    one, other = made(tmp_path / "one", ONE), made(tmp_path / "other", OTHER)
    stream = stream_of(copied(one, tmp_path / "one copy"), copied(other, tmp_path / "other copy"))
    assert 700 < len(stream) < 2_000
    kept = set()
    with Ledger(other) as whole:
        for count in range(len(stream)):
            file = copied(one, tmp_path / f"cut {count}")
            with Ledger(file) as ledger:
                with pytest.raises(sync_errors.PeerEnded) as why:
                    hear(ledger, stream[:count])
                assert why.value.place == count and why.value.file == file
                kept.add(len(ledger.blocks()))
                both(ledger, whole)
                assert len(ledger.blocks()) == len(whole.blocks()) == 7
                assert ledger.report() == whole.report()
            os.unlink(file)
    assert kept == {4, 5, 6, 7}


def test_killed_processes(tmp_path: pathlib.Path) -> None:
    """Both sides are processes, and what is between them is cut behind drawn numbers of bytes in either direction, and
    both are killed; then once more, whole."""
    one, other = made(tmp_path / "one", ONE), made(tmp_path / "other", OTHER)
    chance = random.Random(7)
    for number in range(8):
        files = [copied(each, tmp_path / f"{number} {place}") for place, each in enumerate((one, other))]
        cut_between(files[0], files[1], [chance.randrange(900), chance.randrange(900)])
        assert synced(files[0], files[1]).returncode == 0
        assert report(files[0]) == report(files[1])


def cut_between(one: str, other: str, most: List[int]) -> None:
    """Hands on so many bytes in each direction, and kills both once nothing moves any more."""
    sides = [side(one), side(other)]
    for each in sides:
        assert each.stdout
        os.set_blocking(each.stdout.fileno(), False)
    passed, moved = [0, 0], time.monotonic()
    while time.monotonic() < moved + (0.5 if any(passed) else 20) and any(passed[at] < most[at] for at in range(2)):
        for at, (source, target) in enumerate((sides, sides[::-1])):
            assert source.stdout and target.stdin
            try:
                piece = os.read(source.stdout.fileno(), most[at] - passed[at])
                passed[at] += os.write(target.stdin.fileno(), piece)
                moved = time.monotonic() if piece else moved
            except (BlockingIOError, BrokenPipeError):
                time.sleep(0.002)
    for each in sides:
        each.kill()
        each.communicate()


@pytest.mark.parametrize("profile", [1, 2])
def test_by_hand(profile: int, tmp_path: pathlib.Path) -> None:
    """Three files are carried, and the first of them is cut once; any node can read one, too."""
    one, other = made(tmp_path / "one", ONE, profile), made(tmp_path / "other", OTHER, profile)
    names = [str(tmp_path / f"{number}.feed") for number in range(4)]
    words = [[one, "--write", names[0]], [other, "--read", names[0], "--write", names[1]], [one, "--read", names[1], "--write", names[2]]]
    for each in words:
        done = subprocess.run([*COMMAND, *each], capture_output=True, check=False)
        assert done.returncode == 0, done.stderr
    last = pathlib.Path(names[2]).read_bytes()
    pathlib.Path(names[3]).write_bytes(last[:-20])
    done = subprocess.run([*COMMAND, other, "--read", names[3]], capture_output=True, check=False)
    assert done.returncode == 1 and b"PeerEnded" in done.stderr and report(one) != report(other)
    done = subprocess.run([*COMMAND, other, "--read", names[2]], capture_output=True, check=False)
    assert done.returncode == 0 and b"took 1, sent 0, lacking 0" in done.stderr
    assert report(one) == report(other)
    lines = replayed(pathlib.Path(names[1]).read_bytes())
    assert [line for line in lines if line.startswith("kept")] and not any(line.startswith("fault") for line in lines)
    assert not list(tmp_path.glob("*.part"))


def test_many_large_blocks(tmp_path: pathlib.Path) -> None:
    """More bytes than pipes hold, in both directions at once, up to the last block for which there is room."""
    chains: List[List[bytes]] = [[], []]
    for number, chain in enumerate(chains):
        last = sha256(START)
        for salt in range(255 + number):
            chain.append(block(1_000 * number + salt, [last] + [sha256(each) for each in chain[-63:-1]]))
            last = sha256(chain[-1])
    one, other = (made(tmp_path / str(number), chain) for number, chain in enumerate(chains))
    with Ledger(one) as first, Ledger(other) as second:
        done = both(first, second)
        assert (done.one.took, done.other.took, done.one.present) == (256, 255, 512)
        assert first.report() == second.report() and first.full


def test_order(tmp_path: pathlib.Path) -> None:
    """Parents stand before children, whatever order they were kept in."""
    with Ledger(made(tmp_path / "one", [WAITS, *reversed(OTHER)])) as ledger:
        found = [each.id for each in parents_first(ledger.blocks())]
        assert len(found) == 7
        for each in ledger.blocks():
            assert all(found.index(parent) < found.index(each.id) for parent in each.parents)
    with Ledger(made(tmp_path / "other", [WAITS])) as ledger:  # one that waits may stand before genesis
        assert {each.id for each in parents_first(ledger.blocks())} == {ledger.genesis_id, sha256(WAITS)}


def test_words(tmp_path: pathlib.Path) -> None:
    """What can't be is said before anything is done, and each end has its status."""
    one, other = made(tmp_path / "one", [A, B]), made(tmp_path / "other", [C])
    wrong: List[List[str]] = [[one, "--"], [one, "--read", "x", "--", "true"], [one, "--timeout", "0"], [one, "--most", "-1"], []]
    for words in wrong:
        assert subprocess.run([*COMMAND, *words], capture_output=True, check=False).returncode == 2
    asked = {
        "NoGenesis": [str(tmp_path / "new")],
        "NoRequest": [str(tmp_path / "new"), "--genesis", "xy"],
        "FileFault": [one, "--read", str(tmp_path / "no such")],
        "NotJournal": [str(ROOT / "README.md")],
    }
    for name, given_words in asked.items():
        done = subprocess.run([*COMMAND, *given_words], stdin=subprocess.DEVNULL, capture_output=True, check=False)
        assert done.returncode == 2 and f"zorimarl-sync: {name}: " in done.stderr.decode(), done.stderr
    for command in (["/no/such"], ["true"], ["false"], ["sleep", "60"]):
        begun = time.monotonic()
        done = subprocess.run([*COMMAND, one, "--timeout", "0.5", "--", *command], capture_output=True, check=False)
        assert done.returncode == (2 if command == ["/no/such"] else 1) and time.monotonic() - begun < 30
    with Ledger(other):
        done = synced(one, other)
        assert done.returncode == 1 and b"InUse" in done.stderr and b"PeerEnded" in done.stderr
    assert len(report(one)) == len(report(one)) and report(one)[0] == "blocks 3 waiting 0"


def test_a_new_side(tmp_path: pathlib.Path) -> None:
    """A side without a journal begins with the genesis block that it is told, or with a plain node and a file."""
    one, other, third = made(tmp_path / "one", OTHER), str(tmp_path / "other"), str(tmp_path / "third")
    done = subprocess.run([*COMMAND, other, "--genesis", START.hex(), "--", *COMMAND, one], capture_output=True, check=False)
    assert done.returncode == 0 and report(one) == report(other)
    with Ledger(one) as ledger:
        stream = carry(ledger, carry(ledger)[1])[1]
    with Ledger(third, START, 0) as ledger, Ledger(one) as whole:
        with pytest.raises(errors.NoRequest):
            carry(ledger, stream, -1)
        both(ledger, whole)
    assert report(one) == report(third)


def test_help() -> None:
    done = subprocess.run([*COMMAND, "--help"], capture_output=True, text=True, check=False)
    assert done.returncode == 0 and re.search("The status is 0 where all was taken", done.stdout)


def test_other_ledgers(tmp_path: pathlib.Path) -> None:
    """Two ledgers that differ in their head take nothing of each other."""
    one = made(tmp_path / "one", [A, B])
    others = {
        "another profile": Ledger(tmp_path / "profile", START, 0, 2),
        "other bits of work": Ledger(tmp_path / "bits", START, 3, 1),
        "another genesis block": Ledger(tmp_path / "genesis", genesis(), 0, 1),
    }
    for what, ledger in others.items():
        ledger.close()
        done = synced(one, ledger.file)
        assert done.returncode == 1 and f"OtherLedger: {one}: the exchange: the other side's ledger has {what}" in done.stderr.decode()
        assert report(ledger.file)[0] == "blocks 1 waiting 0" and report(one)[0] == "blocks 3 waiting 0"
