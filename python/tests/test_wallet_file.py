"""The file of a wallet: who may read it, what is no wallet, when a word is on the disk, and two processes on one file."""

import multiprocessing
import os
import re
import shutil
import sqlite3
import subprocess
import sys
from pathlib import Path
from typing import Iterator, List, Type

import pytest

from zorimarl.errors import LedgerError
from zorimarl.feeds import lock_of, locked
from zorimarl.ledger import Ledger, genesis
from zorimarl.payment import Outpoint
from zorimarl.wallet import Wallet
from zorimarl.wallet_errors import (
    NotPrivate,
    NoWallet,
    WalletBusy,
    WalletClosed,
    WalletDamaged,
    WalletError,
    WalletExists,
    WalletFault,
)


@pytest.fixture
def file(tmp_path: Path) -> Path:
    return tmp_path / "a.wallet"


def mode(path: Path) -> int:
    return path.stat().st_mode & 0o7777


def words_in(path: Path) -> List[bytes]:
    """The words of a wallet's file, read without the package."""
    database = sqlite3.connect(path)
    try:
        return [word for (word,) in database.execute("SELECT word FROM words ORDER BY number")]
    finally:
        database.close()


@pytest.fixture
def umask() -> Iterator[None]:
    before = os.umask(0)
    yield
    os.umask(before)


@pytest.mark.parametrize("taken", [0o000, 0o022, 0o177, 0o777])
def test_the_mode_is_600_whatever_the_umask(file: Path, umask: None, taken: int) -> None:
    os.umask(taken)
    with Wallet.create(file) as wallet:
        wallet.receive()
        assert {mode(each) for each in file.parent.iterdir()} == {0o600}


def test_nothing_else_is_left_beside(file: Path) -> None:
    """Once a word is committed the journal has no bytes, so that the file alone has all."""
    with Wallet.create(file) as wallet:
        assert [each.name for each in file.parent.iterdir()] == [file.name]
        lock = wallet.receive()
        beside = [each for each in file.parent.iterdir() if each != file]
        assert [each.name for each in beside] == [f"{file.name}-journal"] and beside[0].stat().st_size == 0
        copy = file.with_name("copy")
        shutil.copyfile(file, copy)
        assert lock_of(words_in(copy)[0]) == lock


def test_what_is_there_stays(file: Path) -> None:
    file.write_bytes(b"hello")
    with pytest.raises(WalletExists):
        Wallet.create(file)
    assert file.read_bytes() == b"hello" and len(list(file.parent.iterdir())) == 1


def test_a_link_that_leads_nowhere_isnt_followed(file: Path) -> None:
    file.symlink_to(file.with_name("elsewhere"))
    with pytest.raises(WalletExists):
        Wallet.create(file)
    assert not file.exists()


def test_no_folder(file: Path) -> None:
    with pytest.raises(WalletFault):
        Wallet.create(file / "b.wallet")
    with pytest.raises(NoWallet):
        Wallet.open(file / "b.wallet")


def make_other_database(file: Path) -> None:
    database = sqlite3.connect(file)
    database.execute("CREATE TABLE words (word)")
    database.close()


NOT_WALLETS = {
    "nothing": lambda file: None,
    "empty": lambda file: file.write_bytes(b""),
    "folder": lambda file: file.mkdir(mode=0o700),
    "pipe": lambda file: os.mkfifo(file, 0o600),
    "other database": make_other_database,
}


@pytest.mark.parametrize("kind", NOT_WALLETS)
def test_what_is_no_wallet(file: Path, kind: str) -> None:
    NOT_WALLETS[kind](file)
    if file.exists():
        file.chmod(0o600)
    with pytest.raises(NoWallet) as told:
        Wallet.open(file)
    assert str(file) in str(told.value) and isinstance(told.value, LedgerError)
    assert file.exists() == (kind != "nothing")


@pytest.mark.parametrize("bits", [0o640, 0o604, 0o620, 0o777])
def test_others_may_not_read_it(file: Path, bits: int) -> None:
    Wallet.create(file).close()
    file.chmod(bits)
    with pytest.raises(NotPrivate) as told:
        Wallet.open(file)
    assert f"{bits:o}" in str(told.value)


def test_a_text_is_damaged(file: Path) -> None:
    file.write_bytes(b"hello" * 1000)
    file.chmod(0o600)
    with pytest.raises(WalletDamaged):
        Wallet.open(file)


def test_a_cut_file_is_damaged(file: Path) -> None:
    with Wallet.create(file) as wallet:
        wallet.receive()
    os.truncate(file, file.stat().st_size // 2)
    with pytest.raises(WalletDamaged):
        Wallet.open(file)


def test_a_changed_word_is_found(file: Path) -> None:
    with Wallet.create(file) as wallet:
        wallet.receive()
        lock = wallet.receive()
    word = words_in(file)[1]
    data = file.read_bytes()
    assert data.count(word) >= 1
    file.write_bytes(data.replace(word, word[:-1] + bytes([word[-1] ^ 1])))
    with pytest.raises(WalletDamaged) as told:
        Wallet.open(file)
    assert lock.hex() in str(told.value) or "quick_check" in str(told.value) or "index" in str(told.value)


def test_the_other_name_of_a_making_that_was_killed_goes(file: Path) -> None:
    """One that is another wallet's stays."""
    Wallet.create(file).close()
    other, stays = file.with_name(f"{file.name}.0123.new"), file.with_name(f"{file.name}.4567.new")
    os.link(file, other)
    stays.write_bytes(b"")
    Wallet.open(file).close()
    assert not other.exists() and stays.exists() and file.stat().st_nlink == 1


def test_a_copy(file: Path) -> None:
    copy = file.with_name("copy")
    with Wallet.create(file) as wallet:
        lock = wallet.receive()
        wallet.copy(copy)
        wallet.receive()
        with pytest.raises(WalletExists):
            wallet.copy(file)
        with pytest.raises(WalletFault):
            wallet.copy(file / "copy")
    assert mode(copy) == 0o600
    with Wallet.open(copy) as other:
        assert [each.lock for each in other.locks()] == [lock]
    assert len(words_in(file)) == 2


def test_words_are_new_and_stay(file: Path) -> None:
    with Wallet.create(file) as wallet:
        shown = [wallet.receive() for _ in range(20)]
    words = words_in(file)
    assert [lock_of(word) for word in words] == shown and len(set(words)) == 20
    assert {len(word) for word in words} == {32}
    with Wallet.open(file) as wallet:
        assert [each.lock for each in wallet.locks()] == shown
        assert not any(each.is_change or each.burnt for each in wallet.locks())


def test_a_closed_one_says_so(file: Path) -> None:
    wallet = Wallet.create(file)
    wallet.close()
    wallet.close()
    with pytest.raises(WalletClosed):
        wallet.receive()
    with pytest.raises(WalletClosed):
        wallet.locks()


def test_a_fork_has_to_open_it_anew(file: Path) -> None:
    wallet = Wallet.create(file)
    child = os.fork()
    if not child:
        try:
            wallet.receive()
        except WalletClosed:
            os._exit(7)
        os._exit(1)
    assert os.waitstatus_to_exitcode(os.waitpid(child, 0)[1]) == 7
    assert wallet.receive() == lock_of(words_in(file)[0])


def test_nothing_is_left_open(file: Path) -> None:
    Wallet.create(file).close()
    before = len(os.listdir("/proc/self/fd"))
    for _ in range(50):
        with Wallet.open(file) as wallet:
            wallet.locks()
        with pytest.raises(NoWallet):
            Wallet.open(file.with_name("none"))
        with pytest.raises(WalletExists):
            Wallet.create(file)
    file.chmod(0o644)
    for _ in range(50):
        with pytest.raises(NotPrivate):
            Wallet.open(file)
    assert len(os.listdir("/proc/self/fd")) == before


# When a word is on the disk

RECEIVE = "import sys; from zorimarl.wallet import Wallet; w = Wallet.open(sys.argv[1]); w.receive(); print(w.receive().hex(), flush=True)"


def test_a_word_is_synced_before_its_lock_is_shown(file: Path, tmp_path: Path) -> None:
    """Behind the last write to the file stand its sync, the cut of the journal, the sync of that, and then the
    lock."""
    Wallet.create(file).close()
    trace = tmp_path / "trace"
    kinds = "write,pwrite64,fsync,fdatasync,ftruncate"
    words = ["strace", "-f", "-y", "-qq", "-e", f"trace={kinds}", "-o", str(trace), sys.executable, "-c", RECEIVE, str(file)]
    if not shutil.which("strace") or subprocess.run(["strace", "-qq", "-o", "/dev/null", "true"]).returncode:
        pytest.skip("the syncs before a lock is shown, since there is no strace, or it may not trace")
    lock = subprocess.run(words, capture_output=True, check=True, text=True).stdout.strip()
    calls = [found for found in map(re.compile(r"\d+ +(\w+)\(\d+<([^>]*)>(.*)").match, trace.read_text().splitlines()) if found]
    seen = [(each[1].replace("fdatasync", "fsync"), each[2], each[3]) for each in calls]
    shown = next(at for at, (_, _, rest) in enumerate(seen) if lock[:20] in rest)
    journal = f"{file}-journal"
    before = [(kind, name) for kind, name, _ in seen[:shown] if name in (str(file), journal)]
    written = max(at for at, each in enumerate(before) if each == ("pwrite64", str(file)))
    assert before[written + 1:] == [("fsync", str(file)), ("ftruncate", journal), ("fsync", journal)]
    first = min(at for at, each in enumerate(before) if each == ("pwrite64", str(file)))
    assert ("fsync", journal) in before[:first], "the journal is synced before the file is written"


FULL = """
import resource, signal, sys
from zorimarl.wallet import Wallet
from zorimarl.wallet_errors import WalletFault
signal.signal(signal.SIGXFSZ, signal.SIG_IGN)
wallet = Wallet.open(sys.argv[1])
resource.setrlimit(resource.RLIMIT_FSIZE, (int(sys.argv[2]), resource.RLIM_INFINITY))
try:
    while True:
        print(wallet.receive().hex(), flush=False)
except WalletFault:
    resource.setrlimit(resource.RLIMIT_FSIZE, (resource.RLIM_INFINITY, resource.RLIM_INFINITY))
    print(wallet.receive().hex())
"""


def test_nothing_is_shown_where_there_is_no_room(file: Path) -> None:
    """And once there is room again, it goes on."""
    with Wallet.create(file) as wallet:
        wallet.receive()
    done = subprocess.run([sys.executable, "-c", FULL, str(file), "65536"], capture_output=True, text=True, check=True)
    shown = [bytes.fromhex(each) for each in done.stdout.split()]
    assert len(shown) > 20
    with Wallet.open(file) as wallet:
        assert [each.lock for each in wallet.locks()][1:] == shown


# Two processes on one file


def receive_many(file: Path, count: int, told: "multiprocessing.Queue[List[bytes]]") -> None:
    with Wallet.open(file) as wallet:
        told.put([wallet.receive() for _ in range(count)])


def test_processes_side_by_side_have_no_word_in_common(file: Path) -> None:
    Wallet.create(file).close()
    told: "multiprocessing.Queue[List[bytes]]" = multiprocessing.Queue()
    runs = [multiprocessing.Process(target=receive_many, args=(file, 25, told)) for _ in range(4)]
    for each in runs:
        each.start()
    shown = [lock for _ in runs for lock in told.get(timeout=120)]
    for each in runs:
        each.join()
    assert len(set(shown)) == 100
    with Wallet.open(file) as wallet:
        assert {each.lock for each in wallet.locks()} == set(shown)


def pay_many(file: Path, journal: Path, count: int, told: "multiprocessing.Queue[List[Outpoint]]") -> None:
    with Wallet.open(file) as wallet, Ledger(journal, timeout=60) as ledger:
        told.put([each for _ in range(count) for each in wallet.pay(ledger, lock_of(b"bob"), 1).tx.spent])


def test_processes_side_by_side_pay_by_other_coins(file: Path, tmp_path: Path) -> None:
    """Each of them has a node of its own, of one ledger."""
    told: "multiprocessing.Queue[List[Outpoint]]" = multiprocessing.Queue()
    with Wallet.create(file) as wallet:
        first = genesis([locked([], [(2, wallet.receive())]) for _ in range(40)])
    for name in ("one", "other"):
        Ledger(tmp_path / name, first, bits=0, timeout=60).close()
    runs = [multiprocessing.Process(target=pay_many, args=(file, tmp_path / name, 15, told)) for name in ("one", "other")]
    for each in runs:
        each.start()
    spent = [outpoint for _ in runs for outpoint in told.get(timeout=120)]
    for each in runs:
        each.join()
    assert len(spent) == 30 and len(set(spent)) == 30
    with Wallet.open(file) as wallet:
        assert len(wallet.payments()) == 30 and sum(each.burnt for each in wallet.locks()) == 30


def test_one_that_waits_too_long_says_so(file: Path) -> None:
    with Wallet.create(file) as wallet, Wallet.open(file, timeout=0.1) as other:
        with wallet.store.change():
            with pytest.raises(WalletBusy) as told:
                other.receive()
        assert str(file) in str(told.value)
        other.receive()
    assert len(words_in(file)) == 1


def make_one(file: Path, told: "multiprocessing.Queue[str]") -> None:
    try:
        Wallet.create(file).close()
        told.put("made")
    except WalletExists:
        told.put("there")


def test_one_of_many_makes_it(file: Path) -> None:
    told: "multiprocessing.Queue[str]" = multiprocessing.Queue()
    runs = [multiprocessing.Process(target=make_one, args=(file, told)) for _ in range(6)]
    for each in runs:
        each.start()
    assert sorted(told.get(timeout=60) for _ in runs) == ["made"] + ["there"] * 5
    for each in runs:
        each.join()
    assert [each.name for each in file.parent.iterdir()] == [file.name]
    Wallet.open(file).close()


def classes(top: Type[LedgerError]) -> List[Type[LedgerError]]:
    return [each for below in top.__subclasses__() for each in [below, *classes(below)]]


def test_the_errors_are_one_tree() -> None:
    assert len(classes(WalletError)) == 7 and issubclass(WalletError, LedgerError)
