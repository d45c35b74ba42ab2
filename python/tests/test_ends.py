"""Each way in which the program ends has an error of its own, and `reopen` goes on behind it."""

from __future__ import annotations

import os
import signal
from typing import Callable, List

import pytest

from conftest import Opener
from samples import A, B, C, G, ID_A, START, instead
from zorimarl import errors
from zorimarl.feeds import block, frame, head
from zorimarl.ledger import Ledger
from zorimarl.talk import Talk, close


def test_malformed(opened: Opener) -> None:
    ledger = opened()
    ledger.talk.send(b"Z")
    with pytest.raises(errors.Malformed) as caught:
        ledger.report()
    assert caught.value.place == len(head(START)) + len(frame(b"V", bytes(64)))
    with pytest.raises(errors.Closed):
        ledger.report()
    with pytest.raises(errors.Closed):
        ledger.blocks()
    ledger.close()


def test_truncated(opened: Opener) -> None:
    ledger = opened()
    ledger.offer(A)
    ledger.talk.send(b"R\0")
    while ledger.talk.unsent:
        ledger.talk.push()
    close(ledger.talk.to)
    with pytest.raises(errors.Truncated):
        ledger.talk.fail()


def test_killed(opened: Opener, file: str) -> None:
    ledger = opened()
    ledger.offer(A)
    os.kill(ledger.talk.process.pid, signal.SIGKILL)
    with pytest.raises(errors.Killed) as caught:
        ledger.offer(B)
    assert caught.value.code == -signal.SIGKILL and caught.value.file == file
    assert not ledger.is_open
    with Ledger(file) as again:
        assert again.offer(A).standing == "known"


def test_stopped(opened: Opener) -> None:
    ledger = opened()
    os.kill(ledger.talk.process.pid, signal.SIGSTOP)
    with pytest.raises(errors.NoAnswer):
        ledger.report(timeout=0.3)
    assert ledger.reopen() == [] and ledger.report().present == 1
    ledger.talk.timeout = 0.1
    os.kill(ledger.talk.process.pid, signal.SIGSTOP)
    with pytest.raises(errors.NoAnswer):
        ledger.report()
    ledger.reopen()
    os.kill(ledger.talk.process.pid, signal.SIGSTOP)
    with pytest.raises(errors.NoAnswer):
        ledger.close(timeout=0.1)


def test_interrupted(opened: Opener) -> None:
    """An interrupt ends the program, so that no answer goes to another question."""
    ledger = opened()

    def interrupt(*_: object) -> None:
        raise KeyboardInterrupt

    before = signal.signal(signal.SIGALRM, interrupt)
    try:
        os.kill(ledger.talk.process.pid, signal.SIGSTOP)
        with pytest.raises(KeyboardInterrupt):
            signal.setitimer(signal.ITIMER_REAL, 0.5)
            ledger.offer(A)
    finally:
        signal.signal(signal.SIGALRM, before)
    assert not ledger.is_open
    (again,) = ledger.reopen()
    assert not isinstance(again, errors.Refused) and again.block == ID_A
    assert ledger.report().present == 2


@pytest.mark.parametrize("code", [*errors.CODES, 0, 16, 99])
def test_codes(opened: Opener, file: str, code: int) -> None:
    """Each exit code, by a script."""
    with instead(f"exit {code}"), pytest.raises(errors.Ended) as caught:
        opened()
    assert type(caught.value) is errors.CODES.get(code, errors.EndedEarly)
    assert (caught.value.code, caught.value.file) == (code, file)
    assert file in str(caught.value) and f"exit code {code}" in str(caught.value)


IDS = "ab" * 32


@pytest.mark.parametrize(
    "text, error, numbers, cut",
    [
        ("echo fault too-long 4294967295; exit 11", errors.TooLong, [4294967295], b""),
        (f"echo fault other-chain 8 {IDS} 1 0 {IDS} 2; exit 8", errors.OtherChain, [8, 1, 0, 2], b""),
        ("echo fault line 7 late; exit 2", errors.BadLine, [7], b""),
        ("printf 'vote 12'; exit 9", errors.Memory, [], b"vote 12"),
        ("printf 'vote 12'; exit 5", errors.WriteFault, [], b"vote 12"),
        ("printf 'vote 12'; kill -9 $$", errors.CutLine, [], b"vote 12"),
        ("printf 'vote 12'", errors.CutLine, [], b"vote 12"),
        ("echo fault malformed x; exit 2", errors.Malformed, [], b""),
    ],
)
def test_lines(opened: Opener, text: str, error: type, numbers: list[int], cut: bytes) -> None:
    """Fault lines that can't be had otherwise, and lines that are cut, by a script."""
    with instead(text), pytest.raises(errors.Ended) as caught:
        opened()
    assert type(caught.value) is error
    assert (caught.value.numbers, caught.value.cut) == (numbers, cut)


@pytest.mark.parametrize("line", ["", "vote", "kept " + "0" * 64, f"vote {G.hex()} {G.hex()} tied", f"vote {G.hex()} {ID_A.hex()} same"])
def test_other_lines(opened: Opener, line: str) -> None:
    """Lines that aren't the answer, by a script."""
    with instead(f"echo '{line}'; exec sleep 9"), pytest.raises(errors.Unexpected) as caught:
        opened()
    assert caught.value.answer == line


def answering(lines: str) -> str:
    """A script that begins as a node does, and goes on with these lines."""
    return f"echo 'vote {G.hex()} {G.hex()} same'; {lines}; exec sleep 9"


@pytest.mark.parametrize(
    "lines",
    ["echo blocks 1", "echo blocks 1 waiting 0; echo accepted 1; echo x", "echo pairs 1; echo vote", "printf '\\377\\n'", f"echo balance {G.hex()} {'9' * 5000}"],
)
def test_other_answers(opened: Opener, lines: str) -> None:
    with instead(answering(lines)):
        asks: List[Callable[[Ledger], object]] = [Ledger.report, Ledger.pairs, lambda ledger: ledger.balance(G)]
        for ask in asks:
            with pytest.raises(errors.Unexpected):
                ask(opened())


def test_no_answer(opened: Opener) -> None:
    with instead("exec sleep 9"), pytest.raises(errors.NoAnswer):
        opened(timeout=0.2)


def test_no_program(file: str) -> None:
    with instead("") as path:
        os.chmod(path, 0o600)
        with pytest.raises(errors.NoProgram):
            Ledger(file, START, 0)


def test_not_started(file: str, tmp_path: os.PathLike[str]) -> None:
    """A file that may be started, and can't."""
    path = os.path.join(tmp_path, "program")
    with open(path, "wb") as made:
        made.write(b"\x7fELF and nothing more")
    os.chmod(path, 0o700)
    with pytest.raises(errors.NotStarted) as caught:
        Ledger(file, START, 0, program=path)
    assert path in str(caught.value)


def test_reopened(opened: Opener, monkeypatch: pytest.MonkeyPatch) -> None:
    """What wasn't answered is sent again, be it in the journal already or not."""
    ledger = opened()
    ledger.offer(A)
    os.kill(ledger.talk.process.pid, signal.SIGSTOP)
    for each in (B, C, A, b""):
        ledger._pipe.send(each, [])  # type: ignore[arg-type]
    os.kill(ledger.talk.process.pid, signal.SIGKILL)
    with pytest.raises(errors.Killed):
        ledger.report()
    again = ledger.reopen()
    assert [getattr(each, "standing", type(each)) for each in again] == ["present", "present", "known", errors.BlockShort]
    assert ledger.report().present == 4
    assert ledger.reopen() == []
    ledger.close()
    assert ledger.reopen() == [] and ledger.report().present == 4


def test_reopened_twice(opened: Opener) -> None:
    """Where the second start fails, nothing is lost for the third."""
    ledger = opened()
    os.kill(ledger.talk.process.pid, signal.SIGKILL)
    with pytest.raises(errors.Killed):
        ledger.offer(A)
    for text in ("exit 9", f"echo 'vote {G.hex()} {G.hex()} same'; exit 9"):
        with instead(text), pytest.raises(errors.Memory):
            ledger.reopen()
    assert [each.block for each in ledger.reopen()] == [ID_A]
    assert ledger.report().present == 2


def test_a_journal_that_went(opened: Opener, file: str) -> None:
    """No new one is made in its place."""
    ledger = opened()
    ledger.kill()
    os.remove(file)
    with pytest.raises(errors.FileFault):
        ledger.reopen()
    assert not os.path.exists(file)


def test_killed_in_the_midst(opened: Opener) -> None:
    """Of 60 blocks that are on their way each comes to be kept, once, wherever the program is killed."""
    blocks = [block(salt, [G]) for salt in range(60)]
    ledger, answered = opened(), 0
    source = iter(ledger.offer_all(blocks))
    for each in source:
        answered += 1
        if answered == 7:
            os.kill(ledger.talk.process.pid, signal.SIGKILL)
            break
    with pytest.raises(errors.Killed):
        for each in source:
            answered += 1
        ledger.report()  # where all was answered by then
    assert answered >= 7
    again = ledger.reopen()
    assert answered + len(again) == len(blocks)
    assert ledger.report().present == 61


def test_talks_are_ended(opened: Opener) -> None:
    """A run that nobody holds any more is ended."""
    talk = Talk(["replay"])
    process = talk.process
    del talk
    assert process.poll() is not None
