"""One run of the program that is kept as a co-process and answers a feed over pipes, frame by frame."""

from __future__ import annotations

import collections
import os
import select
import subprocess
import tempfile
import time
import weakref
from typing import IO, Deque, List, Optional, Sequence, Tuple

from .errors import Closed, LedgerError, NoAnswer, NotStarted, Unexpected, ended
from .feeds import END
from .program import Path, Program, find

PIECE = 1 << 18
MOST_SAID = 10_000  # bytes of standard error that an error tells
TO_END = 60.0  # seconds that a program has to end once its output has ended
TIMEOUT = 600.0  # seconds that a call may take where no other number is named


class Talk:
    """A run of `spectre` with these words. What is sent is written while answers are waited for, so that
    neither side waits for the other for ever. It is for one thread at a time. However it is left, by an error,
    an interrupt or without a word, the program is ended with it."""

    def __init__(
        self,
        words: Sequence[str],
        timeout: Optional[float] = TIMEOUT,
        inherit: Sequence[int] = (),
        program: Optional[Program] = None,
        file: Path = "",
    ) -> None:
        self.timeout, self.file = timeout, os.fspath(file)
        self.asked: Tuple[str, Tuple[bytes, ...]] = ("the start", ())
        self.until = self.deadline(None)
        self.lines: Deque[bytes] = collections.deque()
        self.rest, self.unsent, self.is_over = b"", bytearray(), False
        found = program or find()
        self.said = tempfile.TemporaryFile()
        try:
            self.process = start([found.path, *words], self.said, inherit, self.file if inherit else "")
        except BaseException as why:
            self.said.close()
            if isinstance(why, OSError):
                raise NotStarted(127, said=f"{found.path}: {why.strerror}").at(self.file, self.request) from None
            raise
        assert self.process.stdin and self.process.stdout
        self.to, self.out = self.process.stdin, self.process.stdout
        self.last = weakref.finalize(self, end, self.process, self.said)
        os.set_blocking(self.to.fileno(), False)

    # Asking

    def ask(self, what: str, *names: bytes, timeout: Optional[float] = None) -> None:
        """A call begins: what errors say of it, and how many seconds it may take."""
        self.asked = what, names
        self.until = self.deadline(timeout)

    def deadline(self, timeout: Optional[float]) -> Optional[float]:
        seconds = self.timeout if timeout is None else timeout
        return None if seconds is None else time.monotonic() + seconds

    @property
    def request(self) -> str:
        """What was asked last."""
        what, names = self.asked
        return " ".join([what, *(name.hex() for name in names)])

    def send(self, data: bytes) -> None:
        """Sends bytes, the answers to which are taken by `line` or `take`."""
        if self.is_over:
            raise self.error(Closed("the ledger is closed, or its program has ended"))
        self.unsent += data

    def line(self) -> str:
        """The next line. Where it is a fault's, or the program has ended, that is the error of its end."""
        self.wait_for(1)
        return self.lines.popleft().decode("ascii", "replace")

    def take(self, count: int) -> List[bytes]:
        """The next so many lines."""
        self.wait_for(count)
        if count < len(self.lines):
            return [self.lines.popleft() for _ in range(count)]
        taken = list(self.lines)
        self.lines.clear()
        return taken

    def wait_for(self, count: int) -> None:
        try:
            while True:
                if self.lines and self.lines[0].startswith(b"fault "):
                    self.fail()
                if len(self.lines) >= count:
                    return
                if self.is_over:
                    raise self.error(Closed("the ledger is closed, or its program has ended"))
                if not self.pump(self.until):
                    self.fail()
        except LedgerError:
            raise
        except BaseException:  # an interrupt: the answer to what was asked may come to another question
            self.kill()
            raise

    # The pipes

    def pump(self, until: Optional[float]) -> bool:
        """Writes and reads what can be, and waits until something can. False where the output has ended."""
        readable, writable = self.wait_for_pipes(until)
        if writable:
            self.push()
        if readable:
            piece = os.read(self.out.fileno(), PIECE)
            parts = (self.rest + piece).split(b"\n")
            self.rest = parts.pop()
            self.lines.extend(parts)
            return bool(piece)
        return True

    def flow(self) -> None:
        """Writes what can be written at once."""
        if not self.is_over:
            self.push()

    def wait_for_pipes(self, until: Optional[float]) -> Tuple[bool, bool]:
        waiting = select.poll()
        waiting.register(self.out, select.POLLIN)
        if self.unsent:
            waiting.register(self.to, select.POLLOUT)
        left = None if until is None else max(0.0, until - time.monotonic())
        ready = {number for number, _ in waiting.poll(None if left is None else left * 1000)}
        if not ready:
            self.kill()
            raise self.error(NoAnswer("the program answered nothing in time, and was killed"))
        return self.out.fileno() in ready, bool(self.unsent) and self.to.fileno() in ready

    def push(self) -> None:
        try:
            del self.unsent[: os.write(self.to.fileno(), memoryview(self.unsent)[:PIECE].tobytes())]
        except BlockingIOError:
            pass
        except BrokenPipeError:  # it has ended, and its output says why
            self.unsent.clear()

    # The end

    def error(self, made: LedgerError) -> LedgerError:
        return made.at(self.file, self.request)

    def fail(self) -> None:
        """The program ends, or has ended: says how."""
        self.drain()
        code = self.wait()
        line = self.lines[-1].decode("ascii", "replace") if self.lines else ""
        cut, self.rest = self.rest, b""
        said = self.told()
        self.release()
        raise self.error(ended(code, line if line.startswith("fault ") else "", cut, said))

    def drain(self) -> None:
        """Reads to the end of the output."""
        until = time.monotonic() + TO_END
        while self.pump(until if self.until is None else max(until, self.until)):
            pass

    def told(self) -> str:
        """What the program said on standard error."""
        self.said.seek(0)
        return self.said.read(MOST_SAID).decode("utf-8", "replace")

    def finish(self, timeout: Optional[float] = None) -> List[str]:
        """Sends the frame E, and answers the lines that are left. Where the program doesn't end well, that
        is the error."""
        self.ask("the end", timeout=timeout)
        try:
            self.send(END)
            while self.pump(self.until):
                pass
            lines = [line.decode("ascii", "replace") for line in self.lines]
            code, cut = self.wait(), self.rest
        except LedgerError:
            raise
        except BaseException:
            self.kill()
            raise
        said = self.told()
        self.release()
        if code or cut:
            fault = lines[-1] if lines and lines[-1].startswith("fault ") else ""
            raise self.error(ended(code, fault, cut, said))
        return lines

    def wait(self) -> int:
        """The code with which the program ends, now that its output has ended."""
        close(self.to)
        try:
            return self.process.wait(TO_END)
        except subprocess.TimeoutExpired:
            self.kill()
            raise self.error(NoAnswer("the program's output has ended, and the program didn't; it was killed")) from None

    def unexpected(self, line: str, asked: str) -> Unexpected:
        """The error of a line that doesn't answer. The program is killed, since nothing fits any more."""
        self.kill()
        made = Unexpected(f"`{line[:200]}` is no answer to {asked}", answer=line)
        self.error(made)
        return made

    def kill(self) -> None:
        """Ends the program at once, and lets go of all that was open for it."""
        self.release()

    def release(self) -> None:
        self.is_over = True
        self.unsent.clear()
        self.lines.clear()
        self.rest = b""
        self.last()


def start(words: Sequence[str], said: IO[bytes], inherit: Sequence[int], file: str) -> subprocess.Popen[bytes]:
    """A run over pipes. The program says what it has to say of a file that it was handed open by this name."""
    return subprocess.Popen(
        words,
        stdin=subprocess.PIPE,
        stdout=subprocess.PIPE,
        stderr=said,
        bufsize=0,
        pass_fds=tuple(inherit),
        env={**os.environ, "SPECTRE_FILE": file} if file else None,
    )


def close(opened: Optional[IO[bytes]]) -> None:
    if opened is not None:
        try:
            opened.close()
        except OSError:
            pass


def end(process: subprocess.Popen[bytes], said: IO[bytes]) -> None:
    """Kills a program that hasn't ended, and closes what was open for it."""
    if process.poll() is None:
        process.kill()
        process.wait()
    for opened in (process.stdin, process.stdout, said):
        close(opened)
