"""The pipes to the other side of an exchange."""

from __future__ import annotations

import os
import select
import time
from typing import Optional

from .sync_errors import PeerSlow

PIECE = 1 << 16


class Link:
    """A pair of descriptors, to read from and to write to. What is to be sent is written while bytes are waited for,
    so that neither side waits for the other for ever. Neither is closed here."""

    def __init__(self, reader: int, writer: int, timeout: float) -> None:
        self.reader, self.writer = reader, writer
        self.until = time.monotonic() + timeout
        self.unsent = bytearray()
        self.reads_no_more = False  # the other side
        self.was_blocking = os.get_blocking(writer)
        os.set_blocking(writer, False)

    def restore(self) -> None:
        """Leaves the descriptors as they were found."""
        try:
            os.set_blocking(self.writer, self.was_blocking)
        except OSError:
            pass

    @property
    def left(self) -> float:
        """How many seconds are left."""
        return max(0.0, self.until - time.monotonic())

    def send(self, data: bytes) -> None:
        if not self.reads_no_more:
            self.unsent += data

    def pump(self, is_reading: bool) -> Optional[bytes]:
        """Waits until something can be read or written, and does it: what was read, b"" where nothing was, and None
        where the input has ended."""
        waiting = select.poll()
        if is_reading:
            waiting.register(self.reader, select.POLLIN)
        if self.unsent:
            waiting.register(self.writer, select.POLLOUT)
        ready = {number for number, _ in waiting.poll(self.left * 1000)}
        if not ready or not self.left:
            raise PeerSlow("the time has passed, and the other side hasn't ended")
        if self.unsent and self.writer in ready:
            self.push()
        if is_reading and self.reader in ready:
            try:
                return os.read(self.reader, PIECE) or None
            except (ConnectionError, BlockingIOError) as why:
                return b"" if isinstance(why, BlockingIOError) else None
        return b""

    def push(self) -> None:
        try:
            del self.unsent[: os.write(self.writer, memoryview(self.unsent)[:PIECE].tobytes())]
        except BlockingIOError:
            pass
        except ConnectionError:  # what it sends says why, if anything does
            self.reads_no_more = True
            self.unsent.clear()
