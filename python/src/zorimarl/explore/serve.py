"""Shows a journal in the browser while a node writes it: to this machine alone, and by copies, never by its lock.

A copy is read from the front to the end, as `spectre snapshot` does, and shown to the program as any journal is.
The page is told of each new copy by server-sent events. No request changes anything: there are three paths, all
others and all other methods are errors, and a request that names another host than this server is refused, so that no
page of another site reads it by a name that leads here.
"""

import http.server
import json
import os
import pathlib
import socket
import sys
import threading
import time
from typing import Any, Optional, Tuple

from ..errors import LedgerError
from .data import data_of
from .page import page_of
from .subject import of_snapshot

HOST = "127.0.0.1"
LIVE_LINES = 400_000  # of answers to all questions on one copy, so that the page comes soon
EVERY = 0.5  # seconds between two looks at the journal
BEAT = 5.0  # seconds after which a page hears something though nothing is new
MOST = 64  # connections at once; what comes beyond them is closed
SLOW = 10.0  # seconds that a request may take to come
HEADERS = {
    "Content-Security-Policy": "frame-ancestors 'none'",
    "X-Frame-Options": "DENY",
    "X-Content-Type-Options": "nosniff",
    "Referrer-Policy": "no-referrer",
    "Cross-Origin-Resource-Policy": "same-origin",
    "Cache-Control": "no-store",
}


def is_held(path: pathlib.Path) -> Optional[bool]:
    """Whether somebody holds the journal's lock alone, by the system's list of locks; None where there is none."""
    try:
        number = str(path.stat().st_ino)
        lines = pathlib.Path("/proc/locks").read_text(encoding="ascii").splitlines()
    except OSError:
        return None
    return any("FLOCK" in line and "WRITE" in line and f":{number} " in line for line in lines)


class Watched:
    """The newest page of a journal, its number, and whether a node is at work on it."""

    def __init__(self, path: pathlib.Path, lines: int) -> None:
        self.path, self.lines = path, min(lines, LIVE_LINES)
        self.news = threading.Condition()
        self.version, self.page, self.fault = 0, b"", ""
        self.node = is_held(path)
        self.seen: Tuple[int, int] = (-1, -1)

    def look(self) -> None:
        """Makes the page anew where the journal has changed since it was last looked at."""
        node, fault, page = is_held(self.path), "", None
        try:
            told = self.path.stat()
            seen = (told.st_size, told.st_mtime_ns)
            if seen != self.seen:
                data = data_of(of_snapshot(self.path.name, self.path), self.lines)
                page = page_of({**data, "live": self.version + 1}).encode("utf-8")
                self.seen = seen
        except (LedgerError, OSError) as why:
            fault = str(why)
        with self.news:
            if page is not None:
                self.version, self.page = self.version + 1, page
            if page is not None or (node, fault) != (self.node, self.fault):
                self.node, self.fault = node, fault
                self.news.notify_all()

    def watch(self) -> None:
        while True:
            time.sleep(EVERY)
            self.look()

    def event(self) -> bytes:
        told = {"version": self.version, "node": self.node, "fault": self.fault}
        return b"data: " + json.dumps(told).encode("ascii") + b"\n\n"


class Handler(http.server.BaseHTTPRequestHandler):
    """Answers one connection."""

    server: "Server"
    timeout = SLOW
    server_version, sys_version = "zorimarl", ""

    def log_message(self, format: str, *args: Any) -> None:
        """Nothing is written of requests."""

    def do_GET(self) -> None:
        port = self.server.server_address[1]
        if self.headers.get_all("Host") not in ([f"{HOST}:{port}"], [f"localhost:{port}"]):
            self.answer(403, b"another host is named\n", "text/plain")
        elif self.path == "/":
            self.answer(200, self.server.watched.page, "text/html; charset=utf-8")
        elif self.path == "/events":
            self.tell()
        elif self.path == "/favicon.ico":
            self.answer(204, b"", "image/x-icon")
        else:
            self.answer(404, b"there is no such page\n", "text/plain")

    def answer(self, status: int, body: bytes, kind: str) -> None:
        self.begin(status, kind)
        self.send_header("Content-Length", str(len(body)))
        self.end_headers()
        self.wfile.write(body)

    def begin(self, status: int, kind: str) -> None:
        self.send_response(status)
        self.send_header("Content-Type", kind)
        for name, value in HEADERS.items():
            self.send_header(name, value)

    def tell(self) -> None:
        """What is new, as long as the page listens."""
        self.begin(200, "text/event-stream")
        self.end_headers()
        watched = self.server.watched
        try:
            while True:
                with watched.news:
                    event = watched.event()
                self.wfile.write(event)
                self.wfile.flush()
                with watched.news:
                    if watched.event() == event:
                        watched.news.wait(BEAT)
        except OSError:
            self.close_connection = True


class Server(http.server.ThreadingHTTPServer):
    """A thread for each connection, of which there are so many at once."""

    daemon_threads = True
    request_queue_size = 128

    def __init__(self, port: int, watched: Watched) -> None:
        self.watched = watched
        self.room = threading.BoundedSemaphore(MOST)
        super().__init__((HOST, port), Handler)

    def process_request(self, request: Any, client_address: Any) -> None:
        if not self.room.acquire(blocking=False):
            self.shutdown_request(request)
            return
        try:
            super().process_request(request, client_address)
        except BaseException:
            self.room.release()
            raise

    def process_request_thread(self, request: Any, client_address: Any) -> None:
        try:
            super().process_request_thread(request, client_address)
        finally:
            self.room.release()

    def handle_error(self, request: Any, client_address: Any) -> None:
        """Who went away before it was answered is no fault."""
        if not isinstance(sys.exc_info()[1], (OSError, socket.timeout)):
            super().handle_error(request, client_address)


def serve(path: str, port: int, lines: int) -> int:
    """Serves until it is interrupted; says where on standard error."""
    watched = Watched(pathlib.Path(os.path.abspath(path)), lines)
    watched.look()
    if not watched.page:
        print(f"zorimarl-explore: {watched.fault}", file=sys.stderr)
        return 2
    with Server(port, watched) as server:
        print(f"http://{HOST}:{server.server_address[1]}/", file=sys.stderr, flush=True)
        threading.Thread(target=watched.watch, daemon=True).start()
        try:
            server.serve_forever()
        except KeyboardInterrupt:
            pass
    return 0
