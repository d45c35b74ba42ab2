"""A journal shown live in a headless Chromium: blocks that come, a node that goes, and requests that mean harm."""

from __future__ import annotations

import http.client
import os
import pathlib
import socket
import subprocess
import sys
import time
from typing import Iterator, List, Tuple

import pytest

from browser import Browser
from samples import ran
from zorimarl.feeds import block, frame, head, sha256, spelled
from zorimarl.program import find

PATHS = ("/../../etc/passwd", "//evil/", "/%2e%2e/", "/events/..", "/" + "a" * 5000, "*", "http://evil.example/", "/?x")


def started(journal: pathlib.Path) -> Tuple["subprocess.Popen[bytes]", int]:
    """A server of a journal, and its port."""
    command = [sys.executable, "-m", "zorimarl.explore", "--serve", str(journal)]
    server = subprocess.Popen(command, stderr=subprocess.PIPE)
    assert server.stderr
    line = server.stderr.readline().decode()
    assert line.startswith("http://127.0.0.1:"), line
    return server, int(line.rstrip("/\n").rsplit(":", 1)[1])


@pytest.fixture
def journal(tmp_path: pathlib.Path) -> pathlib.Path:
    path = tmp_path / "kept.journal"
    ran("node", str(path), given=head(spelled(0, 0, [], [])) + frame(b"E"))
    return path


@pytest.fixture
def port(journal: pathlib.Path) -> Iterator[int]:
    server, port = started(journal)
    yield port
    server.kill()
    server.wait()
    assert server.stderr
    assert server.stderr.read() == b"", "the server complains"


def status(port: int, path: str = "/", method: str = "GET", host: str = "") -> Tuple[int, "http.client.HTTPMessage"]:
    made = http.client.HTTPConnection("127.0.0.1", port, timeout=20)
    made.putrequest(method, path, skip_host=True)
    for each in (host or f"127.0.0.1:{port}").split("|"):
        made.putheader("Host", each)
    made.endheaders()
    answer = made.getresponse()
    made.close()
    return answer.status, answer.msg


def test_requests(port: int) -> None:
    """Nothing but the page and its news is answered, only under the server's own name, and nothing may embed it."""
    found, headers = status(port)
    assert found == 200
    assert (headers["X-Frame-Options"], headers["Content-Security-Policy"]) == ("DENY", "frame-ancestors 'none'")
    assert "Access-Control-Allow-Origin" not in headers
    assert [status(port, path)[0] for path in PATHS] == [404] * len(PATHS)
    for host in ("evil.example", f"evil.example:{port}", "127.0.0.1", f"127.0.0.1:{port}|evil.example"):
        assert status(port, host=host)[0] == 403
    assert status(port, host=f"localhost:{port}")[0] == 200
    for method in ("POST", "PUT", "DELETE", "OPTIONS", "HEAD", "X"):
        assert status(port, method=method)[0] == 501


def test_connections(port: int) -> None:
    """A thousand connections at once, of which each says nothing or half a line, and the page is there after them."""
    held: List[socket.socket] = []
    for number in range(1000):
        made = socket.create_connection(("127.0.0.1", port), timeout=20)
        try:
            made.sendall(b"GET / HT" if number % 2 else b"")
        except OSError:  # it was closed, since there were too many
            pass
        held.append(made)
    for each in held:
        each.close()
    for _ in range(50):
        try:
            assert status(port)[0] == 200
            return
        except OSError:
            time.sleep(0.3)
    raise AssertionError("no page after a thousand connections")


def wait_for(browser: Browser, text: str, what: str) -> None:
    """Until an expression holds; the page may be taken anew meanwhile."""
    for _ in range(150):
        try:
            if browser.js(text):
                return
        except Exception as why:  # while the page is taken anew there is none
            assert "javascript" in str(why).lower() or "context" in str(why).lower() or "null" in str(why).lower(), why
        time.sleep(0.2)
    raise AssertionError(f"{what}: {browser.js('document.body.textContent')[:300]}")


def test_live(journal: pathlib.Path, port: int) -> None:
    """Blocks show while a node takes them, without its lock; and that the node is gone is said."""
    browser = Browser()
    genesis = spelled(0, 0, [], [])
    node = subprocess.Popen([find().path, "node", str(journal)], stdin=subprocess.PIPE, stdout=subprocess.PIPE)
    assert node.stdin and node.stdout
    try:
        node.stdin.write(head(genesis))
        node.stdin.flush()
        browser.driver.get(f"http://127.0.0.1:{port}/")
        last = sha256(genesis)
        for count in range(2, 5):
            made = block(count, [last], [])
            last = sha256(made)
            node.stdin.write(frame(b"B", made))
            node.stdin.flush()
            assert node.stdout.readline().startswith(b"kept ")
            wait_for(browser, f"document.querySelector('#counts b').textContent === '{count}'", f"{count} blocks show")
        browser.js("document.querySelector('g[data-block=\"2\"]').dispatchEvent(new MouseEvent('click'))")
        time.sleep(0.5)
        made = block(9, [last], [])
        node.stdin.write(frame(b"B", made))
        node.stdin.flush()
        wait_for(browser, "document.querySelector('#counts b').textContent === '5'", "one more shows")
        wait_for(browser, "document.querySelectorAll('#chosen h2').length === 1", "what was chosen still is")
        pictures = os.environ.get("PICTURES")
        if pictures:
            browser.picture(os.path.join(pictures, "live.png"))
    finally:
        node.kill()
        node.wait()
        browser.close()
