#!/usr/bin/env python3
"""Tries what each run that doesn't end with 0 says on standard error.

    python3 tests/messages.py

It is one line that begins with `spectre: `, and for a faulty command line the usage and the list of the commands
before it; a run that ends with 0 says nothing there. Standard output is what docs/FORMATS.md says, whatever the
message is. Where the environment names a program as SPECTRE it takes the place of the one that `bin/spectre`
builds; where it names one as OTHER, each run is made by that one too, and has to write the same and to end alike."""

from __future__ import annotations

import errno
import hashlib
import os
import pathlib
import resource
import shutil
import signal
import subprocess
import sys
import tempfile
from collections.abc import Callable

from harness import PROGRAM, call, feed_of, finish, see

OTHER = os.environ.get("OTHER")
SCENARIO = b"block A on G\nblock B on G\nblock C on A\nvote A B\n"
SCRIPT = SCENARIO + b"nodes 2\ngive 0 A\n"
# A transaction that spends a grant, for the wallet.
PAID = b"grant g 100 to alice\ntx t spends g.0 pays 60 to bob\nblock A on G carries t\n"
COMMANDS = "play, build, make, drill, replay, node, show, export, certify, check, gossip, spend, watch"
NUMBER = "a number from {} to {} without a leading zero"
COUNT = "N, " + NUMBER.format(0, 511)
SEED = "SEED, " + NUMBER.format(0, 2**64 - 1)
WIDTH = "WIDTH, " + NUMBER.format(1, 16)
AMOUNT = "AMOUNT, " + NUMBER.format(1, 2**63 - 1)
FILE = "FILE, a name that isn't empty and doesn't begin with -"
FRESH = "--fresh, or nothing"
PROFILE = "N, one of: 1, 2"
ID = "the id of a block, 64 hexadecimal digits"
WORD = "WORD, of 1 to 64 bytes, which doesn't begin with -"
ITEM = "ITEM, one of: tx:ID, lock:ID, pair:ID,ID, each ID with 64 hexadecimal digits"
X, Y = "ab" * 32, "cd" * 32
LAST = "the last line on standard output says "


def reason(number: int) -> str:
    """A reason of the system, as it is written."""
    return f"{os.strerror(number)} (os error {number})"


def flipped(content: bytes, place: int) -> bytes:
    """The bytes with one bit of the one at a place changed."""
    changed = bytearray(content)
    changed[place] ^= 1
    return bytes(changed)


def tried(name: str, words: list[str], given: bytes, status: int, said: str, limit: Callable[[], None] | None = None) -> None:
    """A run, under a limit where one is set, which has to end with this status and to say this."""
    done = call([PROGRAM, *words], given, preexec_fn=limit)
    wanted = f"spectre: {said}\n".encode() if status else b""
    see(f"{name}: ended with {done.returncode}", done.returncode == status)
    see(f"{name}: said {done.stderr!r}", done.stderr == wanted)
    # A node that is done changes its file, and so what the next one says.
    if OTHER and limit is None and (status or "node" not in words):
        other = call([OTHER, *words], given)
        see(f"{name}: as the other program", (other.returncode, other.stdout) == (done.returncode, done.stdout))


def usage_rows() -> list[tuple[list[str], str]]:
    """Faulty command lines, and what is said of each."""
    missing = "at the end a word is missing"
    many = "is one word too many; here stands nothing"
    spend = ["spend", "1", "to", "b", "from"]
    items = [f"tx:{place:064x}" for place in range(65)]
    return [
        ([], f"at the end a command is missing; here stands one of: {COMMANDS}"),
        (["pley"], f'"pley" is no command; here stands one of: {COMMANDS}'),
        ([""], f'"" is no command; here stands one of: {COMMANDS}'),
        (["--help"], f'"--help" is no command; here stands one of: {COMMANDS}'),
        (["pl\ney\x1b[0m\\\u202e'\""], '"pl\\ney\\u{1b}[0m\\\\\\u{202e}\'"" is no command; here stands one of: ' + COMMANDS),
        (["p" * 161], f'"{"p" * 160}" .. is no command; here stands one of: {COMMANDS}'),
        (["play", "f"], f'"f" {many}'),
        (["build", ""], f'"" {many}'),
        (["replay", "f"], f'"f" {many}'),
        (["check", "f"], f'"f" {many}'),
        (["gossip", "f"], f'"f" {many}'),
        (["make"], f"{missing}; here stands {COUNT}"),
        (["make", "512", "1", "1"], f'"512" is wrong; here stands {COUNT}'),
        (["make", "01", "1", "1"], f'"01" is wrong; here stands {COUNT}'),
        (["drill", "1"], f"{missing}; here stands {SEED}"),
        (["drill", "1", str(2**64), "1"], f'"{2**64}" is wrong; here stands {SEED}'),
        (["make", "1", "1"], f"{missing}; here stands {WIDTH}"),
        (["make", "1", "1", "0"], f'"0" is wrong; here stands {WIDTH}'),
        (["make", "1", "1", "1", "1"], f'"1" {many}'),
        (["node"], f"{missing}; here stands --fresh, or {FILE}"),
        (["node", "-f"], f'"-f" is wrong; here stands --fresh, or {FILE}'),
        (["node", "-f", "--fresh"], f'"-f" is wrong; here stands --fresh, or {FILE}'),
        (["node", "f", "g"], f'"g" is wrong; here stands {FRESH}'),
        (["node", "--fresh"], f"{missing}; here stands {FILE}"),
        (["node", "--fresh", "--fresh"], f'"--fresh" is wrong; here stands {FILE}'),
        (["node", "--fresh", "f", "g"], f'"g" {many}'),
        (["node", "f", "--fresh", "g"], f'"g" {many}'),
        (["show"], f"{missing}; here stands {FILE}"),
        (["show", ""], f'"" is wrong; here stands {FILE}'),
        (["show", "f", "g"], f'"g" {many}'),
        (["export", "f"], f"{missing}; here stands {PROFILE}"),
        (["export", "f", "3"], f'"3" is wrong; here stands {PROFILE}'),
        (["export", "-f", "3"], f'"-f" is wrong; here stands {FILE}'),
        (["export", "f", "1", "2"], f'"2" {many}'),
        (["certify", X], f"{missing}; here stands {ID}"),
        (["certify", X, Y[1:]], f'"{Y[1:]}" is wrong; here stands {ID}'),
        (["certify", X, Y, X], f'"{X}" {many}'),
        (["spend"], f"{missing}; here stands {AMOUNT}"),
        (["spend", "0", "to", "b", "from", "a"], f'"0" is wrong; here stands {AMOUNT}'),
        (["spend", "1", "at", "b", "from", "a"], '"at" is wrong; here stands the word to'),
        (["spend", "1", "to", "-b", "from", "a"], f'"-b" is wrong; here stands {WORD}'),
        (["spend", "1", "to", "b"], f"{missing}; here stands the word from"),
        (["spend", "1", "to", "b", "of", "a"], '"of" is wrong; here stands the word from'),
        (spend, f"{missing}; here stands {WORD}"),
        ([*spend, "a", ""], f'"" is wrong; here stands {WORD}'),
        ([*spend, "a", "c" * 65], f'"{"c" * 65}" is wrong; here stands {WORD}'),
        ([*spend, "a", "c", "a"], '"a" is there already; here stands another WORD, or nothing'),
        ([*spend, *"acdefghijklmnopqr"], f'"r" {many}'),
        (["watch"], f"{missing}; here stands {ITEM}"),
        (["watch", "tx:"], f'"tx:" is wrong; here stands {ITEM}'),
        (["watch", items[0], f"pair:{X}{Y}"], f'"pair:{X}{Y}" is wrong; here stands {ITEM}'),
        (["watch", f"tx:{X}", f"tx:{X.upper()}"], f'"tx:{X.upper()}" is there already; here stands another ITEM, or nothing'),
        (["watch", *items], f'"{items[64]}" {many}'),
    ]


def try_usage() -> None:
    """Each kind of a faulty command line."""
    for words, said in usage_rows():
        done = call([PROGRAM, *words])
        lines = done.stderr.decode().split("\n")
        name = f"{words}: {lines[-2:]}"
        see(name, done.returncode == 1 and done.stdout == b"" and lines[-2:] == [f"spectre: {said}", ""])
        is_listed = lines[0].startswith("usage: spectre ") and lines[1] == "Commands:" and lines[2].startswith("  play ")
        see(f"{name}: the usage", is_listed and len(lines) == 18)
    odd = call([PROGRAM, b"pl\xffy"])
    see("words that aren't UTF-8", odd.returncode == 1 and odd.stderr.endswith(b"\nspectre: the words aren't UTF-8; here stands text in UTF-8\n"))


def try_input() -> None:
    """Faults of the input, and answers that are no success."""
    feed = feed_of(SCENARIO)
    ids = [line.split()[1].decode() for line in call([PROGRAM, "replay"], feed).stdout.splitlines()]
    certify = ["certify", ids[0], ids[1]]
    certificate = call([PROGRAM, *certify], feed).stdout
    where = f"is malformed; {LAST}where"
    for words in (["play"], ["build"]):
        tried(f"a faulty scenario of {words[0]}", words, b"block\n", 2, f"the scenario {where}")
    tried("a faulty script", ["gossip"], SCENARIO + b"nodes x\n", 2, f"the scenario with its script {where}")
    spend = ["spend", "1", "to", "a", "from", "b"]
    for words in (["replay"], certify, spend, ["watch", f"tx:{X}"]):
        tried(f"a malformed feed of {words[0]}", words, b"x" * 99, 2, f"the feed {where}")
        tried(f"a truncated feed of {words[0]}", words, feed[:-1], 3, "the feed ends before its frame E is whole")
    tried("a malformed certificate", ["check"], b"x" * 99, 2, f"the certificate {where}")
    tried("a truncated certificate", ["check"], certificate[:-1], 3, "the certificate ends before it is whole")
    long = b"#" * 2**24 + b"\n"
    tried("a long scenario", ["play"], long, 11, "the scenario is longer than 16777216 bytes")
    tried("a long script", ["gossip"], long, 11, "the scenario with its script is longer than 16777216 bytes")
    tried("one id twice", ["certify", ids[0], ids[0]], feed, 12, f"{ids[0]} and {ids[0]} aren't two different present blocks")
    tried("an unknown id", ["certify", ids[0], X], feed, 12, f"{ids[0]} and {X} aren't two different present blocks")


def try_refuted() -> None:
    """A certificate with its two ids exchanged, or with one bit changed, until one is refuted."""
    feed = feed_of(SCENARIO)
    ids = [line.split()[1].decode() for line in call([PROGRAM, "replay"], feed).stdout.splitlines()]
    certificate = call([PROGRAM, "certify", ids[0], ids[1]], feed).stdout
    for place in range(len(certificate)):
        changed = flipped(certificate, place)
        if call([PROGRAM, "check"], changed).returncode == 13:
            tried("a refuted certificate", ["check"], changed, 13, f"the certificate is refuted; {LAST}by what")
            return
    see("no certificate was refuted", False)


def try_wallet() -> None:
    """Too little, and too much."""
    feed = feed_of(PAID)
    tried("too little", ["spend", "101", "to", "carol", "from", "bob"], feed, 14, f"what may be spent doesn't reach 101; {LAST}what it comes to")
    rich = b"grant g %d to alice\ngrant h %d to alice\nblock A on G\n" % (2**62, 2**63 - 1 - 2**61)
    tried("too much", ["spend", str(2**63 - 1), "to", "carol", "from", "alice"], feed_of(rich), 15, "what was chosen to be spent comes to 2^63 or more")


def try_ends(folder: pathlib.Path) -> None:
    """Reads and writes that fail, by each cause that a system has."""
    inputs = [("play", "the scenario"), ("gossip", "the scenario with its script"), ("replay", "the feed"), ("check", "the certificate")]
    for word, named in inputs:
        place = os.open(folder, os.O_RDONLY)
        done = subprocess.run([PROGRAM, word], stdin=place, capture_output=True, check=False)
        os.close(place)
        said = f"spectre: {named} on standard input couldn't be read: {reason(errno.EISDIR)}\n"
        see(f"{word} of a folder: {done.stderr!r}", (done.returncode, done.stderr.decode()) == (4, said))
        done = subprocess.run([PROGRAM, word], stdin=subprocess.DEVNULL, capture_output=True, check=False, preexec_fn=lambda: os.close(0))
        said = f"spectre: {named} on standard input couldn't be read: {reason(errno.EBADF)}\n"
        see(f"{word} of nothing: {done.stderr!r}", (done.returncode, done.stderr.decode()) == (4, said))
    with open("/dev/full", "wb") as full:
        done = subprocess.run([PROGRAM, "make", "3", "1", "1"], stdout=full, stderr=subprocess.PIPE, check=False)
    see(f"a full device: {done.stderr!r}", done.returncode == 5 and done.stderr.decode() == f"spectre: standard output couldn't be written: {reason(errno.ENOSPC)}\n")
    read, write = os.pipe()
    os.close(read)
    done = subprocess.run([PROGRAM, "make", "3", "1", "1"], stdout=write, stderr=subprocess.PIPE, check=False)
    os.close(write)
    see(f"a broken pipe: {done.stderr!r}", done.returncode == 5 and done.stderr.decode() == f"spectre: standard output couldn't be written: {reason(errno.EPIPE)}\n")
    for words, status in ((["play", "f"], 1), (["show", str(folder / "none")], 6)):
        done = subprocess.run([PROGRAM, *words], stdin=subprocess.DEVNULL, capture_output=True, check=False, preexec_fn=lambda: os.close(2))
        see(f"{words[0]} without standard error ended with {done.returncode}", (done.returncode, done.stdout, done.stderr) == (status, b"", b""))
        with open("/dev/full", "wb") as full:
            see(f"{words[0]} with a full one", subprocess.run([PROGRAM, *words], stdin=subprocess.DEVNULL, stderr=full, check=False).returncode == status)


def limited(which: int, most: int) -> Callable[[], None]:
    """Sets a limit in a run before it begins."""

    def limit() -> None:
        signal.signal(signal.SIGXFSZ, signal.SIG_IGN)
        resource.setrlimit(which, (most, most))

    return limit


def try_disk(folder: pathlib.Path) -> None:
    """Calls of the disk that fail, and what is wrong with a journal."""
    feed = feed_of(SCENARIO)
    none, place, odd = folder / "none" / "journal", folder / "folder", folder / "a\nb'c"
    place.mkdir()
    missing = f"the disk failed: {none}: {reason(errno.ENOENT)}"
    for words in (["show"], ["export", "1"], ["node"]):
        line = [words[0], str(none), *words[1:]]
        tried(f"{words[0]} without the folder", line, feed, 6, missing)
        line = [words[0], str(place), *words[1:]]
        tried(f"{words[0]} of a folder", line, feed, 6, f"the disk failed: {place}: not a regular file")
    tried("a name with a line's end", ["show", str(odd)], b"", 6, f"the disk failed: {folder}/a\\nb'c: {reason(errno.ENOENT)}")
    file = folder / "journal"
    tried("a file that can't grow", ["node", str(file)], feed, 6, f"the disk failed: {file}: {reason(errno.EFBIG)}", limit=limited(resource.RLIMIT_FSIZE, 8))
    file.unlink()
    try_journals(folder, feed)
    try_leave(folder)


def try_journals(folder: pathlib.Path, feed: bytes) -> None:
    """Files that hold no journal, that of another chain, or a damaged one."""
    file = folder / "journal"
    file.write_bytes(b"")
    tried("an empty file", ["show", str(file)], b"", 7, f"{file} holds no journal")
    file.write_bytes(b"other bytes")
    tried("other bytes", ["export", str(file), "1"], b"", 7, f"{file} holds no journal")
    tried("a node on other bytes", ["node", str(file)], feed, 7, f"{file} holds no journal; node --fresh makes one over its bytes")
    tried("a new journal over them", ["node", "--fresh", str(file)], feed, 0, "")
    tried("a node", ["node", str(file)], feed, 0, "")
    tried("another chain", ["node", str(file)], feed_of(b"profile 2\n" + SCENARIO), 8, f"the journal {file} is of another chain than the feed's head")
    journal = file.read_bytes()
    found = False
    for place in range(len(journal)):
        file.write_bytes(flipped(journal, place))
        if call([PROGRAM, "show", str(file)]).returncode == 10:
            found = True
            break
    see("a damaged journal was made", found)
    for words in (["show", str(file)], ["export", str(file), "1"], ["node", str(file)]):
        tried(f"{words[0]} of a damaged journal", words, feed, 10, f"the journal {file} is damaged; {LAST}where")


def try_leave(folder: pathlib.Path) -> None:
    """A file that may not be read, to whom the system forbids anything."""
    file = folder / "locked"
    file.write_bytes(b"")
    file.chmod(0)
    if os.geteuid() == 0:
        if not shutil.which("setpriv"):
            print("not run: a file without leave, since this is the superuser's run and setpriv isn't here")
            return
        words = ["setpriv", "--reuid=65534", "--regid=65534", "--clear-groups", PROGRAM, "show", str(file)]
        os.chmod(folder, 0o755)
        os.chmod(folder.parent, 0o755)
        if call([*words[:4], "test", "-x", PROGRAM]).returncode:
            print("not run: a file without leave, since nobody else may run the program here")
            return
    else:
        words = [PROGRAM, "show", str(file)]
    done = call(words)
    see(f"without leave: {done.stderr!r}", done.returncode == 6 and done.stderr.decode() == f"spectre: the disk failed: {file}: {reason(errno.EACCES)}\n")


def try_memory() -> None:
    """Less and less room, until each run ends otherwise; then it says so."""
    given = call([PROGRAM, "make", "511", "1", "1"]).stdout
    said = set()
    for room in range(16, 1, -1):
        limit = limited(resource.RLIMIT_AS, room << 20)
        try:
            done = call([PROGRAM, "play"], given, preexec_fn=limit)
        except subprocess.SubprocessError:
            break
        if done.returncode == 9:
            said.add(done.stderr)
    see(f"refused memory: {said}", said == {b"spectre: memory was refused\n"})


def try_quiet() -> None:
    """Nothing is said of a run that ends with 0."""
    feed = feed_of(SCENARIO)
    lock = hashlib.sha256(b"bob").hexdigest()
    for words, given in (
        (["play"], SCENARIO),
        (["build"], SCENARIO),
        (["make", "3", "1", "1"], b""),
        (["drill", "3", "1", "1"], b""),
        (["replay"], feed),
        (["gossip"], SCRIPT),
        (["spend", "60", "to", "carol", "from", "bob"], feed_of(PAID)),
        (["watch", f"lock:{lock}"], feed),
    ):
        tried(f"{words[0]} that is done", words, given, 0, "")


def main() -> int:
    try_usage()
    try_input()
    try_refuted()
    try_wallet()
    try_memory()
    try_quiet()
    with tempfile.TemporaryDirectory() as folder:
        try_ends(pathlib.Path(folder))
        try_disk(pathlib.Path(folder))
    return finish()


if __name__ == "__main__":
    sys.exit(main())
