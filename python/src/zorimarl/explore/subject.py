"""What a page is about: a scenario, a feed or a journal, taken apart, and what the program says of it as it
stands: the line of its fault, if it has one."""

import os
import pathlib
import subprocess
import sys
import tempfile
from typing import Dict, List, NamedTuple, Optional, Tuple

from ..errors import Misfit, ended
from ..feeds import (
    Cursor,
    Frame,
    Head,
    NotThisForm,
    frames_of,
    read_block,
    read_head,
    read_journal_head,
    records_of,
    sha256,
)
from ..files import read_whole
from ..program import Path, find, hold, ready
from .scenario import GENESIS, TEXT, lines_of, parents_and_carried, pieces_of

KINDS = ("scenario", "feed", "journal")
# The statuses of inputs that are at fault, of which a page can tell.
TELLING = (0, 2, 3, 7, 10, 11)
ARRIVALS = (b"kept ", b"known ", b"refused ", b"full")
# In the lines of a scenario, the frame that each one's question has.
FRAME_OF = {"block": b"B", "send": b"B", "vote": b"V", "state": b"T", "balance": b"U", "pairs": b"P", "report": b"R"}


class Names(NamedTuple):
    """What a scenario calls the ids of blocks and transactions, and the locks."""

    blocks: Dict[bytes, str]
    txs: Dict[bytes, str]
    locks: Dict[bytes, str]


class Subject(NamedTuple):
    kind: str
    name: str
    head: Optional[Head]  # none where the input has none that is whole
    arrivals: List[bytes]  # the bytes of each block that is sent, in their order
    lines: Optional[List[bytes]]  # what the program wrote of each of them, where it was asked
    names: Names
    status: int
    fault: str  # the program's line, or ""


NOTHING = Names({}, {}, {})


def kind_of(data: bytes) -> str:
    """What bytes are, by how they begin. The program judges them."""
    if data.startswith(b"SPCTRF"):
        return "feed"
    if data[1:7] == b"SPCTRJ":
        return "journal"
    if data and data[0] not in TEXT:
        raise Misfit(f"the first byte is 0x{data[0]:02x}, with which no scenario, feed or journal begins; `--kind` says for which it is to be taken")
    return "scenario"


def run(words: List[str], data: bytes = b"") -> Tuple[int, bytes]:
    """The status of a run of the program, and what it wrote."""
    done = subprocess.run([find().path, *words], input=data, capture_output=True, check=False)
    if done.returncode not in TELLING:
        raise ended(done.returncode, said=done.stderr.decode("utf-8", "replace"))
    return done.returncode, done.stdout


def told(data: bytes) -> Tuple[int, List[bytes], str]:
    """What `replay` says of a feed: its status, the lines of its blocks and that of its fault."""
    with tempfile.TemporaryFile() as given, tempfile.TemporaryFile() as said:
        given.write(data)
        given.seek(0)
        process = subprocess.Popen([find().path, "replay"], stdin=given, stdout=subprocess.PIPE, stderr=said)
        assert process.stdout
        lines: List[bytes] = []
        last, same = b"", {}  # type: bytes, Dict[bytes, bytes]
        for last in process.stdout:
            if last.startswith(ARRIVALS):
                line = last.rstrip(b"\n")
                lines.append(same.setdefault(line, line))
        status = process.wait()
        said.seek(0)
        if status not in TELLING:
            raise ended(status, said=said.read().decode("utf-8", "replace"))
    return status, lines, fault_in(last)


def fault_in(line: bytes) -> str:
    return line.decode("ascii", "replace").strip() if line.startswith(b"fault ") else ""


def of_feed(name: str, data: bytes) -> Subject:
    status, lines, fault = told(data)
    cursor = Cursor(data)
    try:
        head = read_head(cursor)
        read_block(head.genesis)
    except NotThisForm:
        if not fault:
            raise Misfit("the program finds no fault in a head that can't be read") from None
        return Subject("feed", name, None, [], [], NOTHING, status, fault)
    if fault and not lines and cursor.at > place_in(fault):
        return Subject("feed", name, None, [], [], NOTHING, status, fault)
    sent = [each.payload for each in frames_of(cursor) if each.kind == b"B"]
    return Subject("feed", name, head, sent, lines, NOTHING, status, fault)


def place_in(fault: str) -> int:
    return int(fault.split(" ")[2])


def of_journal(name: str, path: Path) -> Subject:
    """A journal, of which nobody writes while it is read: a copy of it is shown to the program."""
    with open(hold(path, alone=False), "rb") as held:
        data = held.read()
    return in_journal(name, data)


def of_snapshot(name: str, path: Path) -> Subject:
    """A journal of which somebody may write: it is read from the front to the end, which is a journal of its first
    records, and its lock isn't asked for."""
    ready()
    return in_journal(name, read_whole(path))


def in_journal(name: str, data: bytes) -> Subject:
    with tempfile.TemporaryDirectory() as folder:
        copy = os.path.join(folder, "journal")
        pathlib.Path(copy).write_bytes(data)
        status, text = run(["show", copy])
    if status:
        return Subject("journal", name, None, [], None, NOTHING, status, fault_in(text))
    cursor = Cursor(data)
    head = read_journal_head(cursor)
    records = list(records_of(cursor))
    if text.split(b"\n")[0] != b"recovered %d" % len(records):
        raise Misfit(f"`{text[:40].decode('ascii', 'replace')}` and {len(records)} records")
    return Subject("journal", name, head, records, None, NOTHING, 0, "")


def of_scenario(name: str, data: bytes) -> Subject:
    """A scenario, by way of the feed that the program builds of it. Where a line has a fault, the lines above
    it are shown, as `play` answers these."""
    status, built = run(["build"], data)
    fault = fault_in(built) if status else ""
    text = data.decode("latin-1")
    if status:
        words = fault.split(" ")
        if words[:2] != ["fault", "line"]:
            return Subject("scenario", name, None, [], None, NOTHING, status, fault)
        text = "".join(pieces_of(text)[: int(words[2]) - 1])
        again, built = run(["build"], text.encode("latin-1"))
        if again:
            raise Misfit(f"`{fault}`, and the lines above it have a fault")
    cursor = Cursor(built)
    head = read_head(cursor)
    frames = list(frames_of(cursor))
    names = names_in(text, head, frames)
    return Subject("scenario", name, head, [f.payload for f in frames if f.kind == b"B"], None, names, status, fault)


def names_in(text: str, head: Head, frames: List[Frame]) -> Names:
    """What the lines of a scenario name, laid beside the frames that the program built of them."""
    names, left, lines = Names({}, {}, {}), list(reversed(frames)), lines_of(text)
    names.blocks[sha256(head.genesis)] = GENESIS
    grants = [line.words[1] for line in lines if line.words[0] == "grant"]
    name_txs(names, head.genesis, grants)
    carried = {}
    for line in lines:
        kind, words = line.words[0], line.words
        if kind in ("grant", "tx", "balance"):
            for word in words[1:]:
                names.locks.setdefault(sha256(word.encode("latin-1")), word)
        if kind in ("make", "block"):
            carried[words[1]] = parents_and_carried(words)[1]
        if kind in FRAME_OF:
            if not left or left[-1].kind != FRAME_OF[kind]:
                raise Misfit(f"{line}: the feed has another frame there")
            name_frame(names, words, left.pop(), carried)
    if left:
        raise Misfit("the feed has more frames than the scenario has lines")
    return names


def name_frame(names: Names, words: List[str], frame: Frame, carried: Dict[str, List[str]]) -> None:
    if frame.kind == b"B" and words[1] != GENESIS:
        names.blocks[sha256(frame.payload)] = words[1]
        name_txs(names, frame.payload, carried[words[1]])
    elif frame.kind == b"T":
        names.txs[frame.payload] = words[1]


def name_txs(names: Names, block: bytes, carried: List[str]) -> None:
    txs = read_block(block).txs
    if len(txs) != len(carried):
        raise Misfit("a block has another number of transactions than its line")
    for tx, name in zip(txs, carried):
        names.txs[tx.id] = name


def subject_of(path: Path, kind: Optional[str] = None) -> Subject:
    """What a file, or standard input where it is `-`, holds. The program is asked, and built where it has to be,
    once the file was read."""
    is_input = os.fspath(path) == "-"
    data = sys.stdin.buffer.read() if is_input else pathlib.Path(path).read_bytes()
    kind = kind or kind_of(data)
    name = f"a {kind}" if is_input else os.fsencode(pathlib.Path(path).name).decode("utf-8", "replace")
    if kind == "journal" and is_input:
        raise Misfit("a journal is a file")
    ready()
    if kind == "journal":
        return of_journal(name, path)
    return (of_feed if kind == "feed" else of_scenario)(name, data)
