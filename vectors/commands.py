#!/usr/bin/env python3
"""What each command of the program writes, by the reference beside this file.

    python3 vectors/commands.py WORD ..

It takes the program's words and input, and writes what the program has to write, with its exit code; where the words
name a file, that file is read and written. Faults of the outside (a failed read, a full disk, refused memory) are no
part of it."""

from __future__ import annotations

import os
import sys
from collections.abc import Callable, Sequence

from reference import (OPEN, SHUT, TEXT_LIMIT, Block, Cert, Fault, Feed, Graph, Head, Input, Journal, Labels, Ledger, LineFault, Message, Output, Scene, Tx,
                       answer, arrival, decimal, feed_text, hex_fault, journal_text, lines_of, need, pairs, plain, read_cert, read_feed, read_journal,
                       record, report, sgn, sha, text_of)

HUGE = 10**40
STATUS = "Done Usage Malformed Truncated ReadFault WriteFault DiskFault NotJournal OtherChain Memory Damaged TooLong NoPair Refuted Poor Large".split()


def fault_line(fault: tuple[int, str]) -> bytes:
    return f"fault line {fault[0]} {fault[1]}\n".encode()


# What a status and its output are, and the disk afterwards (None: no file).

Result = tuple[str, bytes]
TOO_LONG: Result = ("TooLong", b"fault too-long 16777216\n")


def play(text: bytes) -> Result:
    if len(text) >= TEXT_LIMIT:
        return TOO_LONG
    scene = Scene(lines_of(text))
    ledger, labels = Ledger(scene.head), scene.labels
    told = text_of(line for message in scene.messages for line in answer(ledger, message, labels))
    return ("Malformed", told + fault_line(scene.fault)) if scene.fault else ("Done", told)


def build(text: bytes) -> Result:
    if len(text) >= TEXT_LIMIT:
        return TOO_LONG
    scene = Scene(lines_of(text))
    return ("Malformed", fault_line(scene.fault)) if scene.fault else ("Done", feed_text(scene.head, scene.messages))


def made(count: int, seed: int, width: int) -> bytes:
    groups = range(1, count // 8 + 1)
    lines = [f"grant g{k} 100 to a{k}" for k in groups]
    for k in groups:
        lines += [f"tx {t}{k} spends g{k}.0 pays 100 to {w}{k}" for t, w in (("p", "x"), ("q", "y"))]
    state = seed
    for i in range(1, count + 1):
        candidates = list(range(max(0, i - width), i))
        chosen = {candidates[0]}
        if len(candidates) > 1:
            chosen = set()
            for _ in range(2):
                state = (state * 6364136223846793005 + 1442695040888963407) % 2**64
                chosen.add(candidates[(state >> 32) % len(candidates)])
        carried = {7: f" carries p{(i + 1) // 8}", 0: f" carries q{i // 8}"}.get(i % 8, "") if (i + 1) // 8 <= count // 8 else ""
        lines.append(f"block b{i} on {' '.join(f'b{each}' if each else 'G' for each in sorted(chosen))}{carried}")
    return text_of(lines)


def drill(count: int, seed: int, width: int) -> Result:
    scene = Scene(lines_of(made(count, seed, width)))
    ledger = Ledger(scene.head)
    for message in scene.messages:
        ledger.arrive(message.payload)
    said = [line.split()[-1] for line in pairs(ledger, scene.labels)[1:]]
    first, *rest = report(ledger, scene.labels)
    words = " ".join(f"{word} {said.count(word)}" for word in ("before", "after", "tie"))
    counts = [line for line in rest if line.startswith(("accepted ", "balances "))]
    return "Done", text_of([first, f"pairs {len(said)} {words}", *counts])


def answered(feed: Feed, before: Sequence[Block] = (), kept: Callable[[Block], None] = lambda block: None) -> bytes:
    """The lines of a feed's messages behind some blocks, with ids; `kept` is told of each block that is kept."""
    if not feed.head:
        return b""
    ledger, told = Ledger(feed.head), b""
    for block in before:
        ledger.arrive(block.text)
    for message in feed.messages:
        count = len(ledger.kept)
        told += text_of(answer(ledger, message, Labels()))
        if len(ledger.kept) > count:
            kept(ledger.kept[sha(message.payload)])
    return told


def status_of(feed: Feed) -> str:
    return "Done" if feed.end == "Whole" else feed.end


def replay(text: bytes) -> Result:
    feed = read_feed(text)
    return status_of(feed), answered(feed) + feed.fault


def node(text: bytes, disk: bytes, fresh: bool) -> tuple[str, bytes, bytes]:
    """The status, what is written, and the disk afterwards."""
    found: Journal | None = None
    try:
        found = read_journal(disk) if disk else None
    except Fault as fault:
        if fault.why == "Damaged":
            return "Damaged", f"fault damaged {fault.at}\n".encode(), disk
        if not fresh:
            return "NotJournal", b"fault not-journal\n", disk
    feed = read_feed(text)
    if not feed.head:
        return status_of(feed), feed.fault, disk
    if found and found.head != feed.head:
        ours, theirs = (f"{each.bits} {sha(each.genesis.text).hex()} {each.profile}" for each in (found.head, feed.head))
        return "OtherChain", f"fault other-chain {ours} {theirs}\n".encode(), disk
    if not found:
        start = journal_text(feed.head, [])
        disk = start + disk[len(start):]
        found = Journal(feed.head, [], len(start) - 1)
    written, end = bytearray(disk), found.end

    def keep(block: Block) -> None:
        nonlocal end
        text = bytes([OPEN]) + record(block)
        written[end:end + len(text) + 1] = text + bytes([SHUT])
        end += len(text)

    told = answered(feed, found.blocks, keep)
    return status_of(feed), told + feed.fault, bytes(written)


def opened(disk: bytes) -> Journal | Result:
    try:
        return read_journal(disk)
    except Fault as fault:
        return fault.why, b"fault not-journal\n" if fault.why == "NotJournal" else f"fault damaged {fault.at}\n".encode()


def show(disk: bytes) -> Result:
    journal = opened(disk)
    if not isinstance(journal, Journal):
        return journal
    ledger = Ledger(journal.head)
    for block in journal.blocks:
        ledger.arrive(block.text)
    return "Done", text_of([f"recovered {len(journal.blocks)}", *report(ledger, Labels())])


def export(disk: bytes, profile: int) -> Result:
    journal = opened(disk)
    if not isinstance(journal, Journal):
        return journal
    head = Head(profile, journal.head.bits, journal.head.genesis)
    return "Done", feed_text(head, [Message("B", block.text) for block in journal.blocks])


def ledger_of(text: bytes) -> Ledger | Result:
    """What is kept of all a feed's messages; or its fault."""
    feed = read_feed(text)
    if not feed.head or feed.end != "Whole":
        return status_of(feed), feed.fault
    ledger = Ledger(feed.head)
    for message in feed.messages:
        if message.kind == "B":
            ledger.arrive(message.payload)
    return ledger


def certify(text: bytes, x: bytes, y: bytes) -> Result:
    ledger = ledger_of(text)
    if not isinstance(ledger, Ledger):
        return ledger
    if x == y or not {x, y} <= ledger.members:
        return "NoPair", b"fault no-pair\n"
    graph, order = ledger.graph, ledger.order
    worlds = [(65_535, ledger.members)] + [(at, graph.past(z)) for at, z in enumerate(order) if {x, y} <= graph.past(z)]
    votes = [(number, graph.votes(members, x, y)) for number, members in worlds]
    listed = [(number, [each.get(z, 0) for z in order]) for number, each in votes]
    cert = Cert(graph.profile, [ledger.kept[z] for z in order], x, y, graph.virt(ledger.members, x, y), listed)
    return "Done", cert.text


def refusal(cert: Cert) -> str | None:
    """The first that refuses a certificate, judged by the blocks alone."""
    names = [sha(block.text) for block in cert.blocks]
    graph = Graph(cert.profile)
    for at, (name, block) in enumerate(zip(names, cert.blocks)):
        if name in names[:at] or not set(block.parents) <= set(names[:at]):
            return f"parent {at}"
        graph.add(name, block)
    x, y = cert.x, cert.y
    if x == y or x not in names or y not in names:
        return "pair"
    wanted = [65_535] + [at for at, z in enumerate(names) if {x, y} <= graph.past(z)]
    given = [number for number, _ in cert.worlds]
    for place in range(max(len(wanted), len(given))):
        if wanted[place:place + 1] != given[place:place + 1]:
            return f"world {place}"
    entries = dict(cert.worlds)
    for place, (number, votes) in enumerate(cert.worlds):
        members = frozenset(names) if number == 65_535 else graph.past(names[number])
        for at, z in enumerate(names):
            if votes[at] != (entry(graph, members, names, entries, votes, z, x, y) if z in members else 0):
                return f"vote {place} {at}"
    return "sum" if cert.sign != sgn(sum(cert.worlds[0][1])) else None


def entry(graph: Graph, members: frozenset[bytes], names: list[bytes], entries: dict[int, list[int]], votes: list[int], z: bytes, x: bytes, y: bytes) -> int:
    """What an entry has to be, by the other entries."""
    past = graph.past(z)
    if z not in (x, y) and x in past and y in past:
        return graph.settled(sgn(sum(entries[names.index(z)])), x, y)
    if z in (x, y) or x in past or y in past:
        return graph.vote_by_case(members, z, x, y, {})
    return sgn(sum(votes[names.index(w)] for w in graph.future(members, z)))


def check(text: bytes) -> Result:
    try:
        cert = read_cert(text)
    except Fault as fault:
        return fault.why, f"fault {fault.why.lower()} {fault.at}\n".encode()
    if why := refusal(cert):
        return "Refuted", f"fault refuted {why}\n".encode()
    return "Done", f"shown {cert.x.hex()} {cert.y.hex()} {('before', 'tie', 'after')[cert.sign + 1]}\n".encode()


# Nodes that send each other blocks


class Net:
    def __init__(self, scene: Scene, count: int) -> None:
        self.scene, self.labels = scene, scene.labels
        self.nodes = [Ledger(scene.head) for _ in range(count)]
        self.packets: list[tuple[int, int, str, list[bytes]]] = []
        self.given = 0

    def node(self, word: str) -> int:
        need("node", decimal(word, 0, HUGE) < len(self.nodes))
        return int(word)

    def send(self, sender: int, receiver: int, kind: str, ids: list[bytes]) -> list[str]:
        need("many", len(self.packets) < 4096)
        self.packets.append((sender, receiver, kind, ids))
        return [f"sent {len(self.packets) - 1} {kind} {len(ids)}"]

    def read(self, words: list[str]) -> None:
        """The reasons of a line that are found when it is read."""
        plain(words)
        lengths = {"give": 3, "tell": 3, "deliver": 2, "report": 2}
        need("command", words[0] in lengths)
        need("form", len(words) == lengths[words[0]])
        numbers = words[1:2] if words[0] == "give" else words[1:]
        for word in numbers:
            decimal(word, 0, HUGE)
        if words[0] != "deliver":
            for word in numbers:
                self.node(word)
        if words[0] == "give":
            need("unknown", words[2] in self.scene.made)

    def step(self, words: list[str]) -> list[str]:
        if words[0] == "report":
            return [f"at {words[1]}", *report(self.nodes[int(words[1])], self.labels)]
        if words[0] == "give":
            need("many", self.given < 128)
            self.given += 1
            return self.bring(int(words[1]), [self.scene.made[words[2]].text])
        if words[0] == "tell":
            teller = self.nodes[int(words[1])]
            return self.send(int(words[1]), int(words[2]), "have", [each for each in teller.kept if each != teller.genesis])
        packet = decimal(words[1], 0, HUGE)
        need("packet", packet < len(self.packets))
        return self.deliver(*self.packets[packet])

    def bring(self, node: int, texts: list[bytes]) -> list[str]:
        return [f"at {node} {arrival(self.nodes[node], text, self.labels)}" for text in texts]

    def deliver(self, sender: int, receiver: int, kind: str, ids: list[bytes]) -> list[str]:
        kept = self.nodes[receiver].kept
        if kind == "blocks":
            return self.bring(receiver, [self.nodes[sender].kept[each].text for each in ids])
        wanted = [each for each in ids if (each in kept) == (kind == "want")]
        return self.send(receiver, sender, "want" if kind == "have" else "blocks", wanted) if wanted else ["idle"]


def gossip(text: bytes) -> Result:
    if len(text) >= TEXT_LIMIT:
        return TOO_LONG
    lines = lines_of(text)
    start = next((at for at, words in enumerate(lines) if words[:1] == ["nodes"]), len(lines))
    scene = Scene(lines[:start])
    if scene.fault or start == len(lines):
        return "Malformed", fault_line(scene.fault or (len(lines) + 1, "nodes"))
    try:
        plain(lines[start])
        need("form", len(lines[start]) == 2)
        net = Net(scene, decimal(lines[start][1], 1, 16))
    except LineFault as fault:
        return "Malformed", fault_line((start + 1, fault.why))
    told: list[str] = []
    for number, words in enumerate(lines[start + 1:], start + 2):
        try:
            if words:
                net.read(words)
                told += net.step(words)
        except LineFault as fault:
            return "Malformed", text_of(told) + fault_line((number, fault.why))
    return "Done", text_of(told)


# Spending and watching


def spend(text: bytes, amount: int, receiver: bytes, words: list[bytes]) -> Result:
    ledger = ledger_of(text)
    if not isinstance(ledger, Ledger):
        return ledger
    keys = {sha(word): word for word in reversed(words)}
    found = sorted((each for each in ledger.unspent() if each[2].lock in keys), key=lambda each: (-each[2].amount, each[0], each[1]))
    fronts = [found[:count] for count in range(1, 17) if sum(each[2].amount for each in found[:count]) >= amount]
    if not fronts:
        return "Poor", f"fault poor {sum(each[2].amount for each in found[:16])}\n".encode()
    total = sum(each[2].amount for each in fronts[0])
    if total >= 2**63:
        return "Large", f"fault large {total}\n".encode()
    inputs = sorted((Input(name, at, keys[output.lock]) for name, at, output in fronts[0]), key=lambda each: each.outpoint)
    rest = [Output(total - amount, sha(words[0]))] if total > amount else []
    return "Done", Tx(tuple(inputs), (Output(amount, sha(receiver)), *rest)).text


def value(ledger: Ledger, item: tuple[str, bytes]) -> str:
    if item[0] == "tx":
        return ledger.state(item[1])
    return str(ledger.balance(item[1])) if item[0] == "balance" else ledger.word(item[1][:32], item[1][32:])


def watch(text: bytes, items: list[tuple[str, bytes]]) -> Result:
    feed = read_feed(text)
    if not feed.head:
        return status_of(feed), feed.fault
    ledger, lines, count = Ledger(feed.head), list[str](), 0
    names = [f"{kind} {' '.join(key[at:at + 32].hex() for at in range(0, len(key), 32))}" for kind, key in items]
    held = [(value(ledger, item), 0, 0) for item in items]
    for message in feed.messages:
        lines += answer(ledger, message, Labels())
        if message.kind == "B":
            count += 1
            for at, item in enumerate(items):
                old, _, changes = held[at]
                if (new := value(ledger, item)) != old:
                    lines.append(f"{names[at]} from {old} to {new}")
                    held[at] = new, count, changes + 1
    if feed.end == "Whole":
        lines += [f"held {name} since {since} changes {changes}" for name, (_, since, changes) in zip(names, held)]
    return status_of(feed), text_of(lines) + feed.fault


# The program's words


def id_word(word: str) -> bytes:
    need("usage", hex_fault(word.encode()) is None)
    return bytes.fromhex(word)


def item_word(word: str) -> tuple[str, bytes]:
    kind, _, rest = word.partition(":")
    need("usage", kind in ("tx", "lock", "pair"))
    ids = rest.split(",") if kind == "pair" else [rest]
    need("usage", len(ids) == (2 if kind == "pair" else 1))
    return {"tx": "tx", "lock": "balance", "pair": "vote"}[kind], b"".join(map(id_word, ids))


def lock_word(word: str) -> bytes:
    need("usage", 1 <= len(word.encode()) <= 64 and not word.startswith("-"))
    return word.encode()


def is_file(word: str) -> bool:
    return word != "" and not word.startswith("-")


def read_words(words: list[str]) -> tuple[str, list[str]]:
    """The command and its file's name, if it has one; all other words are Usage."""
    match words:
        case ["play" | "build" | "replay" | "check" | "gossip"]:
            return words[0], []
        case ["make" | "drill", count, seed, width]:
            decimal(count, 0, 511), decimal(seed, 0, 2**64 - 1), decimal(width, 1, 16)
            return words[0], []
        case ["show", file] | ["export", file, "1" | "2"] | ["node", file] | ["node", "--fresh", file] | ["node", file, "--fresh"] if is_file(file):
            return words[0], [file]
        case ["certify", x, y]:
            id_word(x), id_word(y)
            return words[0], []
        case ["spend", amount, "to", receiver, "from", *keys] if 1 <= len(keys) <= 16:
            decimal(amount, 1, 2**63 - 1), lock_word(receiver)
            need("usage", len({lock_word(each) for each in keys}) == len(keys))
            return words[0], []
        case ["watch", *items] if 1 <= len(items) <= 64:
            need("usage", len({item_word(each) for each in items}) == len(items))
            return words[0], []
    raise LineFault("usage")


def run(words: list[str], given: bytes = b"", disk: bytes | None = None) -> tuple[int, bytes, bytes | None]:
    """The exit code, the output, and the file afterwards, for words, an input and the file as it was (None: there is none)."""
    try:
        command, file = read_words(words)
    except LineFault:
        return STATUS.index("Usage"), b"", disk
    if command == "node":
        status, told, disk = node(given, disk or b"", "--fresh" in words)
    elif file:
        status, told = ("DiskFault", b"") if disk is None else show(disk) if command == "show" else export(disk, int(words[2]))
    else:
        status, told = run_plain(words, given)
    return STATUS.index(status), told, disk


def run_plain(words: list[str], given: bytes) -> Result:
    command, rest = words[0], words[1:]
    if command in ("make", "drill"):
        numbers = [int(word) for word in rest]
        return ("Done", made(*numbers)) if command == "make" else drill(*numbers)
    if command == "certify":
        return certify(given, *map(id_word, rest))
    if command == "spend":
        return spend(given, int(rest[0]), rest[2].encode(), [word.encode() for word in rest[4:]])
    if command == "watch":
        return watch(given, [item_word(word) for word in rest])
    plays: dict[str, Callable[[bytes], Result]] = {"play": play, "build": build, "replay": replay, "check": check, "gossip": gossip}
    return plays[command](given)


def main(words: list[str]) -> int:
    try:
        command, file = read_words(words)
    except LineFault:
        print("usage: spectre (the words are those of docs/FORMATS.md)", file=sys.stderr)
        return STATUS.index("Usage")
    given = b"" if command in ("make", "drill", "show", "export") else sys.stdin.buffer.read()
    disk = None
    if file and os.path.exists(file[0]):
        with open(file[0], "rb") as old:
            disk = old.read()
    code, told, after = run(words, given, disk)
    if file and after is not None and after != disk:
        with open(file[0], "wb") as new:
            new.write(after)
    sys.stdout.buffer.write(told)
    return code


if __name__ == "__main__":
    sys.exit(main(sys.argv[1:]))
