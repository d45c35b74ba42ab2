"""A second reading of the ledger's rules: slow, recursive, and written from the definitions alone.

It says what bytes spell or which rule they break first, how blocks vote, which transactions are accepted, what is left
under a lock, and what a scenario means; commands.py beside it says what each command writes by that. Both share no
code with anything else here, keep no rows and no sums, and work each answer out anew: so where they and the program
agree, two readings of docs/FORMATS.md and docs/DEFINITIONS.md agree."""

from __future__ import annotations

import hashlib
import sys
from collections.abc import Iterable, Iterator, Sequence
from dataclasses import dataclass, field
from functools import cached_property

sys.setrecursionlimit(1_000_000)

FEED_LIMIT, TEXT_LIMIT = 4_294_967_295, 16_777_216
OPEN, SHUT = 0xA5, 0x00


class Fault(Exception):
    """The first rule that some bytes break, and the place of the field that breaks it."""

    def __init__(self, why: str, at: int) -> None:
        super().__init__(why, at)
        self.why, self.at = why, at


def sha(text: bytes) -> bytes:
    return hashlib.sha256(text).digest()


def meets(name: bytes, bits: int) -> bool:
    """The first bits of an id are zero, each byte read from its highest bit."""
    return int.from_bytes(name, "big") >> (256 - bits) == 0


class Fields:
    """Bytes that are read field by field; each is read whole before it is judged."""

    def __init__(self, text: bytes, at: int = 0) -> None:
        self.text, self.at, self.begun = text, at, at

    def take(self, width: int) -> bytes:
        self.begun = self.at
        if len(self.text) - self.at < width:
            raise Fault("Short", self.begun)
        self.at += width
        return self.text[self.begun:self.at]

    def number(self, width: int) -> int:
        return int.from_bytes(self.take(width), "little")

    def rule(self, why: str, holds: bool) -> None:
        if not holds:
            raise Fault(why, self.begun)


# Transactions and blocks


@dataclass(frozen=True)
class Input:
    tx: bytes
    index: int
    preimage: bytes

    @property
    def outpoint(self) -> tuple[bytes, int]:
        return self.tx, self.index


@dataclass(frozen=True)
class Output:
    amount: int
    lock: bytes


@dataclass(frozen=True)
class Tx:
    inputs: tuple[Input, ...]
    outputs: tuple[Output, ...]

    @cached_property
    def text(self) -> bytes:
        spent = b"".join(i.tx + bytes([i.index, len(i.preimage)]) + i.preimage for i in self.inputs)
        paid = b"".join(o.amount.to_bytes(8, "little") + o.lock for o in self.outputs)
        return bytes([len(self.inputs)]) + spent + bytes([len(self.outputs)]) + paid

    @cached_property
    def id(self) -> bytes:
        return sha(self.text)

    def outpoints(self) -> set[tuple[bytes, int]]:
        return {each.outpoint for each in self.inputs}


@dataclass(frozen=True)
class Block:
    salt: int
    nonce: int
    parents: tuple[bytes, ...]
    txs: tuple[Tx, ...]

    @cached_property
    def text(self) -> bytes:
        head = b"\x01" + self.salt.to_bytes(8, "little") + self.nonce.to_bytes(8, "little")
        parents = bytes([len(self.parents)]) + b"".join(self.parents)
        return head + parents + len(self.txs).to_bytes(2, "little") + b"".join(tx.text for tx in self.txs)


def take_tx(fields: Fields) -> Tx:
    """Reads a transaction where the fields stand."""
    inputs: list[Input] = []
    count = fields.number(1)
    fields.rule("InputCount", count <= 16)
    for _ in range(count):
        name = fields.take(33)
        fields.rule("InputOrder", not inputs or inputs[-1].outpoint < (name[:32], name[32]))
        length = fields.number(1)
        fields.rule("PreimageLength", 1 <= length <= 64)
        inputs.append(Input(name[:32], name[32], fields.take(length)))
    outputs: list[Output] = []
    count = fields.number(1)
    fields.rule("OutputCount", 1 <= count <= 16)
    for _ in range(count):
        amount = fields.number(8)
        fields.rule("Amount", amount >= 1)
        fields.rule("Sum", sum(each.amount for each in outputs) + amount < 2**63)
        outputs.append(Output(amount, fields.take(32)))
    return Tx(tuple(inputs), tuple(outputs))


def read_tx(text: bytes) -> Tx:
    """The transaction that a list of bytes spells; what follows it is `Trailing`, which only blocks have a rule for."""
    fields = Fields(text)
    tx = take_tx(fields)
    fields.begun = fields.at
    fields.rule("Trailing", fields.at == len(text))
    return tx


def read_block(text: bytes, genesis: bool) -> Block:
    fields = Fields(text)
    fields.rule("TooLong", len(text) <= 65_536)
    version = fields.number(1)
    fields.rule("Version", version == 1)
    salt, nonce = fields.number(8), fields.number(8)
    count = fields.number(1)
    fields.rule("ParentCount", count == 0 if genesis else 1 <= count <= 64)
    parents: list[bytes] = []
    for _ in range(count):
        parent = fields.take(32)
        fields.rule("ParentOrder", not parents or parents[-1] < parent)
        parents.append(parent)
    count = fields.number(2)
    fields.rule("TxCount", count <= 256)
    txs: list[Tx] = []
    for _ in range(count):
        try:
            tx = take_tx(fields)
        except Fault as fault:
            raise Fault(f"Tx({fault.why})", fault.at) from None
        fields.begun = fields.at
        fields.rule("Grant", not tx.inputs if genesis else bool(tx.inputs))
        fields.rule("SameTx", all(tx.id != each.id for each in txs))
        fields.rule("SameOutpoint", all(not tx.outpoints() & each.outpoints() for each in txs))
        txs.append(tx)
    fields.begun = fields.at
    fields.rule("Trailing", fields.at == len(text))
    return Block(salt, nonce, tuple(parents), tuple(txs))


WORDS = {
    "TooLong": "too-long", "Short": "short", "Version": "version", "ParentCount": "parent-count", "ParentOrder": "parent-order", "TxCount": "tx-count",
    "Tx(Short)": "tx-short", "Tx(InputCount)": "tx-input-count", "Tx(InputOrder)": "tx-input-order", "Tx(PreimageLength)": "tx-preimage",
    "Tx(OutputCount)": "tx-output-count", "Tx(Amount)": "tx-amount", "Tx(Sum)": "tx-sum", "Grant": "grant", "SameTx": "same-tx",
    "SameOutpoint": "same-outpoint", "Trailing": "trailing",
}


def hex_fault(text: bytes) -> tuple[str, int | None] | None:
    """Why a text isn't an id, and where."""
    if len(text) % 2:
        return "OddLength", None
    if len(text) != 64:
        return "WrongLength", None
    bad = [at for at, byte in enumerate(text) if byte not in b"0123456789abcdefABCDEF"]
    return ("BadDigit", bad[0]) if bad else None


# Feeds, journals and certificates


@dataclass(frozen=True)
class Head:
    profile: int
    bits: int
    genesis: Block


@dataclass(frozen=True)
class Message:
    """A message: its kind, what it holds, and the number of the line or byte that it stands at."""

    kind: str
    payload: bytes = b""
    at: int = 0


@dataclass
class Feed:
    head: Head | None = None
    messages: list[Message] = field(default_factory=list)
    end: str = "Whole"
    place: int = 0

    @property
    def fault(self) -> bytes:
        name = {"Malformed": "malformed", "Truncated": "truncated", "TooLong": "too-long"}
        return b"" if self.end == "Whole" else f"fault {name[self.end]} {self.place}\n".encode()


def length_holds(kind: str, length: int) -> bool:
    return {"B": length <= 65_537, "V": length == 64, "T": length == 32, "U": length == 32}.get(kind, length == 0)


def take_frame(fields: Fields, kinds: str) -> Message:
    start = fields.at
    kind = fields.take(1).decode("latin-1")
    fields.rule("Kind", kind in kinds)
    length = fields.number(4)
    fields.rule("Length", length_holds(kind, length))
    return Message(kind, fields.take(length), start)


def take_head(fields: Fields) -> Head:
    magic = fields.take(8)
    fields.rule("Version", magic in (b"SPCTRF01", b"SPCTRF02"))
    bits = fields.number(1)
    fields.rule("Bits", bits <= 64)
    frame = take_frame(fields, "B")
    try:
        genesis = read_block(frame.payload, True)
    except Fault:
        raise Fault("Genesis", fields.begun) from None
    return Head(magic[7] - 48, bits, genesis)


def read_feed(text: bytes, limit: int = FEED_LIMIT) -> Feed:
    """A feed's head and messages, and how its reading ends: `place` is then the fault's number, or where the rest begins."""
    fields, feed = Fields(text[:limit]), Feed()
    try:
        feed.head = take_head(fields)
        while True:
            message = take_frame(fields, "BVTUPRE")
            if message.kind == "E":
                feed.place = fields.at
                return feed
            feed.messages.append(message)
    except Fault as fault:
        if fault.why != "Short":
            feed.end, feed.place = "Malformed", fault.at
        elif len(text) >= limit:
            feed.end, feed.place = "TooLong", limit
        else:
            feed.end, feed.place = "Truncated", len(text)
    return feed


def frame(kind: str, payload: bytes = b"") -> bytes:
    return kind.encode() + len(payload).to_bytes(4, "little") + payload


def feed_text(head: Head, messages: Iterable[Message]) -> bytes:
    front = b"SPCTRF0%d" % head.profile + bytes([head.bits]) + frame("B", head.genesis.text)
    return front + b"".join(frame(each.kind, each.payload) for each in messages) + frame("E")


@dataclass
class Journal:
    head: Head
    blocks: list[Block]
    end: int  # the place of the closed gate


def read_journal(text: bytes) -> Journal:
    """What a disk holds; the faults are NotJournal and Damaged, at the place of a record's gate."""
    fields = Fields(text)
    try:
        fields.rule("Gate", fields.number(1) == OPEN)
        magic = fields.take(8)
        fields.rule("Version", magic in (b"SPCTRJ01", b"SPCTRJ02"))
        bits = fields.number(1)
        fields.rule("Bits", bits <= 64)
        length = fields.number(4)
        fields.rule("Length", length <= 65_536)
        genesis = read_block(fields.take(length), True)
    except Fault:
        raise Fault("NotJournal", 0) from None
    blocks: list[Block] = []
    names = {sha(genesis.text)}
    while True:
        gate = fields.at
        try:
            if fields.number(1) != OPEN:
                return Journal(Head(magic[7] - 48, bits, genesis), blocks, gate)
            fields.rule("Records", len(blocks) < 511)
            length = fields.number(4)
            fields.rule("Length", length <= 65_536)
            block = read_block(fields.take(length), False)
            name = sha(block.text)
            fields.rule("Work", meets(name, bits))
            fields.rule("Id", name not in names)
        except Fault:
            raise Fault("Damaged", gate) from None
        blocks.append(block)
        names.add(name)


def record(block: Block) -> bytes:
    return len(block.text).to_bytes(4, "little") + block.text


def journal_text(head: Head, blocks: Iterable[Block]) -> bytes:
    front = bytes([OPEN]) + b"SPCTRJ0%d" % head.profile + bytes([head.bits]) + record(head.genesis)
    return front + b"".join(bytes([OPEN]) + record(each) for each in blocks) + bytes([SHUT])


@dataclass
class Cert:
    profile: int
    blocks: list[Block]
    x: bytes
    y: bytes
    sign: int
    worlds: list[tuple[int, list[int]]]

    @property
    def text(self) -> bytes:
        front = b"SPCTRC01" + bytes([self.profile]) + len(self.blocks).to_bytes(2, "little") + b"".join(record(each) for each in self.blocks)
        worlds = b"".join(number.to_bytes(2, "little") + bytes(vote + 1 for vote in votes) for number, votes in self.worlds)
        return front + self.x + self.y + bytes([self.sign + 1]) + len(self.worlds).to_bytes(2, "little") + worlds


def take_sign(fields: Fields) -> int:
    sign = fields.number(1)
    fields.rule("Sign", sign <= 2)
    return sign - 1


def read_cert(text: bytes) -> Cert:
    """The certificate that some bytes say; the faults are Malformed, at a field's place, and Truncated."""
    fields = Fields(text)
    try:
        fields.rule("Version", fields.take(8) == b"SPCTRC01")
        profile = fields.number(1)
        fields.rule("Profile", profile in (1, 2))
        count = fields.number(2)
        fields.rule("Count", 1 <= count <= 512)
        blocks: list[Block] = []
        for place in range(count):
            length = fields.number(4)
            fields.rule("Length", length <= 65_536)
            bytes_at = fields.at
            payload = fields.take(length)
            try:
                blocks.append(read_block(payload, place == 0))
            except Fault:
                raise Fault("Block", bytes_at) from None
        x, y, sign = fields.take(32), fields.take(32), take_sign(fields)
        many = fields.number(2)
        fields.rule("Worlds", 1 <= many <= 512)
        worlds = [(fields.number(2), [take_sign(fields) for _ in blocks]) for _ in range(many)]
        fields.begun = fields.at
        fields.rule("Rest", fields.at == len(text))
    except Fault as fault:
        raise (Fault("Truncated", len(text)) if fault.why == "Short" else Fault("Malformed", fault.at)) from None
    return Cert(profile, blocks, x, y, sign, worlds)


# Graphs and votes


def sgn(number: int) -> int:
    return (number > 0) - (number < 0)


class Graph:
    """A profile and blocks by their keys. What is said of a set rests on its members alone, so it is kept by the set."""

    def __init__(self, profile: int) -> None:
        self.profile = profile
        self.parents: dict[bytes, tuple[bytes, ...]] = {}
        self.rank: dict[bytes, tuple[int, bytes]] = {}
        self.pasts: dict[bytes, frozenset[bytes]] = {}
        self.virts: dict[tuple[frozenset[bytes], bytes, bytes], int] = {}

    def add(self, key: bytes, block: Block) -> None:
        self.parents[key], self.rank[key] = block.parents, (block.salt, key)

    def past(self, z: bytes) -> frozenset[bytes]:
        """All that is reached from z by one or more parent steps; z stands on blocks of the graph."""
        if z not in self.pasts:
            steps = [frozenset([parent]) | self.past(parent) for parent in self.parents[z]]
            self.pasts[z] = frozenset().union(*steps)
        return self.pasts[z]

    def future(self, members: frozenset[bytes], z: bytes) -> list[bytes]:
        return [w for w in members if z in self.past(w)]

    def anticone(self, members: Iterable[bytes], z: bytes) -> list[bytes]:
        return [w for w in members if w != z and w not in self.past(z) and z not in self.past(w)]

    def vote(self, members: frozenset[bytes], z: bytes, x: bytes, y: bytes, told: dict[bytes, int]) -> int:
        """The vote of z on x and y in a set, by the first case that applies; `told` has the votes found so far."""
        if z not in told:
            told[z] = self.vote_by_case(members, z, x, y, told)
        return told[z]

    def vote_by_case(self, members: frozenset[bytes], z: bytes, x: bytes, y: bytes, told: dict[bytes, int]) -> int:
        past = self.past(z)
        if z == x:
            return 1 if y in past else -1
        if z == y:
            return -1 if x in past else 1
        if (x in past) != (y in past):
            return -1 if x in past else 1
        if x in past:
            return self.settled(self.virt(past, x, y), x, y)
        return sgn(sum(self.vote(members, w, x, y, told) for w in self.future(members, z)))

    def settled(self, vote: int, x: bytes, y: bytes) -> int:
        if vote or self.profile == 1:
            return vote
        return -1 if self.rank[x] < self.rank[y] else 1

    def votes(self, members: frozenset[bytes], x: bytes, y: bytes) -> dict[bytes, int]:
        told: dict[bytes, int] = {}
        return {z: self.vote(members, z, x, y, told) for z in members}

    def virt(self, members: frozenset[bytes], x: bytes, y: bytes) -> int:
        if (members, x, y) not in self.virts:
            self.virts[members, x, y] = sgn(sum(self.votes(members, x, y).values()))
        return self.virts[members, x, y]


# The ledger

Carrier = tuple[bytes, int]


class Ledger:
    """Genesis and the blocks that are kept of those that arrive, and what is said of the present ones."""

    def __init__(self, head: Head) -> None:
        self.head, self.graph = head, Graph(head.profile)
        self.genesis = sha(head.genesis.text)
        self.kept: dict[bytes, Block] = {}
        self.order: list[bytes] = []  # the present blocks, as they became so
        self.keep(self.genesis, head.genesis)

    def keep(self, name: bytes, block: Block) -> int:
        """Keeps a block, and says how many became present: each time the earliest one whose parents all are."""
        self.kept[name] = block
        self.members = frozenset(self.order)
        before = len(self.order)
        while ready := next((k for k, b in self.kept.items() if k not in self.members and self.members.issuperset(b.parents)), None):
            self.order.append(ready)
            self.graph.add(ready, self.kept[ready])
            self.members = frozenset(self.order)
        self.says: dict[Carrier, bool] = {}
        return len(self.order) - before

    def arrive(self, text: bytes) -> tuple[str, object]:
        """What becomes of bytes that arrive."""
        try:
            block = read_block(text, False)
        except Fault as fault:
            return "refused", WORDS[fault.why]
        name = sha(text)
        if not meets(name, self.head.bits):
            return "refused", "work"
        if name in self.kept:
            return "known", name
        if len(self.kept) >= 512:
            return "full", name
        grown = self.keep(name, block)
        return ("present", grown) if name in self.members else ("waiting", name)

    def word(self, x: bytes, y: bytes) -> str:
        if x not in self.members or y not in self.members:
            return "absent"
        return "same" if x == y else ("before", "tie", "after")[self.graph.virt(self.members, x, y) + 1]

    def tx_of(self, carrier: Carrier) -> Tx:
        return self.kept[carrier[0]].txs[carrier[1]]

    def carriers(self, blocks: Iterable[bytes]) -> Iterator[Carrier]:
        for name in blocks:
            for place in range(len(self.kept[name].txs)):
                yield name, place

    def sound(self, carrier: Carrier) -> bool:
        if carrier[0] == self.genesis:
            return True
        tx, worth = self.tx_of(carrier), 0
        below = {self.tx_of(each).id: self.tx_of(each) for each in self.carriers(self.graph.past(carrier[0]))}
        for each in tx.inputs:
            if each.tx not in below or each.index >= len(below[each.tx].outputs):
                return False
            output = below[each.tx].outputs[each.index]
            if sha(each.preimage) != output.lock:
                return False
            worth += output.amount
        return worth >= sum(output.amount for output in tx.outputs)

    def rivals(self, carrier: Carrier, blocks: Iterable[bytes]) -> Iterator[Carrier]:
        """The sound carriers in some blocks that conflict with one."""
        tx = self.tx_of(carrier)
        for other in self.carriers(blocks):
            rival = self.tx_of(other)
            if tx.outpoints() & rival.outpoints() and rival.id != tx.id and self.sound(other):
                yield other

    def carrier_accepted(self, carrier: Carrier) -> bool:
        if carrier not in self.says:
            self.says[carrier] = self.four_conditions(carrier)
        return self.says[carrier]

    def four_conditions(self, carrier: Carrier) -> bool:
        z, past = carrier[0], self.graph.past(carrier[0])
        if not self.sound(carrier):
            return False
        for spent in self.tx_of(carrier).inputs:
            if not any(self.tx_of(each).id == spent.tx and self.carrier_accepted(each) for each in self.carriers(past)):
                return False
        beside = self.graph.anticone(self.members, z)
        if any(self.graph.virt(self.members, z, rival[0]) != -1 for rival in self.rivals(carrier, beside)):
            return False
        return not any(self.carrier_accepted(rival) for rival in self.rivals(carrier, past))

    def accepted(self) -> dict[bytes, Tx]:
        return {self.tx_of(each).id: self.tx_of(each) for each in self.carriers(self.order) if self.carrier_accepted(each)}

    def state(self, name: bytes) -> str:
        if name in self.accepted():
            return "accepted"
        return "rejected" if any(self.tx_of(each).id == name for each in self.carriers(self.order)) else "absent"

    def unspent(self) -> list[tuple[bytes, int, Output]]:
        accepted = self.accepted()
        spent = {each.outpoint for tx in accepted.values() for each in tx.inputs}
        return [(name, at, o) for name, tx in accepted.items() for at, o in enumerate(tx.outputs) if (name, at) not in spent]

    def balance(self, lock: bytes) -> int:
        return sum(output.amount for _, _, output in self.unspent() if output.lock == lock)


# Lines


@dataclass
class Labels:
    """Names of ids and locks, in the order of naming; an id without one has its digits, and lists of those go by id."""

    names: dict[bytes, str] = field(default_factory=dict)

    def of(self, name: bytes) -> str:
        return self.names.get(name, name.hex())

    def sort(self, ids: Iterable[bytes]) -> list[bytes]:
        order = {name: at for at, name in enumerate(self.names)}
        return sorted(ids, key=lambda each: (order.get(each, len(order)), each))


def text_of(lines: Iterable[str]) -> bytes:
    return "".join(f"{line}\n" for line in lines).encode()


def report(ledger: Ledger, labels: Labels) -> list[str]:
    accepted = labels.sort(ledger.accepted())
    held = {lock: ledger.balance(lock) for lock in {output.lock for _, _, output in ledger.unspent()}}
    blocks = f"blocks {len(ledger.order)} waiting {len(ledger.kept) - len(ledger.order)}"
    txs = [f"accepted {len(accepted)}", *(f"tx {labels.of(each)} accepted" for each in accepted)]
    return [blocks, *txs, f"balances {len(held)}", *(f"balance {labels.of(each)} {held[each]}" for each in labels.sort(held))]


def pairs(ledger: Ledger, labels: Labels) -> list[str]:
    order = labels.sort(ledger.order)
    found = [(x, y) for at, x in enumerate(order) for y in order[at + 1:]]
    return [f"pairs {len(found)}", *(f"vote {labels.of(x)} {labels.of(y)} {ledger.word(x, y)}" for x, y in found)]


def arrival(ledger: Ledger, text: bytes, labels: Labels) -> str:
    kind, what = ledger.arrive(text)
    name = labels.of(sha(text))
    says = {"refused": f"refused {what!s}", "known": f"known {name}", "full": "full", "waiting": f"kept {name} waiting"}
    return says.get(kind, f"kept {name} present {what!s}")


def answer(ledger: Ledger, message: Message, labels: Labels) -> list[str]:
    """The lines that answer one message."""
    kind, payload = message.kind, message.payload
    if kind == "B":
        return [arrival(ledger, payload, labels)]
    if kind == "V":
        x, y = payload[:32], payload[32:]
        return [f"vote {labels.of(x)} {labels.of(y)} {ledger.word(x, y)}"]
    if kind == "T":
        return [f"tx {labels.of(payload)} {ledger.state(payload)}"]
    if kind == "U":
        return [f"balance {labels.of(payload)} {ledger.balance(payload)}"]
    return pairs(ledger, labels) if kind == "P" else report(ledger, labels)


# Scenarios

KEY_WORDS = {"on", "carries", "spends", "with", "pays", "to"}
COMMANDS = {"profile", "bits", "grant", "tx", "make", "block", "send", "vote", "state", "balance", "pairs", "report"}
LETTERS = set("abcdefghijklmnopqrstuvwxyzABCDEFGHIJKLMNOPQRSTUVWXYZ0123456789_-")


class LineFault(Exception):
    def __init__(self, why: str) -> None:
        super().__init__(why)
        self.why = why


def need(why: str, holds: bool) -> None:
    if not holds:
        raise LineFault(why)


def lines_of(text: bytes) -> list[list[str]]:
    """The words of each line, none for one that is skipped; a byte is a character here."""
    pieces = text.split(b"\n")
    if pieces[-1] == b"":
        pieces.pop()
    found: list[list[str]] = []
    nothing: list[str] = []
    for piece in pieces:
        if not piece:
            found.append(nothing)
            continue
        line = (piece[:-1] if piece.endswith(b"\r") else piece).decode("latin-1")
        words = [word for word in line.replace("\t", " ").split(" ") if word]
        found.append(nothing if words and words[0].startswith("#") else words)
    return found


def decimal(word: str, low: int, high: int) -> int:
    good = word.isascii() and word.isdigit() and (word == "0" or word[0] != "0")
    need("number", good and low <= int(word[:40]) <= high)  # forty digits are above each bound
    return int(word[:40])


def plain(words: Sequence[str]) -> None:
    need("byte", all(33 <= ord(letter) <= 126 for word in words for letter in word))


def split_tx(words: list[str]) -> tuple[list[tuple[str, str | None]], list[str]]:
    """The SPENDs and the words of the PAYs of a line `tx`."""
    need("form", len(words) > 3 and words[2] == "spends")
    spends: list[tuple[str, str | None]] = []
    at = 3
    while not (spends and at < len(words) and words[at] == "pays"):
        need("form", len(words) - at > 2)
        if words[at + 1] == "with":
            spends.append((words[at], words[at + 2]))
            at += 3
        else:
            spends.append((words[at], None))
            at += 1
    return spends, words[at + 1:]


def split_pays(words: list[str]) -> list[tuple[str, str]]:
    need("form", len(words) > 0 and len(words) % 3 == 0 and all(word == "to" for word in words[1::3]))
    return list(zip(words[0::3], words[2::3]))


def split_block(words: list[str]) -> tuple[list[str], list[str]]:
    need("form", len(words) > 3 and words[2] == "on")
    end = words.index("carries", 4) if "carries" in words[4:] else len(words)
    need("form", end != len(words) - 1)
    return words[3:end], words[end + 1:]


class Scene:
    """What a scenario says, up to its first fault."""

    def __init__(self, lines: list[list[str]]) -> None:
        self.profile, self.bits = 1, 0
        self.grants: list[Tx] = []
        self.made: dict[str, Block] = {}
        self.txs: dict[str, Tx] = {}
        self.ids: set[bytes] = set()  # of the transactions
        self.words: dict[str, list[str]] = {}  # what locked each transaction's outputs
        self.locks: dict[bytes, str] = {}
        self.order: list[str] = []  # the names of blocks and transactions
        self.messages: list[Message] = []
        self.fault: tuple[int, str] | None = None
        self.seen: list[str] = []  # the first words of the lines that aren't skipped
        for number, words in enumerate(lines, 1):
            if words:
                try:
                    self.line(words, number)
                except LineFault as fault:
                    self.fault = number, fault.why
                    return
                self.seen.append(words[0])

    @property
    def head(self) -> Head:
        return Head(self.profile, self.bits, Block(0, 0, (), tuple(self.grants)))

    @property
    def labels(self) -> Labels:
        names: dict[bytes, str] = {sha(self.head.genesis.text): "G"}
        names.update((sha(self.made[each].text) if each in self.made else self.txs[each].id, each) for each in self.order)
        return Labels({**names, **{lock: word for lock, word in self.locks.items() if lock not in names}})

    def line(self, words: list[str], number: int) -> None:
        plain(words)
        need("command", words[0] in COMMANDS)
        if words[0] == "profile":
            need("late", not self.seen)
        if words[0] == "bits":
            need("late", self.seen in ([], ["profile"]))
        if words[0] == "grant":
            need("late", set(self.seen) <= {"profile", "bits", "grant"})
        if words[0] in ("grant", "tx"):
            self.tx_line(words)
        elif words[0] in ("make", "block"):
            self.block_line(words, number)
        else:
            self.short_line(words, number)

    def short_line(self, words: list[str], number: int) -> None:
        need("form", len(words) == {"pairs": 1, "report": 1, "vote": 3}.get(words[0], 2))
        kind, rest = words[0], words[1:]
        if kind == "profile":
            self.profile = decimal(rest[0], 1, 2)
        elif kind == "bits":
            self.bits = decimal(rest[0], 0, 64)
        elif kind == "send":
            self.say("B", self.block_named(rest[0]).text, number)
        elif kind == "vote":
            self.say("V", b"".join([sha(self.block_named(each).text) for each in rest]), number)
        elif kind == "state":
            need("unknown", rest[0] in self.txs)
            self.say("T", self.txs[rest[0]].id, number)
        elif kind == "balance":
            self.say("U", self.lock(rest[0]), number)
            self.label([rest[0]])
        else:
            self.say(kind[0].upper(), b"", number)

    def say(self, kind: str, payload: bytes, number: int) -> None:
        self.messages.append(Message(kind, payload, number))

    def block_named(self, name: str) -> Block:
        need("unknown", name == "G" or name in self.made)
        return self.head.genesis if name == "G" else self.made[name]

    def lock(self, word: str) -> bytes:
        need("word", len(word) <= 64)
        return sha(word.encode("latin-1"))

    def label(self, words: Iterable[str]) -> None:
        for word in words:
            self.locks.setdefault(self.lock(word), word)

    def new_name(self, name: str) -> None:
        need("name", 1 <= len(name) <= 32 and set(name) <= LETTERS and name not in KEY_WORDS)
        need("taken", name != "G" and name not in self.made and name not in self.txs)

    def spend(self, out: str, word: str | None, earlier: list[Input]) -> Input:
        name, dot, index = out.rpartition(".")
        try:
            place = decimal(index, 0, 255)
        except LineFault:
            raise LineFault("unknown") from None
        need("unknown", dot == "." and name in self.txs and place < len(self.txs[name].outputs))
        need("repeat", all(each.outpoint != (self.txs[name].id, place) for each in earlier))
        opened = self.words[name][place] if word is None else word
        self.lock(opened)
        return Input(self.txs[name].id, place, opened.encode("latin-1"))

    def tx_line(self, words: list[str]) -> None:
        spends: list[tuple[str, str | None]] = []
        if words[0] == "tx":
            spends, rest = split_tx(words)
        else:
            need("form", len(words) > 2)
            rest = words[2:]
        pays = split_pays(rest)
        self.new_name(words[1])
        inputs: list[Input] = []
        for out, word in spends:
            inputs.append(self.spend(out, word, inputs))
        outputs = [Output(decimal(amount, 1, 2**63 - 1), self.lock(word)) for amount, word in pays]
        need("many", len(inputs) <= 16 and len(outputs) <= 16 and len(self.order) + 1 < 4096)
        tx = Tx(tuple(sorted(inputs, key=lambda each: each.outpoint)), tuple(outputs))
        if words[0] == "grant":
            need("many", len(self.grants) < 256 and len(Block(0, 0, (), (*self.grants, tx)).text) <= 65_536)
        need("number", sum(output.amount for output in outputs) < 2**63)
        need("twin", tx.id not in self.ids)
        if words[0] == "grant":
            self.grants.append(tx)
        self.txs[words[1]], self.words[words[1]] = tx, [word for _, word in pays]
        self.ids.add(tx.id)
        self.order.append(words[1])
        self.label(word for _, word in pays)

    def block_line(self, words: list[str], number: int) -> None:
        parents, carried = split_block(words)
        self.new_name(words[1])
        for at, name in enumerate(parents):
            need("unknown", name == "G" or name in self.made)
            need("repeat", name not in parents[:at])
        for at, name in enumerate(carried):
            need("unknown", name in self.txs)
            need("repeat", name not in carried[:at])
        need("many", len(parents) <= 64 and len(carried) <= 256 and len(self.order) + 1 < 4096)
        ids = sorted(sha(self.block_named(each).text) for each in parents)
        salt, txs = len(self.made) + 1, tuple(self.txs[each] for each in carried)
        need("many", len(Block(salt, 0, tuple(ids), txs).text) <= 65_536)
        self.made[words[1]] = self.mined(Block(salt, 0, tuple(ids), txs))
        self.order.append(words[1])
        if words[0] == "block":
            self.say("B", self.made[words[1]].text, number)

    def mined(self, block: Block) -> Block:
        """The same block with the least nonce below 2^20 that meets the work."""
        front, rest = block.text[:9], block.text[17:]
        for nonce in range(1 << 20):
            if meets(sha(front + nonce.to_bytes(8, "little") + rest), self.bits):
                return Block(block.salt, nonce, block.parents, block.txs)
        raise LineFault("work")
