"""What the reference makes of a vector's input: the part of a vector that says what comes of it."""

from __future__ import annotations

import threading
from collections.abc import Callable
from typing import TypeVar

import commands
import reference as ref
from forms import Vector, got, put, spelled, unspelled

Value = TypeVar("Value")


def deep(call: Callable[[], Value]) -> Value:
    """Calls it with a stack that holds the recursion over 512 blocks."""
    found: list[Value] = []
    threading.stack_size(512 << 20)
    thread = threading.Thread(target=lambda: found.append(call()))
    thread.start()
    thread.join()
    threading.stack_size(0)
    return found[0]


def said_tx(tx: ref.Tx) -> Vector:
    inputs = [{"tx": each.tx.hex(), "index": each.index, "preimage": each.preimage.hex()} for each in tx.inputs]
    return {"id": tx.id.hex(), "inputs": inputs, "outputs": [{"amount": str(each.amount), "lock": each.lock.hex()} for each in tx.outputs]}


def said_block(block: ref.Block) -> Vector:
    parents = [each.hex() for each in block.parents]
    return {"id": ref.sha(block.text).hex(), "salt": str(block.salt), "nonce": str(block.nonce), "parents": parents, "transactions": list(map(said_tx, block.txs))}


def said_head(head: ref.Head) -> Vector:
    return {"profile": head.profile, "bits": head.bits, "genesis": ref.sha(head.genesis.text).hex()}


def fault(why: str, at: int | None) -> Vector:
    return {"fault": {"why": why} if at is None else {"why": why, "at": at}}


def work_id(vector: Vector) -> Vector:
    wrong = ref.hex_fault(got(vector["id"]))
    return fault(*wrong) if wrong else {"spells": got(vector["id"]).decode().lower()}


def work_transaction(vector: Vector) -> Vector:
    try:
        return {"spells": said_tx(ref.read_tx(unspelled(vector["bytes"])))}
    except ref.Fault as wrong:
        return fault(wrong.why, wrong.at)


def work_block(vector: Vector) -> Vector:
    try:
        return {"spells": said_block(ref.read_block(unspelled(vector["bytes"]), vector["genesis"]))}
    except ref.Fault as wrong:
        return fault(wrong.why, wrong.at)


def work_feed(vector: Vector) -> Vector:
    data = unspelled(vector["bytes"])
    feed = ref.read_feed(data, vector.get("limit", ref.FEED_LIMIT))
    said: Vector = {"spells": {"head": said_head(feed.head) if feed.head else None,
                               "messages": [[each.kind, spelled(each.payload)] for each in feed.messages]}}
    if feed.end == "Whole":
        said["spells"]["end"] = feed.place
    else:
        said |= fault(feed.end, feed.place)
    return said if "limit" in vector else said | ended(["replay"], data)


def ended(words: list[str], data: bytes, disk: bytes | None = None) -> Vector:
    code, told, _ = commands.run(words, data, disk)
    return {"code": code, "output": put(told)}


def work_journal(vector: Vector) -> Vector:
    data = unspelled(vector["bytes"])
    try:
        journal = ref.read_journal(data)
        said: Vector = {"spells": said_head(journal.head) | {"blocks": [ref.sha(each.text).hex() for each in journal.blocks], "end": journal.end}}
    except ref.Fault as wrong:
        said = fault(wrong.why, wrong.at if wrong.why == "Damaged" else None)
    return said | ended(["show", "FILE"], b"", data)


def work_certificate(vector: Vector) -> Vector:
    data = unspelled(vector["bytes"])
    try:
        cert = ref.read_cert(data)
        worlds = [[number, "".join("-0+"[vote + 1] for vote in votes)] for number, votes in cert.worlds]
        said: Vector = {"spells": {"profile": cert.profile, "blocks": [ref.sha(each.text).hex() for each in cert.blocks],
                                   "x": cert.x.hex(), "y": cert.y.hex(), "sign": cert.sign, "worlds": worlds}}
    except ref.Fault as wrong:
        said = fault(wrong.why, wrong.at)
    return said | ended(["check"], data)


def work_graph(vector: Vector) -> Vector:
    """Behind each arrival its answer, and for each pair of present blocks the word and all votes, in order of presence."""
    head = ref.Head(vector["profile"], 0, ref.Block(0, 0, (), ()))
    ledger = ref.Ledger(head)
    payloads = {block["name"]: unspelled(block["bytes"]) for block in vector["blocks"]}
    names = {ledger.genesis: "G", **{ref.sha(data): name for name, data in payloads.items()}}
    after = []
    for name in vector["arrivals"]:
        answer, what = ledger.arrive(payloads[name])
        votes = []
        for at, x in enumerate(ledger.order):
            for y in ledger.order[at + 1:]:
                said = ledger.graph.votes(ledger.members, x, y)
                votes.append([names[x], names[y], ledger.word(x, y), "".join("-0+"[said[z] + 1] for z in ledger.order)])
        after.append({"block": name, "answer": f"present {what}" if answer == "present" else answer, "votes": votes})
    return {"present": [names[each] for each in ledger.order], "after": after}


def work_ledger(vector: Vector) -> Vector:
    """Behind each block the states of the transactions and the balances of the words that stand by then."""
    after = []
    for at, line in enumerate(vector["lines"]):
        if line.split()[0] not in ("block", "send"):
            continue
        scene = ref.Scene([[], *[each.split() for each in vector["lines"][:at + 1]]])
        scene.profile = vector["profile"]
        ledger, labels = ref.Ledger(scene.head), scene.labels
        answers = [ref.arrival(ledger, message.payload, labels) for message in scene.messages]
        states = {name: ledger.state(tx.id) for name, tx in scene.txs.items()}
        balances = {word: str(ledger.balance(lock)) for lock, word in scene.locks.items()}
        after.append({"block": line.split()[1], "answer": answers[-1], "states": states, "balances": balances})
    genesis = {"genesis": spelled(scene.head.genesis.text), "blocks": {name: spelled(block.text) for name, block in scene.made.items()}}
    ids = {"transactions": {name: tx.id.hex() for name, tx in scene.txs.items()}, "locks": {word: lock.hex() for lock, word in scene.locks.items()}}
    return {**genesis, **ids, "after": after}


def work_run(vector: Vector) -> Vector:
    """A run's code and output, and the file afterwards; what the outside does is no part of the reference."""
    if outside := vector.get("outside"):
        code = {"closed-input": 4, "closed-output": 5, "folder": 6}[outside]
        expected = commands.run(vector["words"], got(vector["input"]), None)[1]
        return {"code": 0 if outside == "closed-output" and not expected else code, "output": put(b"")}
    disk = None if vector.get("file") is None else unspelled(vector["file"])
    code, told, after = commands.run(vector["words"], got(vector["input"]), disk)
    return {"code": code, "output": put(told), "file after": None if after is None else spelled(after)}


WORK: dict[str, Callable[[Vector], Vector]] = {
    "ids": work_id, "transactions": work_transaction, "blocks": work_block, "feeds": work_feed, "journals": work_journal,
    "certificates": work_certificate, "graphs": work_graph, "ledgers": work_ledger}


def worked_out(kind: str, vector: Vector) -> Vector:
    """What comes of a vector's input, by the reference; whatever else stands in the vector isn't looked at."""
    return WORK.get(kind, work_run)(vector)
