"""How vectors stand in the files: bytes, runs of a program, and which runs show what a vector says."""

from __future__ import annotations

import hashlib
import json
import pathlib
import re
from collections.abc import Iterator
from dataclasses import dataclass
from typing import Any

HERE = pathlib.Path(__file__).resolve().parent
Vector = dict[str, Any]
# The files in the order of the documents, and whose vectors are runs as they stand.
CODECS = ["ids", "transactions", "blocks", "feeds", "journals", "certificates"]
RUNS = ["scenarios", "scripts", "spends", "watches", "certify", "nodes", "commands"]
KINDS = [*CODECS, "graphs", "ledgers", *RUNS]

SMALLEST = bytes.fromhex("01" + "00" * 19)
WORDS = {
    "TooLong": "too-long", "Short": "short", "Version": "version", "ParentCount": "parent-count", "ParentOrder": "parent-order", "TxCount": "tx-count",
    "Tx(Short)": "tx-short", "Tx(InputCount)": "tx-input-count", "Tx(InputOrder)": "tx-input-order", "Tx(PreimageLength)": "tx-preimage",
    "Tx(OutputCount)": "tx-output-count", "Tx(Amount)": "tx-amount", "Tx(Sum)": "tx-sum", "Grant": "grant", "SameTx": "same-tx",
    "SameOutpoint": "same-outpoint", "Trailing": "trailing",
}


def sha(data: bytes) -> str:
    return hashlib.sha256(data).hexdigest()


def spelled(data: bytes) -> str:
    """Hexadecimal digits; a byte that stands many times in a row is written once, with the number."""
    pieces, at = [], 0
    for run in re.finditer(rb"(.)\1{23,}", data, re.S):
        pieces += [data[at:run.start()].hex(), f"{run[1].hex()}*{len(run[0])}"]
        at = run.end()
    return " ".join(piece for piece in [*pieces, data[at:].hex()] if piece)


def unspelled(text: str) -> bytes:
    pieces = [piece.partition("*") for piece in text.split()]
    return b"".join(bytes.fromhex(digits) * int(times or "1") for digits, _, times in pieces)


def put(data: bytes) -> Vector:
    """Text where it is some, else bytes."""
    plain = len(data) < 1 << 20 and all(byte == 10 or 32 <= byte < 127 for byte in data) and not re.search(rb"(.)\1{63,}", data, re.S)
    return {"text": data.decode()} if plain else {"bytes": spelled(data)}


def got(value: Vector) -> bytes:
    return str(value["text"]).encode() if "text" in value else unspelled(value["bytes"])


@dataclass(frozen=True)
class Run:
    """A call of a program, and what it has to come to."""

    words: list[str]
    given: bytes
    code: int
    output: bytes
    disk: bytes | None = None
    after: bytes | None = None
    outside: str = ""


def frame(kind: str, payload: bytes = b"") -> bytes:
    return kind.encode() + len(payload).to_bytes(4, "little") + payload


def feed(genesis: bytes, *frames: bytes, profile: int = 1) -> bytes:
    return b"SPCTRF0%d\0" % profile + frame("B", genesis) + b"".join(frames) + frame("E")


def text_of(*lines: str) -> bytes:
    return "".join(f"{line}\n" for line in lines).encode()


def sent(payload: bytes, line: str, *more: tuple[bytes, str]) -> Run:
    """A block that is sent on the smallest genesis block, and what is asked behind it."""
    return Run(["replay"], feed(SMALLEST, frame("B", payload), *[each for each, _ in more]), 0, text_of(line, *[said for _, said in more]))


def genesis_run(payload: bytes, block: Vector | None) -> Run:
    """Bytes that stand as the genesis block of a feed, and the report."""
    given = feed(payload, frame("R"))
    if block is None:
        return Run(["replay"], given, 2, text_of("fault malformed 14"))
    txs = sorted(tx["id"] for tx in block["transactions"])
    held: dict[str, int] = {}
    for tx in block["transactions"]:
        for output in tx["outputs"]:
            held[output["lock"]] = held.get(output["lock"], 0) + int(output["amount"])
    balances = [f"balance {lock} {held[lock]}" for lock in sorted(held)]
    lines = [f"accepted {len(txs)}", *[f"tx {each} accepted" for each in txs], f"balances {len(held)}", *balances]
    return Run(["replay"], given, 0, text_of("blocks 1 waiting 0", *lines))


def id_runs(vector: Vector) -> Iterator[Run]:
    word = got(vector["id"]).decode()
    good = "spells" in vector
    yield Run(["watch", f"tx:{word}"], feed(SMALLEST), 0 if good else 1, text_of(f"held tx {vector['spells']} since 0 changes 0") if good else b"")


def block_of(*txs: bytes, genesis: str | None) -> bytes:
    """A block without nonce and salt, on genesis or as one."""
    parents = b"\0" if genesis is None else b"\1" + bytes.fromhex(genesis)
    return b"\1" + bytes(16) + parents + len(txs).to_bytes(2, "little") + b"".join(txs)


def transaction_runs(vector: Vector) -> Iterator[Run]:
    """A transaction is shown in a block of its own, on genesis or as genesis."""
    data = unspelled(vector["bytes"])
    parent = sha(SMALLEST)
    block = block_of(data, genesis=parent)
    if "fault" in vector:
        why = vector["fault"]["why"]
        yield sent(block, f"refused {WORDS[f'Tx({why})']}")
        return
    tx = vector["spells"]
    ask = frame("T", bytes.fromhex(tx["id"]))
    if tx["inputs"]:
        yield sent(block, f"kept {sha(block)} present 1", (ask, f"tx {tx['id']} rejected"))
    else:
        yield sent(block, "refused grant", (ask, f"tx {tx['id']} absent"))
        yield genesis_run(block_of(data, genesis=None), {"transactions": [tx]})


def block_runs(vector: Vector) -> Iterator[Run]:
    data = unspelled(vector["bytes"])
    if vector["genesis"]:
        yield genesis_run(data, vector.get("spells"))
    elif "fault" in vector:
        if len(data) <= 65_537:
            yield sent(data, f"refused {WORDS[vector['fault']['why']]}")
    else:
        block = vector["spells"]
        standing = "present 1" if block["parents"] == [sha(SMALLEST)] else "waiting"
        yield sent(data, f"kept {block['id']} {standing}", (frame("B", data), f"known {block['id']}"))


def feed_runs(vector: Vector) -> Iterator[Run]:
    if "limit" not in vector:
        yield Run(["replay"], unspelled(vector["bytes"]), vector["code"], got(vector["output"]))


def journal_runs(vector: Vector) -> Iterator[Run]:
    data = unspelled(vector["bytes"])
    yield Run(["show", "FILE"], b"", vector["code"], got(vector["output"]), data, data)


def certificate_runs(vector: Vector) -> Iterator[Run]:
    yield Run(["check"], unspelled(vector["bytes"]), vector["code"], got(vector["output"]))


def graph_runs(vector: Vector) -> Iterator[Run]:
    """The blocks one after another, with all pairs behind each; what single voters say stands in certificates."""
    payloads = {block["name"]: unspelled(block["bytes"]) for block in vector["blocks"]}
    ids = {"G": sha(SMALLEST), **{name: sha(data) for name, data in payloads.items()}}
    lines: list[str] = []
    for step in vector["after"]:
        name = ids[step["block"]]
        lines.append(f"kept {name} {step['answer']}")
        votes = [(*sorted((ids[x], ids[y])), word if ids[x] < ids[y] else turned(word)) for x, y, word, _ in step["votes"]]
        lines += [f"pairs {len(votes)}", *[f"vote {x} {y} {word}" for x, y, word in sorted(votes)]]
    frames = [frame("B", payloads[step["block"]]) + frame("P") for step in vector["after"]]
    given = feed(SMALLEST, *frames, profile=vector["profile"])
    yield Run(["replay"], given, 0, text_of(*lines))
    for x, y, word, said in vector["after"][-1]["votes"]:
        if set(said) != {"-"}:  # as those of an ancestor and its descendant are
            yield Run(["certify", ids[x], ids[y]], given, 0, f"{word} {said}".encode(), outside="votes")


def turned(word: str) -> str:
    return {"before": "after", "after": "before"}.get(word, word)


def said_by(cert: bytes) -> bytes:
    """The word of a certificate, and the votes of its first world, in the order of its blocks."""
    try:
        count, at = int.from_bytes(cert[9:11], "little"), 11
        for _ in range(count):
            at += 4 + int.from_bytes(cert[at:at + 4], "little")
        word = ("before", "tie", "after")[cert[at + 64]]
        return f"{word} {''.join('-0+'[each] for each in cert[at + 69:at + 69 + count])}".encode()
    except IndexError:
        return cert


def ledger_runs(vector: Vector) -> Iterator[Run]:
    """The scenario with questions behind each block: on each transaction and on each lock that stands by then."""
    text, lines, steps = [f"profile {vector['profile']}"], [], iter(vector["after"])
    for line in vector["lines"]:
        text.append(line)
        if line.split()[0] in ("block", "send"):
            step = next(steps)
            text += [*[f"state {tx}" for tx in step["states"]], *[f"balance {word}" for word in step["balances"]]]
            lines += [step["answer"], *[f"tx {tx} {state}" for tx, state in step["states"].items()]]
            lines += [f"balance {word} {amount}" for word, amount in step["balances"].items()]
    yield Run(["play"], text_of(*text), 0, text_of(*lines))


def plain_runs(vector: Vector) -> Iterator[Run]:
    disk, after = (None if vector.get(key) is None else unspelled(vector[key]) for key in ("file", "file after"))
    yield Run(vector["words"], got(vector["input"]), vector["code"], got(vector["output"]), disk, after, vector.get("outside", ""))


SHOWN = {"ids": id_runs, "transactions": transaction_runs, "blocks": block_runs, "feeds": feed_runs, "journals": journal_runs,
         "certificates": certificate_runs, "graphs": graph_runs, "ledgers": ledger_runs}


def runs_of(kind: str, vector: Vector) -> list[Run]:
    """The calls that show of a program what a vector says; none where no command line can."""
    return list(SHOWN.get(kind, plain_runs)(vector))


def load(path: pathlib.Path) -> Vector:
    with open(path, encoding="utf-8") as file:
        return dict(json.load(file))


def every_file(names: list[str]) -> list[tuple[str, list[Vector]]]:
    """The vectors of these kinds, or of all, by kind."""
    return [(kind, load(HERE / f"{kind}.json")["vectors"]) for kind in names or KINDS]
