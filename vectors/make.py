#!/usr/bin/env python3
"""Writes the vectors, from inputs that were chosen by hand: what comes of each is worked out by the reference.

    python3 vectors/make.py PROGRAM     write them, if the program does what the reference says
    python3 vectors/make.py --check     say which files aren't what the inputs and the reference come to
    python3 vectors/make.py --form      say which files haven't the form of schema.json, or name a rule that isn't there

Where the program differs in a single vector, nothing is written, and each such vector is named. The table of README.md
is written with them. The last line of the first two is `N vectors`, or says what is wrong; the status is 0 where all is well."""

from __future__ import annotations

import json
import pathlib
import sys
from collections.abc import Iterable
from concurrent.futures import ThreadPoolExecutor

import chosen_bytes
import chosen_ledgers
import chosen_runs
from calls import wrongs
from forms import HERE, KINDS, SMALLEST, Vector, load, put, sha, spelled
from rules import ALL, RULES
from schema import wrong
from spell import block
from work import deep, worked_out

MOST = 2_100_000  # bytes of this folder
ABOUT = {
    "ids": "Texts that are ids, or why they are none.",
    "transactions": "Bytes of transactions: what they spell, or their first fault and the place of its field.",
    "blocks": "Bytes of blocks and genesis blocks: what they spell, or their first fault and the place of its field.",
    "feeds": "Bytes of feeds: head and messages, and where reading ends or what it ends with; and what `replay` answers.",
    "journals": "Bytes of journals: what they hold, or their fault; and what `show` answers.",
    "certificates": "Bytes of certificates: what they say, or their fault; and what `check` answers.",
    "graphs": "Graphs: behind each arrival, for each pair of present blocks the word and each block's vote.",
    "ledgers": "Ledgers: behind each block the states of all transactions and what is left under each lock.",
    "scenarios": "Scenarios, and what they come to.", "scripts": "Scripts of nodes, and what they come to.",
    "spends": "Spends of feeds.", "watches": "Watches over feeds.", "certify": "Certificates of feeds.",
    "nodes": "Nodes, and the file of their journal before and afterwards.", "commands": "Words, ends and exit codes.",
}


def named(chosen: tuple[str, str, str], profile: int = 0) -> Vector:
    name, why, rules = chosen
    unknown = set(rules.split()) - set(ALL)
    if unknown:
        raise SystemExit(f"{name} names rules that aren't there: {' '.join(sorted(unknown))}")
    return {"name": f"{name}-{profile}" if profile else name, "why": why, "rules": rules.split()}


def graph(text: str) -> Vector:
    """The blocks of a graph's lines, and the order in which they arrive."""
    ids = {"G": sha(SMALLEST)}
    blocks: list[Vector] = []
    *lines, last = text.split(" / ")
    arrivals = last.split()[1:] if last.startswith("arrive ") else []
    for number, line in enumerate(lines if arrivals else [*lines, last], 1):
        spelling, _, *parents = line.split()
        name, _, marks = spelling.partition("=")
        salt, _, nonce = marks.partition("/")
        data = block(int(salt or number), sorted(bytes.fromhex(ids[each]) for each in parents), (), int(nonce or 0))
        ids[name] = sha(data)
        blocks.append({"name": name, "parents": parents, "id": ids[name], "bytes": spelled(data)})
    return {"blocks": blocks, "arrivals": arrivals or [str(each["name"]) for each in blocks]}


def run_of(run: chosen_runs.Run) -> Vector:
    _, _, _, words, given, disk, outside = run
    vector: Vector = {"words": words, "input": put(given)}
    if "FILE" in words and not outside:
        vector["file"] = None if disk is None else spelled(disk)
    return {**vector, "outside": outside} if outside else vector


def inputs() -> Iterable[tuple[str, Vector]]:
    """The vectors as they were chosen, by their kinds."""
    for each in chosen_bytes.IDS:
        yield "ids", {**named(each[:3]), "id": put(each[3])}
    for kind, chosen in (("transactions", chosen_bytes.TRANSACTIONS), ("journals", chosen_bytes.JOURNALS), ("certificates", chosen_bytes.CERTS)):
        for each in chosen:
            yield kind, {**named(each[:3]), "bytes": spelled(each[3])}
    for genesis, chosen in ((False, chosen_bytes.BLOCKS), (True, chosen_bytes.GENESES)):
        for each in chosen:
            yield "blocks", {**named(each[:3]), "genesis": genesis, "bytes": spelled(each[3])}
    for each in chosen_bytes.FEEDS:
        yield "feeds", {**named(each[:3]), "bytes": spelled(each[3])}
    for limited in chosen_bytes.LIMITED:
        yield "feeds", {**named(limited[:3]), "bytes": spelled(limited[3]), "limit": limited[4]}
    for profile in (1, 2):
        for text in chosen_ledgers.GRAPHS:
            yield "graphs", {**named(text[:3], profile), "profile": profile, **graph(text[3])}
        for text in chosen_ledgers.LEDGERS:
            yield "ledgers", {**named(text[:3], profile), "profile": profile, "lines": text[3].split(" / ")}
    for kind, runs in (("scenarios", chosen_runs.SCENARIOS), ("scripts", chosen_runs.GOSSIP), ("spends", chosen_runs.SPENDS), ("watches", chosen_runs.WATCHES),
                       ("certify", chosen_runs.CERTIFIES), ("nodes", chosen_runs.NODES), ("commands", chosen_runs.COMMANDS)):
        for run in runs:
            yield kind, {**named(run[:3]), **run_of(run)}


def made() -> dict[str, list[Vector]]:
    found: dict[str, list[Vector]] = {kind: [] for kind in KINDS}
    for kind, vector in inputs():
        found[kind].append({**vector, **worked_out(kind, vector)})
    return found


def file_text(kind: str, vectors: list[Vector]) -> str:
    """The file of a kind: a field in each line."""
    said = []
    for vector in vectors:
        said.append("  {\n" + ",\n".join(f"   {json.dumps(key)}: {json.dumps(value)}" for key, value in vector.items()) + "\n  }")
    return f'{{\n "form": 1,\n "kind": {json.dumps(kind)},\n "about": {json.dumps(ABOUT[kind])},\n "vectors": [\n' + ",\n".join(said) + "\n ]\n}\n"


def table(vectors: dict[str, list[Vector]]) -> str:
    """Which vectors are for which rule."""
    users: dict[str, list[str]] = {name: [] for name in ALL}
    for kind, each in vectors.items():
        for vector in each:
            for rule in vector["rules"]:
                users[rule].append(f"{kind}/{vector['name']}")
    lines = []
    for (title, place), rules in RULES.items():
        lines += [f"### {title}", "", f"The rules: [docs/{place.partition('#')[0]}](../docs/{place})", "", "| Rule | What it says | Vectors |", "|---|---|---|"]
        for name, says in rules.items():
            shown = [f"`{each}`" for each in users[name][:6]]
            more = f" and {len(users[name]) - 6} more" if len(users[name]) > 6 else ""
            if not shown:
                raise SystemExit(f"no vector is for {name}")
            lines.append(f"| `{name}` | {says} | {', '.join(shown)}{more} |")
        lines.append("")
    return "\n".join(lines)


def files(vectors: dict[str, list[Vector]]) -> dict[pathlib.Path, str]:
    """What stands in each file that is made."""
    head, mark, _ = (HERE / "README.md").read_text("utf-8").partition("## Which vectors are for which rule\n")
    texts = {HERE / f"{kind}.json": file_text(kind, each) for kind, each in vectors.items()}
    return {**texts, HERE / "README.md": f"{head}{mark}\n{table(vectors)}"}


def disagreements(program: str, vectors: dict[str, list[Vector]]) -> list[str]:
    with ThreadPoolExecutor() as pool:
        listed = [(kind, vector) for kind, each in vectors.items() for vector in each]
        said = pool.map(lambda one: wrongs([program], *one), listed)
        return [f"{kind}/{vector['name']} ({vector['why']})\n    {each}" for (kind, vector), found in zip(listed, said) for each in found]


def faults_of_form() -> list[str]:
    """What is wrong with the form of the files, with names, and with rules."""
    schema, found = load(HERE / "schema.json"), []
    used: set[str] = set()
    for kind in KINDS:
        file = load(HERE / f"{kind}.json")
        found += [f"{kind}.json: {each}" for each in wrong(schema, schema, file)]
        names = [vector["name"] for vector in file["vectors"]]
        found += [f"{kind}.json has two vectors {name}" for name in sorted(set(names)) if names.count(name) > 1]
        found += [f"{kind}.json has vectors of {file['kind']}"] if file["kind"] != kind else []
        used |= {rule for vector in file["vectors"] for rule in vector["rules"]}
    found += [f"{rule} is named and no rule, or a rule without a vector" for rule in sorted(used ^ set(ALL))]
    length = sum(path.stat().st_size for path in HERE.iterdir() if path.is_file())
    return found + ([f"the folder has {length} bytes"] if length > MOST else [])


def main(words: list[str]) -> int:
    if len(words) != 1:
        print("usage: make.py PROGRAM, or make.py --check or --form", file=sys.stderr)
        return 2
    if words == ["--form"]:
        found = faults_of_form()
        print("\n".join(found) or "all files have their form")
        return 1 if found else 0
    vectors = deep(made)
    texts = files(vectors)
    if words == ["--check"]:
        stale = [path.name for path, text in texts.items() if not path.is_file() or path.read_text("utf-8") != text]
        print(f"not what the inputs come to: {', '.join(stale)}" if stale else f"{sum(map(len, vectors.values()))} vectors")
        return 1 if stale else 0
    if differing := disagreements(words[0], vectors):
        print("\n".join([*differing, f"nothing is written: reference and program differ in {len(differing)} places"]))
        return 1
    for path, text in texts.items():
        path.write_text(text, "utf-8")
    print(f"{sum(map(len, vectors.values()))} vectors")
    return 0 if all(load(HERE / f"{kind}.json") for kind in KINDS) else 1


if __name__ == "__main__":
    sys.exit(main(sys.argv[1:]))
