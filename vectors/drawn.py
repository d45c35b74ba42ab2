"""Ledgers that are drawn by a seed: a scenario each, with questions behind each block, and what is asked of its feed."""

from __future__ import annotations

import random
from collections.abc import Iterator

Asked = tuple[list[str], bytes]


def payments(draw: random.Random, words: list[str]) -> list[str]:
    """Grants, and payments of which some are rivals, some are chained, and some aren't sound."""
    lines = [f"grant g{n} {' '.join(f'{draw.randint(1, 60)} to {draw.choice(words)}' for _ in range(draw.randint(1, 2)))} {n + 1} to own{n}"
             for n in range(draw.randint(1, 2))]
    outs = [(f"{line.split()[1]}.{at}", int(line.split()[2 + 3 * at])) for line in lines for at in range((len(line.split()) - 2) // 3)]
    for n in range(draw.randint(2, 5)):
        chosen = draw.sample(outs, min(len(outs), draw.choice([1, 1, 1, 2])))
        worth = sum(amount for _, amount in chosen)
        spends = " ".join(name + (" with wrong" if draw.random() < 0.05 else "") for name, _ in chosen)
        total = worth + 1 if draw.random() < 0.05 else max(1, worth - draw.choice([0, 0, 0, 1]))
        first = draw.randint(1, total)
        amounts = [first, total - first] if total > first and draw.random() < 0.5 else [total]
        lines.append(f"tx t{n} spends {spends} pays {' '.join(f'{amount} to {draw.choice(words)}' for amount in amounts)}")
        outs += [(f"t{n}.{at}", amount) for at, amount in enumerate(amounts)]
    return lines


def twins_left_out(lines: list[str]) -> list[str]:
    """Without lines that make what an earlier one made, which a scenario refuses, and what stands on them."""
    seen: set[str] = set()
    kept: list[str] = []
    gone: set[str] = set()
    for line in lines:
        name, rest = line.split()[1], " ".join(line.split()[2:])
        if rest in seen or any(word.partition(".")[0] in gone for word in line.split()[2:]):
            gone.add(name)
            continue
        seen.add(rest)
        kept.append(line)
    return kept


def blocks(draw: random.Random, txs: list[str]) -> list[str]:
    """Blocks on one to three of the last ones, and the order in which they are sent."""
    names, lines, sends = ["G"], [], []
    width = draw.randint(1, 5)
    for n in range(draw.randint(3, 9)):
        near = names[-width:]
        parents = draw.sample(near, min(len(near), draw.choice([1, 1, 2, 3])))
        carried = draw.sample(txs, min(len(txs), draw.choice([0, 1, 1, 2]))) if txs else []
        lines.append(f"make b{n} on {' '.join(parents)}" + (f" carries {' '.join(carried)}" if carried else ""))
        names.append(f"b{n}")
        sends.append(f"b{n}")
    for _ in range(draw.choice([0, 0, 1, 4])):
        one, two = draw.randrange(len(sends)), draw.randrange(len(sends))
        sends[one], sends[two] = sends[two], sends[one]
    return [*lines, *[line for name in sends for line in (f"send {name}", "pairs", "report")]]


def drawn(seed: int, number: int) -> str:
    """The scenario of a number."""
    draw = random.Random(f"{seed}/{number}")
    made = twins_left_out(payments(draw, ["ann", "bob", "cid"]))
    txs = [line.split()[1] for line in made if line.startswith("tx ")]
    bits = ["bits 1"] if draw.random() < 0.1 else []
    lines = [f"profile {1 + number % 2}", *bits, *made, *blocks(draw, txs)]
    return "".join(f"{line}\n" for line in lines)


WORDS = ("profile bits grant tx make block send vote state balance pairs report nodes on carries spends with pays to G b0 b1 g0 t0 g0.0 g0.1 t0.0 g0.9 g0.00 "
         "0 1 2 3 65 01 -1 9223372036854775807 9223372036854775808 # x x! give tell deliver").split() + ["w" * 65, "n" * 33, "\t", "\r", "\x7f", ""]


def garbled(seed: int, number: int, text: str) -> str:
    """A text some of whose words and lines are changed, left out, or stand twice or elsewhere."""
    draw = random.Random(f"{seed}/{number}/garbled")
    lines = text.splitlines()
    for _ in range(draw.choice([1, 1, 2, 3])):
        at = draw.randrange(len(lines))
        words = lines[at].split(" ")
        place = draw.randrange(len(words))
        change = draw.randrange(6)
        if change < 3:
            words[place:place + change] = [draw.choice(WORDS)]
        elif change == 3:
            del words[place]
        elif change == 4:
            words.insert(place, draw.choice(words))
        lines[at] = " ".join(words)
        if change == 5:
            lines.insert(draw.randrange(len(lines)), lines[at] if draw.random() < 0.5 else lines.pop(at))
    return "".join(f"{line}\n" for line in lines)


def spoiled(seed: int, number: int, data: bytes) -> bytes:
    """Bytes of which one is changed, left out or put in, or that are cut."""
    draw = random.Random(f"{seed}/{number}/spoiled")
    at = draw.choice([draw.randrange(len(data)), draw.randrange(min(len(data), 120)), len(data) - 1 - draw.randrange(min(len(data), 40))])
    byte = bytes([draw.choice([0, 1, 2, 3, 17, 65, 255, data[at] ^ 1 << draw.randrange(8)])])
    return data[:at] + draw.choice([byte + data[at + 1:], byte + data[at + 1:], data[at + 1:], byte + data[at:], b""])


def questions(seed: int, number: int, text: str, feed: bytes, ids: list[str]) -> Iterator[Asked]:
    """What is asked of a drawn ledger beside its own questions: each by turns, since each costs a call of the program."""
    draw = random.Random(f"{seed}/{number}/asked")
    yield ["play"], garbled(seed, number, text).encode()
    if number % 4 == 0:
        yield ["replay"], feed
        yield ["replay"], spoiled(seed, number, feed)
    if number % 4 == 1:
        yield ["certify", *draw.sample(ids, 2)], feed
    if number % 4 == 2:
        yield ["spend", str(draw.randint(1, 120)), "to", "zed", "from", *draw.sample(["ann", "bob", "cid", "own0", "own1"], draw.randint(1, 4))], feed
    if number % 4 == 3:
        nodes = "".join(f"{line}\n" for line in ["nodes 3", *script(draw, text)])
        yield ["gossip"], (text + nodes).encode()
        yield ["gossip"], (text + garbled(seed, number, nodes)).encode()


def script(draw: random.Random, text: str) -> list[str]:
    """What three nodes are given, tell and get, in some order."""
    made = [line.split()[1] for line in text.splitlines() if line.startswith("make ")]
    lines = [f"give {draw.randrange(3)} {name}" for name in made]
    for packet in range(draw.randint(3, 12)):
        lines.append(draw.choice([f"tell {draw.randrange(3)} {draw.randrange(3)}", f"deliver {packet}", f"deliver {draw.randrange(packet + 1)}"]))
    return [*lines, *[f"report {node}" for node in range(3)]]
