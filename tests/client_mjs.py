#!/usr/bin/env python3
"""Tries what docs/FORMATS.md says under "Talking to a node", and the client in JavaScript that was written from it.

    python3 tests/client_mjs.py

First the program is talked to over pipes as the document says; then examples/client.mjs reads the vectors of bytes,
talks to nodes, one of which is killed, has thousands of messages on the way, and is handed answers by programs that
are no nodes."""

from __future__ import annotations

import hashlib
import json
import os
import pathlib
import select
import shutil
import subprocess
import sys
import tempfile
import threading

from harness import DONE, PROGRAM, ROOT, call, lacks, make_tree, run_all, see

CLIENT = ROOT / "examples/client.mjs"
GENESIS = b"\1" + bytes(16) + bytes(3)
G = hashlib.sha256(GENESIS).digest()
PATIENCE = 60


def frame(kind: bytes, payload: bytes = b"") -> bytes:
    return kind + len(payload).to_bytes(4, "little") + payload


def block(salt: int) -> bytes:
    return b"\1" + salt.to_bytes(8, "little") + bytes(8) + b"\1" + G + b"\0\0"


HEAD = b"SPCTRF01\0" + frame(b"B", GENESIS)
E = frame(b"E")


def name(payload: bytes) -> str:
    return hashlib.sha256(payload).hexdigest()


class Talk:
    """A node, and what it has written so far."""

    def __init__(self, file: pathlib.Path) -> None:
        self.process = subprocess.Popen([PROGRAM, "node", str(file)], stdin=subprocess.PIPE, stdout=subprocess.PIPE, stderr=subprocess.DEVNULL)
        assert self.process.stdin and self.process.stdout
        self.input, self.output = self.process.stdin, self.process.stdout
        self.rest = b""

    def write(self, data: bytes) -> None:
        self.input.write(data)
        self.input.flush()

    def is_silent(self, seconds: float = 0.3) -> bool:
        return not self.rest and not select.select([self.output], [], [], seconds)[0]

    def line(self) -> str:
        """The next line, or what there is behind the last one, once nothing comes any more."""
        while b"\n" not in self.rest:
            if not select.select([self.output], [], [], PATIENCE)[0]:
                break
            piece = os.read(self.output.fileno(), 65536)
            if not piece:
                break
            self.rest += piece
        line, _, self.rest = self.rest.partition(b"\n")
        return line.decode()

    def end(self, last: bytes = E) -> tuple[int, str]:
        """The exit code, and what was written behind the last line that was read."""
        self.write(last)
        self.input.close()
        rest = self.rest + self.output.read()
        return self.process.wait(PATIENCE), rest.decode()


def starts(folder: pathlib.Path) -> None:
    """The head, answers in their order and at once, and the end."""
    file = folder / "journal"
    talk = Talk(file)
    see("a node greets nobody", talk.is_silent())
    talk.write(HEAD)
    see("nothing is written in answer to the head", talk.is_silent())
    talk.write(frame(b"V", G + G))
    see("a question is answered though nothing follows", talk.line() == f"vote {G.hex()} {G.hex()} same")
    see("the head is the journal's as soon as it was read", file.read_bytes() == b"\xa5SPCTRJ01\0" + len(GENESIS).to_bytes(4, "little") + GENESIS + b"\0")
    for byte in frame(b"B", block(1)):
        talk.write(bytes([byte]))
    see("a block that comes byte by byte is answered", talk.line() == f"kept {name(block(1))} present 1")
    see("and stands in the journal by then", file.read_bytes().endswith(b"\xa5" + len(block(1)).to_bytes(4, "little") + block(1) + b"\0"))
    talk.write(frame(b"B", block(2)) + frame(b"P") + frame(b"R") + frame(b"T", G))
    lines = [talk.line() for _ in range(9)]
    heads = [line.split()[0] for line in lines]
    see("answers stand in the order of the messages", heads == ["kept", "pairs", "vote", "vote", "vote", "blocks", "accepted", "balances", "tx"])
    see("and say how long they are", lines[1] == "pairs 3" and lines[6:8] == ["accepted 0", "balances 0"])
    talk.write(frame(b"B", bytes(65_537)))
    see("a message that is longer than a pipe is read to its end first", talk.line() == "refused too-long")
    see("the frame `E` ends with 0 and nothing more", talk.end(E + frame(b"P")) == (DONE, ""))


def ends(folder: pathlib.Path) -> None:
    """Ends that aren't the good one."""
    for title, data, code, wanted in (
        ("between two frames", HEAD + frame(b"R"), 3, f"fault truncated {len(HEAD) + 5}"),
        ("within one", HEAD + frame(b"R") + E[:4], 3, f"fault truncated {len(HEAD) + 9}"),
        ("by an unknown kind", HEAD + frame(b"R") + b"Z", 2, f"fault malformed {len(HEAD) + 5}"),
    ):
        told = Talk(folder / "journal").end(data)
        see(f"input that ends {title}: what was whole is answered, and the fault stands last",
            told == (code, f"blocks 1 waiting 0\naccepted 0\nbalances 0\n{wanted}\n"))
    talk = Talk(folder / "journal")
    talk.write(b"SPCTRF02\0" + frame(b"B", GENESIS) + frame(b"R"))
    see("a head that isn't the journal's", talk.end(b"") == (8, f"fault other-chain 0 {G.hex()} 1 0 {G.hex()} 2\n"))
    talk = Talk(folder / "journal")
    talk.output.close()
    talk.write(HEAD + frame(b"B", block(7)))
    see("an output that is closed ends with 5", talk.process.wait(PATIENCE) == 5)
    again = Talk(folder / "journal")
    again.write(HEAD + frame(b"B", block(7)))
    see("its block, whose line nobody read, may stand there", again.line() in (f"known {name(block(7))}", f"kept {name(block(7))} present 1"))
    see("and the talk goes on", again.end()[0] == DONE)


def fills(folder: pathlib.Path) -> None:
    """Who writes all before reading stands still; who reads meanwhile gets all."""
    talk, count = Talk(folder / "journal"), 20_000
    writer = threading.Thread(target=talk.write, args=(HEAD + frame(b"V", G + G) * count,), daemon=True)
    writer.start()
    writer.join(3)
    see("both pipes are full, and nothing moves", writer.is_alive())
    lines = {talk.line() for _ in range(count)}
    writer.join(PATIENCE)
    see("once the output is read, all is written and answered", not writer.is_alive() and lines == {f"vote {G.hex()} {G.hex()} same"})
    see("and the end is good", talk.end() == (DONE, ""))


def is_locked(folder: pathlib.Path) -> None:
    """The launcher's lock, and its copies."""
    if not shutil.which("flock"):
        lacks("the lock of a node", "there is no flock")
        return
    launcher, file = make_tree(folder / "tree"), folder / "journal"
    node = subprocess.Popen([launcher, "node", file], stdin=subprocess.PIPE, stdout=subprocess.PIPE)
    assert node.stdin and node.stdout
    node.stdin.write(HEAD + frame(b"B", block(1)))
    node.stdin.flush()
    node.stdout.readline()
    see("`show` beside a node ends with 124", call([launcher, "show", file]).returncode == 124)
    see("`export` beside it, too", call([launcher, "export", file, "1"]).returncode == 124)
    see("and so does another node", call([launcher, "node", file], HEAD + E).returncode == 124)
    see("a copy is taken meanwhile", call([launcher, "snapshot", file, folder / "copy"]).returncode == DONE)
    shown = call([launcher, "show", folder / "copy"])
    see("and can be shown", (shown.returncode, shown.stdout.splitlines()[0]) == (DONE, b"recovered 1"))
    node.communicate(E, timeout=PATIENCE)
    see("behind its end the file is free", call([launcher, "show", file]).returncode == DONE)


def javascript(body: str, *words: str | pathlib.Path, seconds: int = 120) -> object:
    """What a script that uses the client writes as JSON, or the text of what went wrong."""
    start = f"import {{ Node, mined, sha, txBytes }} from {json.dumps(CLIENT.as_uri())};\nconst [program, file] = process.argv.slice(2);\n"
    with tempfile.TemporaryDirectory() as place:
        script = pathlib.Path(place, "script.mjs")
        script.write_text(start + body)
        done = call(["node", script, PROGRAM, *words], seconds=seconds)
    try:
        return json.loads(done.stdout)
    except ValueError:
        return f"{done.returncode}: {done.stdout!r} {done.stderr!r}"


ROUND = """
const lock = (word) => sha(Buffer.from(word)), grant = txBytes({ inputs: [], outputs: [{ amount: "100", lock: lock("alice") }] });
const genesis = mined({ salt: 0, parents: [], txs: [grant] }), root = sha(genesis);
const pay = (to) => txBytes({ inputs: [{ tx: sha(grant), index: 0, preimage: Buffer.from("alice").toString("hex") }], outputs: [{ amount: "100", lock: lock(to) }] });
const [p, q] = [pay("bob"), pay("carol")];
const a = mined({ salt: 1, parents: [root], txs: [p], bits: 8 }), b = mined({ salt: 2, parents: [root], txs: [q], bits: 8 });
const c = mined({ salt: 3, parents: [sha(a)], bits: 8 });
const node = new Node([program], file, genesis, 8);
const told = [];
"""


def talks(folder: pathlib.Path) -> None:
    """Head, mined blocks, offers, questions, the end; and a killed node that is started again."""
    told = javascript(ROUND + """
for (const each of [a, b]) told.push((await node.offer(each))[0].split(" ").slice(2).join(" "));
told.push((await node.vote(sha(a), sha(b)))[0].split(" ")[3], (await node.tx(sha(p)))[0].split(" ")[2], (await node.balance(lock("alice")))[0].split(" ")[2]);
const all = await Promise.all([node.offer(c), node.offer(a), node.tx(sha(p)), node.balance(lock("bob")), node.pairs(), node.report()]);
told.push(...all.map((lines) => lines.length), all[2][0].split(" ")[2], all[3][0].split(" ")[2], all[1][0].split(" ")[0], await node.end());
console.log(JSON.stringify([told, [a, b, c].map((each) => sha(each).slice(0, 2))]));
""", folder / "round")
    # A double spend: tied, then decided for the first by a block on it.
    wanted = ["present 1", "present 1", "tie", "rejected", "100", 1, 1, 1, 1, 7, 6, "accepted", "100", "known", 0]
    see(f"a round of talk: {told}", told == [wanted, ["00", "00", "00"]])
    killed = javascript(ROUND + """
await node.offer(a);
const left = node.offer(b).catch((error) => error.message);
node.process.kill("SIGKILL");
const code = await node.ended;
const again = new Node([program], file, genesis, 8);
const known = (await again.offer(a))[0].split(" ")[0];
const second = (await again.offer(b))[0].split(" ")[0], third = (await again.offer(c))[0].split(" ")[0];
console.log(JSON.stringify([code, typeof (await left), known, ["kept", "known"].includes(second), third, (await again.tx(sha(p)))[0].split(" ")[2], await again.end()]));
""", folder / "killed")
    # The second block's line may have been read before the kill, or its offer failed; the journal may have it or not.
    right = isinstance(killed, list) and killed[1] in ("string", "object") and [*killed[:1], *killed[2:]] == ["SIGKILL", "known", True, "kept", "accepted", 0]
    see(f"a node that was killed, and started again: {killed}", right)
    chain = javascript(ROUND + """
const lines = node.report().catch((error) => error.message);
console.log(JSON.stringify([await lines, await node.ended]));
""".replace("node.report()", "new Node([program], file, genesis, 9).report()").replace("await node.ended", "(await node.end())"), folder / "killed")
    see(f"another chain is told with its line: {chain}", isinstance(chain, list) and str(chain[0]).startswith("the node ended with 8: fault other-chain 8 "))


def floods(folder: pathlib.Path) -> None:
    """Thousands of messages on the way, with answers that are much longer than a pipe."""
    told = javascript(ROUND + """
const blocks = Array.from({ length: 200 }, (_, at) => mined({ salt: at + 10, parents: [root], bits: 8 }));
const kept = blocks.map((each) => node.offer(each));
const votes = Array.from({ length: 5000 }, (_, at) => node.vote(root, sha(blocks[at % 200])));
const pairs = Array.from({ length: 12 }, () => node.pairs());
const more = Array.from({ length: 5000 }, () => node.balance(lock("alice")));
const all = [(await Promise.all(kept)).map((each) => each[0].split(" ")[2]), (await Promise.all(votes)).map((each) => each[0].split(" ")[3]),
             (await Promise.all(pairs)).map((each) => String(each.length)), (await Promise.all(more)).map((each) => each[0].split(" ")[2])];
console.log(JSON.stringify([all.map((each) => [...new Set(each)]), await node.end()]));
""", folder / "flood", seconds=300)
    see(f"ten thousand questions and 241,212 lines of pairs: {told}", told == [[["present"], ["before"], [str(201 * 200 // 2 + 1)], ["100"]], 0])


FAKES = {
    "another id": f"vote {'0' * 64} {G.hex()} same\n", "another kind": f"tx {G.hex()} accepted\n", "a cut line": f"vote {G.hex()} {G.hex()} sa",
    "nothing": "", "a line of other bytes": f"vote {G.hex()} {G.hex()} s\tme\n", "a long line": f"vote {G.hex()} {G.hex()} {'s' * 200}\n",
}


def refuses(folder: pathlib.Path) -> None:
    """What isn't an answer."""
    for title, text in FAKES.items():
        fake = folder / "fake"
        fake.write_text(f"#!/bin/sh\nhead -c {len(HEAD)} >/dev/null\nprintf '%s' '{text}'\n")
        fake.chmod(0o755)
        told = javascript(f"""
const node = new Node([{json.dumps(str(fake))}], file, mined({{ salt: 0, parents: [] }}));
const root = sha(mined({{ salt: 0, parents: [] }}));
console.log(JSON.stringify(await node.vote(root, root).catch((error) => error.message.slice(0, 14))));
""", folder / "none")
        see(f"{title} is no answer: {told}", told == "the node ended")
    listed = folder / "listed"
    listed.write_text("#!/bin/sh\nprintf 'pairs 2\\nvote a b same\\n'\n")
    listed.chmod(0o755)
    body = f"""
const node = new Node([{json.dumps(str(listed))}], file, mined({{ salt: 0, parents: [] }}));
console.log(JSON.stringify(await node.pairs().catch((error) => error.message.slice(0, 14))));
"""
    see("a list that is cut is no answer", javascript(body, folder / "none") == "the node ended")
    for title, text in (("a line behind a fault's", f"fault truncated 9\nvote {G.hex()} {G.hex()} same\n"), ("a fault that ends with 0", "fault truncated 9\n")):
        fake = folder / "faulty"
        fake.write_text(f"#!/bin/sh\nhead -c {len(HEAD)} >/dev/null\nprintf '%s' '{text}'\n")
        fake.chmod(0o755)
        told = javascript(f"""
const node = new Node([{json.dumps(str(fake))}], file, mined({{ salt: 0, parents: [] }})), root = sha(mined({{ salt: 0, parents: [] }}));
const first = await node.vote(root, root).catch((error) => error.message.slice(0, 14));
console.log(JSON.stringify([first, await node.report().catch((error) => error.message.slice(0, 14)), await node.end()]));
""", folder / "none")
        see(f"{title} is no answer, and nothing is asked any more: {told}", isinstance(told, list) and told[:2] == ["the node ended"] * 2 and told[2] != 0)
    told = javascript("""
const node = new Node(["/nowhere/spectre"], file, mined({ salt: 0, parents: [] }));
console.log(JSON.stringify([await node.report().catch(() => "failed"), String(await node.end()).includes("ENOENT")]));
""", folder / "none")
    see(f"a program that isn't there: {told}", told == ["failed", True])


def reads_vectors(folder: pathlib.Path) -> None:
    files = [ROOT / f"vectors/{kind}.json" for kind in ("ids", "transactions", "blocks", "feeds", "journals", "certificates")]
    done = call(["node", CLIENT, "vectors", *files])
    count = sum(len(json.loads(file.read_text())["vectors"]) for file in files)
    see(f"the client reads all vectors of bytes: {done.stdout.decode()}", (done.returncode, done.stdout.decode()) == (DONE, f"{count} passed, 0 failed\n"))
    changed = folder / "ids.json"
    changed.write_text(files[0].read_text().replace('"at": 4', '"at": 5'))
    done = call(["node", CLIENT, "vectors", changed])
    see("and says which one it reads otherwise", done.returncode == 1 and b"DIFFERS ids/digit-4: The fifth digit is a `g`." in done.stdout)


def asks_by_lines(folder: pathlib.Path) -> None:
    lines = "block 1 G\nvote G G\nreport\n".encode()
    done = call(["node", CLIENT, "talk", folder / "journal", "4"], lines, env={**os.environ, "SPECTRE": PROGRAM})
    said = done.stdout.decode().splitlines()
    told = call(["node", CLIENT, "talk", folder / "journal", "5"], lines * 20, env={**os.environ, "SPECTRE": PROGRAM})
    see(f"another chain ends them: {told.stderr.decode()}", told.returncode == 8 and b"the node ended with 8: fault other-chain 4 " in told.stderr)
    see(f"requests by lines: {said}", done.returncode == DONE and [line.split()[0] for line in said] == ["kept", "vote", "blocks", "accepted", "balances"])


def main() -> int:
    tests = [starts, ends, fills, is_locked]
    if shutil.which("node"):
        tests += [reads_vectors, talks, asks_by_lines, floods, refuses]
        see("the client has at most 250 lines", len(CLIENT.read_text().splitlines()) <= 250)
    else:
        lacks("the client in JavaScript", "there is no node")
    with tempfile.TemporaryDirectory() as folder:
        return run_all(tests, pathlib.Path(folder))


if __name__ == "__main__":
    sys.exit(main())
