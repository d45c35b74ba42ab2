#!/usr/bin/env python3
"""Compares the program with the vectors and with the reference beside them.

    python3 tests/vectors.py [SEED]

The files have the form of their schema; they are what inputs and reference come to; the program does what each says, and
on a thousand ledgers that are drawn by SEED (1 where none is named) what the reference says. Then faults are planted in
what the program writes and in the reference, one at a time, and `vectors/run` has to name each."""

from __future__ import annotations

import pathlib
import shutil
import sys
import tempfile

from harness import DONE, PROGRAM, ROOT, call, finish, see

FOLDER = ROOT / "vectors"
LIMIT = 550
DRAWN = 1000

# Faults of a program, as what changes its output, its code, or its file: where they show.
PROGRAMS = [
    ("another word for a refusal", "transactions", "out = out.replace(b'tx-amount', b'tx-sum')"),
    ("a place that is one too high", "feeds", "out = re.sub(rb'malformed (\\d+)', lambda m: b'malformed %d' % (int(m[1]) + 1), out)"),
    ("a tie that is given to the first", "watches", "out = out.replace(b' tie', b' before')"),
    ("a rejected payment that is accepted", "ledgers", "out = out.replace(b'rejected', b'accepted')"),
    ("another exit code", "spends", "code = 15 if code == 14 else code"),
    ("a byte of a payment", "spends", "out = out[:-1] + bytes([out[-1] ^ 1]) if out[:1] == b'\\1' else out"),
    ("a line that is left out", "scripts", "out = out.replace(b'idle\\n', b'')"),
    ("a file that is made longer", "nodes", "words[0] != 'show' and os.path.isfile(words[-1]) and open(words[-1], 'ab').write(b'x')"),
    ("a certificate that isn't refused", "certificates", "code = 0 if code == 13 else code"),
    ("a digit in upper case", "ids", "out = out.replace(b'a', b'A')"),
    ("a number of changes", "watches", "out = out.replace(b'changes 3', b'changes 2')"),
]
# Faults of the reference: what is changed in its text, and where they show.
REFERENCES = [
    ("an outpoint that may stand twice", "transactions", "inputs[-1].outpoint < (name[:32]", "inputs[-1].outpoint <= (name[:32]"),
    ("the version judged behind the salt", "blocks", '    fields.rule("Version", version == 1)\n    salt, nonce = fields.number(8), fields.number(8)\n',
     '    salt, nonce = fields.number(8), fields.number(8)\n    fields.rule("Version", version == 1)\n'),
    ("the higher salt", "graphs", "-1 if self.rank[x] < self.rank[y]", "-1 if self.rank[x] > self.rank[y]"),
    ("a voter that turns its past round", "graphs", "self.settled(self.virt(past, x, y), x, y)", "self.settled(self.virt(past, y, x), x, y)"),
    ("a tie that is enough", "ledgers", "z, rival[0]) != -1", "z, rival[0]) == 1"),
    ("a rival that isn't sound", "ledgers", "rival.id != tx.id and self.sound(other)", "rival.id != tx.id"),
    ("a limit that is missed by one", "feeds", "elif len(text) >= limit:", "elif len(text) > limit:"),
    ("512 records", "journals", "len(blocks) < 511", "len(blocks) < 512"),
    ("the smallest first", "spends", "(-each[2].amount, ", "(each[2].amount, "),
    ("a rank that is asked of y first", "certificates", "entry(graph, members, names", "-entry(graph, members, names"),
]
WRAPPER = """#!{python}
import os, re, subprocess, sys
words = sys.argv[1:]
done = subprocess.run([{program!r}, *words], input=sys.stdin.buffer.read(), stdout=subprocess.PIPE, stderr=subprocess.DEVNULL)
out, code = done.stdout, done.returncode
{change}
sys.stdout.buffer.write(out)
sys.stdout.buffer.flush()
sys.exit(code)
"""


def last_line(output: bytes) -> str:
    lines = output.decode("utf-8", "replace").splitlines()
    return lines[-1] if lines else ""


def has_form(folder: pathlib.Path) -> None:
    """Schema, names and rules, and the folder's length; and the same where one of them is at fault."""
    done = call([sys.executable, FOLDER / "make.py", "--form"])
    see(f"the files have their form: {done.stdout.decode()[:500]}", done.returncode == DONE)
    for title, name, old, new, said in (
        ("a field that is missing", "ids.json", '"why": "The last digit is a blank."', '"whys": ""', "ids.json: /vectors/9 lacks some of"),
        ("a rule that isn't there", "ids.json", '"id/odd"', '"id/even"', "id/even is named and no rule"),
        ("two vectors of one name", "ids.json", '"odd-63"', '"even-62"', "ids.json has two vectors even-62"),
        ("digits in upper case", "blocks.json", '"bytes": "0101', '"bytes": "01FF', "blocks.json: /vectors/0"),
    ):
        place = folder / title.replace(" ", "-")
        shutil.copytree(FOLDER, place, ignore=shutil.ignore_patterns("__pycache__"))
        file = place / name
        file.write_text(file.read_text().replace(old, new))
        done = call([sys.executable, place / "make.py", "--form"])
        see(f"{title} is named: {done.stdout.decode()[:500]}", done.returncode == 1 and said in done.stdout.decode())


def is_fresh() -> None:
    done = call([sys.executable, FOLDER / "make.py", "--check"], seconds=LIMIT)
    see(f"the files are what inputs and reference come to: {done.stdout.decode()}", done.returncode == DONE)


def compares(seed: str) -> None:
    done = call([sys.executable, FOLDER / "run", "--drawn", str(DRAWN), "--seed", seed, PROGRAM], seconds=LIMIT)
    print(f"vectors/run --drawn {DRAWN} --seed {seed}: {last_line(done.stdout)}")
    passed = int(last_line(done.stdout).split()[0]) if done.returncode == DONE else 0
    see(f"program, vectors and reference agree: {done.stdout.decode()[-2000:]} {done.stderr.decode()[-500:]}", passed > DRAWN + 600)


def names_faults(folder: pathlib.Path) -> None:
    """Faults that are planted."""
    for at, (title, kind, change) in enumerate(PROGRAMS):
        wrapper = folder / f"program-{at}"
        wrapper.write_text(WRAPPER.format(python=sys.executable, program=PROGRAM, change=change))
        wrapper.chmod(0o755)
        done = call([sys.executable, FOLDER / "run", "--kind", kind, wrapper], seconds=LIMIT)
        see(f"a program with {title} is named: {last_line(done.stdout)}", done.returncode == 1 and f"DIFFERS {kind}/".encode() in done.stdout)
    for at, (title, kind, old, new) in enumerate(REFERENCES):
        place = folder / f"reference-{at}"
        shutil.copytree(FOLDER, place, ignore=shutil.ignore_patterns("__pycache__"))
        changed = 0
        for path in (place / "reference.py", place / "commands.py"):
            text = path.read_text()
            changed += text.count(old)
            path.write_text(text.replace(old, new))
        done = call([sys.executable, place / "run", "--reference", "--kind", kind], seconds=LIMIT)
        see(f"a reference with {title} is named: {last_line(done.stdout)}", changed == 1 and done.returncode == 1 and f"DIFFERS {kind}/".encode() in done.stdout)
    done = call([sys.executable, FOLDER / "run", "--kind", "ids", folder / "nothing"])
    see("what is no program is a faulty command line", done.returncode == 2)


def main(words: list[str]) -> int:
    is_fresh()
    compares(words[0] if words else "1")
    with tempfile.TemporaryDirectory() as folder:
        has_form(pathlib.Path(folder))
        names_faults(pathlib.Path(folder))
    return finish()


if __name__ == "__main__":
    sys.exit(main(sys.argv[1:]))
