#!/usr/bin/env python3
"""Tries the program that comes with its sources: which one `bin/spectre` takes, what `bin/release` and
`bin/prove` say of it, and the launcher's own words.

    python3 tests/shipped.py

It all happens in copies, by a `rt` that proves nothing and answers at once; a release there is made of the program
that is tried. In a copy of this repository, with neither `rt` nor `git` on the PATH, the first answer comes within two
seconds. Where a source or the program is another by one byte, the shipped program isn't run. Where the environment
names a program as SPECTRE it takes the place of the one that `bin/spectre` builds."""

from __future__ import annotations

import fcntl
import hashlib
import os
import pathlib
import pty
import re
import shutil
import signal
import statistics
import stat
import subprocess
import sys
import tempfile
import time

from harness import DONE, LAUNCHER, PROGRAM, ROOT, USAGE, call, feed_of, make_tree, run_all, see

SCENARIO = b"block A on G\nblock B on A\n"
NOT_STARTED, IN_USE = 125, 124
# All that the launcher and the two scripts beside it call, but for rt.
COMMANDS = (
    "awk basename cat chmod cmp cp cut date dd dirname env find flock grep kill ln ls mkdir mktemp mv nproc od printf ps readlink rm sed "
    "setpriv sh sha256sum sleep sort stat tar touch tr wc xargs"
).split()
FAKE_RT = """#!/bin/sh
# Proves nothing: notes that it was called, and leaves what rt leaves.
[ "$1" != version ] || { printf '%s\\n' "${KIT:-a kit}"; exit; }
name=${PWD##*/}
[ -z "$(ls out/incremental 2>/dev/null)" ] || echo "rt: $name: begins with what a check kept in this folder"
printf '%s %s\\n' "$name" "$*" >>"$LOG"
# As rt's own processes do, what it started goes with it.
sleep "${NAP:-0}" &
trap 'kill "$!"; exit 143' TERM
wait "$!"
if [ "$name" = "$FAULTY" ]; then echo "error: $name is refused"; exit 1; fi
mkdir -p out/incremental out/rlib
: >out/incremental/kept
[ "$name" = "$SILENT" ] || echo "logic=proved functions=1"
[ "$1" != run ] || { cp "$PROGRAM" out/spectre.new && mv out/spectre.new out/spectre; }
"""
# Three libraries, the last of which the program doesn't stand on, and the program.
CRATES = "# The crates.\nlow:\nhigh: low hex\nother:\nspectre: low high\n"

Environment = dict[str, str]


def make_tools(folder: pathlib.Path, with_rt: bool) -> Environment:
    """An environment in which only these commands are found, and with an empty home."""
    tools = folder / ("tools_rt" if with_rt else "tools")
    tools.mkdir()
    for name in COMMANDS:
        found = shutil.which(name)
        if found:
            (tools / name).symlink_to(found)
    if with_rt:
        (tools / "rt").write_text(FAKE_RT)
        (tools / "rt").chmod(0o755)
    home = folder / "home"
    home.mkdir(exist_ok=True)
    return {"PATH": str(tools), "HOME": str(home), "PROGRAM": PROGRAM, "LOG": str(folder / "log")}


def fill(folder: pathlib.Path) -> pathlib.Path:
    """A small repository with several crates, and the scripts beside the launcher; its launcher."""
    launcher = make_tree(folder, built=False)
    for name in ("share", "VERSION"):  # links to the repository's own; here they are written
        (folder / name).unlink(missing_ok=True)
    (folder / "crates.txt").write_text(CRATES)
    (folder / "HANDLES").write_text("Handles allowed: none.\n")
    (folder / "VERSION").write_text("1.2.3\n")
    for name, lines in (("low", 30), ("high", 50), ("other", 10)):
        (folder / f"crates/{name}/src").mkdir(parents=True)
        (folder / f"crates/{name}/src/lib.rt").write_text("// a line\n" * lines)
    (folder / "crates/low/specs").mkdir()
    (folder / "crates/low/specs/Odd name.antt").write_text("-- a line\n")
    for name in ("prove", "release"):
        shutil.copy(ROOT / "bin" / name, folder / "bin" / name)
    return launcher


def digest_of(tree: pathlib.Path) -> str:
    """The digest of a tree's sources, read anew by its definition."""
    found = [tree / "HANDLES", tree / "crates.txt"]
    for at, folders, names in os.walk(tree / "crates"):
        folders[:] = [name for name in folders if name != "out"]
        found += [pathlib.Path(at, name) for name in names if name.endswith((".rt", ".antt"))]
    paths = sorted(os.fsencode(path.relative_to(tree)) for path in found if path.is_file() and not path.is_symlink())
    lines = [hashlib.sha256((tree / os.fsdecode(path)).read_bytes()).hexdigest().encode() + b"  " + path + b"\n" for path in paths]
    return hashlib.sha256(b"".join(lines)).hexdigest()


def release(tree: pathlib.Path, env: Environment) -> None:
    """Ships the program that is tried with the tree, as if it had been proved there, and leaves no build."""
    out = tree / "crates/spectre/out"
    out.mkdir(exist_ok=True)
    shutil.copy(PROGRAM, out / "spectre")
    marked = call([tree / "bin/release", "--mark", digest_of(tree), "gate"], env=env)
    made = call([tree / "bin/release"], env=env)
    if marked.returncode or made.returncode:
        sys.exit(f"no release could be made: {marked.stderr!r} {made.stderr!r}")
    shutil.rmtree(out)


def change(path: pathlib.Path) -> bytes:
    """Makes a file's last byte another, and answers what it was."""
    was = path.read_bytes()
    path.write_bytes(was[:-1] + bytes([was[-1] ^ 1]))
    return was


def is_played(done: subprocess.CompletedProcess[bytes]) -> bool:
    return done.returncode == DONE and done.stdout.startswith(b"kept A")


def is_refused(done: subprocess.CompletedProcess[bytes], word: bytes) -> bool:
    """Whether nothing was started, for the reason that has this word."""
    return done.returncode == NOT_STARTED and done.stdout == b"" and word in done.stderr and done.stderr.count(b"\n") == 1


def on_terminal(words: list[str], env: Environment, given: bytes = b"") -> tuple[int, bytes]:
    """A run whose standard error is a terminal: its status, and what stands there."""
    master, slave = pty.openpty()
    started = subprocess.Popen(words, stdin=subprocess.PIPE, stdout=subprocess.DEVNULL, stderr=slave, env=env)
    os.close(slave)
    assert started.stdin
    started.stdin.write(given)
    started.stdin.close()
    said = b""
    while True:
        try:
            more = os.read(master, 65536)
        except OSError:
            break
        if not more:
            break
        said += more
    os.close(master)
    return started.wait(120), said


def try_first_answer(folder: pathlib.Path) -> None:
    """This repository's own sources, in a fresh copy."""
    with_rt, without = make_tools(folder, True), make_tools(folder, False)
    tree = folder / "tree"
    tree.mkdir()
    shutil.copytree(ROOT / "crates", tree / "crates", ignore=shutil.ignore_patterns("out"))
    shutil.copytree(ROOT / "bin", tree / "bin")
    for name in ("crates.txt", "HANDLES", "VERSION"):
        shutil.copy(ROOT / name, tree / name)
    release(tree, with_rt)
    given = (ROOT / "examples/double_spend.txt").read_bytes()
    words = [str(tree / "bin/spectre"), "play"]
    wanted = call([PROGRAM, "play"], given)
    took = []
    for _ in range(3):
        shutil.rmtree(tree / "crates/spectre/out", ignore_errors=True)
        began = time.monotonic()
        done = call(words, given, env=without)
        took.append(time.monotonic() - began)
        see(f"the first answer: {done.returncode} {done.stderr!r}", done.returncode == DONE and done.stdout == wanted.stdout and not done.stderr)
    print(f"the first answer comes after {min(took):.2f} s")
    see(f"the first answer came after {min(took):.2f} s", min(took) < 2)
    see("a digest by another reading", call([tree / "bin/release", "--digest"], env=without).stdout.decode().strip() == digest_of(tree))

    def middle(of: list[str]) -> float:
        times = []
        for _ in range(40):
            began = time.monotonic()
            call(of, env=without)
            times.append(time.monotonic() - began)
        return statistics.median(times)

    more = middle(words) - middle([PROGRAM, "play"])
    print(f"a call costs {1000 * more:.0f} ms more than the program")
    if os.getloadavg()[0] > (os.cpu_count() or 1) / 2:
        print("not run: what a call costs at most, since the machine is busy")
    else:
        see(f"a call costs {1000 * more:.0f} ms more", more < 0.03)
    with open(tree / "crates/spectre/src/main.rt", "ab") as source:
        source.write(b"\n")
    see("a source with one byte more", is_refused(call(words, given, env=without), b"other sources"))


def try_choice(folder: pathlib.Path) -> None:
    """Which program is run."""
    with_rt, without = make_tools(folder, True), make_tools(folder, False)
    tree, log = folder / "tree", folder / "log"
    launcher = fill(tree)
    words = [str(launcher), "play"]
    see("nothing is shipped, and there is no rt", is_refused(call(words, SCENARIO, env=without), b"PATH"))
    release(tree, with_rt)
    see("the shipped one", is_played(call(words, SCENARIO, env=without)))
    see("again", is_played(call(words, SCENARIO, env=without)))
    see("it is noted", (tree / "crates/spectre/out/shipped").exists())
    for name in ("crates/low/src/lib.rt", "crates/low/specs/Odd name.antt", "crates.txt", "HANDLES"):
        was = change(tree / name)
        see(f"{name} was changed", is_refused(call(words, SCENARIO, env=without), b"other sources"))
        (tree / name).write_bytes(was)
        see(f"{name} is as it was", is_played(call(words, SCENARIO, env=without)))
    added = tree / "crates/low/src/more.rt"
    added.write_text("// more\n")
    see("a source was added", is_refused(call(words, SCENARIO, env=without), b"other sources"))
    added.unlink()
    see("it is gone", is_played(call(words, SCENARIO, env=without)))
    for name in ("spectre", "SHA256SUMS", "about"):
        path = tree / "release" / name
        was = change(path)
        for env in (without, with_rt):
            see(f"release/{name} was changed", is_refused(call(words, SCENARIO, env=env), b"isn't the program"))
        path.write_bytes(was)
        see(f"release/{name} is as it was", is_played(call(words, SCENARIO, env=without)))
    see("nothing was proved", not log.exists())
    done = call(words, SCENARIO, env={**with_rt, "SPECTRE_PROVE": "1"})
    see(f"SPECTRE_PROVE=1: {done.stderr!r}", is_played(done) and log.read_text().split("\n")[-2].startswith("spectre run"))
    see("low, high and spectre were proved, and other wasn't", [line.split()[0] for line in log.read_text().splitlines()] == ["low", "high", "spectre"])
    log.unlink()
    see("the tree's own is taken from then on", is_played(call(words, SCENARIO, env=with_rt)) and not log.exists())
    see("and SPECTRE_PROVE=1 takes it", is_played(call(words, SCENARIO, env={**without, "SPECTRE_PROVE": "1"})))
    version = call([launcher, "--version"], env=without).stdout
    see(f"it says so: {version!r}", version.endswith(b"\nproved here, over kept work\n"))
    shutil.rmtree(tree / "crates/spectre/out")
    see("SPECTRE_PROVE=1 with no rt", is_refused(call(words, SCENARIO, env={**without, "SPECTRE_PROVE": "1"}), b"PATH"))
    # A program of another machine.
    foreign = tree / "release/spectre"
    foreign.write_text("#!/no/such/loader\n")
    digest = hashlib.sha256(foreign.read_bytes()).hexdigest()
    (tree / "release/SHA256SUMS").write_text(f"{digest}  spectre\n")
    about = tree / "release/about"
    about.write_text(re.sub(r"program .*", f"program {digest}", about.read_text()))
    see("a program that doesn't run here", is_refused(call(words, SCENARIO, env=without), b"doesn't run"))
    see("where there is rt, the tree's own is proved", is_played(call(words, SCENARIO, env=with_rt)) and log.exists())


def try_read_only(folder: pathlib.Path) -> None:
    """A repository in which the caller can write nothing."""
    folder.chmod(0o755)
    with_rt, without = make_tools(folder, True), make_tools(folder, False)
    tree, home = folder / "tree", folder / "home"
    launcher = fill(tree)
    release(tree, with_rt)
    drop = []
    if os.geteuid() == 0:
        drop = ["setpriv", "--reuid=65534", "--regid=65534", "--clear-groups"]
        home.chmod(0o777)
        if call([*drop, "sh", "-c", 'test -x "$0"', launcher]).returncode:
            print("not run: read-only checkouts, since nobody can't look into the folder for temporary files")
            return
    else:
        for at, _, _ in os.walk(tree):
            os.chmod(at, 0o555)
    words = [*drop, str(launcher), "play"]
    for name, env in (("a home", without), ("no home", {**without, "HOME": "/no/such"}), ("none told", {**without, "HOME": ""})):
        for again in ("", ", again"):
            done = call(words, SCENARIO, env=env)
            see(f"read-only, with {name}{again}: {done.returncode} {done.stderr!r}", is_played(done) and not done.stderr)
    see("it is noted in the home alone", list(home.glob(".cache/spectre/**/shipped")) != [] and not (tree / "crates/spectre/out").exists())
    if drop:
        change(tree / "crates/low/src/lib.rt")
        see("with a changed source", is_refused(call(words, SCENARIO, env=with_rt), b"nothing can be written"))
    for at, _, _ in os.walk(tree):
        os.chmod(at, 0o755)


def try_terminal(folder: pathlib.Path) -> None:
    """The shipped program is named once, and to a terminal alone."""
    with_rt, without = make_tools(folder, True), make_tools(folder, False)
    launcher = fill(folder / "tree")
    release(folder / "tree", with_rt)
    words = [str(launcher), "play"]
    see("not in a pipe", call(words, SCENARIO, env=without).stderr == b"")
    status, said = on_terminal(words, without, SCENARIO)
    see(f"once: {said!r}", status == DONE and said.count(b"\n") == 1 and b"release/spectre" in said and b"bin/prove" in said)
    status, said = on_terminal(words, without, SCENARIO)
    see(f"and not again: {said!r}", status == DONE and said == b"")


def try_release(folder: pathlib.Path) -> None:
    """What isn't proved isn't shipped."""
    env = make_tools(folder, True)
    tree = folder / "tree"
    fill(tree)
    out = tree / "crates/spectre/out"
    program, words = out / "spectre", [str(tree / "bin/release")]

    def is_kept_back(name: str, word: bytes) -> None:
        done = call(words, env=env)
        see(f"{name}: {done.stderr!r}", done.returncode == 1 and word in done.stderr and not (tree / "release").exists())

    is_kept_back("no program", b"no proved program")
    out.mkdir()
    shutil.copy(PROGRAM, program)
    is_kept_back("a program without a note", b"no proved program")
    digest = digest_of(tree)
    see("a note with another digest", call([*words, "--mark", "0" * 64, "gate"], env=env).returncode == 1)
    see("a note of no known way", call([*words, "--mark", digest, "luck"], env=env).returncode == 1)
    is_kept_back("no note was made", b"no proved program")
    see("a note", call([*words, "--mark", digest, "kept"], env=env).returncode == 0)
    is_kept_back("over kept work", b"kept work")
    see("a note of the gate", call([*words, "--mark", digest, "gate"], env=env).returncode == 0)
    was = change(tree / "crates/high/src/lib.rt")
    is_kept_back("a source was changed", b"a source changed")
    (tree / "crates/high/src/lib.rt").write_bytes(was)
    was = change(program)
    is_kept_back("another program", b"isn't the program that was proved")
    program.write_bytes(was)
    done = call(words, env=env)
    see(f"a proved one: {done.stderr!r}", done.returncode == 0)
    shipped = tree / "release/spectre"
    sum_of = hashlib.sha256(program.read_bytes()).hexdigest()
    see("the program is the same, and can be run", shipped.read_bytes() == program.read_bytes() and stat.S_IMODE(shipped.stat().st_mode) == 0o755)
    see("its digest", (tree / "release/SHA256SUMS").read_text() == f"{sum_of}  spectre\n")
    see("what it is", (tree / "release/about").read_text() == f"kit a kit\nsources {digest}\nprogram {sum_of}\n")
    see("nothing else is there", sorted(os.listdir(tree / "release")) == ["SHA256SUMS", "about", "spectre"])
    check = [*words, "--check"]
    done = call(check, env=env)
    see(f"a check: {done.stdout!r}", done.returncode == 0 and done.stdout == f"the same program: {sum_of}\n".encode())
    for name in ("release/spectre", "release/SHA256SUMS", "release/about", "crates/low/src/lib.rt", "crates/spectre/out/spectre"):
        was = change(tree / name)
        done = call(check, env=env)
        see(f"a check with another {name}: {done.stderr!r}", done.returncode == 1 and done.stderr.count(b"\n") == 1 and not done.stdout)
        (tree / name).write_bytes(was)
    see("as it was", call(check, env=env).returncode == 0)
    call([*words, "--mark", digest, "gate"], env={**env, "KIT": "another kit"})
    done = call(check, env=env)
    see(f"a check with another kit: {done.stdout!r}", done.returncode == 0 and done.stdout.startswith(b"not compared") and done.stdout.count(b"\n") == 1)
    see("words that it doesn't know", call([*words, "--any"], env=env).returncode == 1)
    texts = [re.findall(r"^digest\(\) \{\n.*?^\}\n", path.read_text(), re.M | re.S) for path in (LAUNCHER, ROOT / "bin/release")]
    see("the launcher has the same lines for the digest", len(texts[0]) == 1 and texts[0] == texts[1])
    see("and it has the same digest", f"sources {digest}\n".encode() in call([tree / "bin/spectre", "--version"], env=env).stdout)


def try_prove(folder: pathlib.Path) -> None:
    """bin/prove takes nothing that was kept, and compares."""
    env = make_tools(folder, True)
    tree, log = folder / "tree", folder / "log"
    fill(tree)
    for name in ("low", "high", "spectre"):
        (tree / f"crates/{name}/out/incremental").mkdir(parents=True)
        (tree / f"crates/{name}/out/incremental/work").touch()
    words = [str(tree / "bin/prove")]
    out = tree / "crates/spectre/out"

    def is_clean() -> bool:
        return not [name for name in os.listdir(out) if name.startswith("spectre.copies") or name.startswith("spectre.began.")]

    done = call(words, env=env)
    see(f"with no release: {done.returncode} {done.stderr!r}", done.returncode == 1 and b"there is no release/" in done.stderr.splitlines()[-1])
    lines = [line for line in done.stderr.decode().splitlines() if line.startswith("prove: ")]
    see(f"a line for each crate: {lines}", [line.split()[1] for line in lines] == ["low", "high", "spectre"])
    see("with how far it is", "2 of 3 crates" in lines[1] and "% of the lines" in lines[1] and "gone" in lines[1] and "left" in lines[1])
    ran = log.read_text().splitlines()
    see(f"the program has every processor: {ran}", re.fullmatch(r"spectre run --jobs \d+ -- play", ran[-1]) is not None)
    see("what was kept in the tree stays", all((tree / f"crates/{name}/out/incremental/work").exists() for name in ("low", "high", "spectre")))
    see("the program is there, and nothing is left over", (out / "spectre").read_bytes() == pathlib.Path(PROGRAM).read_bytes() and is_clean())
    see("what was proved so can be shipped", call([tree / "bin/release"], env=env).returncode == 0)
    done = call(words, env=env)
    last = (done.stdout + done.stderr).decode().splitlines()
    sum_of = hashlib.sha256((out / "spectre").read_bytes()).hexdigest()
    see(f"the same program: {done.stdout!r}", done.returncode == 0 and done.stdout.decode() == f"the same program: {sum_of}\n")
    see("its launcher takes it", is_played(call([tree / "bin/spectre", "play"], SCENARIO, env=env)))
    version = call([tree / "bin/spectre", "--version"], env=env).stdout
    see(f"and names it: {version!r}", version.startswith(b"spectre 1.2.3\nkit a kit\nsources ") and version.endswith(b"\nproved here\n"))
    was = change(tree / "release/spectre")
    done = call(words, env=env)
    see(f"the shipped one was changed: {last}", done.returncode == 1 and done.stderr.splitlines()[-1].startswith(b"release: release/spectre isn't"))
    (tree / "release/spectre").write_bytes(was)
    done = call(words, env={**env, "KIT": "another kit"})
    see("another kit", done.returncode == 0 and done.stdout.startswith(b"not compared"))
    was = change(tree / "crates/low/src/lib.rt")
    done = call(words, env=env)
    see("other sources", done.returncode == 1 and b"other sources" in done.stderr.splitlines()[-1])
    (tree / "crates/low/src/lib.rt").write_bytes(was)
    done = call(words, env={**env, "FAULTY": "high"})
    see("a crate that isn't proved", done.returncode == 1 and b"error: high is refused" in done.stderr and done.stderr.splitlines()[-1].startswith(b"prove: high isn't"))
    see("nothing is left over", is_clean())
    done = call(words, env={**env, "SILENT": "low"})
    see("a crate with no verdict of its own", done.returncode == 1 and b"low wasn't proved from nothing" in done.stderr and is_clean())
    status, said = on_terminal(words, {**env, "NAP": "1.2"})
    see(f"on a terminal it stays in one line: {status} {said!r}", status == 0 and said.count(b"\r[") >= 3 and said.count(b"\n") == 1)
    for sent in (signal.SIGTERM, signal.SIGINT, signal.SIGHUP):
        log.unlink()
        started = subprocess.Popen(words, env={**env, "NAP": "60"}, stdout=subprocess.DEVNULL, stderr=subprocess.DEVNULL)
        while not log.exists():
            time.sleep(0.05)
        time.sleep(0.2)
        started.send_signal(sent)
        see(f"a call that is ended by {sent.name}", started.wait(30) == 1 and is_clean())
    see("words that it doesn't know", call([*words, "--any"], env=env).returncode == 1)


def try_words(folder: pathlib.Path) -> None:
    """The launcher's own words, in a repository and where it was installed."""
    with_rt, without = make_tools(folder, True), make_tools(folder, False)
    tree, prefix = folder / "tree", folder / "a prefix"
    launcher = fill(tree)
    release(tree, with_rt)
    (prefix / "bin").mkdir(parents=True)
    (prefix / "lib/spectre").mkdir(parents=True)
    shutil.copy(launcher, prefix / "bin/spectre")
    shutil.copy(tree / "release/spectre", prefix / "lib/spectre/spectre")
    shutil.copy(tree / "release/about", prefix / "lib/spectre/about")
    shutil.copy(tree / "VERSION", prefix / "lib/spectre/VERSION")
    program = hashlib.sha256(pathlib.Path(PROGRAM).read_bytes()).hexdigest()
    for root, origin in ((tree, "shipped"), (prefix, "installed")):
        words = [str(root / "bin/spectre")]
        version = call([*words, "--version"], env=without).stdout.decode()
        see(f"{origin}: {version!r}", version == f"spectre 1.2.3\nkit a kit\nsources {digest_of(tree)}\nprogram {program}\n{origin}\n")
        see(f"{origin}: it plays", is_played(call([*words, "play"], SCENARIO, env=without)))
        see(f"{origin}: no help", is_refused(call([*words, "--help"], env=without), b"no help"))
        (root / "share/spectre/help").mkdir(parents=True)
        for name in ("spectre", "play", "node"):
            (root / f"share/spectre/help/{name}.txt").write_text(f"on {name}\n")
        done = call([*words, "--help"], env=without)
        see(f"{origin}: --help", done.returncode == DONE and done.stdout == b"on spectre\n")
        done = call([*words, "help", "play"], env=without)
        see(f"{origin}: help play", done.returncode == DONE and done.stdout == b"on play\n")
        for name in ("plya", "../help/play", "", "*", "-x"):
            done = call([*words, "help", name], env=without)
            see(f"{origin}: help {name}: {done.stderr!r}", done.returncode == 1 and not done.stdout and b"the commands are node play\n" in done.stderr)
        for line in ("--help x", "--version x", "help", "help play x", "snapshot x", "snapshot a b c", "-h"):
            done = call([*words, *line.split()], env=without)
            see(f"{origin}: {line}: {done.returncode}", done.returncode == USAGE and b"usage: spectre" in done.stderr)
    see("installed: SPECTRE_PROVE=1", is_refused(call([prefix / "bin/spectre", "play"], SCENARIO, env={**with_rt, "SPECTRE_PROVE": "1"}), b"installed"))
    journal = folder / "journal"
    see("installed: a journal", call([prefix / "bin/spectre", "node", journal], feed_of(SCENARIO), env=without).returncode == DONE)
    with open(journal, "rb") as held:
        fcntl.flock(held, fcntl.LOCK_EX)
        in_use: tuple[tuple[str, list[str], bytes], ...] = (("show", [], b"snapshot"), ("export", ["1"], b"snapshot"), ("node", [], b"in use"))
        for command, more, word in in_use:
            done = call([prefix / "bin/spectre", command, journal, *more], env=without)
            see(f"installed: {command} in use: {done.stderr!r}", done.returncode == IN_USE and word in done.stderr and done.stderr.count(b"\n") == 1)
        see("a snapshot needs no lock", call([prefix / "bin/spectre", "snapshot", journal, folder / "copy"], env=without).returncode == DONE)
    see("and is the file", (folder / "copy").read_bytes() == journal.read_bytes())
    shutil.rmtree(tree / "release")
    said = call([launcher, "--version"], env=without).stdout
    see(f"with no program: {said!r}", said.startswith(b"spectre 1.2.3\nsources ") and b"no program yet" in said)


def try_snapshots(folder: pathlib.Path) -> None:
    """What a snapshot refuses, by each shell."""
    launcher = make_tree(folder / "tree")
    place = folder / "place"
    shells = [found for name in ("sh", "dash", "bash", "busybox") if (found := shutil.which(name))]
    for shell in shells:
        shutil.rmtree(place, ignore_errors=True)
        place.mkdir()
        journal = place / "a journal"
        call([PROGRAM, "node", str(journal)], feed_of(SCENARIO))
        (place / "folder").mkdir()
        os.mkfifo(place / "pipe")
        (place / "loose").symlink_to(place / "nowhere")
        (place / "linked").symlink_to(journal)
        shutil.copy(journal, place / "-journal")
        before = sorted(os.listdir(place))
        start = [shell, "sh"] if shell.endswith("busybox") else [shell]

        def snap(*words: str | bytes | pathlib.Path) -> subprocess.CompletedProcess[bytes]:
            return call([*start, launcher, "snapshot", *words], cwd=place)

        there: tuple[tuple[str | pathlib.Path, str | pathlib.Path], ...] = (
            ("no", "copy"), ("folder", "copy"), ("pipe", "copy"), ("/dev/null", "copy"), ("loose", "copy"), ("-journal", "copy"), ("", "copy"),
            (journal, ""), (journal, "-copy"), (journal, journal), (journal, "a journal"), (journal, "linked"), (journal, "loose"), (journal, "folder"),
            (journal, "pipe"), (journal, "no/copy"), (journal, "new/"),
        )
        for pair in there:
            done = snap(*pair)
            is_left = sorted(os.listdir(place)) == before
            see(f"{shell} snapshot {pair}: {done.returncode} {done.stderr!r}", is_refused(done, b"spectre: ") and is_left)
        names: tuple[str | bytes | pathlib.Path, ...] = ("copy", "./copy 2", place / "copy 3", "a'b\"c$d", b"\xff")
        for name in names:
            done = snap(journal, name)
            path = os.path.join(os.fsencode(place), os.fsencode(name))
            with open(path, "rb") as copy:
                see(f"{shell} snapshot to {name!r}: {done.stderr!r}", done.returncode == 0 and not done.stdout and copy.read() == journal.read_bytes())
            see(f"{shell}: it is the owner's alone", stat.S_IMODE(os.stat(path).st_mode) == 0o600)
            os.unlink(path)
        see(f"{shell} of a link", snap("linked", "copy").returncode == 0 and (place / "copy").read_bytes() == journal.read_bytes())
        (place / "copy").unlink()
        see(f"{shell}: nothing else is made", sorted(os.listdir(place)) == before)


def main() -> int:
    tests = [try_choice, try_read_only, try_terminal, try_release, try_prove, try_words, try_snapshots, try_first_answer]
    with tempfile.TemporaryDirectory() as folder:
        os.chmod(folder, 0o755)
        return run_all(tests, pathlib.Path(folder))


if __name__ == "__main__":
    sys.exit(main())
