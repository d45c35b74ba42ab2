#!/usr/bin/env python3
"""Tries how tests/run and .ci/run count, with scripts in the place of the tests, of `rt` and of `bin/release`.

    python3 tests/gate.py

A test that fails, that hangs, that is killed, or whose last line and status don't agree is counted as failed, what it
wrote is shown whole, and nothing that it started goes on. `.ci/run` ends with the line and the status of
`rt ci` where that fails, and else counts all together; it asks for packages only where commands are missing, and hands
on what ends it. By each shell that is there."""

from __future__ import annotations

import os
import pathlib
import shutil
import signal
import subprocess
import sys
import tempfile
import time

from harness import PROGRAM, ROOT, call, run_all, see

SHELLS = [[shell] for name in ("sh", "dash", "bash") if (shell := shutil.which(name))]
SHELLS += [[shell, "sh"] for name in ("busybox",) if (shell := shutil.which(name))]
TESTS = {
    "right": "print('3 passed, 0 failed')",
    "wrong": "print('WRONG: this'); print('3 passed, 2 failed'); raise SystemExit(1)",
    "untold": "print('nothing')",
    "empty": "",
    "liar": "print('3 passed, 0 failed'); raise SystemExit(4)",
    "other_liar": "print('3 passed, 1 failed')",
    "killed": "import os; os.kill(os.getpid(), 9)",
    "hangs": "import subprocess; print('begun', flush=True); subprocess.run(['sleep', '3000'])",
    "leaves": "import os, subprocess; print(subprocess.Popen(['sleep', '3000']).pid, file=open(os.environ['PIDS'], 'w')); print('1 passed, 0 failed')",
    "lacks": "print('not run: this, since there is no that'); print('0 passed, 0 failed')",
    "own": "import os; print(os.environ['TMPDIR'] == os.environ['HOME'], os.listdir(os.environ['HOME'])); print('1 passed, 0 failed')",
}
# The names that are given, the counts, and what has to stand in the lines.
RUNS: list[tuple[list[str], tuple[int, int], list[str]]] = [
    (["right"], (3, 0), ["ok right 3 checks"]),
    (["tests/right.py", "right"], (3, 0), []),
    (["wrong"], (3, 2), ["WRONG: this"]),
    (["untold"], (0, 1), ["nothing"]),
    (["empty"], (0, 1), []),
    (["liar"], (3, 1), []),
    (["other_liar"], (3, 2), []),
    (["killed"], (0, 1), []),
    (["hangs"], (0, 1), ["begun"]),
    (["lacks"], (0, 0), ["not run: this, since there is no that"]),
    (["lacks", "right"], (3, 0), ["not run: this, since there is no that"]),
    (["own"], (1, 0), []),
    (["right", "wrong", "hangs", "leaves"], (7, 3), ["begun", "WRONG: this"]),
]
RT = '#!/bin/sh\necho "rt $*"\n[ -z "$SLEEP" ] || exec sleep "$SLEEP"\n[ -z "$RT" ] || echo "$RT"\nexit "$RT_STATUS"\n'
# What .ci/run asks of it: the digest before rt ci, and behind it the note that the program was proved, and the comparison.
RELEASE = """#!/bin/sh
case $*:$RELEASE in
    --digest:*) echo 1234 ;;
    "--mark 1234 gate:mark") exit 1 ;;
    "--mark 1234 gate:"*) echo marked ;;
    --check:same) echo "the same program: 5678" ;;
    *) exit 1 ;;
esac
"""
TRIED = '#!/bin/sh\necho "over $SPECTRE"\n[ -z "$TESTS" ] || echo "$TESTS"\nexit "$TESTS_STATUS"\n'
# What rt ci says and its status, that of the comparison, what the tests say and their status; the last line and the status.
GATES: list[tuple[tuple[str, int, str, str, int], tuple[str, int]]] = [
    (("10 passed, 0 failed", 0, "same", "5 passed, 0 failed", 0), ("16 passed, 0 failed", 0)),
    (("8 passed, 2 failed", 1, "same", "5 passed, 0 failed", 0), ("8 passed, 2 failed", 1)),
    (("", 3, "same", "5 passed, 0 failed", 0), ("rt ci", 3)),
    (("", 0, "same", "5 passed, 0 failed", 0), ("0 passed, 1 failed", 1)),
    (("10 passed, 1 failed", 0, "same", "5 passed, 0 failed", 0), ("10 passed, 1 failed", 1)),
    (("10 passed, 0 failed", 0, "other", "5 passed, 0 failed", 0), ("15 passed, 1 failed", 1)),
    (("10 passed, 0 failed", 0, "mark", "5 passed, 0 failed", 0), ("15 passed, 1 failed", 1)),
    (("10 passed, 0 failed", 0, "same", "4 passed, 1 failed", 1), ("15 passed, 1 failed", 1)),
    (("10 passed, 0 failed", 0, "same", "", 1), ("11 passed, 1 failed", 1)),
    (("10 passed, 0 failed", 0, "same", "0 passed, 0 failed", 1), ("11 passed, 1 failed", 1)),
]


def script(path: pathlib.Path, text: str) -> None:
    path.parent.mkdir(parents=True, exist_ok=True)
    path.write_text(text)
    path.chmod(0o755)


def is_gone(process: int) -> bool:
    try:
        return pathlib.Path(f"/proc/{process}/stat").read_text().rpartition(")")[2].split()[0] == "Z"
    except OSError:
        return True


def try_runner(folder: pathlib.Path) -> None:
    runner, pids, places = folder / "tests/run", folder / "pids", folder / "places"
    script(runner, (ROOT / "tests/run").read_text())
    places.mkdir()
    for name, text in TESTS.items():
        (folder / f"tests/{name}.py").write_text(text)
    env = {**os.environ, "SPECTRE": PROGRAM, "PIDS": str(pids), "TMPDIR": str(places)}
    for names, (passed, failed), wanted in RUNS:
        limit = ["--limit", "10"] if "hangs" in names else []  # a busy machine may take seconds to begin
        done = call([sys.executable, runner, *limit, *names], env=env)
        lines = done.stdout.decode().splitlines()
        name = f"tests/run {' '.join(names)}: {done.returncode}, {lines}"
        see(name, lines[-1] == f"{passed} passed, {failed} failed" and done.returncode == (0 if passed and not failed else 1))
        see(f"{name}: {wanted}", all(any(line.startswith(each) for line in lines) for each in wanted))
        see(f"{name}: what failed is named", any(line.startswith("FAILED ") for line in lines) == (failed > 0))
    see("what a test leaves behind is ended", is_gone(int(pids.read_text())))
    see("no folder stays", list(places.iterdir()) == [])
    faulty: list[tuple[list[str], dict[str, str]]] = [(["nobody"], {}), (["--limit", "soon"], {}), (["right"], {"SPECTRE": "/nothing"})]
    for words, more in faulty:
        done = call([sys.executable, runner, *words], env={**env, **more})
        see(f"tests/run {' '.join(words)}: {done.returncode}, {done.stderr!r}", done.returncode == 2 and done.stdout == b"" and done.stderr != b"")
    for number in (signal.SIGINT, signal.SIGTERM):
        process = subprocess.Popen([sys.executable, runner, "hangs"], env=env, stdout=subprocess.DEVNULL, stderr=subprocess.DEVNULL)
        while not list(places.glob("tests.*/hangs.log")):
            time.sleep(0.01)
        process.send_signal(number)
        see(f"tests/run ends by {number.name}", process.wait(20) == 128 + number and list(places.iterdir()) == [])


def make_gate(folder: pathlib.Path) -> dict[str, str]:
    """A repository of .ci/run alone; the environment of its calls."""
    script(folder / "tree/.ci/run", (ROOT / ".ci/run").read_text())
    script(folder / "tree/bin/release", RELEASE)
    script(folder / "tree/tests/run", TRIED)
    script(folder / "tools/rt", RT)
    (folder / "places").mkdir()
    path = f"{folder / 'tools'}:{os.environ['PATH']}"
    packages = "#!/bin/sh\nexit 1\n"  # where a command is missing, nothing is asked of the system
    script(folder / "tools/apt-get", packages)
    script(folder / "tools/apt-cache", packages)
    return {**os.environ, "PATH": path, "TMPDIR": str(folder / "places"), "SLEEP": ""}


def try_gate(folder: pathlib.Path) -> None:
    env = make_gate(folder)
    gate = folder / "tree/.ci/run"
    for shell in SHELLS:
        for (said, status, same, tests, ended), (last, wanted) in GATES:
            more = {"RT": said, "RT_STATUS": str(status), "RELEASE": same, "TESTS": tests, "TESTS_STATUS": str(ended)}
            done = call([*shell, gate], env={**env, **more})
            lines = done.stdout.decode().splitlines()
            is_right = lines[0] == "rt ci" and lines[-1] == last and done.returncode == wanted
            see(f"{shell} .ci/run with {more}: {done.returncode}, {lines}", is_right and ("marked" in lines) >= ("the same program: 5678" in lines))
            over = f"over {(folder / 'tree').resolve()}/crates/spectre/out/spectre"
            see(f"{shell} .ci/run runs the tests: {lines}", (over in lines) == (last.startswith("1") and status == 0 and said.endswith(" 0 failed")))
        for number in (signal.SIGTERM, signal.SIGINT, signal.SIGHUP):
            process = subprocess.Popen([*shell, gate], env={**env, "SLEEP": "3000"}, stdout=subprocess.PIPE)
            assert process.stdout
            process.stdout.readline()  # rt has begun
            process.send_signal(number)
            see(f"{shell} .ci/run ends by {number.name}", process.wait(20) == 128 + number)
            see("and rt with it", process.stdout.read() == b"")
            process.stdout.close()
        see("no folder stays", list((folder / "places").iterdir()) == [])


def try_packages(folder: pathlib.Path) -> None:
    """A machine on which nothing is, with packages that can be had, and with none; fish is no package there."""
    env = make_gate(folder)
    tools, calls = folder / "tools", folder / "calls"
    for name in ("sh", "dirname", "awk", "nproc", "mktemp", "mkfifo", "tee", "sed", "rm", "tail", "env", "timeout", "cat", "sleep"):
        if found := shutil.which(name):
            (tools / name).symlink_to(found)
    script(tools / "apt-get", '#!/bin/sh\necho "$*" >>"$CALLS"\necho "no network"\nexit "$APT"\n')
    script(tools / "apt-cache", '#!/bin/sh\n[ "$2" != fish ]\n')
    env.update(PATH=str(tools), CALLS=str(calls), RT="1 passed, 0 failed", RT_STATUS="0", RELEASE="same", TESTS="2 passed, 0 failed", TESTS_STATUS="0")
    for user, apt in (("0", "0"), ("0", "100"), ("1000", "0")):
        calls.write_text("")
        script(tools / "id", f"#!/bin/sh\necho {user}\n")
        done = call([folder / "tree/.ci/run"], env={**env, "APT": apt})
        asked = [line.split() for line in calls.read_text().splitlines()]
        name = f".ci/run as {user}, apt-get ends with {apt}: {done.returncode}, {done.stdout.decode()!r}, {asked}"
        see(name, done.returncode == 0 and done.stdout.endswith(b"4 passed, 0 failed\n"))
        see(f"{name}: what it says", (b"no network" in done.stdout) == (apt != "0"))
        kinds = [next(word for word in words if word in ("update", "install")) for words in asked]
        see(f"{name}: what it asks for", kinds == ([] if user != "0" else ["update"] if apt != "0" else ["update", "install", "install"]))
        see(f"{name}: but for what isn't known", all("chromium" in words and "fish" not in words for words in asked[1:]))


def main() -> int:
    with tempfile.TemporaryDirectory() as folder:
        return run_all([try_runner, try_gate, try_packages], pathlib.Path(folder))


if __name__ == "__main__":
    sys.exit(main())
