#!/usr/bin/env python3
"""Tries what `bin/spectre` does with odd names, links that change, and what a killed call left.

    python3 tests/launcher.py

Words that aren't UTF-8 end with 1 and make no file; a repository whose own path isn't UTF-8, or has a blank or a
colon in it, works. The journal that is used is the one that is locked, also where a link of its name leads
elsewhere by then, and what the program says of it has the name that was given. A build clears the copies that a
killed one left. A launcher that was copied out of its repository says so and makes no folder. All of this by each
shell that is here. Where the environment names a program as SPECTRE it takes the place of the one that `bin/spectre`
builds."""

from __future__ import annotations

import os
import pathlib
import shutil
import sys
import tempfile

from harness import DONE, LAUNCHER, PROGRAM, USAGE, call, feed_of, make_tree, run_all, see

SCENARIO = b"block A on G\nblock B on A\n"
SHELLS = [shell for name in ("sh", "dash", "bash", "busybox") if (shell := shutil.which(name))]
# What the launcher doesn't do where it can't start the program.
NOT_STARTED = 125
NOT_JOURNAL = 7


def by_shell(shell: str) -> list[str]:
    return [shell, "sh"] if shell.endswith("busybox") else [shell]


def try_words(folder: pathlib.Path) -> None:
    """A faulty command line makes no file, whatever its bytes."""
    launcher = make_tree(folder / "tree")
    for shell in SHELLS:
        for faulty in (b"\xff", b"new\xc3", b"\xed\xa0\x80", b"a\xc0\xafb", b"\xf5\x80\x80\x80"):
            file = os.fsencode(folder) + b"/" + faulty
            for words in ([b"node", file], [b"node", b"--fresh", file], [b"node", file, b"--fresh"], [b"show", file], [b"export", file, b"1"]):
                done = call([*by_shell(shell), launcher, *words], feed_of(SCENARIO))
                see(f"{shell} {words!r}: {done.returncode}", done.returncode == USAGE and not os.path.exists(file))
        for name in ("ä", "𝄞 and a blank", "a'b\"c$d`e\\f", "line\nend", "*?[x]"):
            path = folder / name
            done = call([*by_shell(shell), launcher, "node", str(path)], feed_of(SCENARIO))
            see(f"{shell} {name!r}: {done.returncode}", done.returncode == DONE and path.stat().st_size > 0)
            shown = call([*by_shell(shell), launcher, "show", str(path)])
            see(f"{shell} {name!r} shown: {shown.returncode}", shown.stdout.startswith(b"recovered 2\n"))
            path.unlink()


def try_places(folder: pathlib.Path) -> None:
    """Where a repository may stand."""
    for name in (b"\xff\xfe", b"a blank", b"a:colon", b"$HOME", b"-n"):
        place = pathlib.Path(os.fsdecode(os.fsencode(folder) + b"/" + name))
        launcher = make_tree(place)
        journal = folder / "journal"
        for shell in SHELLS:
            journal.unlink(missing_ok=True)
            done = call([*by_shell(shell), launcher, "play"], SCENARIO)
            see(f"{shell} below {name!r}: {done.returncode}", done.returncode == DONE and done.stdout.startswith(b"kept A"))
            done = call([*by_shell(shell), launcher, "node", str(journal)], feed_of(SCENARIO))
            see(f"{shell} below {name!r}, node: {done.returncode}", done.returncode == DONE and journal.exists())


def try_links(folder: pathlib.Path) -> None:
    """Behind the lock the name leads to another file: the one that was locked is used."""
    launcher = make_tree(folder / "tree")
    tools = folder / "tools"
    tools.mkdir()
    flock = shutil.which("flock")
    if flock is None:
        print("not run: links that change, since there is no flock")
        return
    (tools / "flock").write_text(f'#!/bin/sh\n"{flock}" "$@"\nended=$?\nln -sfn "$OTHER" "$LINK"\nexit $ended\n')
    (tools / "flock").chmod(0o755)
    link = folder / "link"
    more = {"PATH": f"{tools}:{os.environ['PATH']}", "OTHER": str(folder / "other"), "LINK": str(link)}
    name = str(link)
    commands = (["node", name], ["node", "--fresh", name], ["node", name, "--fresh"], ["show", name], ["export", name, "2"])
    for words in commands:
        for shell in SHELLS:
            file, other = folder / "file", folder / "other"
            for path in (file, other):
                path.unlink(missing_ok=True)
            if words[0] != "node":
                call([PROGRAM, "node", str(file)], feed_of(SCENARIO))
            link.unlink(missing_ok=True)
            link.symlink_to(file)
            done = call([*by_shell(shell), launcher, *words], feed_of(SCENARIO), env={**os.environ, **more})
            is_used = file.exists() and call([PROGRAM, "show", str(file)]).returncode == DONE
            see(f"{shell} {words[0]}: {done.returncode}", done.returncode == DONE and is_used and not other.exists())


def try_messages(folder: pathlib.Path) -> None:
    """What the program says of a file has the name that was given, though it is handed the file itself."""
    launcher = make_tree(folder / "tree")
    for name in ("other", "a blank", "line\nend", "--", "ä"):
        file = folder / name
        file.write_bytes(b"other bytes")
        said = f"{folder}/{name}".replace("\n", "\\n")
        for shell in SHELLS:
            for words, more in ((["show", str(file)], ""), (["export", str(file), "1"], ""), (["node", str(file)], "; node --fresh makes one over its bytes")):
                done = call([*by_shell(shell), launcher, *words], feed_of(SCENARIO))
                see(f"{shell} {words}: {done.stderr!r}", done.returncode == NOT_JOURNAL and done.stderr.decode() == f"spectre: {said} holds no journal{more}\n")
    # Where the name isn't text, the file is named as it is handed on.
    file = folder / "file"
    file.write_bytes(b"other bytes")
    odd = {**os.environb, b"SPECTRE_FILE": b"\xff"}
    done = call(["sh", "-c", 'exec "$1" show /dev/fd/9 9<"$2"', "sh", PROGRAM, str(file)], env=odd)
    see(f"a name that isn't text: {done.stderr!r}", done.returncode == NOT_JOURNAL and done.stderr == b"spectre: /dev/fd/9 holds no journal\n")


FAKE_RT = """#!/bin/sh
# Builds at once, by a copy.
case $1 in
    version) echo 'a kit' ;;
    lib) mkdir -p out/rlib out/incremental ;;
    run) cp "$PROGRAM" out/spectre ;;
esac
"""


def try_builds(folder: pathlib.Path) -> None:
    """A build clears what a killed one left."""
    launcher = make_tree(folder / "tree", built=False)
    for name in ("prove", "release"):
        shutil.copy(LAUNCHER.parent / name, launcher.parent / name)
    tools, out = folder / "tools", folder / "tree/crates/spectre/out"
    tools.mkdir()
    (tools / "rt").write_text(FAKE_RT)
    (tools / "rt").chmod(0o755)
    more = {"PATH": f"{tools}:{os.environ['PATH']}", "PROGRAM": PROGRAM}
    left = out / "spectre.copies.123456/1/crates"
    left.mkdir(parents=True)
    (out / "spectre.began.123456").touch()
    done = call([launcher, "play"], SCENARIO, env={**os.environ, **more})
    found = sorted(path.name for path in out.glob("spectre*"))
    see(f"a build that finds old copies: {done.returncode}, {found}", done.returncode == DONE and found == ["spectre", "spectre.began", "spectre.lock"])
    see("and what it built is used", done.stdout.startswith(b"kept A"))


def try_copies(folder: pathlib.Path) -> None:
    """A launcher that was copied elsewhere, and one that a link leads to."""
    copied = folder / "bin/spectre"
    copied.parent.mkdir()
    shutil.copy(LAUNCHER, copied)
    for shell in SHELLS:
        done = call([*by_shell(shell), copied, "play"], SCENARIO)
        see(f"{shell}, copied: {done.returncode} {done.stderr!r}", done.returncode == NOT_STARTED and b"repository" in done.stderr)
    see("and no folder is made", sorted(os.listdir(folder)) == ["bin"] and os.listdir(folder / "bin") == ["spectre"])
    launcher = make_tree(folder / "tree")
    link = folder / "link"
    link.symlink_to(launcher)
    see("a link works", call([link, "play"], SCENARIO).returncode == DONE)


def main() -> int:
    with tempfile.TemporaryDirectory() as folder:
        return run_all([try_words, try_places, try_links, try_messages, try_builds, try_copies], pathlib.Path(folder))


if __name__ == "__main__":
    sys.exit(main())
