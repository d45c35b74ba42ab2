#!/usr/bin/env python3
"""Tries `bin/install`: what it puts where, what it refuses, and that `--remove` takes back just that.

    python3 tests/install.py

By each shell that is here, with an environment that holds a home and a path alone: below folders with a blank, a
quote or a dollar in their names, relative ones, and ones that can't be written; over an older installation, over
files of others, and over files that were changed. The program is the tree's own where it is fresh, or the shipped
one where nothing was changed. What was installed works from any folder once the repository is gone, with the lock
on journals, and a node goes on while its program is installed anew. Where the environment names a program as SPECTRE
it takes the place of the one that `bin/spectre` builds."""

from __future__ import annotations

import contextlib
import hashlib
import os
import pathlib
import shutil
import subprocess
import sys
import tempfile

from typing import Any

from harness import DONE, PROGRAM, ROOT, USAGE, call, feed_of, run_all, see

SCENARIO = b"block A on G\nblock B on A\n"
SHELLS = [shell for name in ("sh", "dash", "bash", "busybox") if (shell := shutil.which(name))]
# What `bin/install` ends with where something hinders it, and where its words are faulty.
HINDERED, FAULTY = 1, 2
# What the launcher ends with where a journal is in use.
IN_USE = 124
OWN = ["bin/spectre", "lib/spectre/VERSION", "lib/spectre/about", "lib/spectre/installed", "lib/spectre/spectre"]
SHARED = sorted(path.relative_to(ROOT).as_posix() for path in (ROOT / "share").rglob("*") if path.is_file())
Done = subprocess.CompletedProcess[bytes]


def by_shell(shell: str) -> list[str]:
    return [shell, "sh"] if shell.endswith("busybox") else [shell]


def make_sources(folder: pathlib.Path, built: bool = False) -> pathlib.Path:
    """A repository of a program, with a release of it, as if it had been made of its sources; it itself."""
    source = folder / "crates/spectre/src"
    source.mkdir(parents=True)
    (source / "main.rt").write_text("// nothing\n")
    (folder / "crates.txt").write_text("spectre:\n")
    (folder / "HANDLES").write_text("nothing\n")
    shutil.copytree(ROOT / "bin", folder / "bin")
    shutil.copytree(ROOT / "share", folder / "share")
    shutil.copy(ROOT / "VERSION", folder)
    release = folder / "release"
    release.mkdir()
    shutil.copy(PROGRAM, release / "spectre")
    (release / "spectre").chmod(0o755)
    digest = digest_of(release / "spectre")
    sources = call([folder / "bin/release", "--digest"]).stdout.decode().strip()
    (release / "SHA256SUMS").write_text(f"{digest}  spectre\n")
    (release / "about").write_text(f"kit of a test\nsources {sources}\nprogram {digest}\n")
    if built:
        out = folder / "crates/spectre/out"
        out.mkdir()
        shutil.copy(PROGRAM, out / "spectre")
        (out / "spectre.began").touch()
    return folder


def digest_of(path: pathlib.Path) -> str:
    return hashlib.sha256(path.read_bytes()).hexdigest()


def bare(home: pathlib.Path | None, path: str = "/usr/bin:/bin") -> dict[str, str]:
    return {"PATH": path, **({} if home is None else {"HOME": str(home)})}


def install(tree: pathlib.Path, *words: str, shell: str = "/bin/sh", home: pathlib.Path | None = None, place: pathlib.Path | None = None, **more: Any) -> Done:
    """A call of bin/install, with a place for its temporary files where one is named."""
    env = bare(home) if place is None else {**bare(home), "TMPDIR": str(place)}
    return call([*by_shell(shell), tree / "bin/install", *words], env=env, **more)


def files_in(folder: pathlib.Path) -> list[str]:
    return sorted(path.relative_to(folder).as_posix() for path in folder.rglob("*") if not path.is_dir() or path.is_symlink())


def is_whole(prefix: pathlib.Path) -> bool:
    """All files are there, as they should be, and no others."""
    listed = dict(line.split("  ")[::-1] for line in (prefix / OWN[3]).read_text().splitlines() if not line.startswith("folder"))
    digests = {name: digest_of(prefix / name) for name in [*OWN, *SHARED] if name != OWN[3]}
    modes = {name: os.access(prefix / name, os.X_OK) for name in [*OWN, *SHARED]}
    executable = sorted(name for name, mode in modes.items() if mode)
    same = all((prefix / name).read_bytes() == (ROOT / name).read_bytes() for name in ["bin/spectre", *SHARED])
    return files_in(prefix) == sorted([*OWN, *SHARED]) and listed == digests and executable == ["bin/spectre", "lib/spectre/spectre"] and same


def try_places(folder: pathlib.Path) -> None:
    """Where it may be installed, and that nothing is left."""
    tree = make_sources(folder / "tree")
    for shell in SHELLS:
        home = folder / "home"
        home.mkdir()
        done = install(tree, shell=shell, home=home)
        prefix = home / ".local"
        see(f"{shell}: {done.returncode} {done.stderr!r}", done.returncode == DONE and not done.stderr and is_whole(prefix))
        see(f"{shell}: the path is told", str(prefix / "bin").encode() in done.stdout and b":$PATH" in done.stdout)
        see(f"{shell}: about", (prefix / OWN[2]).read_bytes() == (tree / "release/about").read_bytes())
        done = install(tree, shell=shell, home=home)
        see(f"{shell}: once more", done.returncode == DONE and is_whole(prefix))
        done = install(tree, "--remove", shell=shell, home=home)
        see(f"{shell}: removed", done.returncode == DONE and not done.stderr and not any(home.iterdir()))
        done = install(tree, "--remove", shell=shell, home=home)
        see(f"{shell}: and no more", done.returncode == HINDERED and done.stderr.count(b"\n") == 1)
        home.rmdir()
        odd = ["a blank", "a/b/../c"] if shell != SHELLS[0] else ["a blank", "a'quote", "$HOME", "-n", "a/b/../c", "*", "new//slash/", "ä"]
        for name in odd:
            place = folder / "places"
            (place / "a/b").mkdir(parents=True)
            words = ["--prefix", name] if not name.startswith("a") else [f"--prefix={name}"]
            done = install(tree, *words, shell=shell, cwd=place)
            see(f"{shell}, {name!r}: {done.returncode} {done.stderr!r}", done.returncode == DONE and is_whole(pathlib.Path(os.path.realpath(place / name))))
            done = call(["sh", "-c", done.stdout.decode().splitlines()[-1] + '\nspectre play; printf "%s" "$PATH"'], env=bare(None))
            see(f"{shell}, {name!r}: the line sets the path: {done.stdout!r}", done.stdout == os.fsencode(f"{os.path.realpath(place / name)}/bin:/usr/bin:/bin"))
            done = install(tree, *words, "--remove", shell=shell, cwd=place)
            see(f"{shell}, {name!r} removed: {done.stderr!r}", done.returncode == DONE and sorted(map(str, place.rglob("*"))) == [f"{place}/a", f"{place}/a/b"])
            shutil.rmtree(place)


def try_words(folder: pathlib.Path) -> None:
    """Words that are faulty, and a home that isn't known."""
    tree = make_sources(folder / "tree")
    for words in (["x"], ["--prefix"], ["--remove", "x"], ["--help"]):
        done = install(tree, *words, home=folder)
        see(f"{words}: {done.returncode}", done.returncode == FAULTY and done.stderr.startswith(b"usage: "))
    for done in (install(tree), install(tree, "--remove"), install(tree, "--prefix", "", home=folder), install(tree, "--prefix", "/dev/null", home=folder)):
        see(f"{done.stderr!r}", done.returncode == HINDERED and done.stderr.startswith(b"install: ") and done.stderr.count(b"\n") == 1)
    see("nothing was made", os.listdir(folder) == ["tree"])


def try_programs(folder: pathlib.Path) -> None:
    """Which program it is."""
    tree, prefix = make_sources(folder / "tree"), folder / "prefix"
    source, shipped = tree / "crates/spectre/src/main.rt", tree / "release/spectre"
    told, program = source.read_bytes(), shipped.read_bytes()

    def is_refused(name: str) -> None:
        done = install(tree, "--prefix", str(prefix))
        see(f"{name}: {done.returncode} {done.stderr!r}", done.returncode == HINDERED and b"bin/prove" in done.stderr and not prefix.exists())

    source.write_bytes(told + b" ")
    is_refused("a source of one more byte")
    source.write_bytes(told)
    shipped.write_bytes(program[:-1] + bytes([program[-1] ^ 1]))
    is_refused("a shipped program of another byte")
    shipped.write_bytes(b"\x7fELF not for this machine")
    digest = digest_of(shipped)
    (tree / "release/SHA256SUMS").write_text(f"{digest}  spectre\n")
    about = (tree / "release/about").read_text()
    (tree / "release/about").write_text(about.replace(about.split()[-1], digest))
    is_refused("a shipped program that doesn't run")
    shutil.rmtree(tree / "release")
    is_refused("no shipped program")
    tree = make_sources(folder / "built", built=True)
    shutil.rmtree(tree / "release")
    note = tree / "crates/spectre/out/proved"
    for line in ("kit unknown", "kit of a test"):
        # What was noted when it was proved, or that nothing was.
        if line != "kit unknown":
            note.write_text(f"{line}\nsources 0\nprogram {digest_of(pathlib.Path(PROGRAM))}\nby prove\n")
        done = install(tree, "--prefix", str(prefix))
        told_about = (prefix / OWN[2]).read_text()
        see(f"the tree's own: {done.stderr!r} {told_about!r}", done.returncode == DONE and is_whole(prefix) and told_about.startswith(f"{line}\nsources "))
    see("what was noted is told", told_about == note.read_text())
    os.utime(tree / "crates.txt")
    done = install(tree, "--prefix", str(prefix))
    see("an old one of the tree", done.returncode == HINDERED and b"bin/prove" in done.stderr and is_whole(prefix))


def try_others(folder: pathlib.Path) -> None:
    """Files and folders of others stay, and what was changed does."""
    tree, prefix = make_sources(folder / "tree"), folder / "prefix"
    (prefix / "share/man/man1").mkdir(parents=True)
    (prefix / "bin").mkdir()
    other = prefix / "share/man/man1/other.1"
    other.touch()
    for name in ("bin/spectre", "share/spectre/help/play.txt"):
        (prefix / name).parent.mkdir(parents=True, exist_ok=True)
        for kind in ("file", "link", "folder"):
            if kind == "file":
                (prefix / name).write_bytes(b"mine")
            elif kind == "link":
                (prefix / name).symlink_to(tree / "bin/spectre")
            else:
                (prefix / name).mkdir()
            before = sorted(prefix.rglob("*"))
            done = install(tree, "--prefix", str(prefix))
            named = os.fsencode(prefix / name) in done.stderr
            see(f"{name}, a {kind} of others: {done.stderr!r}", done.returncode == HINDERED and named and sorted(prefix.rglob("*")) == before)
            if kind == "folder":
                (prefix / name).rmdir()
            else:
                (prefix / name).unlink()
    see("installed beside", install(tree, "--prefix", str(prefix)).returncode == DONE)
    changed = prefix / "share/spectre/help/play.txt"
    changed.write_bytes(b"mine")
    done = install(tree, "--prefix", str(prefix))
    see(f"changed: {done.stderr!r}", done.returncode == HINDERED and os.fsencode(changed) in done.stderr and changed.read_bytes() == b"mine")
    done = install(tree, "--remove", "--prefix", str(prefix))
    left = ["share/man/man1/other.1", "share/spectre/help/play.txt"]
    see(f"changed, and removed: {done.stderr!r}", done.returncode == DONE and os.fsencode(changed) in done.stderr and files_in(prefix) == left)
    folders = sorted(path.relative_to(prefix).as_posix() for path in prefix.rglob("*") if path.is_dir())
    # The folders of `other.1`, of `play.txt`, and `bin` were there before.
    see(f"folders that were there before: {folders}", folders == ["bin", "share", "share/man", "share/man/man1", "share/spectre", "share/spectre/help"])


def try_older(folder: pathlib.Path) -> None:
    """Over an older installation: what is no more goes, and what was cut short can be done again, and taken back."""
    tree, prefix = make_sources(folder / "tree"), folder / "prefix"
    (tree / "share/spectre/help/old.txt").write_text("old\n")
    (tree / "share/old").mkdir()
    (tree / "share/old/old.txt").write_text("old\n")
    install(tree, "--prefix", str(prefix))
    see("old files", (prefix / "share/old/old.txt").exists() and (prefix / "share/spectre/help/old.txt").exists())
    (tree / "share/spectre/help/old.txt").unlink()
    shutil.rmtree(tree / "share/old")
    (tree / "bin/spectre").write_bytes((tree / "bin/spectre").read_bytes() + b"# newer\n")
    done = install(tree, "--prefix", str(prefix))
    see(f"newer: {done.stderr!r}", done.returncode == DONE and files_in(prefix) == sorted([*OWN, *SHARED]) and not (prefix / "share/old").exists())
    see("the newer launcher", (prefix / "bin/spectre").read_bytes().endswith(b"# newer\n"))
    shutil.rmtree(prefix)
    tools = folder / "tools"
    tools.mkdir()
    # It is killed before it moves a file to its place, at some of these moments in turn.
    mover = shutil.which("mv")
    (tools / "mv").write_text(f'#!/bin/sh\necho >> "{folder}/count"\n[ "$(wc -l < "{folder}/count")" -ne "$AT" ] || {{ kill -9 "$PPID"; exit; }}\nexec "{mover}" "$@"\n')
    (tools / "mv").chmod(0o755)
    for at in (1, 2, 3, 9, len(OWN) + len(SHARED), len(OWN) + len(SHARED) + 1):
        for again in (True, False):
            (folder / "count").unlink(missing_ok=True)
            more = {**bare(None, f"{tools}:/usr/bin:/bin"), "AT": str(at)}
            done = call(["/bin/sh", tree / "bin/install", "--prefix", prefix], env=more)
            see(f"killed at {at}: {done.returncode}", done.returncode != DONE)
            if again:
                done = install(tree, "--prefix", str(prefix))
                see(f"killed at {at}, and again: {done.stderr!r}", done.returncode == DONE)
            done = install(tree, "--remove", "--prefix", str(prefix))
            left = files_in(prefix)
            if at == 1:
                # The list itself was on its way, and but for folders nothing else was made: these stay.
                see(f"killed at {at}, and removed: {left}", len(left) == (0 if again else 1) and all(name.startswith(f"{OWN[3]}.new.") for name in left))
            else:
                see(f"killed at {at}, and removed: {left}", done.returncode == DONE and not prefix.exists())
            shutil.rmtree(prefix, ignore_errors=True)


def as_nobody() -> None:
    if os.geteuid() == 0:
        os.setgid(65534)
        os.setuid(65534)


def try_closed(folder: pathlib.Path) -> None:
    """Folders that can't be written: nothing is half done."""
    folder.chmod(0o755)
    tree, prefix, place = make_sources(folder / "tree"), folder / "prefix", folder / "tmp"
    place.mkdir()
    place.chmod(0o777)
    prefix.mkdir(mode=0o555)
    before = sorted(prefix.rglob("*"))
    readable = call(["cat", tree / "crates.txt"], preexec_fn=as_nobody).returncode == DONE
    if not readable:
        print("not run: folders that can't be written, since another user can't read the test's folder")
        return
    done = install(tree, "--prefix", str(prefix), place=place, preexec_fn=as_nobody)
    see(f"a closed folder: {done.stderr!r}", done.returncode == HINDERED and os.fsencode(prefix) in done.stderr and sorted(prefix.rglob("*")) == before)
    prefix.chmod(0o777)
    (prefix / "share").mkdir()
    (prefix / "share").chmod(0o555)
    done = install(tree, "--prefix", str(prefix), place=place, preexec_fn=as_nobody)
    see(f"a closed folder in it: {done.stderr!r}", done.returncode == HINDERED and files_in(prefix) == [] and os.listdir(prefix) == ["share"])
    (prefix / "share").chmod(0o777)
    see("an open one", install(tree, "--prefix", str(prefix), place=place, preexec_fn=as_nobody).returncode == DONE)
    (prefix / "lib/spectre").chmod(0o555)
    done = install(tree, "--remove", "--prefix", str(prefix), place=place, preexec_fn=as_nobody)
    see(f"closed at the removal: {done.stderr!r}", done.returncode == HINDERED and is_whole(prefix))
    (prefix / "lib/spectre").chmod(0o755)
    if os.path.isdir("/proc"):
        done = install(tree, "--prefix", "/proc/none/spectre")
        see(f"no folder can be made: {done.stderr!r}", done.returncode == HINDERED and b"/proc" in done.stderr)


def try_use(folder: pathlib.Path) -> None:
    """What was installed works without the repository, and goes on while it is installed anew."""
    tree, prefix = make_sources(folder / "tree"), folder / "pre fix"
    see("installed", install(tree, "--prefix", str(prefix)).returncode == DONE)
    spectre, journal, place = prefix / "bin/spectre", folder / "journal", folder / "elsewhere"
    place.mkdir()
    more: dict[str, Any] = {"env": bare(folder, f"{prefix}/bin:/usr/bin:/bin"), "cwd": place}
    feed = feed_of(SCENARIO)
    node = subprocess.Popen([spectre, "node", journal], stdin=subprocess.PIPE, stdout=subprocess.PIPE, **more)
    assert node.stdin and node.stdout
    head = 8 + 1 + 5 + 20
    frame = (len(feed) - head - 5) // 2
    with contextlib.suppress(BrokenPipeError):
        node.stdin.write(feed[:head + frame])
        node.stdin.flush()
    see("the first block", node.stdout.readline().startswith(b"kept "))
    old = (prefix / "lib/spectre/spectre").stat().st_ino
    see("anew", install(tree, "--prefix", str(prefix)).returncode == DONE and (prefix / "lib/spectre/spectre").stat().st_ino != old)
    tree.rename(folder / "moved")
    for words in (["node", str(journal)], ["show", str(journal)], ["export", str(journal), "1"]):
        done = call(["spectre", *words], feed, **more)
        see(f"{words[0]} beside a node: {done.returncode} {done.stderr!r}", done.returncode == IN_USE and not done.stdout)
    rest, _ = node.communicate(feed[head + frame:], timeout=60)
    see("the second block", rest.startswith(b"kept ") and node.returncode == DONE)
    see("both are there", call(["spectre", "show", journal], **more).stdout.startswith(b"recovered 2\n"))
    done = call(["spectre", "play"], SCENARIO, **more)
    see(f"play: {done.stderr!r}", done.returncode == DONE and done.stdout == call([PROGRAM, "play"], SCENARIO).stdout)
    see("faulty words", call(["spectre", "nothing"], **more).returncode == USAGE)
    done = call(["spectre", "--version"], **more)
    see(f"--version: {done.stdout!r}", done.returncode == DONE and (ROOT / "VERSION").read_bytes().strip() in done.stdout)
    for shell in SHELLS:
        for words, name in ((["--help"], "spectre"), (["help", "node"], "node")):
            done = call([*by_shell(shell), spectre, *words], **more)
            see(f"{shell} {words}: {done.returncode}", done.returncode == DONE and done.stdout == (ROOT / f"share/spectre/help/{name}.txt").read_bytes())
    done = call(["spectre", "snapshot", journal, folder / "copy"], **more)
    see(f"snapshot: {done.stderr!r}", done.returncode == DONE and (folder / "copy").read_bytes() == journal.read_bytes())
    if shutil.which("man"):
        done = call(["man", "-w", "spectre"], **more)
        see(f"man finds the page: {done.stdout!r}", done.stdout.strip() == os.fsencode(prefix / "share/man/man1/spectre.1"))
    else:
        print("not run: man finds the page, since there is no man")
    (folder / "moved").rename(tree)
    see("removed", install(tree, "--remove", "--prefix", str(prefix)).returncode == DONE and not prefix.exists())


def main() -> int:
    with tempfile.TemporaryDirectory() as folder:
        # Another user looks into it, too.
        pathlib.Path(folder).chmod(0o755)
        return run_all([try_places, try_words, try_programs, try_others, try_older, try_closed, try_use], pathlib.Path(folder).resolve())


if __name__ == "__main__":
    sys.exit(main())
