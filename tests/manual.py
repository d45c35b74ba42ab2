#!/usr/bin/env python3
"""Tries the manual page, the help texts and the completions of shells.

    python3 tests/manual.py

`mandoc` finds nothing wrong in the page, and the help texts and completions are what `tools/from_manual.py` makes of it.
Each command of the program's own list stands in the page with the same words, each status of docs/FORMATS.md in the
page and in the help. The page's examples write what stands there. In bash, zsh and fish each word is completed by
what can stand there, and by nothing where that can't be known. Where the environment names a program as SPECTRE it
takes the place of the one that `bin/spectre` builds."""

from __future__ import annotations

import os
import pathlib
import pty
import re
import select
import shutil
import signal
import sys
import tempfile
import time

from harness import DONE, PROGRAM, ROOT, call, make_tree, run_all, see

SHARE = ROOT / "share"
PAGE = SHARE / "man/man1/spectre.1"
HELP = SHARE / "spectre/help"
# What the launcher answers itself.
OWN = ["snapshot", "help"]
PLACES = {"bash": "bash-completion/completions/spectre", "zsh": "zsh/site-functions/_spectre", "fish": "fish/vendor_completions.d/spectre.fish"}


def section(name: str) -> str:
    found = re.search(rf"^\.Sh {name}\n(.*?)(?=^\.Sh |\Z)", PAGE.read_text(), re.DOTALL | re.MULTILINE)
    return found[1] if found else ""


def heads() -> list[str]:
    """The words of each command, by the page."""
    return [head.replace("\\&", "") for head in re.findall(r"^\.Ss (.*)$", section("COMMANDS"), re.MULTILINE)]


def names() -> list[str]:
    return [head.split()[0] for head in heads()]


def try_page(folder: pathlib.Path) -> None:
    """The page is well formed, and what is made of it is fresh."""
    if shutil.which("mandoc"):
        done = call(["mandoc", "-T", "lint", PAGE])
        see(f"mandoc -T lint: {done.stdout.decode()}", done.returncode == DONE and not done.stdout and not done.stderr)
    else:
        print("not run: mandoc -T lint, since there is no mandoc")
    done = call([sys.executable, ROOT / "tools/from_manual.py", "--check"])
    see(f"help and completions: {done.stdout.decode()}", done.returncode == DONE)
    for path in sorted(HELP.iterdir()):
        wide = [line for line in path.read_text().splitlines() if len(line) > 80 or line != line.rstrip() or not line.isascii()]
        see(f"{path.name}: {wide}", not wide)


def try_facts(folder: pathlib.Path) -> None:
    """The page has the program's own list, and all statuses."""
    told = call([PROGRAM]).stderr.decode()
    usage = [row.strip() for row in re.split(r" \| ", told.splitlines()[0].replace("usage: spectre ", ""))]
    ours = [head.replace("...", "..").replace("1 | 2", "N") for head in heads() if head.split()[0] not in OWN]
    see(f"the words of the program {usage} and of the page {ours}", usage == ours)
    rows = [line.split()[0] for line in told.splitlines() if line.startswith("  ")]
    see(f"the program's list {rows}", sorted({*rows, *OWN}) == sorted(names()))
    text = re.sub(r"^\.(Cm|Ar) ", "", section("SYNOPSIS"), flags=re.MULTILINE).replace(".Op Fl -", "[--").replace(".Op Ar ", "[")
    text = re.sub(r"^(\[.*)$", r"\1]", text, flags=re.MULTILINE)
    synopsis = [" ".join(words.split()) for words in text.split(".Nm\n") if words]
    see(f"the synopsis {synopsis}", synopsis == [*heads(), ".Fl -help", ".Fl -version"])
    rules = (ROOT / "docs/FORMATS.md").read_text().split("| Status | Code | When |\n")[1]
    codes = re.findall(r"^\| \w+ \| (\d+) \|", rules, re.MULTILINE)
    codes += ["124", "125", "126", "127"]
    see(f"the statuses {codes}", re.findall(r"^\.It (\d+)$", section("EXIT STATUS"), re.MULTILINE) == codes)
    overview = (HELP / "spectre.txt").read_text()
    see("the statuses of the help", re.findall(r"^  (\d+) ", overview, re.MULTILINE) == codes)
    see("the commands of the help", re.findall(r"^  ([a-z]+) ", overview, re.MULTILINE) == names())
    for head in heads():
        text = (HELP / f"{head.split()[0]}.txt").read_text()
        see(f"the help of {head}", text.startswith(f"usage: spectre {head}\n"))


def try_examples(folder: pathlib.Path) -> None:
    """What the page's examples write. The first `cat` of a file shows what it has to hold."""
    (folder / "bin").mkdir()
    (folder / "bin/spectre").symlink_to(make_tree(folder / "tree"))
    shell, count = "", 0
    for block in re.findall(r"^\.Bd .*?\n(.*?)^\.Ed", section("EXAMPLES"), re.DOTALL | re.MULTILINE):
        for command, answer in re.findall(r"^\$ (.*)\n((?:(?!\$ ).*\n)*)", block, re.MULTILINE):
            count += 1
            made = re.fullmatch(r"cat (\S+)", command)
            if made and not (folder / made[1]).exists():
                (folder / made[1]).write_text(answer)
            # What a command sets stays for those behind it.
            shell += command + "\n"
            run = f"exec 3>&1 >/dev/null\n{shell[:-len(command) - 1]}exec >&3\n{command}\n"
            for journal in folder.glob("*.journal"):
                journal.unlink()
            done = call(["sh", "-c", run], cwd=folder, env={**os.environ, "PATH": f"{folder}/bin:{os.environ['PATH']}"})
            see(f"{command}: {done.returncode} {done.stdout!r} {done.stderr!r}", done.stdout.decode() == answer)
    see(f"{count} examples", count > 10)


class Terminal:
    """A shell in a terminal, which answers with the words that a line has once keys were pressed."""

    def __init__(self, words: list[str], setup: str, folder: pathlib.Path) -> None:
        self.pid, self.file = pty.fork()
        if not self.pid:
            os.chdir(folder)
            os.execve(words[0], words, {"PATH": "/usr/bin:/bin", "HOME": str(folder), "TERM": "dumb", "LC_ALL": "C.UTF-8"})
        self.send("words() { printf '<%s>' \"$@\"; echo '<end>'; }; " + setup + "\n")
        self.words("ready")

    def send(self, text: str) -> None:
        os.write(self.file, text.encode())

    def words(self, line: str) -> list[str]:
        """The words behind the first of the line; the keys at its end are pressed first."""
        # To the line's front, in either shell.
        self.send(line + "\x01words " + "\n")
        seen, until = b"", time.monotonic() + 20
        while b"<end>\r\n" not in seen and time.monotonic() < until:
            if select.select([self.file], [], [], 0.1)[0]:
                seen += os.read(self.file, 65536)
        found = re.findall(r"((?:<[^>\r\n]*>)+)<end>\r\n", seen.decode(errors="replace"))
        return re.findall(r"<([^>]*)>", found[-1])[1:] if found else ["no answer"]

    def choices(self, line: str) -> list[str]:
        """What the last word becomes when the key for the next choice is pressed again and again."""
        bare, found, length = self.words(line), list[str](), 0
        for times in range(1, 30):
            now = self.words(line + "\t" * times)
            # A single choice is followed by the next word.
            if now == bare or (found and (len(now) != length or now[-1] in found)):
                break
            length = len(now)
            found.append(now[-1])
        return sorted(found)

    def close(self) -> None:
        os.close(self.file)
        os.kill(self.pid, signal.SIGKILL)
        os.waitpid(self.pid, 0)


FILES = ["a file", "ledger.journal"]


def expected() -> list[tuple[str, list[str]]]:
    """What can stand behind a line."""
    some = names()
    return [
        ("spectre ", some),
        ("spectre ex", ["export"]),
        ("spectre s", ["show", "snapshot", "spend"]),
        ("spectre --", ["--help", "--version"]),
        ("spectre nothing ", []),
        ("spectre play ", []),
        ("spectre make ", []),
        ("spectre make 3 0 ", []),
        ("spectre node ", FILES),
        ("spectre node led", ["ledger.journal"]),
        ("spectre node --f", ["--fresh"]),
        ("spectre node --fresh ", FILES),
        ("spectre node --fresh --", []),
        ("spectre node f --", ["--fresh"]),
        ("spectre node f ", []),
        ("spectre show ", FILES),
        ("spectre show --", []),
        ("spectre show f ", []),
        ("spectre export ", FILES),
        ("spectre export f ", ["1", "2"]),
        ("spectre export f 1 ", []),
        ("spectre certify ", []),
        ("spectre spend ", []),
        ("spectre spend 4 ", ["to"]),
        ("spectre spend 4 to ", []),
        ("spectre spend 4 to bob ", ["from"]),
        ("spectre spend 4 to bob from ", []),
        ("spectre watch ", ["lock:", "pair:", "tx:"]),
        ("spectre watch l", ["lock:"]),
        ("spectre watch tx:ab", []),
        ("spectre snapshot ", FILES),
        ("spectre snapshot f ", FILES),
        ("spectre snapshot f g ", []),
        ("spectre help ", some),
        ("spectre help ex", ["export"]),
        ("spectre help export ", []),
    ]


def try_terminal(folder: pathlib.Path, shell: str, words: list[str], setup: str) -> None:
    path = shutil.which(shell)
    if path is None:
        print(f"not run: completion in {shell}, since there is no {shell}")
        return
    for name in FILES:
        (folder / name).touch()
    terminal = Terminal([path, *words], setup, folder)
    for line, wanted in expected():
        found = terminal.choices(line)
        see(f"{shell}, {line!r}: {found}", found == sorted(wanted))
    terminal.close()


def try_bash(folder: pathlib.Path) -> None:
    setup = f"source '{SHARE / PLACES['bash']}'; bind 'TAB:menu-complete'; bind 'set enable-bracketed-paste off'; PS1='> '"
    try_terminal(folder, "bash", ["--norc", "--noprofile", "-i"], setup)
    if shutil.which("bash"):
        script = f"compopt() {{ echo \"$*\"; }}; source '{SHARE / PLACES['bash']}'; COMP_WORDS=(spectre play '<' ''); COMP_CWORD=3; _spectre"
        see("bash, files behind <", call(["bash", "-c", script]).stdout == b"-o default\n")


def try_zsh(folder: pathlib.Path) -> None:
    place = (SHARE / PLACES["zsh"]).parent
    setup = f"fpath=('{place}' $fpath); autoload -Uz compinit; compinit -u -D; bindkey -e; bindkey '^I' menu-complete; PS1='> '"
    try_terminal(folder, "zsh", ["-f", "-i"], setup)


def try_fish(folder: pathlib.Path) -> None:
    if not shutil.which("fish"):
        print("not run: completion in fish, since there is no fish")
        return
    for name in FILES:
        (folder / name).touch()
    more = {**os.environ, "HOME": str(folder), "LC_ALL": "C.UTF-8"}
    for line, wanted in expected():
        done = call(["fish", "--no-config", "-c", f"source '{SHARE / PLACES['fish']}'; complete -C '{line}'"], cwd=folder, env=more)
        found = sorted(row.split("\t")[0] for row in done.stdout.decode().splitlines())
        see(f"fish, {line!r}: {found}", found == sorted(wanted))


def main() -> int:
    with tempfile.TemporaryDirectory() as folder:
        return run_all([try_page, try_facts, try_examples, try_bash, try_zsh, try_fish], pathlib.Path(folder))


if __name__ == "__main__":
    sys.exit(main())
