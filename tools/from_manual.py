#!/usr/bin/env python3
"""Makes the help texts and the completions of shells out of the manual page.

    python3 tools/from_manual.py
    python3 tools/from_manual.py --check

The page is share/man/man1/spectre.1. The commands are the parts of its section COMMANDS: the words of a command are
the part's heading, what it does in one line is the first paragraph, and the whole part is its help. With --check
nothing is written: the files that aren't what the page gives are named, and the status is 1 where there are any."""

from __future__ import annotations

import pathlib
import sys
import textwrap
from dataclasses import dataclass, field

ROOT = pathlib.Path(__file__).resolve().parent.parent
PAGE = ROOT / "share/man/man1/spectre.1"
HELP = "share/spectre/help"
WIDTH = 78
# How far the text of a list stands behind its heads, as in the page.
INDENT = 8

# The macros that set their words in a face of its own, which plain text doesn't have.
FACES = {"Ar", "Cm", "Ev", "Ic", "Li", "Nm", "Pa"}
CLOSING = set(".,:;)?!")


def plain(words: list[str]) -> str:
    """What a line of words and macros says."""
    text, glued, faced, end = "", True, "", ""
    for at, word in enumerate(words):
        if word in FACES:
            faced = ""
            continue
        if word == "Fl":
            faced = "-"
        elif word == "Op":
            return text + ("" if glued else " ") + f"[{plain(words[at + 1:])}]"
        elif word == "Ql":
            rest = words[at + 1:]
            while len(rest) > 1 and rest[-1] in CLOSING:
                end = rest.pop() + end
            return text + ("" if glued else " ") + f"'{' '.join(rest)}'" + end
        elif word == "Ns":
            glued = True
        else:
            closes = word in CLOSING
            text += ("" if glued or closes else " ") + ("" if closes else faced) + word.replace("\\&", "")
            glued = False
    return text


def said(line: str) -> str:
    """What a line of the page says."""
    if not line.startswith("."):
        return line.replace("\\&", "")
    words = line[1:].split()
    return plain(words[1:] if words[0] == "It" else ["spectre", *words[1:]] if words == ["Nm"] else words)


@dataclass
class Part:
    """A part of the page: its heading, and its lines."""
    head: str
    lines: list[str] = field(default_factory=list)


def parts_of(page: str, macro: str) -> list[Part]:
    """The sections of the page, or the parts of a section."""
    parts: list[Part] = []
    for line in page.splitlines():
        if line.startswith(f".{macro} "):
            parts.append(Part(line[len(macro) + 2:].replace("\\&", "")))
        elif parts:
            parts[-1].lines.append(line)
    return parts


def section(page: str, name: str) -> list[str]:
    return next(part.lines for part in parts_of(page, "Sh") if part.head == name)


def wrapped(text: str, indent: int) -> list[str]:
    pad = " " * indent
    return textwrap.wrap(text, WIDTH, initial_indent=pad, subsequent_indent=pad, break_long_words=False, break_on_hyphens=False)


def item(head: str, text: str, indent: int) -> list[str]:
    """An item of a list: its head, and its text beside or below it."""
    lines = wrapped(text, 2 + indent)
    if len(head) < indent - 1 and lines:
        return [f"  {head}".ljust(2 + indent) + lines[0].lstrip(), *lines[1:]]
    return [f"  {head}", *lines]


def rendered(lines: list[str]) -> list[str]:
    """The lines of a part as plain text."""
    out: list[str] = []
    text: list[str] = []
    head: str | None = None

    def end() -> None:
        nonlocal head
        whole = " ".join(text)
        # What begins with a mark that closes stands directly behind the word before it.
        if head is not None:
            out.extend(item(head, whole, INDENT))
        elif whole:
            out.extend(wrapped(whole, 0))
        if (whole or head is not None) and out:
            out.append("")
        text.clear()
        head = None

    for line in lines:
        macro = line.split()[0] if line.startswith(".") else ""
        if macro in (".Pp", ".Bl", ".El"):
            end()
        elif macro == ".It":
            end()
            head = said(line)
        elif macro in (".Bd", ".Ed", ".Sh", ".Ss"):
            raise ValueError(f"a help text can't hold {line}")
        else:
            text.append(said(line))
    end()
    return out[:-1]


def first(lines: list[str]) -> str:
    """The first paragraph of a part in one line."""
    return " ".join(said(line) for line in lines[:next((at for at, line in enumerate(lines) if line == ".Pp"), len(lines))])


def items(lines: list[str]) -> list[tuple[str, str]]:
    """The items of the lists: head and text."""
    found: list[tuple[str, str]] = []
    inside = False
    for line in lines:
        if line.startswith(".It "):
            found.append((said(line), ""))
        elif line.startswith((".Bl ", ".El")):
            inside = line.startswith(".Bl ")
        elif inside:
            head, text = found[-1]
            found[-1] = (head, f"{text} {said(line)}".strip())
    return found


@dataclass
class Command:
    """A command: its words as they stand in the page, what it does, and its part of the page."""
    words: str
    lines: list[str]

    @property
    def name(self) -> str:
        return self.words.split()[0]

    @property
    def does(self) -> str:
        return first(self.lines)

    @property
    def flags(self) -> list[str]:
        return [word.strip("[]") for word in self.words.split() if word.startswith("[-")]

    @property
    def places(self) -> list[list[str]]:
        """What can stand at each place for a word that is no flag."""
        alternatives = self.words.replace(" | ", "|").split()[1:]
        return [word.strip("[]").split("|") for word in alternatives if not word.startswith("[-") and word != "..."]

    @property
    def goes_on(self) -> bool:
        return self.words.endswith("...")


def commands_of(page: str) -> list[Command]:
    text = "\n".join(section(page, "COMMANDS"))
    return [Command(part.head, part.lines) for part in parts_of(text, "Ss")]


def overview(page: str, commands: list[Command]) -> str:
    name = next(line for line in section(page, "NAME") if line.startswith(".Nd "))[4:]
    lines = [f"spectre: {name}", "", "usage: spectre COMMAND ..", ""]
    for command in commands:
        lines += item(command.name, command.does, 11)
    lines.append("")
    for flag, text in items(section(page, "OPTIONS")):
        lines += item(flag, f"{text.split('. ')[0].rstrip('.')}.", 11)
    lines += ["", "A run ends with", ""]
    for status, text in items(section(page, "EXIT STATUS")):
        lines += item(status, text, 5)
    lines += ["", *wrapped("'spectre help COMMAND' tells the words of a command, and the manual page spectre(1) all of it.", 0)]
    return "\n".join(lines) + "\n"


def help_of(command: Command) -> str:
    lines = [f"usage: spectre {command.words}", "", *rendered(command.lines), ""]
    lines.append("'spectre --help' has the exit statuses, and the manual page spectre(1) more.")
    return "\n".join(lines) + "\n"


# What completes a word of the page that stands for others: files, or these.
FILES = {"FILE", "COPY"}
ITEMS = ["tx:", "lock:", "pair:"]


def table(commands: list[Command]) -> tuple[list[str], list[tuple[str, list[str]]]]:
    """Where a file stands, and where which words, each place as COMMAND:PLACE, counted from 0."""
    files: list[str] = []
    words: list[tuple[str, list[str]]] = []
    for command in commands:
        for at, place in enumerate(command.places):
            spot = f"{command.name}:*" if command.goes_on and place == ["ITEM"] else f"{command.name}:{at}"
            if place[0] in FILES:
                files.append(spot)
            elif place == ["ITEM"]:
                words.append((spot, ITEMS))
            elif place == ["COMMAND"]:
                words.append((spot, [each.name for each in commands]))
            elif not place[0].isupper():
                words.append((spot, place))
    return files, words


BASH = """\
# Completes the words of spectre in bash. Made of the manual page by tools/from_manual.py.
# shellcheck shell=bash

_spectre() {
    local word=${COMP_WORDS[COMP_CWORD]} before=${COMP_WORDS[COMP_CWORD - 1]} words='' flags='' place=0 at
    COMPREPLY=()
    # Where a file stands nothing is answered here: bash completes it, quotes and all.
    if [[ $before == *[\\<\\>]* ]]; then
        compopt -o default
        return
    fi
    if [[ $COMP_CWORD == 1 ]]; then
        case $word in
            -*) words='OPTIONS' ;;
            *) words='COMMANDS' ;;
        esac
    else
        for ((at = 2; at < COMP_CWORD; at++)); do
            case ${COMP_WORDS[at]} in
                *[\\<\\>]*) ((at++)) ;;
                -*) flags+=" ${COMP_WORDS[at]} " ;;
                *) ((place++)) ;;
            esac
        done
        case ${COMP_WORDS[1]}:$place:$word in
FLAGS
            FILES)
                compopt -o default
                return
                ;;
PLACES
        esac
    fi
    mapfile -t COMPREPLY < <(compgen -W "$words" -- "$word")
    # What an item's kind is followed by stands directly behind it.
    if [[ ${COMPREPLY[0]-} == *: ]]; then compopt -o nospace; fi
}

complete -F _spectre spectre
"""


def bash(page: str, commands: list[Command]) -> str:
    files, words = table(commands)
    # A command has one flag at most.
    flags = [(each, flag) for each in commands for flag in each.flags]
    row = "            {}) words='{}' ;;"
    options = [flag for flag, _ in items(section(page, "OPTIONS"))]
    text = BASH.replace("OPTIONS", " ".join(options)).replace("COMMANDS", " ".join(each.name for each in commands))
    text = text.replace("FLAGS", "\n".join(f"            {each.name}:*:-*) [[ $flags == *' {flag} '* ]] || words='{flag}' ;;" for each, flag in flags))
    text = text.replace("FILES", " | ".join(f"{spot}:*" for spot in files))
    return text.replace("PLACES", "\n".join(row.format(f"{spot}:*".replace("*:*", "*"), " ".join(found)) for spot, found in words))


ZSH = """\
#compdef spectre
# Completes the words of spectre in zsh. Made of the manual page by tools/from_manual.py.

_spectre() {
    local -a commands options
    integer place at
    commands=(
COMMANDS
    )
    options=(
OPTIONS
    )
    if (( CURRENT == 2 )); then
        _describe -t commands command commands
        _describe -o option options
        return
    fi
    for (( at = 3; at < CURRENT; at++ )); do
        [[ $words[at] == -* ]] || (( place++ ))
    done
    case $words[2]:$place:$PREFIX in
FLAGS
        (FILES) _files ;;
        (help:0:*) _describe -t commands command commands ;;
PLACES
    esac
}

_spectre "$@"
"""


def quoted(text: str) -> str:
    return "'" + text.replace("'", "'\\''") + "'"


def zsh(page: str, commands: list[Command]) -> str:
    files, words = table(commands)
    flags = [(f"{each.name}:*:-*", each.flags) for each in commands if each.flags]
    row = "        ({}) compadd {}-- {} ;;"
    rows = [
        row.format(f"{spot}:*".replace("*:*", "*"), "-S '' " if found == ITEMS else "", " ".join(found))
        for spot, found in words if not spot.startswith("help:")
    ]
    text = ZSH.replace("COMMANDS", "\n".join(f"        {quoted(f'{each.name}:{short(each.does)}')}" for each in commands))
    text = text.replace("OPTIONS", "\n".join(f"        {quoted(f'{flag}:{short(does)}')}" for flag, does in items(section(page, "OPTIONS"))))
    text = text.replace("FLAGS", "\n".join(row.format(spot, "-F words ", " ".join(found)) for spot, found in flags))
    return text.replace("FILES", "|".join(f"{spot}:*" for spot in files)).replace("PLACES", "\n".join(rows))


FISH = """\
# Completes the words of spectre in fish. Made of the manual page by tools/from_manual.py.

# Whether the word at the cursor is one of this command, at this place among those that are no flags; or,
# where a flag is named, whether that one doesn't stand yet.
function __spectre_at --argument-names name place
    set -l words (commandline -opc)
    test (count $words) -gt 1; and test "$words[2]" = "$name"; or return
    switch "$place"
        case ''
            return 0
        case '-*'
            not contains -- $place $words
        case '*'
            test (count (string match --invert -- '-*' $words[3..-1])) -eq $place
    end
end

function __spectre_first
    test (count (commandline -opc)) -eq 1
end

# Files stand where this says so, and nowhere else.
complete -c spectre -f
"""


def short(text: str) -> str:
    """The first sentence, as a completion shows it."""
    sentence = text.split(". ")[0].rstrip(".")
    return sentence[0].lower() + sentence[1:]


def fish(page: str, commands: list[Command]) -> str:
    files, words = table(commands)
    does = {each.name: quoted(short(each.does)) for each in commands}
    lines = [f"complete -c spectre -n __spectre_first -a {each.name} -d {does[each.name]}" for each in commands]
    lines += [f"complete -c spectre -n __spectre_first -l {flag[2:]} -d {quoted(short(text))}" for flag, text in items(section(page, "OPTIONS"))]
    for command in commands:
        told = dict(items(command.lines))
        lines += [f"complete -c spectre -n '__spectre_at {command.name} {flag}' -l {flag[2:]} -d {quoted(short(told[flag]))}" for flag in command.flags]
    lines += [f"complete -c spectre -n '__spectre_at {spot.replace(':', ' ')}' -F" for spot in files]
    for spot, found in words:
        where = f"'__spectre_at {spot.replace(':*', '').replace(':', ' ')}'"
        if spot.startswith("help:"):
            lines += [f"complete -c spectre -n {where} -a {name} -d {does[name]}" for name in found]
        else:
            lines.append(f"complete -c spectre -n {where} -a {quoted(' '.join(found))}")
    return FISH + "\n".join(lines) + "\n"


def made_of(page: str) -> dict[str, str]:
    """Each file that is made, by its path."""
    commands = commands_of(page)
    files = {f"{HELP}/{command.name}.txt": help_of(command) for command in commands}
    files[f"{HELP}/spectre.txt"] = overview(page, commands)
    files["share/bash-completion/completions/spectre"] = bash(page, commands)
    files["share/zsh/site-functions/_spectre"] = zsh(page, commands)
    files["share/fish/vendor_completions.d/spectre.fish"] = fish(page, commands)
    return files


def main() -> int:
    if sys.argv[1:] not in ([], ["--check"]):
        print("usage: from_manual.py [--check]", file=sys.stderr)
        return 2
    files = made_of(PAGE.read_text())
    there = [path.relative_to(ROOT).as_posix() for path in (ROOT / "share").rglob("*") if path.is_file() and path != PAGE]
    stale = sorted(name for name, text in files.items() if name not in there or (ROOT / name).read_text() != text)
    foreign = sorted(set(there) - set(files))
    if sys.argv[1:] == ["--check"]:
        for name in stale:
            print(f"stale: {name}")
        for name in foreign:
            print(f"not of the page: {name}")
        print("the help texts and completions aren't fresh" if stale or foreign else "the help texts and completions are fresh")
        return 1 if stale or foreign else 0
    for name in stale:
        (ROOT / name).parent.mkdir(parents=True, exist_ok=True)
        (ROOT / name).write_text(files[name])
    for name in foreign:
        (ROOT / name).unlink()
    return 0


if __name__ == "__main__":
    sys.exit(main())
