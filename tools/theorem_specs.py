"""The files of definitions, `crates/*/specs/*.antt`: their imports, and each definition with its comments."""

from __future__ import annotations

import pathlib
import re
from dataclasses import dataclass, field

from theorem_text import Unread

SIGNATURE = re.compile(r"(?:(?:pattern|unfoldable|abbrev|axiom|pub) )*(\S+)(?: \{[^}]*\})? :(?: |$)")
DECLARED = re.compile(r"pub (record|data|ruleset) (\S+)")
# What a module path may name, as `jobs.Keep` behind an `as`.
PIECE = re.compile(r"(?P<path>[^{}\s]+)(?:\s+as\s+(?P<name>\S+))?")


@dataclass
class Part:
    """A definition of the specifications, or a type or a trait of the code."""

    key: str  # crate.file.name
    kind: str  # function, record, data; struct, enum, type, model or trait
    file: str  # from the top of the repository
    line: int
    text: str
    comment: list[str]  # the paragraphs of what stands above it
    group: tuple[int, list[str]] | None  # what stands above it and others: the line, and the paragraphs
    members: list[str] = field(default_factory=list)  # constructors, fields, or members of a trait

    @property
    def name(self) -> str:
        return self.key.rsplit(".", 1)[-1]

    @property
    def lines(self) -> int:
        """How many lines it has without comments."""
        return sum(1 for line in self.text.split("\n") if line.strip() and not line.lstrip().startswith(("--", "//")))


@dataclass
class Source:
    """A file: what its names mean, and its definitions by their names."""

    crate: str
    module: list[str]
    file: str
    head: list[str]  # the paragraphs of its first comment
    names: dict[str, str] = field(default_factory=dict)  # an import's name here: where it is from
    modules: dict[str, str] = field(default_factory=dict)
    passed_on: set[str] = field(default_factory=set)
    parts: dict[str, Part] = field(default_factory=dict)


def imports(text: str) -> tuple[dict[str, str], dict[str, str]]:
    """What one `use` line brings, behind the word `use`: items by their names, and modules by theirs."""
    text = text.strip().rstrip(";")
    if "{" not in text:
        found = PIECE.fullmatch(text)
        if not found:
            raise Unread(f"`use {text}` isn't read")
        return {}, {found["name"] or found["path"].split(".")[-1]: found["path"]}
    front, _, inner = text.partition(".{")
    items = {}
    for piece in filter(None, (each.strip() for each in inner.rstrip("} ").split(","))):
        found = PIECE.fullmatch(piece)
        if not found:
            raise Unread(f"`use {text}`: `{piece}` isn't read")
        items[found["name"] or found["path"].split(".")[-1]] = f"{front}.{found['path']}"
    return items, {}


def paragraphs(lines: list[str], mark: str) -> list[str]:
    """The text of a comment, a string for each paragraph."""
    found: list[str] = [""]
    for line in lines:
        line = line.strip().removeprefix(mark).strip()
        if line:
            found[-1] = f"{found[-1]} {line}".strip()
        elif found[-1]:
            found.append("")
    return [each for each in found if each]


def blocks(lines: list[str]) -> list[tuple[int, list[str]]]:
    """What stands at the margin, each with the lines below that are indented: the number of its first line, and the lines.
    The lines of one comment are one block."""
    found: list[tuple[int, list[str]]] = []
    for at, line in enumerate(lines):
        above = found[-1][1] if found else []
        if not line.strip():
            continue
        goes_on = line[0] == " " or line.startswith("--") and above and above[0].startswith("--") and lines[at - 1].strip() != ""
        if goes_on:
            above += [""] * (at - found[-1][0] - len(above)) + [line]
        else:
            found.append((at, [line]))
    return found


def is_new(line: str) -> bool:
    """Whether a line at the margin begins a definition."""
    return bool(DECLARED.match(line) or SIGNATURE.match(line))


def members_of(kind: str, text: str) -> list[str]:
    """The fields of a record, or the constructors of a data type."""
    found: list[str] = []
    for line in text.split("\n")[1:]:
        label = re.match(r"  (?:pub )?([^\s:][^:]*?) :(?: |$)", line)
        if label and not line.startswith("   ") and not line.lstrip().startswith("--"):
            found += label[1].split()
    return found


class Reader:
    """Reads one file, block by block."""

    def __init__(self, crate: str, module: list[str], file: str, text: str) -> None:
        self.lines = text.split("\n")
        self.source = Source(crate, module, file, [])
        self.comment: tuple[int, list[str]] | None = None
        self.group: tuple[int, list[str]] | None = None
        self.governs_all = False
        self.open: Part | None = None

    def read(self) -> Source:
        found = blocks(self.lines)
        for place, (at, lines) in enumerate(found):
            behind = found[place + 1] if place + 1 < len(found) else None
            try:
                self.take(at, lines, behind)
            except Unread as error:
                raise Unread(f"{self.source.file}:{at + 1}: {error}") from error
        return self.source

    def take(self, at: int, lines: list[str], behind: tuple[int, list[str]] | None) -> None:
        first = lines[0]
        used = re.match(r"(pub )?use (.*)", first)
        if first.startswith("--"):
            self.take_comment(at, lines, behind)
        elif used:
            items, modules = imports(" ".join([used[2], *lines[1:]]))
            self.source.names.update(items)
            self.source.modules.update(modules)
            self.source.passed_on.update(items if used[1] else ())
        elif re.match(r"(pub )?mod |infix[lr]? ", first):
            pass
        elif is_new(first):
            self.begin(at, lines)
        else:
            self.extend(at, lines)

    def extend(self, at: int, lines: list[str]) -> None:
        """A clause of the definition that is open, or a comment between two clauses."""
        if not self.open:
            raise Unread(f"`{lines[0]}` isn't read")
        self.open.text += "\n" * (at - self.open.line + 1 - self.open.text.count("\n")) + "\n".join(lines)

    def take_comment(self, at: int, lines: list[str], behind: tuple[int, list[str]] | None) -> None:
        text = paragraphs(lines, "--")
        stands_free = behind is None or behind[0] > at + len(lines)
        follows = behind[1][0] if behind else ""
        if at == 0:
            self.source.head = text
        elif not stands_free and not is_new(follows) and not follows.startswith("infix"):
            self.extend(at, lines)
        elif stands_free:
            self.group, self.governs_all = (at + 1, text), follows.startswith("--")
            self.comment = None
        else:
            self.comment = (at + 1, text)
            if self.group and not self.governs_all:
                self.group = None

    def begin(self, at: int, lines: list[str]) -> None:
        declared = DECLARED.match(lines[0])
        signature = SIGNATURE.match(lines[0])
        kind, name = (declared[1], declared[2]) if declared else ("function", signature[1] if signature else "")
        source = self.source
        key = ".".join([source.crate, *source.module, name])
        text = "\n".join(lines)
        group = self.group
        part = Part(key, kind, source.file, at + 1, text, self.comment[1] if self.comment else [], group)
        part.members = members_of(kind, text) if declared else []
        if name in source.parts:
            raise Unread(f"`{name}` is defined twice")
        source.parts[name] = part
        self.open, self.comment = part, None


def read_specs(root: pathlib.Path, crate: str) -> list[Source]:
    """The files of definitions of a crate, in the order in which its Lib.antt names them."""
    folder = root / "crates" / crate / "specs"
    if not folder.is_dir():
        return []
    order = re.findall(r"^(?:pub )?mod (\S+)$", (folder / "Lib.antt").read_text("utf-8"), re.M)
    found = []
    for path in sorted(folder.rglob("*.antt")):
        module = list(path.relative_to(folder).with_suffix("").parts)
        if module != ["Lib"]:
            found.append(Reader(crate, module, str(path.relative_to(root)), path.read_text("utf-8")).read())
    return sorted(found, key=lambda source: order.index(source.module[0]))
