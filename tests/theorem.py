#!/usr/bin/env python3
"""Holds the page of the theorem, docs/theorem.html, to the sources, by ways of its own.

    python3 tests/theorem.py

The page is fresh and the same whenever it is written. Each text on it stands in the source that it names. Each name in a
definition leads where the file's imports say, or is local, a field that is shown, or a word in the table of the library; none is
left over. Each definition stands above those that use it, and is used. Each link leads somewhere, and the counts are right.
And a source with a name that means nothing, or a word of the library that the page doesn't tell, gives no page."""

from __future__ import annotations

import functools
import os
import pathlib
import re
import resource
import shutil
import sys
import tempfile
from collections import Counter
from dataclasses import dataclass, field
from html.parser import HTMLParser

from harness import ROOT, call, run_all, see

PAGE = ROOT / "docs/theorem.html"
CONTRACT = "spectre.command.run"
MOST_BYTES, MOST_SECONDS = 1_200_000, 5
VOID = {"meta"}
# Words of the two languages that name nothing.
GRAMMAR = set("→ × = : λ [ ] | ← _ let in do record data where type then else abbrev unfoldable pub struct enum trait fn impl for mut ensures requires ghost".split())
RUST = set("Self self u8 u16 u32 u64 u128 usize bool result Model Value crate".split())
# Fields of the language's and the library's own: of a reference, and of pairs.
FIELDS = {"now", "old", "new", "0", "1", "2"}
TOKEN = re.compile(r'"[^"\n]*"|[(){}\[\].;,&<>]|[^\s(){}\[\].;,"&<>]+')
SPELLED = re.compile(r'"[^"\n]*"|[(){}.;,]|[^\s(){}.;,"]+')
NO_NAME = re.compile(r"""[(){}.;,&<>]|".*"|[0-9_]+|0x\w+|->|\w*:+|'\w+""")
SIGNATURE = re.compile(r"^(?:(?:pattern|unfoldable|abbrev|pub) )*(?:(?:record|data|ruleset) (\S+)|(\S+)(?: \{[^}]*\})? :(?: |$))", re.M)


@dataclass
class Box:
    """A definition on the page: its text in pieces with where each leads, and where it is said to be used."""

    key: str
    file: str
    place: int
    pieces: list[tuple[str, str]] = field(default_factory=list)
    prose: str = ""
    users: list[str] = field(default_factory=list)

    @property
    def text(self) -> str:
        return "".join(piece for piece, _ in self.pieces)

    @property
    def links(self) -> set[str]:
        return {link for _, link in self.pieces if link and link != self.key}


class Reader(HTMLParser):
    """Reads the page: its boxes, ids, links and headings, and whether each element is closed."""

    def __init__(self) -> None:
        super().__init__()
        self.open: list[str] = []
        self.ids: list[str] = []
        self.hrefs: list[str] = []
        self.others: list[str] = []
        self.headings: list[int] = []
        self.tags: Counter[str] = Counter()
        self.boxes: list[Box] = []
        self.file = self.link = ""
        self.rows: list[list[str]] = []
        self.library: list[str] = []
        self.promised = ""

    def handle_starttag(self, tag: str, attrs: list[tuple[str, str | None]]) -> None:
        had = {name: value or "" for name, value in attrs}
        self.tags[tag] += 1
        self.ids += [had["id"]] if "id" in had else []
        self.others += [f"{name}={value}" for name, value in had.items() if name in ("src", "srcset", "action") or name.startswith("on")]
        if "href" in had:
            self.hrefs.append(had["href"])
            self.link = had["href"].removeprefix("#")
        if re.fullmatch("h[1-6]", tag):
            self.headings.append(int(tag[1]))
        if tag == "div" and had.get("class") == "d":
            self.boxes.append(Box(had["id"], self.file, len(self.ids)))
            tag = "div.d"
        if tag == "p" and had.get("class") == "u" and "div.d" in self.open:
            tag = "p.u"
        if tag == "tr":
            self.rows.append([])
        if tag in ("th", "td") and self.rows:
            self.rows[-1].append("")
        self.open += [] if tag in VOID or tag in ("tr", "th", "td", "tbody", "thead", "tfoot", "li", "dt", "dd") else [tag]
        if tag == "small":
            self.file = ""

    def handle_endtag(self, tag: str) -> None:
        last = self.open.pop().split(".")[0] if self.open else ""
        if last != tag:
            self.others.append(f"</{tag}> closes <{last}>")
        self.link = "" if tag == "a" else self.link

    def handle_data(self, data: str) -> None:
        if "small" in self.open:
            self.file += data
        elif "pre" in self.open:
            self.boxes[-1].pieces.append((data, self.link))
        elif "p.u" in self.open and self.link:
            self.boxes[-1].users.append(self.link)
        elif "div.d" in self.open and "p" in self.open:
            self.boxes[-1].prose += data
        if "table" in self.open and self.rows and self.rows[-1]:
            self.rows[-1][-1] += data


def read_page() -> Reader:
    reader = Reader()
    reader.feed(PAGE.read_text("utf-8"))
    return reader


def writer(root: pathlib.Path, out: pathlib.Path, seed: str = "0") -> tuple[int, str]:
    """The script of a tree, run: its status, and what it said."""
    done = call([sys.executable, str(root / "tools/theorem.py"), "-o", str(out)], env={**os.environ, "PYTHONHASHSEED": seed, "PYTHONDONTWRITEBYTECODE": "1"})
    return done.returncode, done.stderr.decode()


def is_fresh(folder: pathlib.Path) -> None:
    for seed in ("1", "2"):
        see("the page is written", writer(ROOT, folder / seed, seed) == (0, ""))
        see("docs/theorem.html is fresh: python3 tools/theorem.py writes it anew", (folder / seed).read_bytes() == PAGE.read_bytes())
    spent = resource.getrusage(resource.RUSAGE_CHILDREN)
    see(f"twice written in {spent.ru_utime:.1f} seconds", spent.ru_utime < 2 * MOST_SECONDS)
    see("the page isn't too large", PAGE.stat().st_size < MOST_BYTES)


def is_whole(_: pathlib.Path) -> None:
    """The page by itself: links, headings, landmarks, nothing fetched and no script."""
    page = read_page()
    see("each id stands once", len(page.ids) == len(set(page.ids)))
    for href in page.hrefs:
        see(f"{href} leads to a place on the page", href.startswith("#") and href[1:] in page.ids)
    see(f"nothing else is fetched, and each element is closed: {page.others[:3]}", not page.others and not page.open)
    see("there is no script and no picture", not page.tags.keys() & {"script", "img", "link", "iframe", "object"})
    see("one of each landmark", all(page.tags[tag] == 1 for tag in ("main", "header", "nav", "footer", "h1", "title")))
    see("no level of heading is left out", page.headings[0] == 1 and all(two <= one + 1 for one, two in zip(page.headings, page.headings[1:])))
    see("the first link skips to the text", [href for href in page.hrefs][0] == "#main")


def is_in_order(_: pathlib.Path) -> None:
    """Each definition stands above those that use it, is used, and says so."""
    page = read_page()
    places = {box.key: box.place for box in page.boxes}
    parts = [box for box in page.boxes if not box.key.startswith(CONTRACT)]
    clauses = [box for box in page.boxes if box.key.startswith(CONTRACT)]
    users: dict[str, list[Box]] = {}
    for box in page.boxes:
        for link in box.links - {each for each in box.links if each.startswith("std.")}:
            users.setdefault(link, []).append(box)
            see(f"{box.key}: {link} is a definition", link in places)
            see(f"{box.key}: {link} stands {'below' if box in clauses else 'above'}", (places[link] > box.place) == (box in clauses))
    for box in parts:
        see(f"{box.key} is used", bool(users.get(box.key)))
        see(f"{box.key}: where it is said to be used it is", bool(box.users) and set(box.users) <= {each.key for each in users.get(box.key, [])})
    source = (ROOT / "crates/spectre/src/command.rt").read_text("utf-8")
    named = re.findall(r"^    ensures (\w+) ", source, re.M)
    see("each clause of the contract, in its order", [box.key for box in clauses] == [CONTRACT, *(f"{CONTRACT}.{name}" for name in named)] and len(named) == 28)


@functools.cache
def plain(text: str) -> str:
    """A source without the marks of comments, and without blanks."""
    return "".join(re.sub(r"(?m)^\s*(?:--|//[/!]?)|`", " ", text).split())


def is_from_the_sources(_: pathlib.Path) -> None:
    """Each text stands in the file that is named, and so does each comment."""
    for box in read_page().boxes:
        clause = box.key.startswith(CONTRACT)
        source = (ROOT / ("crates/spectre/src/command.rt" if clause else box.file)).read_text("utf-8")
        text = re.sub(r"(?m)^ *#\[.*\]\n", "", source)
        shown = re.sub(r"(?m)^", "    ", box.text.rstrip("\n")) if clause and box.key != CONTRACT else box.text.rstrip("\n")
        if re.search(r"^    \.\.$", shown, re.M):  # a model
            rows = [line for line in shown.split("\n") if line not in ("    ..", "}")]
            see(f"{box.key}: {box.file} has its model", rows[0].removesuffix(" { .. }") in text and all(row.rstrip(";") in text for row in rows[1:]))
        else:
            see(f"{box.key}: {box.file} has its text", shown in text)
        see(f"{box.key}: its comment stands there", "".join(box.prose.split()) in plain(source))


@functools.cache
def uses_in(file: str) -> dict[str, str]:
    """What the `use` lines of a file bring, by their names here."""
    found = {}
    for line in re.findall(r"^\s*(?:pub |ghost )?use ([^\n;]*)", (ROOT / file).read_text("utf-8"), re.M):
        path, _, inner = line.partition(".{")
        for item in inner.rstrip("} ").split(",") if inner else [""]:
            words = item.split(" as ") if inner else line.split(" as ")
            whole = f"{path}.{words[0].strip()}" if inner else words[0].strip()
            found[words[-1].strip() if len(words) > 1 else whole.rsplit(".", 1)[-1]] = whole
    return found


def binders(text: str) -> set[str]:
    """The names that a text may bind: left of a clause's `=`, behind λ and `let`, before `←`, and in groups with a type."""
    found = {word for line in text.split("\n") if line[:1].strip() for word in re.split(r"[\s(){},]+", line.split(" = ")[0])}
    for group in re.findall(r"λ ([^.]*)\.|[({]([^(){}:]*) :|let (\S+)|(\S+) ←|(\w+): ", text):
        found |= {word for part in group for word in re.split(r"[\s(){},:]+", part)}
    return found


def fields_of(boxes: list[Box]) -> set[str]:
    return FIELDS | {name for box in boxes for name in re.findall(r"(?m)^ +(?:pub |pub\(crate\) |ghost )?(\w+)\s?:", box.text)}


def no_comments(text: str) -> str:
    return re.sub(r"(?m)(?:--|//).*$", lambda each: " " * len(each[0]), text)


def leads(box: Box, word: str, link: str, boxes: dict[str, Box]) -> bool:
    """Whether a link leads where the file's imports say: to the very name, behind an `as` or in front of an operator's sign, or
    to the type of which it is a case, or to the trait that has it."""
    file = box.file or "crates/spectre/src/command.rt"
    front, *rest = word.split(".")
    if front in ("S", "K", "D"):
        return f"ghost {rest[0]}: " in boxes[link].text
    uses = uses_in(file)
    operators = [whole for each, whole in uses.items() if "◌" in each and front in each.split("◌")]
    path = uses.get(front, operators[0] if operators else "")
    name = rest[-1] if rest else path.rsplit(".", 1)[-1] or front
    if link.startswith("std."):
        return path.split(".")[:2] in (["Rattle", "std"], ["Rattle", "hex"], ["Rattle", "sha2"], [""]) and name == link[4:]
    signs = "".join(sign if re.match(r"\w", sign) else f"{ord(sign):x}" for sign in name.replace("◌", ""))
    there = not path or path.split(".")[1] == link.split(".")[0]
    is_it = link.rsplit(".", 1)[-1] == signs or re.search(rf"(?m)^ +{re.escape(name)}\b", boxes[link].text) is not None
    return there and is_it or word == "do" and link.endswith(".3e3e3d")


def names_are_placed(_: pathlib.Path) -> None:
    """Each name is linked, local, a field that is shown, or in the table of the library."""
    page = read_page()
    boxes = {box.key: box for box in page.boxes}
    fields = fields_of(page.boxes)
    handed = set(re.findall(r"(\w+): ", boxes[CONTRACT].text))
    library = {row[0] for row in page.rows if len(row) == 3 and row[0] != "Word"}
    see("the table of the library is there", {"ℕ", "≡", "sha256", "if"} <= library)
    left, counted = [], 0
    for box in page.boxes:
        text = no_comments(box.text)
        local = binders(text) | {box.key.rsplit(".", 1)[-1]} | set(re.findall(r"(?m)^ +(?:(?:pub|fn|ghost|ensures|requires) )?(\w+)", text))
        local |= handed if box.key.startswith(CONTRACT) else set()
        words = [] if box.key == CONTRACT else spelled(box, text)
        for before, word, behind, link in words:
            counted += 1
            if link and link != box.key:
                see(f"{box.key}: `{word}` leads to {link}", leads(box, word, link, boxes))
            elif not (word in GRAMMAR | RUST | library | local or before == "." and word in fields or behind in "=:" and word in fields):
                left.append(f"{box.key}: {word}")
    see(f"of {counted} words no name is left over: {left[:5]}", not left and counted > 20_000)


def spelled(box: Box, text: str) -> list[tuple[str, str, str, str]]:
    """The words of a box that could be names, each with the ones beside it, and where it leads."""
    at, links = 0, {}
    for piece, link in box.pieces:
        links[at] = (piece, link) if link else ("", "")
        at += len(piece)
    found: list[tuple[str, str, str, str]] = []
    tokens = [(each.start(), each[0]) for each in (TOKEN if box.file.endswith(".rt") else SPELLED).finditer(text)]
    until = 0
    for number, (start, word) in enumerate(tokens):
        before = tokens[number - 1][1] if number else ""
        behind = tokens[number + 1][1] if number + 1 < len(tokens) else ""
        piece, link = links.get(start, ("", ""))
        if start < until or NO_NAME.fullmatch(word) and not link:
            continue
        until = start + len(piece)
        found.append((before, piece or word, behind, link))
    return found


def counts_are_right(_: pathlib.Path) -> None:
    page = read_page()
    told = {row[0]: row[2:] for row in page.rows if len(row) == 4}
    parts = [box for box in page.boxes if not box.key.startswith(CONTRACT)]
    number, lines = Counter(box.key.split(".")[0] for box in parts), Counter[str]()
    for box in parts:
        lines[box.key.split(".")[0]] += sum(1 for line in box.text.split("\n") if line.strip() and not re.match(r"\s*(--|//)", line))
    for crate in number:
        see(f"{crate} has {number[crate]} definitions and {lines[crate]} lines", told.get(crate) == [str(number[crate]), f"{lines[crate]:,}"])
    see("and all crates", told.get("All crates") == [f"{sum(number.values()):,}", f"{sum(lines.values()):,}"])
    crates = [line.split(":")[0].split()[0] for line in (ROOT / "crates.txt").read_text("utf-8").splitlines() if line and line[0] != "#"]
    see("crates come lowest first", [row[0] for row in page.rows if len(row) == 4 and row[0] in number] == [crate for crate in crates if crate in number])
    done = call([sys.executable, str(ROOT / "tools/theorem.py"), "--figures"])
    beside = re.search(r"^(\d+) definitions in specs", done.stdout.decode(), re.M)
    every = sum(len(SIGNATURE.findall(path.read_text("utf-8"))) for path in (ROOT / "crates").glob("*/specs/**/*.antt"))
    here = sum(1 for box in parts if box.file.endswith(".antt"))
    see(f"{every} definitions in specs are those here, {here}, and those that aren't", bool(beside) and int(beside[1]) + here == every)  # type: ignore[index]


def tree(folder: pathlib.Path) -> pathlib.Path:
    """A copy of what the script reads."""
    (folder / "tools").mkdir()
    (folder / "docs").mkdir()
    shutil.copy(ROOT / "crates.txt", folder)
    for path in (ROOT / "tools").glob("theorem*.py"):
        shutil.copy(path, folder / "tools")
    for path in (ROOT / "crates").glob("*/*"):
        if path.name in ("src", "specs"):
            shutil.copytree(path, folder / path.relative_to(ROOT))
    return folder


def faults_are_told(folder: pathlib.Path) -> None:
    root = tree(folder)
    see("a copy gives the same page", writer(root, root / "page") == (0, "") and (root / "page").read_bytes() == PAGE.read_bytes())
    for file, old, new, said in (
        ("crates/spectre/specs/RunOf.antt", "use Rattle.sp_make.specs.Made.{made}\n", "", "specs/RunOf.antt:213: run_of: line 9: `made` names nothing here"),
        ("crates/sp_model/specs/Votes.antt", "abbrev pub word :", "abbrev pub wort :", "`Rattle.sp_model.specs.Votes.word` names nothing"),
        ("crates/sp_model/src/word.rt", "    Tie,", "    Ties,", "Rattle.sp_model.specs.declared.word.Word.TheVariants.Tie` isn't declared"),
        ("crates/sp_io/specs/Causes.antt", "Rose before now = counted before ≤ now", "Rose before now = counted befor ≤ now", "`befor` names nothing here"),
        ("crates/spectre/src/command.rt", "→ source.new ≡ source.old }", "→ sauce.new ≡ source.old }", "`sauce` names nothing here"),
        ("crates/sp_io/specs/Causes.antt", "counted n = min (n + 1)", "counted n = pred (n + 1)", "`pred` names nothing here"),
        ("crates/sp_io/specs/Causes.antt", "min, Result", "pred as min, Result", "not told: pred"),
    ):
        text = (root / file).read_text("utf-8")
        see(f"{file} has what is to be changed", text.count(old) >= 1)
        (root / file).write_text(text.replace(old, new, 1), "utf-8")
        status, told = writer(root, root / "page")
        see(f"{file} without {old!r}: {told}", (status, told.count("\n")) == ((1, 1) if said else (0, 0)) and said in told)
        (root / file).write_text(text, "utf-8")
    path = root / "crates/sp_io/specs/Causes.antt"
    path.write_text(path.read_text("utf-8").replace("counted n = min (n + 1)", "counted n = min (n + 2)"), "utf-8")
    see("another definition gives another page", writer(root, root / "page")[0] == 0 and (root / "page").read_bytes() != PAGE.read_bytes())


def main() -> int:
    with tempfile.TemporaryDirectory() as name:
        return run_all((is_fresh, is_whole, is_in_order, is_from_the_sources, names_are_placed, counts_are_right, faults_are_told), pathlib.Path(name))


if __name__ == "__main__":
    sys.exit(main())
