"""The page: plain HTML with its style inside, no script, and nothing that is fetched."""

from __future__ import annotations

import re
from collections.abc import Callable, Sequence
from dataclasses import dataclass
from html import escape

from theorem_closure import Clause, base, word_of
from theorem_order import Chapter, Section
from theorem_specs import Part
from theorem_text import Use
from theorem_words import CASES, HOW_TO_READ, LIBRARY

# Words of the library that are met too often to be worth a link.
PLAIN = CASES | {"Type", "List", "Option", "Result", "Bool", "String", "if", "Global"}
MARKS = re.compile(r"(?:(?:abbrev|unfoldable|pub) )+|pub\(crate\) ")
MOST_USERS = 6


@dataclass
class Contract:
    key: str
    comment: list[str]
    head: str
    uses: list[Use]
    groups: list[tuple[list[str], list[Clause]]]

    @property
    def clauses(self) -> list[Clause]:
        return [clause for _, clauses in self.groups for clause in clauses]

    @property
    def lines(self) -> int:
        return len(self.head.split("\n")) + sum(len(clause.text.split("\n")) for clause in self.clauses)


def anchor(key: str) -> str:
    """The name of a place on the page: `crate.file.name`, with the codes of signs that an address may not have."""
    return re.sub(r"[^A-Za-z0-9_.-]", lambda each: f"{ord(each[0]):x}", base(key).replace("◌", ""))


def prose(text: str) -> str:
    """A comment, with its code."""
    return re.sub(r"`([^`]+)`", r"<code>\1</code>", escape(text, quote=False))


def code(text: str, uses: Sequence[Use], own: str, target: Callable[[str], str | None], defined: tuple[int, int] | None = None, name: str = "") -> str:
    """A text with a link at each name that has one, line by line."""
    marks: list[tuple[int, int, str]] = []
    for use in uses:
        place = target(use.key)
        if place and place != own:
            marks.append((use.start, use.end, f'<a href="#{place}">'))
    if defined:
        marks.append((*defined, f'<a class=n href="#{own}">'))
    faint = [(each.start(), each.end(), "<i>") for each in re.finditer(r"(?m)(?<=[ \n])(?:--|//).*$|^(?:--|//).*$|(?<=^  )pub (?=\S)", text)]
    head = MARKS.match(text)
    faint += [(0, head.end(), "<i>")] if head else []
    out, at = [], 0
    for start, end, tag in sorted(marks + faint):
        if start < at:
            continue
        out += [escape(text[at:start], quote=False), tag, escape(text[start:end], quote=False), "</i>" if tag == "<i>" else "</a>"]
        at = end
    out.append(escape(text[at:], quote=False))
    lines = "".join(out).split("\n")
    return "<pre>" + "".join(f"<code{' class=j' if line.startswith(' ' * 6) else ''}>{line}\n</code>" for line in lines) + "</pre>"


class Page:
    def __init__(self, contract: Contract, chapters: list[Chapter], uses: dict[str, list[Use]]) -> None:
        self.contract, self.chapters, self.uses = contract, chapters, uses
        self.users: dict[str, list[str]] = {}
        for clause in contract.clauses:
            for key in dict.fromkeys(base(use.key) for use in clause.uses):
                self.users.setdefault(key, []).append(f"{contract.key}.{clause.name}")
        for key in dict.fromkeys(base(use.key) for use in contract.uses):
            self.users.setdefault(key, []).insert(0, contract.key)
        for chapter in chapters:
            for part in chapter.parts:
                for key in dict.fromkeys(base(use.key) for use in uses[part.key]):
                    if key != part.key:
                        self.users.setdefault(key, []).append(part.key)

    def target(self, key: str) -> str | None:
        if not key.startswith("toolchain:"):
            return anchor(key)
        word = word_of(key)
        return f"std.{word}" if re.fullmatch(r"[A-Za-z]\w*", word) and word not in PLAIN else None

    def users_of(self, key: str) -> str:
        """Where a definition is used, the first few by name."""
        users = [each for each in self.users.get(key, []) if each != key]
        shown = ", ".join(f'<a href="#{anchor(each)}">{escape(short(each, self.contract.key))}</a>' for each in users[:MOST_USERS])
        return f"<p class=u>Used by {shown}{f' and {len(users) - MOST_USERS} more' if len(users) > MOST_USERS else ''}</p>" if users else ""

    def part(self, part: Part) -> str:
        own = anchor(part.key)
        at = part.text.find(part.name)
        text = "".join(f"<p>{prose(each)}</p>" for each in part.comment)
        return f'<div class=d id="{own}">{text}{code(part.text, self.uses[part.key], own, self.target, (at, at + len(part.name)))}{self.users_of(part.key)}</div>\n'

    def section(self, section: Section) -> str:
        key = f"{section.key}{'.more' if section.continued else ''}"
        name = section.key.split(".", 1)[-1]
        head = "" if section.continued else "".join(f"<p>{prose(each)}</p>" for each in section.head)
        out = [f'<section><h3 id="{key}">{escape(name)}{", on" if section.continued else ""} <small>{section.file}</small></h3>{head}\n']
        group = None
        for part in section.parts:
            if part.group and part.group != group:
                out.append("".join(f"<p class=g>{prose(each)}</p>" for each in part.group[1]))
            group = part.group
            out.append(self.part(part))
        return "".join([*out, "</section>\n"])

    def chapter(self, chapter: Chapter) -> str:
        first = [each for each in chapter.sections if not each.continued]
        files = ", ".join(f'<a href="#{each.key}">{escape(each.key.split(".", 1)[-1])}</a> {len(each.parts)}' for each in first)
        about = f"<p>{prose(chapter.about)}</p><p class=u>{count(len(chapter.parts), 'definition')}, {count(lines_in(chapter), 'line')}: {files}</p>"
        head = f'<section aria-labelledby="{chapter.crate}"><h2 id="{chapter.crate}">{chapter.crate}</h2>{about}\n'
        return "".join([head, *map(self.section, chapter.sections), "</section>\n"])

    def clause(self, clause: Clause) -> str:
        own = f"{self.contract.key}.{clause.name}"
        text = re.sub(r"(?m)^    ", "", clause.text)
        uses = [use.moved(-4 * (clause.text.count("\n", 0, use.start) + 1)) for use in clause.uses]
        at = text.index(clause.name)
        return f'<div class=d id="{own}">{code(text, uses, own, self.target, (at, at + len(clause.name)))}</div>\n'

    def promise(self) -> str:
        contract = self.contract
        name = contract.key.rsplit(".", 1)[-1]
        at = contract.head.index(name)
        out = [f"<p>{prose(each)}</p>" for each in contract.comment]
        out.append(f'<div class=d id="{contract.key}">{code(contract.head, contract.uses, contract.key, self.target, (at, at + len(name)))}</div>\n')
        for above, clauses in contract.groups:
            out += [f"<p class=g>{prose(each)}</p>" for each in above] + [self.clause(each) for each in clauses]
        return f'<section aria-labelledby="promise"><h2 id="promise">What is promised</h2>\n{"".join(out)}</section>\n'


def short(key: str, contract: str) -> str:
    return key.removeprefix(contract.rsplit(".", 1)[0] + ".") if key.startswith(contract) else key.split("/")[0].split(".")[-1] if not key.endswith(".") else key


def count(number: int, what: str) -> str:
    return f"{number:,} {what}{'' if number == 1 else 's'}"


def lines_in(chapter: Chapter) -> int:
    return sum(part.lines for part in chapter.parts)


def library(used: dict[str, set[str]]) -> str:
    """The words of the toolchain, with what each means and the modules that have it."""
    out = []
    for title, words in LIBRARY.items():
        rows = []
        for word, meaning in words.items():
            where = ", ".join(sorted(used[word]))
            key = f' id="std.{word}"' if re.fullmatch(r"[A-Za-z]\w*", word) and word not in PLAIN else ""
            rows.append(f"<tr{key}><th scope=row><code>{escape(word)}</code><td>{prose(meaning)}<td><code>{escape(where)}</code>")
        out.append(f"<h3>{title}</h3><table><thead><tr><th scope=col>Word<th scope=col>What it means<th scope=col>Where it stands<tbody>{''.join(rows)}</table>\n")
    return "".join(out)


def how_to_read() -> str:
    return "<dl>" + "".join(f"<dt>{prose(term)}<dd>{prose(meaning)}" for term, meaning in HOW_TO_READ) + "</dl>"
