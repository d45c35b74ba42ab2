"""Which definitions could be fewer: those that say the same in two places, those that one other uses once and that are short,
and those that the contract doesn't rest on."""

from __future__ import annotations

from collections import Counter

from theorem_closure import Closure, base
from theorem_names import Project
from theorem_page import Contract
from theorem_specs import Part
from theorem_text import Use, words_of


def shape(part: Part, uses: list[Use], first: dict[str, str]) -> str:
    """A definition's text without its name, its marks, and the names of what is local, where for each definition stands the
    first that says the same: two of one shape mean the same."""
    named = {use.start: use for use in uses}
    local: dict[str, int] = {}
    out: list[str] = []
    until = 0
    for word in words_of(part.text):
        if word.start < until or word.text in ("abbrev", "unfoldable", "pub"):
            continue
        if use := named.get(word.start):
            until = use.end
            key = base(use.key)
            out.append(use.key.replace(key, "SELF" if key == part.key else first.get(key, key)))
        elif word.text == part.name or not word.is_name or part.kind != "function" or out[-1:] == ["."]:
            out.append("SELF" if word.text == part.name else word.text)
        else:
            out.append(str(local.setdefault(word.text, len(local))))
    return " ".join(out)


def same(parts: list[Part], closure: Closure) -> list[list[Part]]:
    """Definitions that say the same, also where what they rest on only says the same."""
    first: dict[str, str] = {}
    while True:
        found: dict[str, list[Part]] = {}
        for part in parts:
            found.setdefault(shape(part, closure.of(part.key), first), []).append(part)
        groups = [each for each in found.values() if len(each) > 1]
        now = {part.key: group[0].key for group in groups for part in group}
        if now == first:
            return groups
        first = now


def figures(project: Project, closure: Closure, contract: Contract, reached: set[str]) -> list[str]:
    users: Counter[str] = Counter(base(use.key) for clause in contract.clauses for use in clause.uses)
    for key in reached:
        users.update(base(use.key) for use in closure.of(key) if base(use.key) != key)
    parts = sorted((project.parts[key] for key in reached), key=lambda part: part.key)
    twice = same([part for part in parts if part.kind in ("function", "record", "data")], closure)
    once = [part for part in parts if part.kind == "function" and users[part.key] == 1 and part.lines == 2]
    out = [f"{len(parts)} definitions, {sum(part.lines for part in parts)} lines without comments, {len({part.file for part in parts})} files"]
    out.append(f"{sum(map(len, twice)) - len(twice)} definitions say what another one says, but for names:")
    out += [f"  {' = '.join(part.key for part in group)}: {group[0].lines} lines" for group in twice]
    out.append(f"{len(once)} definitions of one line are used at one place:")
    out += [f"  {part.key}" for part in once]
    unreached = [part for source in project.specs.values() for part in source.parts.values() if part.key not in reached]
    out.append(f"{len(unreached)} definitions in specs, of {sum(part.lines for part in unreached)} lines, aren't reached:")
    crates = Counter(part.key.split(".")[0] for part in unreached)
    lines: Counter[str] = Counter()
    for part in unreached:
        lines[part.key.split(".")[0]] += part.lines
    out += [f"  {crate}: {number}, {lines[crate]} lines" for crate, number in crates.items()]
    return out
