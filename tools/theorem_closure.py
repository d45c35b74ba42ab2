"""Which definitions the contract rests on: those that it names, those that these name, and so on."""

from __future__ import annotations

import re
from dataclasses import dataclass, field

from theorem_code import Code, above, ghosts, types_in
from theorem_names import Project
from theorem_specs import Part, Source
from theorem_text import Unread, Use, Walk, Word, equals, split, words_of
from theorem_words import CASES


@dataclass
class Clause:
    """A clause of the contract, by its name."""

    name: str
    kind: str
    text: str
    uses: list[Use] = field(default_factory=list)


class Closure:
    def __init__(self, project: Project) -> None:
        self.project = project
        self.uses: dict[str, list[Use]] = {}

    def is_case(self, key: str) -> bool:
        """Whether a key is a constructor's, so that a pattern may name it."""
        return word_of(key) in CASES if key.startswith("toolchain:") else "/" in key

    def walk(self, words: list[Word], source: Source | Code, part: Part | None, bounds: dict[str, str]) -> Walk:
        return Walk(words, lambda path: self.project.place(source, part, bounds, path), self.is_case)

    def of(self, key: str) -> list[Use]:
        """The names in a definition's text, and what they mean."""
        if key not in self.uses:
            part, source = self.project.parts[key], self.project.sources[key]
            try:
                self.uses[key] = sorted(self.read(part, source), key=lambda use: use.start)
            except Unread as error:
                raise Unread(f"{part.file}:{part.line}: {part.name}: {error}") from error
        return self.uses[key]

    def read(self, part: Part, source: Source | Code) -> list[Use]:
        if isinstance(source, Code):
            return self.in_code(part.text, part.name, source, part, {})
        if part.kind == "function":
            return self.function(part, source)
        return self.declared(part, source)

    def function(self, part: Part, source: Source) -> list[Use]:
        """A signature, and then clauses."""
        uses: list[Use] = []
        pieces = {part.name, *filter(None, part.name.split("◌"))}
        lines = list(split(words_of(part.text), 0))
        for number, line in enumerate(lines):
            if line[0].text == "unfolding":
                continue
            walk = self.walk(line, source, part, {})
            if number == 0:
                colon = next(at for at, word in enumerate(line) if word.text == ":")
                walk.term(colon + 1, len(line))
            else:
                stop = equals(line)
                left = [at for at in range(stop) if line[at].text not in pieces]
                for first, last in runs(left):
                    walk.pattern(first, last)
                walk.within(stop + 1, len(line))
            uses += walk.uses
        return uses

    def declared(self, part: Part, source: Source) -> list[Use]:
        """A record's parameters and fields, or a data type's constructors."""
        lines = list(split(words_of(part.text), 2))
        head = lines[0]
        walk = self.walk(head, source, part, {})
        walk.term(next(at for at, word in enumerate(head) if word.text == part.name) + 1, len(head) - 1)
        uses = walk.uses
        known = set(walk.scopes[0])
        for line in lines[1:]:
            colon = next(at for at, word in enumerate(line) if word.text == ":")
            walk = self.walk(line, source, part, {})
            walk.bind(*known)
            walk.term(colon + 1, len(line))
            uses += walk.uses
            known |= {word.text for word in line[:colon]} - {"pub"} if part.kind == "record" else set()
        return uses

    def in_code(self, text: str, name: str, code: Code, part: Part | None, bounds: dict[str, str]) -> list[Use]:
        """The types of Rust in a text, and the names in what stands there for proofs."""
        uses = []
        for start, end in types_in(text, name):
            found = self.project.rust(code, text[start:end])
            if found is None and text[start:end] not in bounds:
                raise Unread(f"`{text[start:end]}` is no type that is known here")
            uses += [Use(start, end, found)] if found else []
        members = part.members if part and part.kind == "trait" else []
        for ghost in ghosts(text):
            if ghost.name in ("view", "invariant"):
                continue
            walk = self.walk(words_of(text[ghost.start : ghost.end], ghost.start), code, part, bounds)
            walk.bind(*ghost.local, *members, *(["Self"] if part else []))
            walk.term(0, len(walk.words))
            uses += walk.uses
        return uses

    def contract(self, crate: str, module: list[str], name: str) -> tuple[str, list[str], list[Use], list[tuple[list[str], list[Clause]]]]:
        """A public function's head with its comment, and its clauses, in groups with what is said above them."""
        code = self.project.code(crate, module)
        begins = re.search(rf"^pub fn {name}\b", code.text, re.M)
        if not begins:
            raise Unread(f"{code.file}: there is no `{name}`")
        text = code.text[begins.start() : code.text.index("\n{\n", begins.start())]
        head = re.split(r"^    (?://|requires|ensures)", text, maxsplit=1, flags=re.M)[0].rstrip()
        bounds = {parameter: self.project.rust(code, bound) or "" for parameter, bound in re.findall(r"(\w+): (\w+)", head.split(">")[0])}
        local = re.findall(r"^    (\w+): ", head, re.M)
        uses = self.in_code(head, name, code, None, bounds)
        return head, above(code.text, begins.start()), uses, self.groups(text[len(head) :], code, bounds, local)

    def groups(self, text: str, code: Code, bounds: dict[str, str], local: list[str]) -> list[tuple[list[str], list[Clause]]]:
        """The clauses, in groups with the comment above them."""
        found: list[tuple[list[str], list[Clause]]] = []
        comment: list[str] = []
        for piece in re.split(r"\n(?=    (?:///?|requires|ensures))", text):
            piece = piece.strip("\n")
            if piece.strip().startswith("//"):
                comment.append(piece.strip())
            elif piece.strip():
                if comment or not found:
                    found.append((comment, []))
                    comment = []
                found[-1][1].append(self.clause(piece, code, bounds, local))
        return found

    def clause(self, text: str, code: Code, bounds: dict[str, str], local: list[str]) -> Clause:
        ghost = ghosts(text)[0]
        walk = self.walk(words_of(text[ghost.start : ghost.end], ghost.start), code, None, bounds)
        walk.bind(*local, "result")
        walk.term(0, len(walk.words))
        return Clause(ghost.name, text.split()[0], text, sorted(walk.uses, key=lambda use: use.start))

    def reach(self, roots: list[str]) -> set[str]:
        """All definitions that these keys lead to."""
        todo, found = [base(key) for key in roots if not key.startswith("toolchain:")], set()
        while todo:
            key = todo.pop()
            if key not in found:
                found.add(key)
                todo += [base(use.key) for use in self.of(key) if not use.key.startswith("toolchain:")]
        return found


def word_of(key: str) -> str:
    """A word of the toolchain as it stands in the library's list: an operator by the first of its signs."""
    return next(filter(None, key.removeprefix("toolchain:").rsplit(".", 1)[-1].split("◌")))


def base(key: str) -> str:
    """The definition that a constructor's key belongs to."""
    return key.split("/")[0] if not key.startswith("toolchain:") else key


def runs(places: list[int]) -> list[tuple[int, int]]:
    """Places one after another, as their first and the one behind the last."""
    found: list[tuple[int, int]] = []
    for at in places:
        if found and found[-1][1] == at:
            found[-1] = found[-1][0], at + 1
        else:
            found.append((at, at + 1))
    return found
