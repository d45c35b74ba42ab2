"""The words of a definition's text, and which of them are names: a walk from left to right that knows what each
pattern, binder, `let` and `do` makes local, as the language of the specifications has it.

It reads what the definitions use of the language, and refuses the rest: a name that it can't place is an error."""

from __future__ import annotations

import re
from collections.abc import Callable, Iterator
from dataclasses import dataclass

WORD = re.compile(r"--[^\n]*|\"[^\"\n]*\"|[(){}.;,@]|[^\s(){}.;,@\"«»]+|[«»]")
NUMBER = re.compile(r"0x[0-9a-f_]+|[0-9][0-9_]*")
OPENING, CLOSING = {"(": ")", "{": "}"}, {")", "}"}
# Words of the language itself: they bind, join and group, and name nothing.
GRAMMAR = {"→", "×", "=", ":", "λ", "[", "]", "|", "↦", "←", "_", "let", "in", "do", "record"}
# What the walk doesn't read.
UNREAD = {"elim", "where", "unfold", "open", "mutual", "module", "com", "hcom", "coe", "∀", "∨", "∧", "«", "»", "@"}


class Unread(Exception):
    """A text of which some part can't be read, or some name can't be placed."""


@dataclass(frozen=True)
class Word:
    text: str
    start: int
    line: int
    column: int

    @property
    def end(self) -> int:
        return self.start + len(self.text)

    @property
    def is_name(self) -> bool:
        return self.text not in GRAMMAR and self.text[0] not in '(){}.;,@"' and not NUMBER.fullmatch(self.text)


@dataclass(frozen=True)
class Use:
    """A name that stands somewhere in a text, and what it names: the key of a definition, or of a thing of the toolchain."""

    start: int
    end: int
    key: str

    def moved(self, by: int) -> Use:
        return Use(self.start + by, self.end + by, self.key)


# What a name in a text means: given the path in front of it, as `jobs.Keep`, the key and how many names of the path it takes.
Place = Callable[[list[str]], tuple[str, int] | None]


def words_of(text: str, start: int = 0) -> list[Word]:
    """The words of a text that begins at this place, without its comments."""
    found = []
    for number, line in enumerate(text.split("\n")):
        found += [Word(each[0], start + each.start(), number, each.start()) for each in WORD.finditer(line) if not each[0].startswith("--")]
        start += len(line) + 1
    return found


def closing(words: list[Word], start: int) -> int:
    """Where the group ends that begins at a bracket."""
    depth = 0
    for at in range(start, len(words)):
        depth += (words[at].text in OPENING) - (words[at].text in CLOSING)
        if depth == 0:
            return at
    raise Unread(f"line {words[start].line + 1}: a bracket isn't closed")


class Walk:
    """A walk over the words of one text. `place` says what a name means that isn't local; `is_case` whether such a
    name may stand in a pattern as itself, being a constructor."""

    def __init__(self, words: list[Word], place: Place, is_case: Callable[[str], bool]) -> None:
        self.words, self.place, self.is_case = words, place, is_case
        self.uses: list[Use] = []
        self.scopes: list[set[str]] = [set()]
        self.lets: list[list[str]] = []
        self.arrows: list[tuple[Word, str]] = []

    def bind(self, *names: str) -> None:
        self.scopes[-1].update(names)

    def is_local(self, name: str) -> bool:
        return any(name in scope for scope in self.scopes)

    def text(self, at: int) -> str:
        return self.words[at].text if 0 <= at < len(self.words) else ""

    def path(self, at: int, end: int) -> list[int]:
        """The places of a name and of those behind it, each joined by a dot without a blank."""
        found = [at]
        while at + 2 < end and self.text(at + 1) == "." and self.words[at + 1].start == self.words[at].end and self.words[at + 2].start == self.words[at + 1].end:
            at += 2
            found.append(at)
        return found

    def name(self, at: int, end: int, pattern: bool = False) -> int:
        """Takes a name with what a dot joins to it; the place behind it."""
        path = self.path(at, end)
        first = self.words[at]
        if pattern or not self.is_local(first.text):  # in a pattern each name but a constructor is bound anew
            found = self.place([self.text(each) for each in path])
            if found and (not pattern or self.is_case(found[0])):
                last = self.words[path[found[1] - 1]]
                self.uses.append(Use(first.start, last.end, found[0]))
                return path[-1] + 1
            if pattern and len(path) == 1:
                self.bind(first.text)
                return at + 1
            raise Unread(f"line {first.line + 1}: `{first.text}` {'is no constructor' if found else 'names nothing here'}")
        return path[-1] + 1

    def pattern(self, at: int, end: int) -> None:
        """The left side of a clause: what isn't a constructor is bound."""
        while at < end:
            word = self.words[at]
            if word.text == "{" and self.text(at + 2) == "=":
                at += 3
            elif word.is_name:
                at = self.name(at, end, pattern=True)
            else:
                at += 1

    def binders(self, at: int) -> int:
        """What stands between a λ and its dot."""
        names: list[str] = []
        while self.text(at) != ".":
            if self.text(at) in OPENING:
                stop = closing(self.words, at)
                names += self.group(at, stop)
                at = stop + 1
            else:
                names += [self.text(at)] if self.words[at].is_name else []
                at += 1
        self.bind(*names)
        return at + 1

    def group(self, at: int, stop: int) -> list[str]:
        """A group of binders, as `(x y : A)` or the pair `(x, y)`: the names; its type is walked."""
        inside = [each for each in range(at + 1, stop) if self.words[each].text == ":"]
        names = [self.text(each) for each in range(at + 1, inside[0] if inside else stop) if self.words[each].is_name]
        if inside:
            self.within(inside[0] + 1, stop)
        return names

    def is_group(self, at: int) -> bool:
        """Whether a bracket opens a group of binders with a type: names, and then a colon."""
        behind = at + 1
        while behind < len(self.words) and (self.words[behind].is_name or self.text(behind) == "_"):
            behind += 1
        return behind > at + 1 and self.text(behind) == ":" and self.text(at - 1) != "record"

    def within(self, at: int, end: int) -> None:
        """A part with a scope of its own."""
        self.scopes.append(set())
        self.term(at, end)
        self.scopes.pop()

    def term(self, at: int, end: int) -> None:
        while at < end:
            self.end_arrows(self.words[at])
            at = self.step(at, end)

    def end_arrows(self, word: Word) -> None:
        """A name before `←` is local from the next line of its block on."""
        for arrow in [each for each in self.arrows if word.line > each[0].line and word.column <= each[0].column]:
            self.arrows.remove(arrow)
            self.bind(arrow[1])

    def step(self, at: int, end: int) -> int:
        word = self.words[at]
        if word.text in UNREAD:
            raise Unread(f"line {word.line + 1}: `{word.text}` isn't read here")
        if word.text in OPENING:
            return self.bracket(at)
        if word.text in ",;":
            self.scopes[-1] = set() if len(self.scopes) > 1 else self.scopes[-1]
            return at + 1
        if word.text == "λ":
            return self.binders(at + 1)
        if word.text == "let":
            self.lets.append([self.text(at + 1)])
            if self.text(at + 2) not in "=:" or not self.words[at + 1].is_name:
                raise Unread(f"line {word.line + 1}: this `let` isn't read here")
            return at + 2
        if word.text == "in":
            self.bind(*self.lets.pop())
            return at + 1
        if word.text == "do":
            self.name_as("◌>>=◌", word)
            return at + 1
        if word.text == ".":  # a field of a term in brackets
            return at + 2
        if not word.is_name:
            return at + 1
        if self.text(at + 1) == "←":
            self.arrows.append((word, word.text))
            return at + 2
        if self.text(at + 1) == "=" and self.text(at - 1) in "{;":  # a field, or an argument, by its name
            return at + 2
        return self.name(at, end)

    def name_as(self, name: str, word: Word) -> None:
        found = self.place([name])
        if not found:
            raise Unread(f"line {word.line + 1}: `{word.text}` wants `{name}`")
        self.uses.append(Use(word.start, word.end, found[0]))

    def bracket(self, at: int) -> int:
        stop = closing(self.words, at)
        if self.is_group(at):
            self.scopes.append(set())
            names = self.group(at, stop)
            self.scopes.pop()
            self.bind(*names)
        else:
            self.within(at + 1, stop)
        return stop + 1


def equals(words: list[Word]) -> int:
    """Where the `=` of a clause stands, outside of all brackets."""
    depth = 0
    for at, word in enumerate(words):
        depth += (word.text in OPENING) - (word.text in CLOSING)
        if word.text == "=" and depth == 0:
            return at
    raise Unread("a clause has no `=`")


def split(words: list[Word], column: int) -> Iterator[list[Word]]:
    """The lines of a text, each with those below that are indented further or close its brackets."""
    part: list[Word] = []
    depth = 0
    for word in words:
        if part and word.line > part[-1].line and word.column <= column and depth == 0:
            yield part
            part = []
        depth += (word.text in OPENING) - (word.text in CLOSING)
        part.append(word)
    if part:
        yield part
