"""In which order the page has the definitions: a reader who goes from top to bottom meets each before it is used. Crates
come lowest first, files of a crate too, and in a file what it defines, as it stands there."""

from __future__ import annotations

import re
from dataclasses import dataclass

from theorem_closure import Closure, base
from theorem_code import Code
from theorem_names import Project
from theorem_specs import Part


@dataclass
class Section:
    """Definitions of one file, one after another."""

    key: str  # crate.file
    file: str
    head: list[str]
    parts: list[Part]
    continued: bool = False


@dataclass
class Chapter:
    """A crate."""

    crate: str
    about: str
    sections: list[Section]

    @property
    def parts(self) -> list[Part]:
        return [part for section in self.sections for part in section.parts]


def first_sentence(text: str) -> str:
    found = re.match(r"(.*?[.!?])(?:\s|$)", text)
    return found[1] if found else text


class Order:
    def __init__(self, project: Project, closure: Closure, reached: set[str]) -> None:
        self.project, self.closure, self.reached = project, closure, reached
        self.files: dict[str, list[str]] = {}
        places = {source.file: number for number, source in enumerate(project.specs.values())}
        for key in sorted(reached, key=lambda each: (places.get(self.file(each), -1), self.file(each), project.parts[each].line)):
            self.files.setdefault(self.file(key), []).append(key)
        self.below = {key: [base(use.key) for use in closure.of(key) if not use.key.startswith("toolchain:") and base(use.key) != key] for key in reached}

    def file(self, key: str) -> str:
        return self.project.parts[key].file

    def sorted_files(self, crate: str) -> list[str]:
        """The files of a crate, each behind those that it takes from; types of the code just before they are wanted."""
        found: list[str] = []
        seen: set[str] = set()

        def visit(file: str) -> None:
            if file in seen or not file.startswith(f"crates/{crate}/"):
                return
            seen.add(file)
            for key in self.files[file]:
                for below in self.below[key]:
                    visit(self.file(below))
            found.append(file)

        here = [file for file in self.files if file.startswith(f"crates/{crate}/")]
        for file in [*(each for each in here if each.endswith(".antt")), *(each for each in here if each.endswith(".rt"))]:
            visit(file)
        return found

    def chapter(self, crate: str) -> Chapter | None:
        """A crate's definitions, or none where it has none. Where files take from each other, one is taken apart."""
        out: list[str] = []
        done: set[str] = set()

        def emit(key: str) -> None:
            if key in done or not key.startswith(f"{crate}."):
                return
            done.add(key)
            for below in self.below[key]:
                emit(below)
            out.append(key)

        for file in self.sorted_files(crate):
            for key in self.files[file]:
                emit(key)
        if not out:
            return None
        about = self.project.code(crate, []).head
        return Chapter(crate, about[0] if about else "", self.sections(out))

    def sections(self, keys: list[str]) -> list[Section]:
        found: list[Section] = []
        for key in keys:
            part, source = self.project.parts[key], self.project.sources[key]
            if not found or found[-1].file != part.file:
                name = ".".join([source.crate, *source.module])
                again = any(section.file == part.file for section in found)
                found.append(Section(name, part.file, source.head[:1] if isinstance(source, Code) else source.head, [], again))
            found[-1].parts.append(part)
        return found

    def chapters(self) -> list[Chapter]:
        return [chapter for crate in self.project.crates if (chapter := self.chapter(crate))]
