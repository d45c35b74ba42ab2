"""What each name means where it stands: by a file's imports, as the language has it, across all crates. A name that can't be
placed is an error, and never guessed."""

from __future__ import annotations

import pathlib
import re

from theorem_code import RUST_LIBRARY, Code, item_of, local_uses, read_code
from theorem_specs import Part, Source, read_specs
from theorem_text import Unread

# What the language has without an import.
BUILT_IN = {"Type", "Unit", "tt", "⊥", "absurd", "¬", "¬◌"}


class Project:
    """The crates of a repository, lowest first, with their definitions and their code."""

    def __init__(self, root: pathlib.Path) -> None:
        self.root = root
        lines = [line for line in (root / "crates.txt").read_text("utf-8").splitlines() if line.strip() and not line.startswith("#")]
        self.crates = [line.split(":")[0].split()[0] for line in lines]
        self.specs = {(each.crate, tuple(each.module)): each for crate in self.crates for each in read_specs(root, crate)}
        self.codes: dict[tuple[str, tuple[str, ...]], Code] = {}
        self.parts: dict[str, Part] = {}
        self.sources: dict[str, Source | Code] = {}
        for source in self.specs.values():
            for part in source.parts.values():
                self.parts[part.key], self.sources[part.key] = part, source

    def code(self, crate: str, module: list[str]) -> Code:
        key = crate, tuple(module)
        if key not in self.codes:
            self.codes[key] = read_code(self.root, crate, module)
        return self.codes[key]

    def type_of(self, crate: str, module: list[str], name: str) -> Part | None:
        """The type or the trait of this name in a module of the code."""
        key = ".".join([crate, *module, name])
        if key not in self.parts:
            code = self.code(crate, module)
            part = item_of(code, name)
            if part is None:
                return None
            self.parts[key], self.sources[key] = part, code
        return self.parts[key]

    def rust(self, code: Code, name: str) -> str | None:
        """The key of what a name of Rust means in a file."""
        if (part := self.type_of(code.crate, code.module, name)) is not None:
            return part.key
        if name in RUST_LIBRARY:
            return f"toolchain:{RUST_LIBRARY[name]}.{name}"
        path = code.uses.get(name)
        if path is None:
            return None
        if path[0] in ("std", "core", "alloc"):
            return f"toolchain:{'.'.join(path)}"
        crate, rest = (code.crate, path[1:]) if path[0] == "crate" else (path[0], path[1:])
        if crate not in self.crates:
            crate, rest = code.crate, [*code.module, *path]
        return self.rust(self.code(crate, rest[:-1]), rest[-1])

    def item(self, path: str) -> str:
        """The key of what a whole path names: `crate.File.name`, with `/Case` behind it for a constructor or a variant."""
        names = path.split(".")
        if names[0] != "Rattle" or names[1] not in self.crates:
            return f"toolchain:{path}"
        crate, kind, rest = names[1], names[2], names[3:]
        if kind != "specs":
            raise Unread(f"`{path}` isn't one of the specifications")
        if rest[0] == "declared":
            return self.declared(crate, rest[1:], path)
        source = self.specs.get((crate, tuple(rest[:-1])))
        if source is None:
            raise Unread(f"`{path}`: there is no such file")
        return self.within(source, rest[-1]) or self.fail(f"`{path}` names nothing")

    def fail(self, text: str) -> str:
        raise Unread(text)

    def within(self, source: Source, name: str) -> str | None:
        """What a file of definitions offers by this name."""
        if name in source.parts:
            return source.parts[name].key
        for part in source.parts.values():
            if part.kind == "data" and name in part.members:
                return f"{part.key}/{name}"
        return self.item(source.names[name]) if name in source.passed_on else None

    def declared(self, crate: str, rest: list[str], path: str) -> str:
        """A type of the code, or a variant of one."""
        case = None
        if len(rest) > 2 and rest[-2] == "TheVariants":
            rest, case = [*rest[:-2], rest[-3]], rest[-1]
        if len(rest) < 2 or rest[-1] != rest[-2]:
            raise Unread(f"`{path}` is no type or variant that is read")
        part = self.type_of(crate, rest[:-2], rest[-1])
        if part is None or case is not None and case not in part.members:
            raise Unread(f"`{path}` isn't declared")
        return part.key if case is None else f"{part.key}/{case}"

    def place(self, source: Source | Code, part: Part | None, bounds: dict[str, str], path: list[str]) -> tuple[str, int] | None:
        """What a path means in a file: the key, and how many of its names it takes; the others are fields."""
        names, modules = dict(source.names), dict(source.modules)
        if isinstance(source, Code) and part is not None:
            more, deeper = local_uses(source, part)
            names.update(more)
            modules.update(deeper)
        first = path[0]
        if len(path) > 1 and first in bounds:  # a member of a bound, as `S.left`
            trait = self.parts[bounds[first]]
            return (trait.key, 2) if path[1] in trait.members else None
        if len(path) > 1 and first in modules:
            return self.item(f"{modules[first]}.{path[1]}"), 2
        key = self.bare(source, names, part.line if part else 0, first)
        if key is None:
            return None
        owner = self.parts.get(key)
        if owner and len(path) > 1 and owner.kind in ("data", "enum") and path[1] in owner.members:
            return f"{key}/{path[1]}", 2
        return key, 1

    def bare(self, source: Source | Code, names: dict[str, str], line: int, name: str) -> str | None:
        """What a single name means: one that this file defines down to this line, an import, a part of an operator, or
        what is built in."""
        if isinstance(source, Source) and (found := self.within(source, name)) and self.parts[found.split("/")[0]].line <= line:
            return found
        if name in names:
            return self.item(names[name])
        if isinstance(source, Code) and re.match(r"[A-Z]", name) and (found := self.rust(source, name)):
            return found
        here = [each for each, one in source.parts.items() if one.line <= line] if isinstance(source, Source) else []
        operators = {each for each in [*names, *here] if "◌" in each and name in each.split("◌")}
        if len(operators) > 1:
            raise Unread(f"`{name}` is a part of several operators: {' '.join(sorted(operators))}")
        if operators:
            return self.bare(source, names, line, operators.pop())
        return f"toolchain:Prim.{name.strip('◌')}" if name in BUILT_IN else None
