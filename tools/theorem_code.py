"""The files of the code, `crates/*/src/*.rt`, as far as the definitions rest on them: the types that definitions cite, the
traits of source, sink and disk, and the contract itself."""

from __future__ import annotations

import pathlib
import re
from dataclasses import dataclass, field

from theorem_specs import Part, imports, paragraphs
from theorem_text import Unread

ITEM = re.compile(r"^(?:pub(?:\(crate\))? )?(struct|enum|trait|type) (\w+)(?:<([^>]*)>)?", re.M)
# What stands in braces in the language of the specifications.
GHOST = re.compile(r"(?:(?P<kind>requires|ensures)(?: (?P<clause>\w+))?|ghost (?P<member>\w+)(?::| =)) \{")
NAME = re.compile(r"[A-Za-z_]\w*")
# Rust's own words and types, and those of its library.
RUST = set("pub crate struct enum trait type fn mut self Self impl Model for bool u8 u16 u32 u64 u128 usize i8 str where".split())
RUST_LIBRARY = {"Global": "std.alloc", "Option": "std.option", "Result": "std.result", "String": "std.string", "Vec": "std.vec"}


@dataclass
class Code:
    """A file of the code: what its names mean."""

    crate: str
    module: list[str]
    file: str
    text: str
    uses: dict[str, list[str]] = field(default_factory=dict)  # of Rust: a name here, and the path
    names: dict[str, str] = field(default_factory=dict)  # of the specifications
    modules: dict[str, str] = field(default_factory=dict)

    @property
    def head(self) -> list[str]:
        """The file's first comment."""
        return paragraphs([line for line in re.split(r"^(?!//!)", self.text, maxsplit=1, flags=re.M)[0].split("\n")], "//!")


@dataclass
class Ghost:
    """A text of the specifications within the code: where it stands, the clause's or the member's name, and what is local in it."""

    name: str
    start: int
    end: int
    local: list[str]


def tree(path: list[str], text: str) -> dict[str, list[str]]:
    """What a `use` line of Rust brings: `a::{b, c as d}`."""
    text = text.strip()
    front, brace, inner = text.partition("{")
    if not brace:
        name = re.fullmatch(r"([\w:]+)(?: as (\w+))?", text)
        if not name:
            raise Unread(f"`use {text}` isn't read")
        whole = [*path, *name[1].split("::")]
        return {name[2] or whole[-1]: whole}
    found, depth, piece = {}, 0, ""
    for letter in inner.rstrip()[:-1] + ",":
        depth += (letter == "{") - (letter == "}")
        if letter == "," and depth == 0:
            found.update(tree([*path, *filter(None, front.split("::"))], piece) if piece.strip() else {})
            piece = ""
        else:
            piece += letter
    return found


def read_code(root: pathlib.Path, crate: str, module: list[str]) -> Code:
    folder = root / "crates" / crate / "src"
    path = folder / pathlib.Path(*module or ["lib" if (folder / "lib.rt").exists() else "main"]).with_suffix(".rt")
    text = path.read_text("utf-8")
    code = Code(crate, module, str(path.relative_to(root)), text)
    for line in re.findall(r"^(?:pub )?use ([^;]*);", text, re.M):
        code.uses.update(tree([], " ".join(line.split())))
    for line in re.findall(r"^ghost use ([^;]*);", text, re.M):
        items, modules = imports(line)
        code.names.update(items)
        code.modules.update(modules)
    return code


def no_comments(text: str) -> str:
    """The same text with blanks for comments."""
    return re.sub(r"//[^\n]*", lambda each: " " * len(each[0]), text)


def braced(text: str, start: int) -> int:
    """Where the brace ends that opens there."""
    depth = 0
    for at in range(start, len(text)):
        depth += (text[at] == "{") - (text[at] == "}")
        if depth == 0:
            return at + 1
    raise Unread("a brace isn't closed")


def above(text: str, start: int) -> list[str]:
    """The paragraphs of the comment above an item."""
    lines = text[:start].rstrip("\n").split("\n")
    first = len(lines)
    while first and lines[first - 1].startswith(("///", "#[")):
        first -= 1
    return paragraphs([line for line in lines[first:] if line.startswith("///")], "///")


def item_of(code: Code, name: str) -> Part | None:
    """A type or a trait that a file declares, without attributes. Of one that has a model only the model is shown, since
    definitions see nothing else."""
    found = next((each for each in ITEM.finditer(code.text) if each[2] == name), None)
    if not found:
        return None
    blank = no_comments(code.text)
    brace, semicolon = blank.find("{", found.end()), blank.find(";", found.end())
    end = braced(blank, brace) if 0 <= brace < semicolon or semicolon < 0 else semicolon + 1
    text = "\n".join(line for line in code.text[found.start() : end].split("\n") if not line.strip().startswith("#["))
    part = Part(".".join([code.crate, *code.module, name]), found[1], code.file, code.text.count("\n", 0, found.start()) + 1, text, [], None)
    part.comment = above(code.text, found.start())
    model = re.search(rf"^impl(<[^>]*>)? Model for {name}\b[^{{]*{{", code.text, re.M)
    if model:
        value = re.compile(r"    ghost Value = \{").search(code.text, model.end())
        if not value:
            raise Unread(f"{code.file}: the model of {name} isn't read")
        shown = code.text[value.start() : braced(blank, value.end() - 1)]
        head = text.split("{")[0].split("(")[0].split(";")[0].strip()
        part.kind = "model"
        part.text = f"{head} {{ .. }}\n{model[0]}\n{shown};\n    ..\n}}"
    part.members = members_of(part)
    return part


def members_of(part: Part) -> list[str]:
    """The variants, the fields, or a trait's ghost members."""
    if part.kind == "trait":
        return [each["member"] for each in GHOST.finditer(part.text) if each["member"]]
    if part.kind == "enum":
        return list(variants(part.text).values())
    return re.findall(r"(?:pub )?(\w+):(?!:)", no_comments(part.text)) if part.kind == "struct" else []


def variants(text: str) -> dict[int, str]:
    """The variants of an enum, by where they stand."""
    blank, found, depth = no_comments(text), {}, 0
    for each in re.finditer(r"[({\[]|[)}\]]|\w+", blank):
        depth += (each[0] in "({[") - (each[0] in ")}]")
        if depth == 1 and each[0][0].isupper() and blank[: each.start()].rstrip()[-1] in "{,":
            found[each.start()] = each[0]
    return found


def local_uses(code: Code, part: Part) -> tuple[dict[str, str], dict[str, str]]:
    """What the `ghost use` lines within the item and within its model's `impl` bring."""
    names: dict[str, str] = {}
    modules: dict[str, str] = {}
    inner = [part.text]
    model = re.search(rf"^impl(<[^>]*>)? Model for {part.name}\b[^{{]*{{", code.text, re.M)
    if model:
        inner.append(code.text[model.start() : braced(no_comments(code.text), model.end() - 1)])
    for line in (line for text in inner for line in re.findall(r"^    ghost use ([^;]*);", text, re.M)):
        items, more = imports(line)
        names.update(items)
        modules.update(more)
    return names, modules


def ghosts(text: str) -> list[Ghost]:
    """The texts in the language of the specifications within an item or a function's head."""
    blank, found = no_comments(text), []
    for each in GHOST.finditer(blank):
        head = blank.rfind("fn ", 0, each.start())
        local = re.findall(r"(\w+): ", blank[head : blank.index(")", head)]) if head >= 0 and not each["member"] else []
        end = braced(blank, each.end() - 1)
        found.append(Ghost(each["clause"] or each["member"] or each["kind"], each.end(), end - 1, [*local, "self", "result"]))
    return found


def types_in(text: str, name: str) -> list[tuple[int, int]]:
    """Where an item's text, or a function's head, names a type in Rust: behind neither `fn` nor a field's or a parameter's place."""
    blank = no_comments(text)
    for ghost in ghosts(text):
        blank = blank[: ghost.start] + " " * (ghost.end - ghost.start) + blank[ghost.end :]
    item = ITEM.match(blank)
    own = {name, *re.findall(r"\w+", item[3] or "" if item else "")}
    clauses = {each.name for each in ghosts(text)} | {"requires", "ensures", "ghost", "Value"}
    cases = variants(text) if item and item[1] == "enum" else {}
    found = []
    for each in NAME.finditer(blank):
        before, behind = blank[: each.start()].rstrip(), blank[each.end() :].lstrip()
        if each[0] in RUST | own | clauses or each.start() in cases or before.endswith(("fn", "'")) or behind.startswith(":"):
            continue
        found.append((each.start(), each.end()))
    return found
