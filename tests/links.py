#!/usr/bin/env python3
"""Sees that what the documents lead to is there.

    python3 tests/links.py

In each Markdown file each relative link leads to a file or a folder, and its anchor to a heading there; and each path
in backquotes that has a blank-free name with a slash below one of the repository's own top folders is there. Such a
path may name several files by `*`, and may stand from the top, from the document's folder, or from a crate's."""

from __future__ import annotations

import os
import pathlib
import re
import sys
from urllib.parse import unquote

from harness import ROOT, finish, see

SKIPPED = {"out", ".git", "__pycache__", ".mypy_cache"}
LINK = re.compile(r"!?\[(?:[^\]\\]|\\.|\[[^\]]*\])*\]\(([^()\s]+)(?:\s+\"[^\"]*\")?\)")
CODE = re.compile(r"(`+)(.+?)\1")
# A path of the repository: words with slashes, without what stands for other words (FILE, NAME, `..` and `$`).
PATH = re.compile(r"\.?[A-Za-z0-9_*-][A-Za-z0-9_.*-]*(?:/[A-Za-z0-9_.*-]+)+/?")
# Paths that are made, and names that look like paths.
MADE = re.compile(r"(^|/)out(/|$)|^spectre/|\b[A-Z]{3,}\b(?!\.)")


def documents() -> list[pathlib.Path]:
    found = []
    for folder, folders, names in os.walk(ROOT):
        folders[:] = sorted(set(folders) - SKIPPED)
        found += [pathlib.Path(folder) / name for name in sorted(names) if name.endswith(".md")]
    return found


def prose(text: str) -> str:
    """A document without its blocks of code, which lie between two lines of three backquotes or are indented."""
    kept, fenced = [], False
    for line in text.splitlines():
        if line.lstrip().startswith("```"):
            fenced = not fenced
            kept.append("")
        else:
            kept.append("" if fenced or line.startswith("    ") else line)
    return "\n".join(kept)


def anchor(heading: str) -> str:
    """What a heading is called in a link, by GitHub's rule."""
    text = re.sub(r"\[([^\]]*)\]\([^)]*\)", r"\1", heading.strip().rstrip("#").strip())
    return re.sub(r"[^\w\- ]", "", text.replace("`", "").lower()).replace(" ", "-")


def anchors(path: pathlib.Path) -> set[str]:
    found: dict[str, int] = {}
    names = set(re.findall(r"<a (?:id|name)=\"([^\"]+)\"", path.read_text("utf-8")))
    for heading in re.findall(r"^#{1,6} (.*)$", prose(path.read_text("utf-8")), re.M):
        name = anchor(heading)
        names.add(f"{name}-{found[name]}" if name in found else name)
        found[name] = found.get(name, 0) + 1
    return names


def try_links(document: pathlib.Path, text: str) -> None:
    for target in LINK.findall(CODE.sub("", text)):
        if re.match(r"[a-z][a-z0-9+.-]*:", target):
            continue
        file, _, name = target.partition("#")
        path = document if not file else (ROOT / file[1:] if file.startswith("/") else document.parent / unquote(file))
        where = f"{document.relative_to(ROOT)}: the link to {target}"
        see(where, path.exists())
        if name and path.is_file() and path.suffix == ".md":
            see(f"{where}: its heading", unquote(name) in anchors(path))


def is_there(name: str, document: pathlib.Path) -> bool:
    """Whether a path leads to something from the top, from the document's folder, or within a crate."""
    return any(next(place.glob(name.rstrip("/")), None) for place in (ROOT, document.parent, *places_of(name)))


def places_of(name: str) -> list[pathlib.Path]:
    """The crates, for a path that begins within one of them."""
    return sorted((ROOT / "crates").glob("*")) if name.split("/")[0] in ("src", "specs", "proofs", "must-fail", "bench", "data") else []


def try_paths(document: pathlib.Path, text: str) -> None:
    tops = {path.name for path in ROOT.iterdir()} | {"src", "specs", "proofs", "must-fail"} | {path.name for path in (ROOT / "crates").iterdir()}
    for _, code in CODE.findall(text):
        for word in code.split():
            word = word.rstrip(",;:")
            if not PATH.fullmatch(word) or word.split("/")[0] not in tops or MADE.search(word):
                continue
            inside = word.split("/")[0]
            name = f"crates/{word}" if (ROOT / "crates" / inside).exists() else word
            see(f"{document.relative_to(ROOT)}: {word}", is_there(name, document))


def main() -> int:
    for document in documents():
        text = prose(document.read_text("utf-8"))
        try_links(document, text)
        try_paths(document, text)
    return finish()


if __name__ == "__main__":
    sys.exit(main())
