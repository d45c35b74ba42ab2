"""The page as one text: the data, the style and the script put into the frame, so that nothing is fetched and
no text of the data is anything but text."""

import base64
import html
import json
from importlib import resources
from typing import Any, Dict

from ..feeds import sha256


def json_of(data: Dict[str, Any]) -> str:
    return json.dumps(data, separators=(",", ":"), ensure_ascii=True)


def harmless(text: str) -> str:
    """JSON that ends no element and begins none, and is the same JSON."""
    return text.replace("<", "\\u003c").replace(">", "\\u003e").replace("&", "\\u0026")


def digest(text: str) -> str:
    return base64.b64encode(sha256(text.encode("utf-8"))).decode()


def part(name: str) -> str:
    return resources.files(__package__).joinpath("static", name).read_text(encoding="utf-8")


# The script's parts, in the order in which they are joined.
SCRIPTS = ("base", "words", "states", "search", "pages", "links", "graph", "view", "paint", "details", "lists", "acts", "live", "start")


def script() -> str:
    """The parts as one script, of which no name is the window's."""
    return '"use strict";\n(() => {\n' + "\n".join(part(f"{name}.js") for name in SCRIPTS) + "})();\n"


def page_of(data: Dict[str, Any]) -> str:
    """The whole page. Its policy lets no script run but its own, and nothing be fetched but the news of a live one."""
    style, code = part("page.css"), script()
    policy = f"default-src 'none'; style-src 'sha256-{digest(style)}'; script-src 'sha256-{digest(code)}'"
    if "live" in data:
        policy += "; connect-src 'self'"
    pieces = {
        "TITLE": html.escape(data["name"]),
        "POLICY": html.escape(policy, quote=True),
        "STYLE": style,
        "SCRIPT": code,
        "DATA": harmless(json_of(data)),
    }
    text = part("page.html")
    first, *rest = text.split("{{")
    return first + "".join(put(piece, pieces) for piece in rest)


def put(piece: str, pieces: Dict[str, str]) -> str:
    name, after = piece.split("}}", 1)
    return pieces[name] + after
