"""A page of the explorer in the browser, and its comparison with what the program answers."""

from __future__ import annotations

import os
import pathlib
from typing import Any, Dict, List, Optional, Tuple

from browser import Browser
from truth import Truth
from zorimarl.explore.command import main as explore
from zorimarl.feeds import frame

LINES = 2_000_000  # of answers that are asked for on 511 blocks
# The numbers of the blocks that are present.
THERE = "[...document.querySelectorAll('g.block[data-block]:not(.absent):not(.waits)')].map(each => Number(each.dataset.block))"


def see(name: str, found: object, expected: object = True) -> None:
    assert found == expected, f"{name}: {str(found)[:300]!r} and not {str(expected)[:300]!r}"


class Shown:
    """A page of the explorer in the browser."""

    def __init__(self, browser: Browser, folder: str, pictures: Optional[str]) -> None:
        self.browser, self.folder, self.pictures = browser, folder, pictures
        self.path = os.path.join(folder, "page.html")
        self.js = browser.js
        self.name = ""

    def open(self, name: str, data: bytes, kind: str = "scenario") -> float:
        source = os.path.join(self.folder, name)
        pathlib.Path(source).write_bytes(data)
        see(f"{name}: a page is written", explore([source, "--kind", kind, "--lines", str(LINES), "-o", self.path]), 0)
        self.name = name
        self.browser.troubles()
        return self.browser.open(self.path)

    def picture(self, name: str) -> None:
        if self.pictures:
            self.browser.picture(os.path.join(self.pictures, name + ".png"))

    def data(self, path: str) -> Any:
        return self.js(f"JSON.parse(document.getElementById('data').textContent){path}")

    def text(self, selector: str) -> str:
        return str(self.js(f"document.querySelector({selector!r}).textContent"))

    def texts(self, selector: str) -> List[str]:
        return list(self.js(f"[...document.querySelectorAll({selector!r})].map(each => each.textContent)"))

    def counts(self) -> List[str]:
        return self.texts("#counts b")

    def in_blocks(self) -> Dict[str, str]:
        """The word that stands in each block that is shown, by its id."""
        shown = self.js(
            "[...document.querySelectorAll('g.block[data-block]:not(.absent)')]"
            ".map(each => [Number(each.dataset.block), each.querySelector('.said').textContent])"
        )
        ids = self.data(".blocks.map(each => each.id)")
        return {ids[number]: word for number, word in shown}

    def choose(self, number: int, shift: bool = True) -> None:
        self.browser.click(f'g[data-block="{number}"] rect.box', shift)

    def states(self) -> Dict[str, str]:
        self.browser.click("#tab-txs")
        ids = self.data(".txs.map(each => each.id)")
        rows = self.js("[...document.querySelectorAll('#panel [data-tx]')].map(each => [Number(each.dataset.tx), each.querySelector('.state').textContent])")
        return {ids[number]: state for number, state in rows}

    def balances(self) -> Dict[str, str]:
        self.browser.click("#tab-locks")
        ids = self.data(".locks.map(each => each.id)")
        rows = self.js("[...document.querySelectorAll('#panel [data-lock]')].map(each => [Number(each.dataset.lock), each.querySelector('.amount').textContent])")
        return {ids[number]: amount for number, amount in rows}

    def is_calm(self) -> None:
        """Nothing was fetched, nothing failed, and nothing stands beyond the window's edge."""
        see(f"{self.name}: nothing is fetched and nothing fails", self.browser.troubles(), [])
        see(f"{self.name}: nothing is beyond the edge", self.js("document.documentElement.scrollWidth <= innerWidth"))


def choose(page: Shown, number: int) -> Tuple[str, Dict[str, str]]:
    """Chooses a block: its id, and the words in all others by theirs."""
    ids = page.data(".blocks.map(each => each.id)")
    page.choose(number)
    see(f"{page.name}: id of block {number}", page.text("#chosen [data-id]"), ids[number])
    return ids[number], {each: word for each, word in page.in_blocks().items() if each != ids[number]}


def same_words(page: Shown, truth: Truth, arrivals: int, number: int) -> None:
    """The words in all blocks, once this one is chosen."""
    chosen, shown = choose(page, number)
    compare_words(page.name, arrivals, number, shown, truth.words(arrivals, chosen, list(shown)))


def compare_words(name: str, arrivals: int, number: int, shown: Dict[str, str], words: List[str]) -> None:
    told = dict(zip(shown, words))
    if not all(word == "absent" for word in told.values()):  # of a block that waits nothing is said
        told = {each: "waits" if word == "absent" else word for each, word in told.items()}
        see(f"{name}: words of block {number} at {arrivals}", shown, told)


def same_pair(page: Shown, truth: Truth, arrivals: int, x: int, y: int) -> None:
    """The word of two blocks, by two clicks."""
    ids = page.data(".blocks.map(each => each.id)")
    page.choose(x)
    page.choose(y, shift=False)
    line = truth.ask(arrivals, [frame(b"V", bytes.fromhex(ids[x] + ids[y]))])[0]
    see(f"{page.name}: the word on {x} and {y} at {arrivals}", page.text("#vote"), line)
    page.browser.key("s")
    turned = truth.ask(arrivals, [frame(b"V", bytes.fromhex(ids[y] + ids[x]))])[0]
    see(f"{page.name}: and turned round", page.text("#vote"), turned)
    page.browser.key("Escape")


def same_lists(page: Shown, truth: Truth, arrivals: int) -> None:
    states = page.states()
    told = dict(zip(states, truth.states(arrivals, list(states))))
    see(f"{page.name}: states at {arrivals}", states, {each: "not present" if word == "absent" else word for each, word in told.items()})
    left = page.balances()
    told = dict(zip(left, truth.balances(arrivals, list(left))))
    see(f"{page.name}: balances at {arrivals}", {each: told[each] if amount == "not asked" and told[each] == "0" else amount for each, amount in left.items()}, told)
    see(f"{page.name}: counts at {arrivals}", page.counts(), truth.counts(arrivals))
