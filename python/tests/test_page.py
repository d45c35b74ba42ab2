"""Pages of the explorer in a headless Chromium: clicked through, and compared with what the program answers.

Five examples are gone through arrival by arrival and block by block: each word, state and balance that the
page shows has to be what `replay` answers to the same question behind the same blocks. So is a part of pages
with 511 blocks, which also have to be quick; and hostile labels have to show as text. Feeds and journals with
faults show the program's line. Pictures go to the folder that the environment names as PICTURES.
"""

from __future__ import annotations

import fcntl
import os
import pathlib
import subprocess
import sys
import time
from typing import Dict, Iterator, List, Sequence, Tuple

import pytest

from browser import Browser
from pages import THERE, Shown, choose, compare_words, same_lists, same_pair, same_words, see
from samples import EXAMPLES, ran
from truth import Truth
from zorimarl.explore.command import main as explore
from zorimarl.feeds import block, frame, head, sha256, spelled, transaction

MANY = ("drawn-511", "wide-511", "star-511", "parents-511", "payments-511")
SCENARIOS = ("double_spend.txt", "overturned.txt", "late.txt", "cycle.txt", "payment.txt")
QUICK = 2.0  # seconds that a click or a step may take with 511 blocks, on a busy machine
TRIES = 5  # of what takes longer
TEXTS = [
    "<script>alert(1)</script>",
    '"><img/src=x/onerror=alert(1)>',
    "</script><script>alert(2)</script>",
    "<!--<script>",
    "'\"`&lt;&amp;${alert(3)}\\u003c",
    "javascript:alert(4)//" + "x" * 43,
]
ONCE_DRAWN = "new Promise(done => requestAnimationFrame(() => requestAnimationFrame(done)))"


@pytest.fixture(scope="module")
def browser() -> Iterator[Browser]:
    made = Browser()
    yield made
    made.close()


@pytest.fixture
def page(browser: Browser, tmp_path: pathlib.Path) -> Shown:
    pictures = os.environ.get("PICTURES")
    if pictures:
        os.makedirs(pictures, exist_ok=True)
    return Shown(browser, str(tmp_path), pictures)


@pytest.mark.parametrize("name", SCENARIOS)
def test_examples(page: Shown, name: str) -> None:
    """An example, arrival by arrival, block by block."""
    text = (EXAMPLES / name).read_bytes()
    page.open(name, text)
    truth = Truth(ran("build", given=text))
    page.browser.click("#first")
    stops = page.data(".stops.map(each => each.arrivals)")
    see(f"{name}: a stop behind each arrival", stops, list(range(len(truth.sent) + 1)))
    for at in stops:
        same_lists(page, truth, at)
        there = page.js(THERE)
        for number in there:
            same_words(page, truth, at, number)
        for x, y in [(x, y) for x in there for y in there if x < y][-6:]:
            same_pair(page, truth, at, x, y)
        if at != stops[-1]:
            page.browser.key("]")
    page.browser.click("#tab-arrivals")
    see(f"{name}: the lines of arrivals", page.texts("#panel [data-arrival] p.mono"), truth.lines())
    page.is_calm()
    page.picture(name.replace(".txt", ""))


def test_keys(page: Shown) -> None:
    """The double spend, with keys alone: how it is decided, and turned round."""
    page.open("double_spend.txt", (EXAMPLES / "double_spend.txt").read_bytes())
    page.js("document.getElementById('pane').focus()")
    for key in ("ArrowRight", "ArrowRight", "ArrowUp", "Enter"):
        page.browser.key(key)
    one = page.text("#chosen h2")
    see("keys: a block on genesis is chosen", one in ("A", "B"))
    for key in ("ArrowUp" if one == "B" else "ArrowDown", "Enter"):
        page.browser.key(key)
    if one == "B":
        page.browser.key("s")
    see("keys: two blocks are chosen", page.texts("#chosen h2"), ["A", "B"])
    for key, at, word, states in [
        ("Home", "At the start", "Not both of A and B are present", []),
        ("t", "After arrival 2", "Neither of A and B comes before the other", ["accepted", "rejected", "rejected"]),
        ("t", "After arrival 3", "A comes before B", ["accepted", "accepted", "rejected"]),
        ("]", "After arrival 4", "Neither of A and B comes before the other", ["accepted", "rejected", "rejected"]),
        ("t", "After arrival 5", "B comes before A", ["accepted", "rejected", "accepted"]),
    ]:
        page.browser.key(key)
        see(f"keys: {at}", page.text("#when").startswith(at))
        see(f"keys: the word, {at}", page.text("#chosen .word"), word)
        if states:
            see(f"keys: states, {at}", list(page.states().values()), states)
        if at == "After arrival 3":
            page.js("document.querySelector('aside').scrollTop = 0")
            page.picture("explorer")
            page.browser.media("dark")
            page.picture("explorer-dark")
            page.browser.media("light")
    page.browser.key("/")
    page.browser.write("carol")
    see("keys: search finds a transaction", [row[-8:] for row in page.texts("#panel [data-tx] .top")], ["accepted"])
    page.browser.key("Escape")
    see("keys: and is left", page.text("#found"), "3 of 3 transactions")
    for width in (1280, 800, 400):
        page.browser.resize(width, 800)
        see(f"{width} wide: nothing is beyond the edge", page.js("document.documentElement.scrollWidth <= innerWidth"))
    page.picture("narrow")
    page.browser.resize(1280, 800)
    page.is_calm()


def harmless(page: Shown, name: str) -> None:
    see(f"{name}: nothing is said in a dialog", page.browser.is_in_dialog(), False)
    see(f"{name}: no element came of a label", page.js("[document.querySelectorAll('img, iframe, object, a').length, document.scripts.length]"), [0, 2])
    page.is_calm()


def test_hostile_labels(page: Shown) -> None:
    """Labels that would be more than text, were they let."""
    pays = " ".join(f"1 to {text}" for text in TEXTS)
    page_name = "<img src=x onerror=alert(5)>&.txt"
    name = "a" * 31 + "_"
    text = f"grant {name} {pays}\ntx t spends {name}.0 with {TEXTS[0]} pays 1 to {TEXTS[1]}\nblock {'-' * 32} on G carries t\nbalance {TEXTS[2]}\n"
    page.open(page_name, text.encode())
    see("hostile: the file's name shows as text", page.text("h1"), page_name)
    see("hostile: and is the title", page.js("document.title"), page_name)
    page.browser.click("#tab-locks")
    see("hostile: words show as text", sorted(page.texts("#panel [data-lock] bdi")), sorted(TEXTS))
    page.browser.click("#tab-txs")
    page.browser.click("#panel [data-tx='1'] button")
    see("hostile: a preimage shows as text", f'"{TEXTS[0]}"' in page.text("#panel [data-tx='1']"))
    for number in (0, 1):
        page.choose(number)
        see(f"hostile: block {number} can be chosen", len(page.texts("#chosen h2")), 1)
    harmless(page, "hostile")
    page.picture("hostile")


def test_any_preimage(page: Shown) -> None:
    anything = [bytes(range(start, start + 64)) for start in range(0, 256, 64)] + [b"\xe2\x80\xae</script>" * 5]
    grants = [transaction([], [(5, word)]) for word in anything]
    first = spelled(0, 0, [], [each.text for each in grants])
    made = block(1, [sha256(first)], [transaction(each.coins, [(5, b"x")]) for each in grants])
    page.open("bytes.feed", head(first) + frame(b"B", made) + frame(b"E"), "feed")
    page.choose(1)
    for button in page.js("[...document.querySelectorAll('#panel [data-tx]')].map(each => each.dataset.tx)"):
        page.browser.click(f"#panel [data-tx='{button}'] button")
    shown = page.text("#panel")
    see("bytes: each preimage shows", [word.hex() in shown or f'"{word.decode("latin-1")}"' in shown for word in anything], [True] * 5)
    harmless(page, "bytes")


def faulty_inputs() -> List[Tuple[str, bytes, str]]:
    feed = subprocess.run([sys.executable, str(EXAMPLES / "feed.py"), "first"], capture_output=True, check=True).stdout
    cases = [("cut.feed", feed[:-1], "feed"), ("malformed.feed", feed[:-5] + b"Z" + feed[-4:], "feed"), ("headless.feed", feed[:30], "feed")]
    cases += [("other.feed", b"SPCTRX01" + feed[8:], "feed"), ("empty.feed", b"", "feed")]
    cases += [("bits.feed", feed[:8] + b"\x41" + feed[9:], "feed"), ("nothing.feed", feed[:9] + b"B\x02\0\0\0ab", "feed")]
    return cases + [("faulty.txt", (EXAMPLES / "faulty.txt").read_bytes(), "scenario"), ("empty.txt", b"", "scenario"), ("first.txt", b"what\n", "scenario")]


@pytest.mark.parametrize("name, data, kind", faulty_inputs(), ids=lambda each: each if isinstance(each, str) else "")
def test_faults(page: Shown, name: str, data: bytes, kind: str) -> None:
    """An input with a fault: the page has the program's line, and shows what stands before it."""
    page.open(name, data, kind)
    line = ran("play" if kind == "scenario" else "replay", given=data).decode().splitlines()[-1:]
    fault = line[0] if line and line[0].startswith("fault") else ""
    see(f"{name}: the fault's line", page.text("#fault .mono") if fault else page.js("document.getElementById('fault').hidden"), fault or True)
    page.is_calm()


def test_journals(page: Shown) -> None:
    feed = subprocess.run([sys.executable, str(EXAMPLES / "feed.py"), "first"], capture_output=True, check=True).stdout
    journal = os.path.join(page.folder, "kept.journal")
    ran("node", journal, given=feed)
    data = pathlib.Path(journal).read_bytes()
    with open(journal, "rb") as held:
        fcntl.flock(held, fcntl.LOCK_EX)
        see("a journal in use isn't read", explore([journal, "-o", page.path]), 2)
    see("a journal is known by its first bytes", explore([journal, "-o", page.path]), 0)
    page.open("whole.journal", data, "journal")
    see("whole.journal: its blocks", page.counts(), ["4", "0", "0", "0"])
    page.open("cut.journal", data[:-1], "journal")
    see("cut.journal: the fault's line", page.text("#fault .mono"), ran("show", os.path.join(page.folder, "cut.journal")).decode().strip())
    page.open("none.journal", b"hello", "journal")
    see("none.journal: the fault's line", page.text("#fault .mono"), "fault not-journal")


def slowest_step(page: Shown) -> float:
    """The seconds of the slowest of three steps, by which one comes back to where one was."""
    slowest = 0.0
    for key in ("[", "]", "Escape"):
        begun = time.monotonic()
        page.browser.key(key)
        page.js(ONCE_DRAWN)
        slowest = max(slowest, time.monotonic() - begun)
    return slowest


@pytest.mark.parametrize("name", MANY)
def test_511(page: Shown, name: str, capsys: pytest.CaptureFixture[str]) -> None:
    """511 blocks: quick, and right where it is looked at."""
    text, kind = many(name)
    begun = time.monotonic()
    took = first = page.open(name, text, kind)
    made = time.monotonic() - begun - took
    truth = Truth(ran("build", given=text) if kind == "scenario" else text)
    tries = TRIES
    while took >= 4 * QUICK and tries:  # others may be at work on the machine
        took, tries = min(took, page.browser.open(page.path)), tries - 1
    see(f"{name}: opened quickly", took < 4 * QUICK)
    stops = page.data(".stops.map(each => each.arrivals)")
    slowest, tries = 0.0, TRIES
    looked: Dict[int, Tuple[int, str, Dict[str, str], List[str]]] = {}
    for at in (len(stops) - 1, len(stops) // 2, 3, len(stops) - 2):
        page.js(f"(e => {{ e.value = {at}; e.dispatchEvent(new Event('input')); }})(document.getElementById('at'))")
        number = page.js(f"(b => b[Math.floor(b.length / 2)])({THERE})")
        looked[stops[at]] = (number, *choose(page, number), page.counts())
        took = slowest_step(page)
        while took >= QUICK and tries:  # others may be at work on the machine
            took, tries = min(took, slowest_step(page)), tries - 1
        slowest = max(slowest, took)
    with capsys.disabled():
        print(f"\n{name}: a page of {os.path.getsize(page.path):,} bytes in {made:.1f} s, open after {first:.2f} s; the slowest step takes {slowest:.2f} s")
    see(f"{name}: each step within {QUICK} s", slowest < QUICK)
    asked: Dict[int, Sequence[bytes]] = {at: [frame(b"V", bytes.fromhex(chosen + each)) for each in shown] for at, (_, chosen, shown, _) in looked.items()}
    for at, (words, counts) in truth.at_stops(asked).items():
        number, _, shown, counted = looked[at]
        compare_words(name, at, number, shown, words)
        see(f"{name}: counts at {at}", counted, counts)
    page.choose(len(truth.sent) // 3)
    page.picture(name)
    page.browser.key("0")
    page.picture(name + "-fit")
    page.is_calm()


def many(name: str) -> Tuple[bytes, str]:
    """One of the inputs of 511 blocks, and its kind."""
    if str(EXAMPLES) not in sys.path:
        sys.path.append(str(EXAMPLES))
    from timing import feeds, graphs  # type: ignore[import]

    if name == "drawn-511":
        return ran("make", "511", "1", "4"), "scenario"
    if name == "wide-511":
        return ran("make", "511", "3", "16"), "scenario"
    if name == "star-511":
        return feeds.unpaid(graphs.star(511)).text, "feed"
    if name == "parents-511":
        return feeds.unpaid(graphs.crowd(511)).text, "feed"
    return feeds.contested(graphs.in_step(511), lambda number: number, 256, 1).text, "feed"


def hash_of(page: Shown) -> str:
    """The page's address behind `#`, once it is written."""
    time.sleep(0.4)
    return str(page.js("location.hash.slice(1)"))


def test_search(page: Shown) -> None:
    """One field finds blocks, transactions and locks, by names, ids and words, and by keys alone."""
    page.open("double_spend.txt", (EXAMPLES / "double_spend.txt").read_bytes())
    for word, groups in [
        (page.data(".blocks[1].id.slice(0, 4)"), "blocks"),
        (page.data(".txs[0].id.slice(0, 6)"), "transactions"),
        (page.data(".locks[0].id.slice(0, 6)"), "locks"),
    ]:
        page.js("document.getElementById('pane').focus()")
        page.browser.key("/")
        page.browser.write(word)
        see(f"search: {word} finds {groups}", groups in page.texts("#panel [data-group]"))
        page.browser.key("Escape")
    page.browser.key("/")
    page.browser.write("no-such-name")
    see("search: nothing found says so", page.text("#found"), "Nothing has this name, id or word.")
    page.browser.key("Escape")
    page.browser.key("/")
    page.browser.write("A")
    page.browser.key("Enter")
    see("search: Enter goes to the first", page.texts("#chosen h2"), ["A"])
    page.browser.key("Escape")
    page.is_calm()


def test_links(page: Shown) -> None:
    """What is shown stands in the address: back, forward and a sent link lead to it."""
    page.open("double_spend.txt", (EXAMPLES / "double_spend.txt").read_bytes())
    names = page.data(".blocks.map(each => each.name)")
    one, two = names.index("A"), names.index("B")
    page.choose(one)
    first = hash_of(page)
    see("links: a block stands in the address", first, "block=" + page.data(f".blocks[{one}].id.slice(0, 8)"))
    page.choose(two, shift=False)
    page.browser.click("#tab-locks")
    second = hash_of(page)
    page.browser.key("[")
    third = hash_of(page)
    see("links: so do the pair, the tab and the arrival", ("with=" in second, "tab=locks" in second, "at=" in third), (True, True, True))
    page.js("history.back()")
    see("links: back", (hash_of(page), page.texts("#chosen h2")), (first, ["A"]))
    page.js("history.forward()")
    see("links: forward", (hash_of(page), page.texts("#chosen h2")), (third, ["A", "B"]))
    when = page.text("#when")
    page.browser.driver.get("about:blank")
    page.browser.driver.get(pathlib.Path(page.path).as_uri() + "#" + third)
    see("links: a sent link", (page.texts("#chosen h2"), page.text("#when")), (["A", "B"], when))
    page.browser.driver.get("about:blank")
    page.browser.driver.get(pathlib.Path(page.path).as_uri() + "#block=G&with=G&at=-1&tab=x&tx=%3Cb%3E&lock=zz&from=1e9")
    see("links: of a strange one what there is", page.texts("#chosen h2"), ["G"])
    page.is_calm()


def test_pages(page: Shown) -> None:
    """A rejected transaction shows its rivals and sources, a block what stands around it, a lock what came and went."""
    page.open("double_spend.txt", (EXAMPLES / "double_spend.txt").read_bytes())
    truth = Truth(ran("build", given=(EXAMPLES / "double_spend.txt").read_bytes()))
    last = len(truth.sent)
    states = page.states()
    for number, (each, state) in enumerate(states.items()):
        page.js(f"document.querySelector('#panel [data-tx=\"{number}\"] button').click()")
        reasons = page.js(f"[...document.querySelectorAll('#panel [data-tx=\"{number}\"] [data-why]')].map(each => each.dataset.why)")
        see(f"pages: {each} is {state}, and has reasons where it is rejected", bool(reasons), state == "rejected")
    lost = list(states.values()).index("rejected")
    row = f"document.querySelector('#panel [data-tx=\"{lost}\"]')"
    page.js(f"[...{row}.querySelectorAll('[data-why] button')].find(each => each.textContent === 'the pair').click()")
    line = page.text("#vote")
    ids = [bytes.fromhex(word) for word in line.split(" ")[1:3]]
    see("pages: the reason's pair has the program's word", truth.ask(last, [frame(b"V", ids[0] + ids[1])])[0], line)
    see("pages: and its certificate's command", page.text("#certify"), f"spectre certify {ids[0].hex()} {ids[1].hex()}")
    page.choose(0)
    see("pages: what stands around genesis", "futu" in page.text("#chosen dl") and f"{last} blocks" in page.text("#chosen dl"))
    page.browser.click("#tab-locks")
    page.browser.click("#panel [data-lock] button")
    see("pages: a lock has a plot", page.js("document.querySelectorAll('[data-page=lock] svg.plot').length"), 1)
    see("pages: and its coins", page.js("document.querySelectorAll('[data-page=lock] [data-coin]').length > 0"))
    page.js("document.querySelector('aside').scrollTop = 0")
    page.picture("explorer-lock")
    page.is_calm()


# Seconds from one picture to the next while the picture is scrolled by each of them.
FRAMES = """new Promise(done => {
  const pane = document.getElementById('pane'), times = [];
  const next = time => {
    times.push(time);
    pane.scrollBy(times.length % 2 ? 9 : -8, 0);
    times.length < 60 ? requestAnimationFrame(next) : done((times[59] - times[0]) / 59000);
  };
  requestAnimationFrame(next);
})"""


def test_view(page: Shown, capsys: pytest.CaptureFixture[str]) -> None:
    """The picture is dragged, zoomed by the wheel where the pointer stands, and moved on the small map."""
    page.open("wide.txt", ran("make", "120", "3", "16"))
    scrolled = "(pane => [pane.scrollLeft, pane.scrollTop])(document.getElementById('pane'))"
    page.js("document.getElementById('pane').scrollTo(500, 100)")
    left, top = page.js(scrolled)
    pane = page.browser.driver.find_element("id", "pane")
    page.browser.actions().move_to_element(pane).click_and_hold().move_by_offset(-60, 10).move_by_offset(-60, 10).release().perform()
    moved = page.js(scrolled)
    see("view: dragging moves the picture", moved[0] - left > 80 and moved[1] <= top)
    see("view: and chooses nothing", page.texts("#chosen h2"), [])
    width = "Number(document.querySelector('#pane > svg').getAttribute('width'))"
    before = page.js(width)
    page.js("document.getElementById('pane').dispatchEvent(new WheelEvent('wheel', {deltaY: -200, clientX: 300, clientY: 300, cancelable: true}))")
    page.js(ONCE_DRAWN)
    see("view: the wheel zooms", page.js(width) > before * 1.3)
    see("view: the small map is there", page.js("document.getElementById('map').hidden"), False)
    page.js("document.getElementById('pane').scrollTo(0, 0)")
    page.browser.click("#map")
    see("view: and moves the picture", page.js(scrolled)[0] > 100)
    frame_time = page.js(FRAMES)
    with capsys.disabled():
        print(f"\n{frame_time * 1000:.1f} ms from picture to picture while it moves")
    page.browser.key("0")
    page.js(ONCE_DRAWN)
    see("view: all of it", page.js("(pane => pane.scrollWidth <= pane.clientWidth + 1)(document.getElementById('pane'))"))
    see("view: then no map is needed", page.js("document.getElementById('map').hidden"))
    columns = page.data(".blocks.map(each => each.row)")
    parents = page.data(".blocks.map(each => each.parents)")
    see("view: each block stands right of its parents", all(columns[n] > columns[each] for n, those in enumerate(parents) for each in those))
    page.is_calm()
