"""Draws a graph as SVG, in colours that serve on a light and on a dark ground.

A block's colour never stands alone: its word is written in it.
"""

from __future__ import annotations

from html import escape
from typing import Dict, Iterable, List, Mapping, Optional, Sequence, Set, Tuple, Union

from zorimarl.explore.layers import Item, Layout, layout_of

from .graph import Block, Graph
from .style import STYLE

Text = Tuple[str, str]  # a text and its class

LETTER = 6.8  # the width of a letter of the small text
LINE = 15  # the height of a line of text
PAD = 9
ROW_GAP = 46
MARGIN = 28
PORT = 9  # between two arrows at one side of a block
LONGEST = 14  # letters of a name that are written
LONGEST_LINE = 50  # letters of a line that are written
MOST_TXS = 4  # transactions that are written in a block

WORDS = ("before", "after", "tie", "absent")


def shortened(name: str) -> str:
    return name if len(name) <= LONGEST else name[: LONGEST - 2] + ".."


def number(value: float) -> str:
    """A coordinate with one decimal at most, so that the same picture has the same bytes."""
    return f"{round(value, 1) + 0.0:.1f}".removesuffix(".0")


def element(name: str, text: Optional[str] = None, **attributes: Union[str, float]) -> str:
    """An element; an underscore at the end of an attribute's name is left out."""
    listed = "".join(
        f' {key.rstrip("_").replace("_", "-")}="{escape(value if isinstance(value, str) else number(value))}"'
        for key, value in attributes.items()
    )
    return f"<{name}{listed}/>" if text is None else f"<{name}{listed}>{escape(text)}</{name}>"


def states_in(block: Block, graph: Graph) -> List[Text]:
    """The transactions of a block, each with its state or with nothing. A state speaks of present blocks
    alone."""
    states = graph.states if block.standing == "present" else {}
    return [(name, states.get(name, "")) for name in block.carried]


def transactions_in(block: Block, graph: Graph) -> List[Text]:
    """The lines of a block on its transactions: (text, state)."""
    carried = states_in(block, graph)
    lines = [(f"{shortened(name)} {state}".strip(), state) for name, state in carried[:MOST_TXS]]
    return lines + ([(f"and {len(carried) - MOST_TXS} more", "")] if len(carried) > MOST_TXS else [])


def lines_in(block: Block, graph: Graph) -> List[Text]:
    """What is written in a block: (text, class of the text)."""
    lines = [(shortened(block.name), "name")]
    if block.standing.startswith("refused "):
        lines += [(word, "") for word in block.standing.split(" ", 1)]
    elif block.standing != "present":
        lines.append((block.standing, ""))
    elif block.word:
        lines.append((block.word, ""))
    return lines + transactions_in(block, graph)


def kind_of(block: Block) -> str:
    """The class of a block's box."""
    if block.standing == "present":
        return block.word if block.word and block.word in WORDS else ""
    return {"waits": "waits", "not sent": "unsent", "not here": "away"}.get(block.standing, "refused")


def size_of(lines: Sequence[Text]) -> Tuple[float, float]:
    longest = max(len(text) for text, _ in lines)
    return max(46, longest * LETTER + 2 * PAD), len(lines) * LINE + PAD


def told(block: Block, graph: Graph) -> str:
    """All that is known of a block, for those who point at it."""
    parts = [block.name, block.standing]
    parts += [f"pair: {block.word}"] if block.word else []
    parts += ["on " + " ".join(block.parents)] if block.parents else []
    parts += [f"carries {name} {state}".strip() for name, state in states_in(block, graph)]
    return ", ".join(parts)


class Frame:
    """The heights of the rows, and what of them the arrows need."""

    def __init__(self, layout: Layout, sizes: Mapping[str, Tuple[float, float]], top: float) -> None:
        self.sizes = sizes
        self.tops: List[float] = []
        self.heights: List[float] = []
        for row in layout.rows:
            height = max(sizes[item.block.name][1] for item in row if item.block)
            self.tops.append(top)
            self.heights.append(height)
            top += height + ROW_GAP
        self.end = top - ROW_GAP

    def middle(self, row: int) -> float:
        return self.tops[row] + self.heights[row] / 2

    def span(self, item: Item) -> Tuple[float, float]:
        """The upper and the lower end of an item: of a place in a row, those of the row."""
        if item.block is None:
            return self.tops[item.row], self.tops[item.row] + self.heights[item.row]
        half = self.sizes[item.block.name][1] / 2
        return self.middle(item.row) - half, self.middle(item.row) + half


def port(item: Item, neighbours: Iterable[Item], other: Item) -> float:
    """Where the arrow to or from a neighbour meets an item's side."""
    if item.block is None:
        return item.x
    sorted_ones = sorted(neighbours, key=lambda one: (one.x, one.place))
    step = min(PORT, (item.width - 2 * PAD) / len(sorted_ones))
    return item.x + (sorted_ones.index(other) - (len(sorted_ones) - 1) / 2) * step


def arrow(lower: Item, upper: Item, frame: Frame) -> List[str]:
    """An arrow between neighbouring rows; its head stands where it ends at a block."""
    x1, x2 = port(lower, lower.above, upper), port(upper, upper.below, lower)
    start, end = frame.span(lower)[0], frame.span(upper)[1]
    bend_low = frame.tops[lower.row]
    bend_high = frame.tops[upper.row] + frame.heights[upper.row]
    half = (bend_low + bend_high) / 2
    way = (
        f"M{number(x1)} {number(start)}V{number(bend_low)}"
        f"C{number(x1)} {number(half)} {number(x2)} {number(half)} {number(x2)} {number(bend_high)}"
        f"V{number(end)}"
    )
    drawn = [element("path", class_="arrow", d=way)]
    if upper.block is not None:
        head = f"M{number(x2)} {number(end)}l-3.5 7h7z"
        drawn.append(element("path", class_="head", d=head))
    return drawn


def passing(item: Item, frame: Frame) -> str:
    """The part of an arrow that passes a row."""
    top, bottom = frame.span(item)
    return element("path", class_="arrow", d=f"M{number(item.x)} {number(bottom)}V{number(top)}")


def rounded(classes: str, x: float, y: float, width: float, height: float) -> str:
    return element("rect", class_=classes, x=x, y=y, width=width, height=height, rx=5)


def box(item: Item, graph: Graph, frame: Frame) -> List[str]:
    """A block: its box and what is written in it."""
    block, (top, bottom) = item.block, frame.span(item)
    asked = "asked" if graph.pair and block.name in graph.pair else ""
    classes = " ".join(filter(None, ["block", kind_of(block), asked]))
    drawn = ["<g>", element("title", told(block, graph))]
    drawn.append(rounded(classes, item.x - item.width / 2, top, item.width, bottom - top))
    for place, (text, kind) in enumerate(lines_in(block, graph)):
        y = top + PAD / 2 + (place + 0.75) * LINE
        drawn.append(element("text", text, class_=f"middle {kind}".strip(), x=item.x, y=y))
    return drawn + ["</g>"]


def words_of_pair(pair: Sequence[str]) -> Dict[str, str]:
    """Each word on a pair, and what it says."""
    x, y = map(shortened, pair)
    return {
        "before": f"{x} comes before {y}",
        "after": f"{y} comes before {x}",
        "tie": "neither comes before the other",
        "absent": f"{x} or {y} isn't present",
    }


def meanings(graph: Graph) -> List[Tuple[str, str, str]]:
    """The legend's rows: (class of the box, word, meaning)."""
    rows: List[Tuple[str, str, str]] = []
    kinds = {kind_of(block) for block in graph.blocks.values()}
    if graph.pair:
        told_words = words_of_pair(graph.pair).items()
        rows += [(word, word, meaning) for word, meaning in told_words if word != "absent" or word in kinds]
        rows += [("", "", "the pair wasn't asked for yet")] if "" in kinds else []
    rows += [("waits", "waits", "kept, and an ancestor isn't present")] if "waits" in kinds else []
    rows += [("unsent", "not sent", "made, and never sent")] if "unsent" in kinds else []
    rows += [("away", "not here", "made, and not kept by this node")] if "away" in kinds else []
    rows += [("refused", "", "sent, and not kept")] if "refused" in kinds else []
    return rows


def heading(graph: Graph) -> List[str]:
    """The lines at the head of a picture."""
    lines = []
    if graph.pair:
        x, y = map(shortened, graph.pair)
        lines.append(f"In each block: {x} and {y} as they stood once that block was present.")
    if graph.pair and graph.last_word:
        lines.append(f"At the end: {words_of_pair(graph.pair)[graph.last_word]}.")
    if graph.fault:
        line, reason = graph.fault
        lines.append(f"The scenario ends at the fault `{reason}` of: {' '.join(line.words)[:LONGEST_LINE]}")
    return lines


def legend(rows: Sequence[Tuple[str, str, str]], top: float) -> List[str]:
    drawn: List[str] = []
    for place, (kind, word, meaning) in enumerate(rows):
        y = top + place * (LINE + 7)
        drawn.append(rounded(f"block {kind}".strip(), MARGIN, y, 70, LINE + 3))
        drawn.append(element("text", word, class_="middle", x=MARGIN + 35, y=y + 13))
        drawn.append(element("text", meaning, x=MARGIN + 82, y=y + 13))
    return drawn


def extent(layout: Layout) -> Tuple[float, float]:
    """Where the leftmost item begins and where the rightmost ends."""
    items = [item for row in layout.rows for item in row]
    return min(item.x - item.width / 2 for item in items), max(item.x + item.width / 2 for item in items)


def move(layout: Layout, by: float) -> None:
    for row in layout.rows:
        for item in row:
            item.x += by


def depth_marks(layout: Layout, frame: Frame) -> List[str]:
    """The depth of each layer, beside its first row."""
    seen: Set[int] = set()
    drawn: List[str] = []
    for row, depth in enumerate(layout.depths):
        if depth not in seen:
            seen.add(depth)
            drawn.append(element("text", str(depth), class_="depth", x=8, y=frame.middle(row) + 4))
    return drawn


def body(layout: Layout, graph: Graph, frame: Frame) -> List[str]:
    """Arrows first, so that they lie under the blocks."""
    drawn: List[str] = []
    for lower, upper in layout.edges:
        drawn += arrow(lower, upper, frame)
    drawn += [passing(item, frame) for row in layout.rows for item in row if item.block is None]
    for row in layout.rows:
        for item in row:
            drawn += box(item, graph, frame) if item.block else []
    return drawn


def width_of(layout: Layout, texts: Iterable[float]) -> float:
    """The picture's width: that of the blocks or of the longest text, with margins."""
    left, right = extent(layout)
    return max([right - left + 3 * MARGIN] + [text + 2 * MARGIN for text in texts])


def centre(layout: Layout, width: float) -> None:
    """Puts the blocks in the middle, and not over the depths at the left."""
    left, right = extent(layout)
    move(layout, max(2 * MARGIN, (width - (right - left)) / 2) - left)


def opening(width: float, height: float) -> List[str]:
    size = f'width="{number(width)}" height="{number(height)}" viewBox="0 0 {number(width)} {number(height)}"'
    return [
        f'<svg xmlns="http://www.w3.org/2000/svg" {size} role="img">',
        element("title", "Blocks and their parents, by depth"),
        f"<style>{STYLE}</style>",
        element("rect", class_="ground", width="100%", height="100%"),
    ]


def drawing(graph: Graph) -> str:
    """The whole picture, as text."""
    sizes = {name: size_of(lines_in(block, graph)) for name, block in graph.blocks.items()}
    layout = layout_of(dict(graph.blocks), {name: size[0] for name, size in sizes.items()})
    head, rows = heading(graph), meanings(graph)
    frame = Frame(layout, sizes, 16 + len(head) * (LINE + 3) + (10 if head else 0))
    texts = [len(line) * LETTER for line in head] + [82 + len(meaning) * LETTER for _, _, meaning in rows]
    width = width_of(layout, texts)
    centre(layout, width)
    parts = opening(width, frame.end + 20 + len(rows) * (LINE + 7) + (8 if rows else 0))
    parts += [element("text", line, x=MARGIN, y=24 + place * (LINE + 3)) for place, line in enumerate(head)]
    parts += depth_marks(layout, frame) + body(layout, graph, frame) + legend(rows, frame.end + 24) + ["</svg>"]
    return "\n".join(parts) + "\n"
