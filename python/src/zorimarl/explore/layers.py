"""Where each block of a picture stands: in layers by depth, with few crossings and short ways.

A block's depth is the length of the longest way to a block without parents. A layer that is too wide for
one row takes several. Where an arrow passes a row, all arrows to the same parent pass it at one place, so
that they join there and part no more.
"""

from __future__ import annotations

from dataclasses import dataclass, field
from typing import Any, Dict, Hashable, List, Mapping, Sequence, Tuple

# A block has the names of its parents; anything else about it is the caller's.
Blocks = Mapping[Any, Any]
Widths = Mapping[Any, float]
Row = List["Item"]
Rows = List[Row]
Edges = List[Tuple["Item", "Item"]]

GAP = 22  # between two neighbours of a row
WAY_WIDTH = 8  # what an arrow that passes a row takes
WIDEST = 1000  # a row that is wider is split
QUICK_WIDEST = 1700  # the same, where rows are drawn as columns
SWEEPS = 12


@dataclass(eq=False)  # two places of one row aren't one because they look alike
class Item:
    """A block in its row, or an arrow's place in a row that it passes (then `block` is None)."""

    block: Any
    width: float
    row: int
    above: Row = field(default_factory=list)
    below: Row = field(default_factory=list)
    x: float = 0.0  # its middle
    place: int = 0  # in its row, from the left


@dataclass
class Layout:
    rows: Rows  # of items, from the left
    depths: List[int]  # the depth of each row
    edges: Edges  # (lower item, upper item)


def depths_of(blocks: Blocks) -> Dict[Hashable, int]:
    depths: Dict[Hashable, int] = {}
    for name, block in blocks.items():
        depths[name] = 1 + max((depths[parent] for parent in block.parents), default=-1)
    return depths


def rows_of(blocks: Blocks, widths: Widths, widest: float = WIDEST) -> Tuple[List[List[Any]], List[int]]:
    """The names in each row and the depth of each row, the layers in order of depth."""
    depths = depths_of(blocks)
    rows: List[List[Any]] = []
    row_depths: List[int] = []
    for depth in range(1 + max(depths.values())):
        row: List[Any] = []
        taken = 0.0
        for name in (name for name in blocks if depths[name] == depth):
            if row and taken + widths[name] > widest:
                rows.append(row)
                row_depths.append(depth)
                row, taken = [], 0.0
            row.append(name)
            taken += widths[name] + GAP
        rows.append(row)
        row_depths.append(depth)
    return rows, row_depths


def link(lower: Item, upper: Item, edges: Edges) -> None:
    if upper not in lower.above:
        lower.above.append(upper)
        upper.below.append(lower)
        edges.append((lower, upper))


def with_ways(items: Mapping[Any, Item], rows: Rows, blocks: Blocks) -> Edges:
    """Joins each block with its parents, through a place in each row between."""
    ways: Dict[Tuple[Any, int], Item] = {}
    edges: Edges = []
    for name, block in blocks.items():
        for parent in block.parents:
            lower = items[name]
            for row in range(items[name].row - 1, items[parent].row, -1):
                if (parent, row) not in ways:
                    ways[parent, row] = Item(None, WAY_WIDTH, row)
                    rows[row].append(ways[parent, row])
                link(lower, ways[parent, row], edges)
                lower = ways[parent, row]
            link(lower, items[parent], edges)
    return edges


def layout_of(blocks: Blocks, widths: Widths) -> Layout:
    """Where blocks stand that have these widths. The time is that of sorting each row a few times."""
    names, depths = rows_of(blocks, widths)
    items = {
        name: Item(blocks[name], widths[name], row) for row, those in enumerate(names) for name in those
    }
    rows = [[items[name] for name in those] for those in names]
    layout = Layout(rows, depths, with_ways(items, rows, blocks))
    order_rows(layout)
    space_rows(layout)
    return layout


def quick_layout_of(blocks: Blocks, widths: Widths) -> Layout:
    """The same for hundreds of blocks with thousands of arrows, which have no places of their own in the rows
    that they pass. Crossings aren't counted, and the last order of the rows is kept."""
    names, depths = rows_of(blocks, widths, QUICK_WIDEST)
    items = {
        name: Item(blocks[name], widths[name], row) for row, those in enumerate(names) for name in those
    }
    layout = Layout([[items[name] for name in those] for those in names], depths, [])
    for name, block in blocks.items():
        for parent in block.parents:
            link(items[name], items[parent], layout.edges)
    number_places(layout.rows)
    for sweep in range(SWEEPS):
        sort_rows(layout.rows, sweep)
    space_rows(layout)
    return layout


def number_places(rows: Rows) -> None:
    for row in rows:
        for place, item in enumerate(row):
            item.place = place


def off_centre(item: Item, row: Row) -> float:
    """How far an item stands from the middle of its row, in places."""
    return item.place - (len(row) - 1) / 2


def wanted_place(item: Item, neighbours: Row, rows: Rows) -> float:
    """How far from the middle its neighbours stand in the mean; without any it stays."""
    around = neighbours or [item]
    return sum(off_centre(other, rows[other.row]) for other in around) / len(around)


def sort_row(row: Row, side: str, rows: Rows) -> None:
    """Puts each item where its neighbours on this side stand in the mean."""
    wanted = {id(item): wanted_place(item, getattr(item, side), rows) for item in row}
    row.sort(key=lambda item: wanted[id(item)])
    number_places([row])


def sort_rows(rows: Rows, sweep: int) -> None:
    """Sorts each row by its neighbours on one side, downwards and upwards in turn."""
    downwards = sweep % 2 == 0
    for row in rows if downwards else reversed(rows):
        sort_row(row, "above" if downwards else "below", rows)


def crossings(layout: Layout) -> int:
    """How many pairs of arrows cross between neighbouring rows."""
    between: Dict[int, List[Tuple[int, int]]] = {}
    for lower, upper in layout.edges:
        between.setdefault(lower.row, []).append((lower.place, upper.place))
    return sum(
        (a[0] - b[0]) * (a[1] - b[1]) < 0
        for arrows in between.values()
        for place, a in enumerate(arrows)
        for b in arrows[:place]
    )


def cost(layout: Layout) -> Tuple[int, float]:
    """What makes an order of the rows bad: crossings, and then arrows that go far aside."""
    rows = layout.rows
    aside = sum(
        abs(off_centre(lower, rows[lower.row]) - off_centre(upper, rows[upper.row]))
        for lower, upper in layout.edges
    )
    return crossings(layout), aside


def order_rows(layout: Layout) -> None:
    """Sorts the rows by their neighbours, downwards and upwards in turn, and keeps the best order."""
    rows = layout.rows
    number_places(rows)
    best, kept = cost(layout), [list(row) for row in rows]
    for sweep in range(SWEEPS):
        sort_rows(rows, sweep)
        now = cost(layout)
        if now < best:
            best, kept = now, [list(row) for row in rows]
    for row, those in zip(rows, kept):
        row[:] = those
    number_places(rows)


def pool(wanted: Sequence[float]) -> List[float]:
    """The ascending numbers that are nearest to the wanted ones, by pooling neighbours out of order."""
    pools: List[Tuple[float, int]] = []  # (sum, count)
    for one in wanted:
        total, count = one, 1
        while pools and pools[-1][0] / pools[-1][1] > total / count:
            more = pools.pop()
            total, count = total + more[0], count + more[1]
        pools.append((total, count))
    return [total / count for total, count in pools for _ in range(count)]


def offsets(row: Row) -> List[float]:
    """The least distance of each item's middle from the first one's."""
    found, at = [0.0] * bool(row), 0.0
    for before, item in zip(row, row[1:]):
        at += (before.width + item.width) / 2 + GAP
        found.append(at)
    return found


def place_row(row: Row, wanted: Sequence[float]) -> None:
    """Puts the items as near to the wanted middles as their order and widths let them."""
    least = offsets(row)
    for item, offset, base in zip(row, least, pool([x - offset for x, offset in zip(wanted, least)])):
        item.x = base + offset


def mean_x(item: Item) -> float:
    around = item.above + item.below
    return sum(other.x for other in around) / len(around) if around else item.x


def space_rows(layout: Layout) -> None:
    """Moves the items of each row towards the middle of their neighbours, a few times over."""
    for row in layout.rows:
        half = offsets(row)[-1] / 2
        place_row(row, [offset - half for offset in offsets(row)])
    for sweep in range(2 * SWEEPS):
        for row in layout.rows if sweep % 2 == 0 else reversed(layout.rows):
            place_row(row, [mean_x(item) for item in row])
