"""Places the states of a picture in rows and routes arrows between them, the same way every time.

The usual layered drawing: an arrow over several rows gets a way-point in each row between, the order in the rows is
improved by averages of neighbours, and the places are then pulled towards their neighbours without overlap.
"""
from __future__ import annotations

from math import inf
from typing import Dict, List, Optional, Sequence, Tuple, Union

State = int
Edge = Tuple[State, State, str]  # from, to, sort of line
Point = Tuple[float, float]
Item = Union[State, Tuple[Edge, int]]  # a state, or the way-point of an edge in a row

STATE_SPACE = 216.0
WAY_SPACE = 26.0
SWEEPS = 12
PULLS = 24


class Layout:
    """Where the states stand (x of each) and the x of each edge's way-points, by row.

    With a limit the drawing gets no wider than that, or than its fullest row.
    """

    def __init__(self, rows: Sequence[Sequence[State]], edges: Sequence[Edge], limit: Optional[float] = None) -> None:
        self.limit = limit
        self.row_of = {state: at for at, row in enumerate(rows) for state in row}
        self.rows: List[List[Item]] = [list(row) for row in rows]
        self.up: Dict[Item, List[Item]] = {}
        self.down: Dict[Item, List[Item]] = {}
        for edge in edges:
            self.add(edge)
        self.order()
        self.x = self.places()

    def chain(self, edge: Edge) -> List[Item]:
        """The edge's start, way-points and end."""
        first, last = self.row_of[edge[0]], self.row_of[edge[1]]
        step = 1 if last > first else -1
        points: List[Item] = [(edge, row) for row in range(first + step, last, step)]
        return [edge[0], *points, edge[1]]

    def add(self, edge: Edge) -> None:
        if self.row_of[edge[0]] == self.row_of[edge[1]]:
            return
        chain = self.chain(edge)
        for item in chain[1:-1]:
            self.rows[self.row(item)].append(item)
        for one, other in zip(chain, chain[1:]):
            upper, lower = (one, other) if self.row(one) < self.row(other) else (other, one)
            self.down.setdefault(upper, []).append(lower)
            self.up.setdefault(lower, []).append(upper)

    def row(self, item: Item) -> int:
        return item[1] if isinstance(item, tuple) else self.row_of[item]

    def order(self) -> None:
        """Sorts each row by its neighbours' places, down and up in turn, and keeps the best order met."""
        best, fewest = [list(row) for row in self.rows], self.crossings()
        for sweep in range(SWEEPS):
            downward = sweep % 2 == 0
            rows = range(1, len(self.rows)) if downward else range(len(self.rows) - 2, -1, -1)
            for at in rows:
                self.sort_row(at, self.up if downward else self.down)
            now = self.crossings()
            if now < fewest:
                best, fewest = [list(row) for row in self.rows], now
        self.rows = best

    def sort_row(self, at: int, neighbours: Dict[Item, List[Item]]) -> None:
        place = {item: (index + 0.5) / len(row) for row in self.rows for index, item in enumerate(row)}

        def wanted(item: Item) -> float:
            near = neighbours.get(item)
            return sum(place[other] for other in near) / len(near) if near else place[item]

        self.rows[at].sort(key=wanted)

    def crossings(self) -> int:
        """How many pairs of lines cross between neighbouring rows."""
        place = {item: index for row in self.rows for index, item in enumerate(row)}
        total = 0
        for row in self.rows:
            lines = [(place[item], place[other]) for item in row for other in self.down.get(item, [])]
            total += sum((a - c) * (b - d) < 0 for at, (a, b) in enumerate(lines) for c, d in lines[at + 1:])
        return total

    def places(self) -> Dict[Item, float]:
        x: Dict[Item, float] = {}
        for row in self.rows:
            at = -sum(space(item) for item in row) / 2
            for item in row:
                x[item] = at + space(item) / 2
                at += space(item)
        half = self.half_width()
        for _ in range(PULLS):
            for row in self.rows:
                self.pull(row, x)
                keep_within(row, x, half)
        self.centre_loose_rows(x)
        for row in self.rows:
            keep_within(row, x, half)
        left = min((x[item] - space(item) / 2 for item in x), default=0.0)
        return {item: value - left for item, value in x.items()}

    def centre_loose_rows(self, x: Dict[Item, float]) -> None:
        """Rows with no routed arrow stand in the middle below the others."""
        linked = [x[item] for item in x if item in self.up or item in self.down]
        middle = (min(linked) + max(linked)) / 2 if linked else 0.0
        for row in self.rows:
            if not any(item in self.up or item in self.down for item in row):
                shift = middle - (x[row[0]] + x[row[-1]]) / 2
                x.update({item: x[item] + shift for item in row})

    def pull(self, row: List[Item], x: Dict[Item, float]) -> None:
        """Moves a row's items towards their neighbours: the mean of a pass from the left and one from the right."""
        wanted = []
        for item in row:
            near = self.up.get(item, []) + self.down.get(item, [])
            wanted.append(sum(x[other] for other in near) / len(near) if near else x[item])
        left = list(wanted)
        for at in range(1, len(row)):
            left[at] = max(left[at], left[at - 1] + gap(row[at - 1], row[at]))
        right = list(wanted)
        for at in range(len(row) - 2, -1, -1):
            right[at] = min(right[at], right[at + 1] - gap(row[at], row[at + 1]))
        for at, item in enumerate(row):
            x[item] = (left[at] + right[at]) / 2

    def half_width(self) -> float:
        """How far items may stand from the middle."""
        if self.limit is None:
            return inf
        return max([self.limit] + [sum(space(item) for item in row) for row in self.rows]) / 2

    def width(self) -> float:
        return max((value + space(item) / 2 for item, value in self.x.items()), default=0.0)


def space(item: Item) -> float:
    return WAY_SPACE if isinstance(item, tuple) else STATE_SPACE


def gap(one: Item, other: Item) -> float:
    return (space(one) + space(other)) / 2


def keep_within(row: List[Item], x: Dict[Item, float], half: float) -> None:
    """Pushes a row's items in from both edges, which are this far from the middle."""
    edge = -half
    for item in row:
        x[item] = max(x[item], edge + space(item) / 2)
        edge = x[item] + space(item) / 2
    edge = half
    for item in reversed(row):
        x[item] = min(x[item], edge - space(item) / 2)
        edge = x[item] - space(item) / 2
