"""The drawings of a book, one for each goal, as SVG: states in rows by wait with their moves, or a grid of cells.

On paper a drawing is cut between its rows into as many sheets as it takes to be read."""
from __future__ import annotations

from html import escape
from math import ceil
from typing import Dict, List, Sequence, Tuple

from facts import DROPPED, KEPT, KINDS, LOST, NOT_ALLOWED, Facts
from layout import STATE_SPACE, Edge, Layout, Point

WIDTH, HEIGHT = 180.0, 50.0  # a state's box
PILL = 20.0  # the height of the label of a listed move, on top of the box
PITCH = 136.0  # from row to row
LEFT, TOP, RIGHT = 185.0, 46.0, 60.0  # room for the row headings, above the first row, and on the right
ROW = 6  # states in a row at most
SHRINK = 0.7  # how far a drawing may shrink to fit the window
FEW = 12  # up to so many states every arrow has its label

CELL_WIDTH, CELL_HEIGHT, COLUMNS = 42, 34, 32

PAPER_WIDTH, PAPER_HEIGHT = 1040.0, 670.0  # room for a sheet on A4 landscape, below its heading, in CSS pixels
LARGEST, SMALLEST = 0.9, 0.67  # the scale of a diagram on paper; its smallest text is 8 or 6 points high then
PAPER_ROWS = (6, 5, 4, 3)  # states in a row at most; what fits best is taken

WORDS = {KEPT: "kept", DROPPED: "DROPPED", LOST: "LOST", NOT_ALLOWED: "NOT ALLOWED"}
SHORT = {DROPPED: "DROP", LOST: "lost", NOT_ALLOWED: "n.a."}


def short(text: str, limit: int) -> str:
    return text if len(text) <= limit else text[:limit - 1].rstrip() + "…"


class Diagram:
    """One goal's drawing. Rows from top to bottom: stages rising and within them waits, then dropped, lost and not
    allowed states.

    For the screen it is whole, and its states can be picked; for paper it is kept narrow and given in sheets.
    """

    def __init__(self, facts: Facts, goal: int, per_row: int = ROW, paper: bool = False) -> None:
        self.facts = facts
        self.goal = goal
        self.per_row = per_row
        self.paper = paper
        self.few = facts.plant.states <= FEW
        self.rows, self.headings = self.row_list()
        self.listed = [(state, end, self.listed_sort(state)) for state in facts.of_kind(KEPT)
                       for end in facts.listed_ends(state, goal)]
        self.thin = self.thin_edges()
        # With few states every arrow is led round the boxes; with many only the listed ones.
        limit = PAPER_WIDTH / SMALLEST - LEFT - RIGHT if paper else None
        self.layout = Layout(self.rows, self.listed + (list(self.thin) if self.few else []), limit)
        self.entries = self.entry_places()

    def listed_sort(self, state: int) -> str:
        at_goal = self.facts.entry(state, self.goal).wait == 0 and not self.facts.leaves(state)
        return "onward" if at_goal else "listed"

    def thin_edges(self) -> Dict[Edge, List[int]]:
        """The arrows that are not listed for this goal: one line for each pair of states and sort, with its moves."""
        grouped: Dict[Edge, List[int]] = {}
        for start, move, end in self.facts.plant.arrows:
            if start in self.facts.last.rows and self.facts.entry(start, self.goal).move == move:
                continue
            sort = "other" if self.facts.in_service(move) else "out"
            grouped.setdefault((start, end, sort), []).append(move)
        return grouped

    def row_list(self) -> Tuple[List[List[int]], List[Tuple[str, str, int]]]:
        """The rows of states; and for each group of rows its heading, its second line and how many rows it has."""
        groups: Dict[Tuple[int, int, int], List[int]] = {}
        for state in range(self.facts.plant.states):
            kind = self.facts.kind(state)
            wait = self.facts.entry(state, self.goal).wait if kind == KEPT else 0
            groups.setdefault((KINDS.index(kind), self.facts.stages.get(state, 0), wait), []).append(state)
        rows: List[List[int]] = []
        headings: List[Tuple[str, str, int]] = []
        for (kind, stage, wait), states in sorted(groups.items()):
            parts = [states[at:at + self.per_row] for at in range(0, len(states), self.per_row)]
            rows += parts
            headings.append((*self.heading(KINDS[kind], stage, wait), len(parts)))
        return rows, headings

    def heading(self, kind: str, stage: int, wait: int) -> Tuple[str, str]:
        if kind == KEPT:
            under = f"in goal {self.goal}" if wait == 0 else "move to go" if wait == 1 else "moves to go, at most"
            if wait == 0 and stage > 1:
                under += ", or leaves"
            return (f"Stage {stage}, wait {wait}" if self.facts.plant.settles else f"Wait {wait}"), under
        return {DROPPED: ("Dropped", "lost by withdrawal"), LOST: ("Lost", "from the start"),
                NOT_ALLOWED: ("Not allowed", "always lost")}[kind]

    def centre(self, state: int) -> Point:
        return LEFT + self.layout.x[state], self.row_y(self.layout.row_of[state])

    def row_y(self, row: int) -> float:
        return TOP + row * PITCH + HEIGHT / 2

    def entry_places(self) -> Dict[Edge, float]:
        """Where on a box's underside each listed arrow from below arrives, spread so that heads do not cover."""
        below: Dict[int, List[Edge]] = {}
        for edge in self.listed:
            if self.layout.row_of[edge[1]] <= self.layout.row_of[edge[0]] and edge[0] != edge[1]:
                below.setdefault(edge[1], []).append(edge)
        places: Dict[Edge, float] = {}
        for state, edges in below.items():
            edges.sort(key=lambda edge: (self.layout.x[self.layout.chain(edge)[-2]], edge))
            for at, edge in enumerate(edges):
                places[edge] = self.centre(state)[0] + ((at + 0.5) / len(edges) - 0.5) * WIDTH * 0.8
        return places

    def width(self) -> float:
        return LEFT + self.layout.width() + RIGHT

    def svg(self) -> str:
        """The whole drawing, for the screen."""
        width, height = self.width(), len(self.rows) * PITCH
        start = (f'<svg class="diagram" viewBox="0 0 {width:.0f} {height:.0f}" width="{width:.0f}" '
                 f'style="min-width: {width * SHRINK:.0f}px" role="group" '
                 f'aria-label="Plant and book for goal {self.goal}">')
        return "\n".join([start, *self.content(0, len(self.rows)), "</svg>"])

    def fit(self) -> Tuple[int, float]:
        """The rows on each sheet of paper, and the scale."""
        return fit(self.width(), len(self.rows), PITCH, SMALLEST)

    def sheets(self) -> List[str]:
        """The drawing for paper. Arrows that go on to another sheet run off the edge."""
        per_sheet, scale = self.fit()
        return [self.sheet(row, min(row + per_sheet, len(self.rows)), scale)
                for row in range(0, len(self.rows), per_sheet)]

    def sheet(self, first: int, end: int, scale: float) -> str:
        width, height = self.width(), (end - first) * PITCH
        start = (f'<svg viewBox="0 {first * PITCH:.0f} {width:.0f} {height:.0f}" width="{width * scale:.0f}" '
                 f'height="{height * scale:.0f}">')
        return "\n".join([start, *self.content(first, end), "</svg>"])

    def content(self, first: int, end: int) -> List[str]:
        """What is seen of the rows from first to before end."""
        parts = self.bands(first, end)
        parts += [self.thin_arrow(edge, moves) for edge, moves in self.thin.items() if self.seen(edge, first, end)]
        parts += [self.listed_arrow(edge) for edge in self.listed if self.seen(edge, first, end)]
        return parts + [self.state(state) for state in range(self.facts.plant.states)
                        if first <= self.layout.row_of[state] < end]

    def seen(self, edge: Edge, first: int, end: int) -> bool:
        """Whether an arrow comes into these rows; a bent one may reach into the row beside it."""
        upper, lower = sorted(self.layout.row_of[state] for state in edge[:2])
        return upper - 1 < end and first <= lower + 1

    def bands(self, first: int, end: int) -> List[str]:
        """A stripe and a heading for each group of rows, as far as it is seen."""
        parts = []
        row = 0
        for at, (heading, under, count) in enumerate(self.headings):
            top, bottom = max(row, first), min(row + count, end)
            row += count
            if top >= bottom:
                continue
            y = top * PITCH
            parts.append(f'<rect class="band{at % 2}" x="0" y="{y:.0f}" width="{self.width():.0f}" '
                         f'height="{(bottom - top) * PITCH:.0f}"/>')
            parts.append(f'<text class="heading" x="12" y="{y + 66:.0f}">{heading}</text>')
            parts.append(f'<text class="under" x="12" y="{y + 84:.0f}">{under}</text>')
        return parts

    def state(self, state: int) -> str:
        """A state's box; on the screen it is a button that says in words what the book says."""
        kind = self.facts.kind(state)
        if self.paper:
            return f'<g class="state {kind}">{self.box(state)}</g>'
        sentence = escape(self.facts.sentence(state, self.goal))
        return (f'<g class="state {kind}" data-state="{state}" tabindex="0" role="button" aria-pressed="false" '
                f'aria-label="{sentence}"><title>{sentence}</title>{self.box(state)}</g>')

    def box(self, state: int) -> str:
        facts, kind = self.facts, self.facts.kind(state)
        x, y = self.centre(state)
        left, top = x - WIDTH / 2, y - HEIGHT / 2
        name = escape(short(facts.plant.state_names.get(state, ""), 21))
        goals = facts.plant.goals_of(state) if kind != NOT_ALLOWED else []
        word = f"wait {facts.entry(state, self.goal).wait}" if kind == KEPT else WORDS[kind]
        parts = [f'<rect class="frame" x="{left:.1f}" y="{top:.1f}" width="{WIDTH}" height="{HEIGHT}" rx="7"/>']
        if self.goal in goals and kind == KEPT:
            parts.append(f'<rect class="inner" x="{left + 4:.1f}" y="{top + 4:.1f}" width="{WIDTH - 8}" '
                         f'height="{HEIGHT - 8}" rx="4"/>')
        parts.append(f'<text x="{left + 10:.1f}" y="{y - 3:.1f}"><tspan class="number">{state}</tspan> {name}</text>')
        parts.append(f'<text class="word" x="{left + 10:.1f}" y="{y + 16:.1f}">{word}</text>')
        if facts.plant.settled(state):
            parts.append(f'<text class="ingoal" x="{x + WIDTH / 2 - 10:.1f}" y="{y - 3:.1f}">◆</text>')
        if goals:
            served = "goal " + ", ".join(str(goal) for goal in goals) if len(goals) <= 3 else f"{len(goals)} goals"
            parts.append(f'<text class="ingoal" x="{x + WIDTH / 2 - 10:.1f}" y="{y + 16:.1f}">★ {served}</text>')
        if kind == KEPT:
            parts.append(self.pill(state))
        return "".join(parts)

    def pill(self, state: int) -> str:
        """The label of the listed move, on top of the state's box."""
        x, y = self.centre(state)
        text, width = self.pill_text(state), self.pill_width(state)
        return (f'<rect class="pill" x="{x - width / 2:.1f}" y="{y - HEIGHT / 2 - PILL + 4:.1f}" width="{width:.1f}" '
                f'height="{PILL}" rx="9"/><text class="move" x="{x:.1f}" y="{y - HEIGHT / 2 - 2:.1f}">'
                f'{escape(text)}</text>')

    def pill_text(self, state: int) -> str:
        move = self.facts.entry(state, self.goal).move
        name = self.facts.plant.move_names.get(move)
        return f"move {move}" if name is None else short(f"{move} {name}", 18)

    def pill_width(self, state: int) -> float:
        return min(WIDTH - 36, 14 + 7.8 * len(self.pill_text(state)))

    def ends(self, edge: Edge) -> str:
        """The arrow's states, for the script that follows clicks."""
        return "" if self.paper else f' data-from="{edge[0]}" data-to="{edge[1]}"'

    def listed_arrow(self, edge: Edge) -> str:
        return (f'<path class="edge {edge[2]}"{self.ends(edge)} d="{self.listed_path(edge)}" '
                f'marker-end="url(#head-{edge[2]})"/>')

    def listed_path(self, edge: Edge) -> str:
        """From the label on the start's box to the end's box, through the way-points."""
        start, end, _ = edge
        x, y = self.centre(start)
        rise = y - HEIGHT / 2 - PILL + 4
        if self.layout.row_of[end] < self.layout.row_of[start]:
            return f"M{x:.1f},{rise:.1f}" + self.upward(edge, x, rise, self.entries[edge])
        turn = -1 if self.layout.x[self.layout.chain(edge)[1]] < self.layout.x[start] else 1
        side, pill = x + turn * (STATE_SPACE / 2 - 4), x + turn * self.pill_width(start) / 2
        around = f"M{pill:.1f},{rise + PILL / 2:.1f} C{side:.1f},{rise + PILL / 2:.1f} {side:.1f},{y - 20:.1f} "
        if start == end:
            return around + f"{side:.1f},{y:.1f} S{side:.1f},{y + 12:.1f} {x + WIDTH / 2 + 3:.1f},{y + 12:.1f}"
        if self.layout.row_of[end] == self.layout.row_of[start]:
            under, at = y + HEIGHT / 2 + 30, self.entries[edge]
            return around + (f"{side:.1f},{y:.1f} C{side:.1f},{under:.1f} {at:.1f},{under:.1f} "
                             f"{at:.1f},{y + HEIGHT / 2 + 3:.1f}")
        return around + f"{side:.1f},{y:.1f}" + self.downward(edge, side, y)

    def upward(self, edge: Edge, x: float, y: float, arrive: float) -> str:
        """Through the way-points to the underside of the end's box."""
        path = ""
        for item in self.layout.chain(edge)[1:-1]:
            row = self.row_y(self.layout.row(item))
            way = LEFT + self.layout.x[item]
            path += curve(x, y, way, row + HEIGHT / 2) + f" L{way:.1f},{row - HEIGHT / 2 - PILL:.1f}"
            x, y = way, row - HEIGHT / 2 - PILL
        return path + curve(x, y, arrive, self.centre(edge[1])[1] + HEIGHT / 2 + 3)

    def downward(self, edge: Edge, x: float, y: float) -> str:
        """Through the way-points to a corner of the end's box, beside its label."""
        path = ""
        for item in self.layout.chain(edge)[1:-1]:
            row = self.row_y(self.layout.row(item))
            way = LEFT + self.layout.x[item]
            path += curve(x, y, way, row - HEIGHT / 2 - PILL) + f" L{way:.1f},{row + HEIGHT / 2:.1f}"
            x, y = way, row + HEIGHT / 2
        at, top = self.centre(edge[1])
        corner = at + (-1 if x < at else 1) * (WIDTH / 2 - 5)
        return path + curve(x, y, corner, top - HEIGHT / 2 - 3)

    def thin_arrow(self, edge: Edge, moves: List[int]) -> str:
        sort, ends = edge[2], self.ends(edge)
        path, label = self.thin_path(edge)
        line = f'<path class="edge {sort}"{ends} d="{path}" marker-end="url(#head-{sort})"/>'
        if self.paper and not self.few:
            return line
        text = ", ".join(str(move) for move in moves)
        always = " always" if self.few else ""
        return line + (f'<text class="edge tag {sort}{always}"{ends} x="{label[0]:.1f}" y="{label[1]:.1f}">'
                       f'{text}</text>')

    def thin_path(self, edge: Edge) -> Tuple[str, Point]:
        """The line, and the place of its label."""
        start, end, sort = edge
        if start == end:
            return self.self_loop(start, sort)
        if self.few and abs(self.layout.row_of[start] - self.layout.row_of[end]) > 1:
            return self.led_round(edge)
        return self.bent(start, end, sort)

    def led_round(self, edge: Edge) -> Tuple[str, Point]:
        """A thin arrow over several rows, through its way-points."""
        (x, y), end = self.centre(edge[0]), self.centre(edge[1])
        ways = self.layout.chain(edge)[1:-1]
        first, last = LEFT + self.layout.x[ways[0]], LEFT + self.layout.x[ways[-1]]
        label = (first, self.row_y(self.layout.row(ways[0])))
        if end[1] > y:
            leave = nearest(x, first)
            return f"M{leave:.1f},{y + HEIGHT / 2:.1f}" + self.downward(edge, leave, y + HEIGHT / 2), label
        leave = x + (-1 if first < x else 1) * (WIDTH / 2 - 12)
        path = self.upward(edge, leave, y - HEIGHT / 2, nearest(end[0], last))
        return f"M{leave:.1f},{y - HEIGHT / 2:.1f}" + path, label

    def self_loop(self, state: int, sort: str) -> Tuple[str, Point]:
        x, y = self.centre(state)
        side = x - WIDTH / 2
        far = side - (20 if sort == "other" else 28)
        path = f"M{side:.1f},{y - 8:.1f} C{far:.1f},{y - 20:.1f} {far:.1f},{y + 20:.1f} {side - 2:.1f},{y + 10:.1f}"
        return path, (far + 6, y + 4)

    def bent(self, start: int, end: int, sort: str) -> Tuple[str, Point]:
        """A bent line between two boxes; the way back bends to the other side, withdrawn arrows further."""
        (x0, y0), (x1, y1) = self.centre(start), self.centre(end)
        length = max(((x1 - x0) ** 2 + (y1 - y0) ** 2) ** 0.5, 1.0)
        bend = (0.10 if sort == "other" else 0.17) * length + 14
        if y0 == y1 and length > 1.5 * STATE_SPACE:
            bend = 100 if sort == "other" else 116  # past the boxes between
        middle = ((x0 + x1) / 2 - (y1 - y0) / length * bend, (y0 + y1) / 2 + (x1 - x0) / length * bend)
        begin, finish = border((x0, y0), middle), border((x1, y1), middle)
        path = f"M{begin[0]:.1f},{begin[1]:.1f} Q{middle[0]:.1f},{middle[1]:.1f} {finish[0]:.1f},{finish[1]:.1f}"
        near, far = (0.36, 0.16) if sort == "other" else (0.16, 0.36)  # labels of two lines side by side stand apart
        label = [near * one + 0.48 * mid + far * other for one, mid, other in zip(begin, middle, finish)]
        return path, (label[0], label[1] + 4)


def nearest(centre: float, wanted: float) -> float:
    """The place on a box's upper or lower side that is nearest to the one wanted."""
    return min(max(wanted, centre - WIDTH / 2 + 12), centre + WIDTH / 2 - 12)


def curve(x0: float, y0: float, x1: float, y1: float) -> str:
    """A curve that leaves and arrives upright."""
    half = (y0 + y1) / 2
    return f" C{x0:.1f},{half:.1f} {x1:.1f},{half:.1f} {x1:.1f},{y1:.1f}"


def border(centre: Point, towards: Point) -> Point:
    """Where the line from a box's centre towards a point leaves the box."""
    dx, dy = towards[0] - centre[0], towards[1] - centre[1]
    scale = min((WIDTH / 2 + 2) / abs(dx) if dx else 1e9, (HEIGHT / 2 + 2) / abs(dy) if dy else 1e9)
    return centre[0] + dx * scale, centre[1] + dy * scale


def markers() -> str:
    """The arrow heads, shared by all drawings of the page."""
    heads = [("listed", 8), ("onward", 8), ("other", 7), ("out", 7)]
    shapes = "".join(f'<marker id="head-{sort}" viewBox="-1 -1 12 12" refX="9" refY="5" markerUnits="userSpaceOnUse" '
                     f'markerWidth="{size + 3}" markerHeight="{size + 3}" orient="auto-start-reverse">'
                     f'<path class="head {sort}" d="M0,0 L10,5 L0,10 z"/></marker>' for sort, size in heads)
    return f'<svg class="markers" width="0" height="0" aria-hidden="true"><defs>{shapes}</defs></svg>'


def fit(width: float, rows: int, pitch: float, smallest: float) -> Tuple[int, float]:
    """The rows on each sheet of paper, and the scale: as few sheets as can be read, then as large as there is room."""
    widest = min(LARGEST, PAPER_WIDTH / width)
    most = max(1, int(PAPER_HEIGHT / (pitch * min(widest, smallest))))
    per_sheet = ceil(rows / ceil(rows / most))
    return per_sheet, min(widest, PAPER_HEIGHT / (pitch * per_sheet))


def paper_sheets(facts: Facts, goal: int) -> List[str]:
    """A goal's diagram for paper, with as many states in a row as can be read best, on the fewest sheets."""
    drawings = [Diagram(facts, goal, PAPER_ROWS[0], paper=True)]
    for per_row in PAPER_ROWS[1:]:
        if any(len(row) > per_row for row in drawings[-1].rows):
            drawings.append(Diagram(facts, goal, per_row, paper=True))
    return min(drawings, key=faults).sheets()


def faults(drawing: Diagram) -> Tuple[float, int, float]:
    """What counts against a drawing on paper, in this order: text that is too small, sheets, smaller text."""
    per_sheet, scale = drawing.fit()
    return max(0.0, round(SMALLEST - scale, 2)), ceil(len(drawing.rows) / per_sheet), -scale


def grid_sheets(facts: Facts, goal: int) -> List[str]:
    """A cell for each state, in the order of their numbers, cut into what a sheet of paper holds."""
    width, states = COLUMNS * CELL_WIDTH + 2, range(facts.plant.states)
    rows = [states[at:at + COLUMNS] for at in range(0, len(states), COLUMNS)]
    per_sheet, _ = fit(width, len(rows), CELL_HEIGHT, 1.0)
    return [grid(facts, goal, rows[at:at + per_sheet]) for at in range(0, len(rows), per_sheet)]


def grid(facts: Facts, goal: int, rows: Sequence[Sequence[int]]) -> str:
    """Some rows of cells; a cell leads to its row in the table."""
    width, height = COLUMNS * CELL_WIDTH + 2, len(rows) * CELL_HEIGHT
    cells = "\n".join(cell(facts, state, goal) for row in rows for state in row)
    return (f'<svg class="grid" viewBox="0 {rows[0][0] // COLUMNS * CELL_HEIGHT} {width} {height}" width="{width}" '
            f'height="{height}" role="group" aria-label="States and waits for goal {goal}">\n{cells}\n</svg>')


def cell(facts: Facts, state: int, goal: int) -> str:
    kind = facts.kind(state)
    x, y = state % COLUMNS * CELL_WIDTH + 1, state // COLUMNS * CELL_HEIGHT + 1
    star = "★" if kind == KEPT and goal in facts.plant.goals_of(state) else ""
    word = f"w {facts.entry(state, goal).wait}{star}" if kind == KEPT else SHORT[kind]
    mark = f'<text class="mark" x="{x + CELL_WIDTH - 8}" y="{y + 9}">◆</text>' * facts.plant.settled(state)
    return (f'<a href="#s{state}"><g class="cell {kind}"><title>{escape(facts.sentence(state, goal))}</title>'
            f'<rect x="{x}" y="{y}" width="{CELL_WIDTH - 2}" height="{CELL_HEIGHT - 2}" rx="3"/>{mark}'
            f'<text class="number" x="{x + CELL_WIDTH / 2 - 1}" y="{y + 14}">{state}</text>'
            f'<text class="word" x="{x + CELL_WIDTH / 2 - 1}" y="{y + 27}">{word}</text></g></a>')
