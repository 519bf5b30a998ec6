#!/usr/bin/env python3
"""Draws a plant with its control book as one HTML file that needs nothing else.

    picture.py OUT.html PLANT MASK [MASK...]

OUT.html may be - for standard output. PLANT is a plant file in either form, or - for standard input; masks are decimal
or 0x hex. The first mask makes the book, each further one withdraws moves. All facts about the book come from
planbook's listings: one with the first mask, one with all masks.
"""
from __future__ import annotations

import os
import sys
from html import escape
from typing import List

from command import masks_from, run_command
from drawing import FEW, Diagram, grid_sheets, markers, paper_sheets
from facts import DROPPED, KEPT, LOST, NOT_ALLOWED, Facts, gather, move_list, ranges
from listing import service
from plant import PlantError, read_plant, shown_name, write_file

# Plants with more than this are shown as a grid of cells.
DIAGRAM_STATES = 60
DIAGRAM_ARROWS = 600
DIAGRAM_LISTED = 240  # arrows of listed moves, for one goal


def page(facts: Facts) -> str:
    """The whole HTML file."""
    title = escape(facts.title)
    parts = ['<!DOCTYPE html>', '<html lang="en"><head><meta charset="utf-8"/>',
             '<meta name="viewport" content="width=device-width"/>', f"<title>Control book: {title}</title>",
             f"<style>{part('picture.css')}{switch_style(facts)}</style></head><body>",
             markers(), f"<h1>Control book: {title}</h1>"]
    # On paper the legend comes before the drawings; on the screen the style puts it below them.
    parts += summary(facts) + ['<div class="middle">'] + legend(facts) + switches(facts) + ["</div>"] + table(facts)
    if not collapsed(facts):
        parts.append(f"<script>{part('picture.js')}</script>")
    return "\n".join(parts + ["</body></html>", ""])


def part(name: str) -> str:
    """A file beside this one that goes into the page as it is."""
    with open(os.path.join(os.path.dirname(os.path.abspath(__file__)), name), encoding="utf-8") as file:
        return file.read()


def collapsed(facts: Facts) -> bool:
    """Whether the plant is too large to be drawn with arrows that a person can follow."""
    if facts.plant.states > DIAGRAM_STATES or len(facts.plant.arrows) > DIAGRAM_ARROWS:
        return True
    return any(sum(len(facts.listed_ends(state, goal)) for state in facts.last.rows) > DIAGRAM_LISTED
               for goal in range(facts.plant.goals))


def switch_style(facts: Facts) -> str:
    """Shows the drawing of the chosen goal; works without scripts, and goal 0 is chosen at first."""
    rules = []
    for goal in range(facts.plant.goals):
        rules.append(f"#goal{goal}:checked ~ .views #view{goal} {{ display: block; }}")
        rules.append(f"#goal{goal}:checked ~ .choice[for=goal{goal}] {{ background: var(--label); color: #fff; }}")
        rules.append(f"#goal{goal}:focus-visible ~ .choice[for=goal{goal}] {{ outline: 3px solid var(--ring); }}")
    rules += [f"#show-{sort}:not(:checked) ~ .views .edge.{sort}:not(.on) {{ display: none; }}"
              for sort in ("other", "out")]
    return "\n".join(rules) + "\n"


def summary(facts: Facts) -> List[str]:
    """The verdict in words and counts, before any drawing."""
    masks = facts.masks
    made = f"Made with mask {masks[0]} (0x{masks[0]:x})"
    withdrawn = ", then withdrawn: " + ", ".join(f"{mask} (0x{mask:x})" for mask in masks[1:]) if masks[1:] else ""
    inside = escape(move_list(facts.plant, service(masks)))
    outside = escape(move_list(facts.plant, ~service(masks)))
    parts = [f'<p>{made}{withdrawn}.</p>', f'<p><b>In service:</b> {inside}.<br/><b>Out of service:</b> {outside}.</p>',
             '<div class="counts">']
    for kind, text in ((KEPT, "kept"), (DROPPED, "dropped"), (LOST, "lost from the start"),
                       (NOT_ALLOWED, "not allowed")):
        parts.append(f'<div class="count {kind}"><b>{len(facts.of_kind(kind))}</b>{text}</div>')
    parts.append("</div>")
    if len(masks) > 1:
        parts.append(f'<p class="say"><b>Dropped by the withdrawal:</b> {ranges(facts.of_kind(DROPPED))}</p>')
    lost = sorted(set(range(facts.plant.states)) - set(facts.last.rows))
    parts.append(f'<p class="say"><b>Lost now, all together:</b> {ranges(lost)}</p>')
    return parts


def switches(facts: Facts) -> List[str]:
    """The goal switch and the drawings: on the screen one at a time, on paper all."""
    goals = range(facts.plant.goals)
    parts = ["<div>", '<h2 class="screen">The way to each goal</h2>']
    for goal in goals:
        checked = ' checked="checked"' if goal == 0 else ""
        parts.append(f'<input class="switch" type="radio" name="goal" id="goal{goal}"{checked}/>'
                     f'<label class="choice" for="goal{goal}">{escape(facts.goal_text(goal))}</label>')
    if collapsed(facts):
        parts.append('<p class="hint">A cell for each state. Point at a cell to read its move; click it to go to its '
                     'row in the table.</p>')
    else:
        for sort, text in (("other", "other arrows in service"), ("out", "withdrawn arrows")):
            parts.append(f'<input class="tick" type="checkbox" id="show-{sort}" checked="checked"/>'
                         f'<label class="tick" for="show-{sort}">{text}</label>')
        parts.append('<p class="hint">Click a state to see its own arrows alone; click it again to see all. '
                     'Or go to it with Tab and press Enter; Escape shows all.</p>')
    parts.append(f'<div class="views{"" if facts.plant.states <= FEW else " many"}">')
    for goal in goals:
        drawing = on_sheets(facts, goal, grid_sheets(facts, goal)) if collapsed(facts) else Diagram(facts, goal).svg()
        parts.append(f'<div class="view" id="view{goal}">{drawing}</div>')
    if not collapsed(facts):
        parts.append('<div class="paper">')
        parts += [on_sheets(facts, goal, paper_sheets(facts, goal)) for goal in goals]
        parts.append("</div>")
    return parts + ["</div>", "</div>"]


def on_sheets(facts: Facts, goal: int, drawings: List[str]) -> str:
    """The parts of a goal's drawing; on paper each has a heading, for sheets come apart."""
    parts = []
    for number, drawing in enumerate(drawings, start=1):
        which = f", sheet {number} of {len(drawings)}" if len(drawings) > 1 else ""
        parts.append(f'<div class="sheet"><h3>The way to {escape(facts.goal_text(goal))} '
                     f'<small>{escape(facts.title)}{which}</small></h3>{drawing}</div>')
    return "\n".join(parts)


def legend(facts: Facts) -> List[str]:
    """What the colours, words and lines mean."""
    plain = not collapsed(facts)
    settles = facts.plant.settles
    lines = [chip(KEPT, "kept", "can be brought to every goal, again and again" + ", and settles" * settles),
             chip(DROPPED, "DROPPED" if plain else "DROP", "kept with the first mask, lost since a withdrawal"),
             chip(LOST, "LOST" if plain else "lost", "allowed, but lost with the first mask already"),
             chip(NOT_ALLOWED, "NOT ALLOWED" if plain else "n.a.",
                  "not allowed: strip must never be here; always lost"),
             f"<div><b>{'wait 3' if plain else 'w 3'}</b> the goal is met{', or the stage left,' * settles} within 3 "
             "moves, whatever happens</div>",
             "<div><b>★</b> the state is in the goal</div>"]
    if settles:
        lines += ["<div><b>◆</b> the state is settled: in the end strip stays in such states</div>",
                  "<div><b>stage 2</b> at most 1 state that is not settled is still to come, this one counted</div>"]
    if plain:
        lines += [stroke("listed", "the listed move (label on the box): make this; any of its arrows may be followed"),
                  stroke("onward", "the listed move in a goal state: to go on from there when every goal is met"),
                  stroke("other", "another move in service (small figures: its number)"),
                  stroke("out", "a move out of service")]
    return ["<div>", "<h2>Legend</h2>", '<div class="legend">'] + lines + ["</div>", "</div>"]


def chip(kind: str, word: str, text: str) -> str:
    return f'<div><span class="chip {kind}">{word}</span> {text}</div>'


def stroke(sort: str, text: str) -> str:
    return (f'<div><svg width="62" height="14" aria-hidden="true"><path class="edge {sort}" d="M2,7 L58,7" '
            f'marker-end="url(#head-{sort})"/></svg> {text}</div>')


def table(facts: Facts) -> List[str]:
    """One row for each state: for each goal the wait, the move and where it may lead."""
    heads = "".join(f"<th>{escape(facts.goal_text(goal))}: wait, move</th>" for goal in range(facts.plant.goals))
    name = "<th>name</th>" if facts.plant.state_names else ""
    stage = "<th>settled</th><th>stage</th>" if facts.plant.settles else ""
    parts = ['<div class="all">', "<h2>All states</h2>",
             f"<table><thead><tr><th>state</th>{name}<th>book</th>{stage}{heads}</tr></thead><tbody>"]
    parts += [table_row(facts, state) for state in range(facts.plant.states)]
    return parts + ["</tbody></table>", "</div>"]


def table_row(facts: Facts, state: int) -> str:
    kind = facts.kind(state)
    name = f"<td>{escape(facts.plant.state_names.get(state, ''))}</td>" if facts.plant.state_names else ""
    start = f'<tr id="s{state}" class="{kind}"><td class="number"><b>{state}</b></td>{name}'
    if kind == KEPT:
        cells = "".join(f"<td>{table_entry(facts, state, goal)}</td>" for goal in range(facts.plant.goals))
        return f"{start}<td>kept</td>{stage_cells(facts, state)}{cells}</tr>"
    why = {DROPPED: "lost since a withdrawal", LOST: "lost with the first mask already",
           NOT_ALLOWED: "lost: not allowed"}[kind]
    word = "<b>DROPPED</b>" if kind == DROPPED else "lost"
    return f'{start}<td>{word}</td>{stage_cells(facts, state)}<td colspan="{facts.plant.goals}">{why}</td></tr>'


def stage_cells(facts: Facts, state: int) -> str:
    """In a plant that must settle: whether the state is settled, and its stage."""
    if not facts.plant.settles:
        return ""
    return f"<td>{'◆ settled' if facts.plant.settled(state) else 'no'}</td><td>{facts.stages.get(state, '')}</td>"


def table_entry(facts: Facts, state: int, goal: int) -> str:
    entry = facts.entry(state, goal)
    ends = ranges(facts.listed_ends(state, goal)).replace(", ", " or ")
    return f"<b>{entry.wait}</b>, {escape(facts.move_text(entry.move))} → {ends}"


def draw(out: str, source: str, *words: str) -> None:
    masks = masks_from(words)
    if out != "-" and not out.endswith(".html"):
        raise PlantError(f"{out}: a picture's name ends in .html, or is - for standard output")
    if out != "-" and os.path.realpath(out) == os.path.realpath(source):
        raise PlantError(f"{out}: is the plant; give another name for the picture")
    # A file's name need not be text.
    title = os.fsencode(os.path.basename(shown_name(source))).decode("utf-8", "replace")
    facts = gather(title, read_plant(source), masks)
    write_file(out, page(facts).encode())


if __name__ == "__main__":
    sys.exit(run_command(__doc__, 3, draw, sys.argv[1:]))
