#!/usr/bin/env python3
"""Says which states the row of a state can depend on: those that it can come to by moves in service.

    reach.py STATE PLANT MASK

STATE is a state's number, or its name in the plant's text. PLANT is a plant file in either form, or - for standard
input; the mask, decimal or 0x hex, is the moves in service. Another plant with as many states, moves and goals, of the
same sort and made with the same mask, has the same row for the state if it agrees on the labels and on the arrows in
service of every state listed. Whether the plant and the mask are taken is asked of planbook.
"""
from __future__ import annotations

import os
import re
import sys
from typing import Dict, List

from command import masks_from, run_command, say_lines
from facts import move_list, state_lines
from listing import book
from plant import Plant, PlantError, read_plant, shown


def reach(plant: Plant, state: int, mask: int) -> List[int]:
    """The states that a state can come to by moves in service, itself included, by rising number. States that are not
    allowed are gone through as any others."""
    ends: Dict[int, List[int]] = {}
    for start, move, end in plant.arrows:
        if mask >> move & 1:
            ends.setdefault(start, []).append(end)
    found, waiting = {state}, [state]
    while waiting:
        for end in ends.get(waiting.pop(), []):
            if end not in found:
                found.add(end)
                waiting.append(end)
    return sorted(found)


def state_from(plant: Plant, word: str) -> int:
    """The state that a word of the command line names. Digits alone are a number, also where a state is called so."""
    last = plant.states - 1
    if re.fullmatch(r"[0-9]+", word):
        digits = word.lstrip("0") or "0"
        if len(digits) > 9 or int(digits) > last:
            raise PlantError(f"there is no state {shown(word)}: the plant's states are 0 to {last}")
        return int(digits)
    # In UTF-8, whatever the terminal is set to.
    return plant.state_named(os.fsencode(word).decode("utf-8", "surrogateescape").strip())


def report(plant: Plant, state: int, mask: int) -> List[str]:
    """The moves in service, how many states count and how many do not, then a line for each state that counts."""
    book(plant, [mask])  # planbook says what is refused
    states = reach(plant, state, mask)
    name = f" ({plant.state_names[state]})" if state in plant.state_names else ""
    others = plant.states - len(states)
    return [f"in service: {move_list(plant, mask)}",
            f"the row of state {state}{name} can depend on {len(states)} of {plant.states} states",
            f"{others or 'no'} other{'s' * (others != 1)} can be remodelled without a second look at it",
            *state_lines(plant, states)]


def main(words: List[str]) -> int:
    def work(word: str, source: str, *last: str) -> None:
        if len(last) > 1:
            raise PlantError(f"give one mask, the moves in service, and not {len(last)}")
        mask, = masks_from(last)
        plant = read_plant(source)
        say_lines(report(plant, state_from(plant, word), mask))

    return run_command(__doc__, 3, work, words)


if __name__ == "__main__":
    sys.exit(main(sys.argv[1:]))
