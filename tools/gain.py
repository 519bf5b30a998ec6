#!/usr/bin/env python3
"""Says what a repair would gain: which lost states would be kept again, to be read against a coil list.

    gain.py PLANT MASK [MASK...] MASK

PLANT is a plant file in either form, or - for standard input; masks are decimal or 0x hex. The first mask is the moves
in service, each further one but the last is withdrawn in turn. The last one is the moves that come back: it is looked
at and not done. All facts come from planbook's listings: one without the last mask, one made with the moves in service
and those that come back.
"""
from __future__ import annotations

import sys
from typing import List

from command import run_report
from facts import move_list, state_lines
from listing import book, gained, service
from plant import Plant


def report(plant: Plant, masks: List[int]) -> List[str]:
    """The moves that would come back, the counts, then a line for each state that would be gained."""
    serving, back = service(masks[:-1]), masks[-1]
    before, after = book(plant, masks[:-1]), book(plant, [serving | back])
    states = gained(before, after)
    lost = plant.states - len(before.rows)
    return [f"would come back in service: {move_list(plant, back & ~serving)}",
            f"{len(states)} of {lost} lost states would be gained, {len(after.rows)} would then be kept",
            *state_lines(plant, states)]


if __name__ == "__main__":
    sys.exit(run_report(__doc__, report, sys.argv[1:]))
