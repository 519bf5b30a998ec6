#!/usr/bin/env python3
"""Says what a lock-out would cost: which kept states it would drop, to be read against a coil list.

    cost.py PLANT MASK [MASK...] MASK

PLANT is a plant file in either form, or - for standard input; masks are decimal or 0x hex. The first mask is the moves
in service, each further one is withdrawn in turn. The last one is the lock-out: it is looked at and not done. All facts
come from planbook's listings: one without the last mask, one with it.
"""
from __future__ import annotations

import sys
from typing import List

from command import run_report
from facts import move_list, state_lines
from listing import book, dropped, service
from plant import Plant


def report(plant: Plant, masks: List[int]) -> List[str]:
    """The moves that would go, the counts, then a line for each state that would be dropped."""
    before, after = book(plant, masks[:-1]), book(plant, masks)
    states = dropped(before, after)
    going = service(masks[:-1]) & masks[-1]
    return [f"would go out of service: {move_list(plant, going)}",
            f"{len(states)} of {len(before.rows)} kept states would be dropped, {len(after.rows)} would stay kept",
            *state_lines(plant, states)]


if __name__ == "__main__":
    sys.exit(run_report(__doc__, report, sys.argv[1:]))
