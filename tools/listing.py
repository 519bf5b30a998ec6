"""Runs planbook on a plant and masks, and reads the listing it prints. Nothing about a book is worked out here;
which states a withdrawal drops or a return gains is read off two listings."""
from __future__ import annotations

import os
import re
import struct
import subprocess
from dataclasses import dataclass
from typing import Dict, List, Optional, Sequence, Tuple

from console import Failure, MachineError
from plant import Plant, to_bytes

TOP = os.path.dirname(os.path.dirname(os.path.abspath(__file__)))
MAX_MASKS = 16
TIME_LIMIT = 600  # seconds; the largest plant takes far less


class Refused(Failure):
    """The planner refused: its number, and what that means."""

    status = 1


class PlannerError(MachineError):
    """The planner is missing, or did not print what it should."""


@dataclass
class Entry:
    wait: int
    move: int


@dataclass
class Book:
    """A listing as read: the kept states' entries, one per goal, and the number of moves in service."""

    rows: Dict[int, List[Entry]]
    in_service: int


def mask_from(text: str) -> Optional[int]:
    """A mask given in decimal or 0x hex, or None if it is none."""
    if re.fullmatch(r"0[xX]0*[0-9a-fA-F]{1,8}", text):
        return int(text, 16)
    if re.fullmatch(r"0*[0-9]{1,10}", text) and int(text, 10) < 1 << 32:
        return int(text, 10)
    return None


def service(masks: Sequence[int]) -> int:
    """The moves in service after all masks."""
    mask = masks[0]
    for withdrawn in masks[1:]:
        mask &= ~withdrawn
    return mask


def planner() -> str:
    """The planner's path: PLANBOOK_BIN where it is set, else the one built in this repository."""
    path = os.environ.get("PLANBOOK_BIN") or os.path.join(TOP, "target", "bin", "planbook")
    if not os.path.isfile(path) or not os.access(path, os.X_OK):
        raise PlannerError("planbook is not there: ./run builds it, or PLANBOOK_BIN names another one")
    return path


def book(plant: Plant, masks: List[int]) -> Book:
    """The last book of these masks, from planbook's own words."""
    words = to_bytes(plant) + struct.pack(f"<{len(masks)}I", *masks)
    try:
        done = subprocess.run([planner()], input=words, capture_output=True, timeout=TIME_LIMIT, check=False)
    except (OSError, subprocess.TimeoutExpired):
        raise PlannerError("planbook could not be run") from None
    check_ending(done.returncode, done.stderr)
    text = done.stdout.decode("ascii", "replace")
    lines = text.splitlines()
    first = lines[0] if lines else ""
    if first == "bad masks":
        raise Refused(f"bad masks: planbook takes 1 to {MAX_MASKS} whole masks after the plant")
    if first.startswith("refused "):
        raise Refused(f"{first}: {meaning(first.split()[1])}")
    if not text.endswith("\n"):
        raise PlannerError("planbook's listing is not whole")
    found = parsed(plant, lines)
    if bin(service(masks)).count("1") != found.in_service:
        raise PlannerError("planbook counts other moves in service than these masks leave")
    return found


def check_ending(status: int, errors: bytes) -> None:
    """A planner that was killed, ended otherwise than it should or complained has printed nothing to rely on."""
    if status < 0:
        raise PlannerError(f"planbook was killed by signal {-status}")
    if status > 0:
        raise PlannerError(f"planbook could not be run: it ended with status {status}")
    if errors:
        raise PlannerError(errors.decode("utf-8", "replace").splitlines()[0])


def meaning(number: str) -> str:
    """What a refusal's number means and what to do, as tools/refusals.txt has it."""
    with open(os.path.join(TOP, "tools", "refusals.txt"), encoding="utf-8") as file:
        for line in file:
            if line.startswith(number + " "):
                return line.strip().split(" ", 1)[1]
    return "this number is not one that planbook gives; is it the right program?"


def parsed(plant: Plant, lines: List[str]) -> Book:
    """The book of a listing; each state in rising order is lost or has a line for each goal."""
    head = re.fullmatch(r"(\d+) of (\d+) kept, (\d+) moves in service", lines[0] if lines else "")
    if not head or int(head[2]) != plant.states:
        raise PlannerError("planbook printed no listing of this plant")
    rows: Dict[int, List[Entry]] = {}
    at = 1
    for state in range(plant.states):
        if lines[at:at + 1] == [f"{state} lost"]:
            at += 1
        else:
            rows[state] = [entry(lines[at + goal:at + goal + 1], state, goal) for goal in range(plant.goals)]
            at += plant.goals
    if at != len(lines) or len(rows) != int(head[1]):
        raise PlannerError("planbook's listing does not add up")
    return Book(rows, int(head[3]))


def entry(line: List[str], state: int, goal: int) -> Entry:
    found = re.fullmatch(rf"{state} {goal} (\d+) (\d+)", line[0] if line else "")
    if not found:
        raise PlannerError(f"planbook's listing has no line for state {state}, goal {goal}")
    return Entry(int(found[1]), int(found[2]))


def dropped(before: Book, after: Book) -> List[int]:
    """The states kept before a withdrawal and lost after it, by rising number."""
    return beyond(before, after, "lost before a withdrawal and kept after it")


def gained(before: Book, after: Book) -> List[int]:
    """The states lost before a return and kept after it, by rising number."""
    return beyond(after, before, "kept before a return and lost after it")


def beyond(more: Book, fewer: Book, contrary: str) -> List[int]:
    """The states kept with more moves in service and lost with fewer, by rising number."""
    # No state is kept with fewer alone; contrary is what it would be. So the states listed and those kept with fewer
    # add up to those kept with more.
    wrong = sorted(set(fewer.rows) - set(more.rows))
    if wrong:
        raise PlannerError(f"planbook's listings do not add up: state {wrong[0]} is {contrary}")
    return sorted(set(more.rows) - set(fewer.rows))


def ends_of(plant: Plant) -> Dict[Tuple[int, int], List[int]]:
    """The states that each state and move may lead to."""
    ends: Dict[Tuple[int, int], List[int]] = {}
    for start, move, end in plant.arrows:
        ends.setdefault((start, move), []).append(end)
    return ends
