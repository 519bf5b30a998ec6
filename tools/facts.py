"""What a picture shows: a plant, the masks, the book after all of them and the states dropped since the first.
Besides, how the tools write moves and states."""
from __future__ import annotations

from dataclasses import dataclass
from typing import Dict, List, Sequence, Set, Tuple

from listing import Book, Entry, PlannerError, book, dropped, ends_of, service
from plant import Plant

KEPT, DROPPED, LOST, NOT_ALLOWED = "kept", "dropped", "lost", "not-allowed"
KINDS = (KEPT, DROPPED, LOST, NOT_ALLOWED)


@dataclass
class Facts:
    title: str
    plant: Plant
    masks: List[int]
    dropped: Set[int]
    last: Book
    ends: Dict[Tuple[int, int], List[int]]
    stages: Dict[int, int]  # of the kept states

    def in_service(self, move: int) -> bool:
        return service(self.masks) >> move & 1 == 1

    def kind(self, state: int) -> str:
        """Kept in the last book; dropped: kept in the first book only; lost in both; or not allowed at all."""
        if state in self.last.rows:
            return KEPT
        if state in self.dropped:
            return DROPPED
        return LOST if self.plant.allowed(state) else NOT_ALLOWED

    def of_kind(self, kind: str) -> List[int]:
        return [state for state in range(self.plant.states) if self.kind(state) == kind]

    def entry(self, state: int, goal: int) -> Entry:
        return self.last.rows[state][goal]

    def listed_ends(self, state: int, goal: int) -> List[int]:
        """Where the move listed for a kept state may lead."""
        return self.ends.get((state, self.entry(state, goal).move), [])

    def leaves(self, state: int) -> bool:
        """Whether a kept state's move leads wholly into earlier stages: of its stage those do that are not settled."""
        return self.plant.settles and not self.plant.settled(state)

    def move_text(self, move: int) -> str:
        return named("move", move, self.plant.move_names)

    def goal_text(self, goal: int) -> str:
        return named("goal", goal, self.plant.goal_names)

    def state_text(self, state: int) -> str:
        return named("state", state, self.plant.state_names)

    def sentence(self, state: int, goal: int) -> str:
        """All that the book says of a state and goal, for tooltips."""
        kind = self.kind(state)
        if kind != KEPT:
            why = {DROPPED: "dropped (kept at first, lost now)", LOST: "lost", NOT_ALLOWED: "not allowed, so lost"}
            return f"{self.state_text(state)}: {why[kind]}"
        entry = self.entry(state, goal)
        ends = ranges(self.listed_ends(state, goal))
        stage = ""
        if self.plant.settles:
            settled = "settled" if self.plant.settled(state) else "not settled"
            stage = f" {settled}, stage {self.stages[state]};"
        return f"{self.state_text(state)}: kept;{stage} wait {entry.wait} for goal {goal}; " \
               f"{self.move_text(entry.move)}, leads to {ends}"


def gather(title: str, plant: Plant, masks: List[int]) -> Facts:
    """Two runs of planbook: with the first mask alone, and with all."""
    first, last, ends = book(plant, masks[:1]), book(plant, masks), ends_of(plant)
    return Facts(title, plant, masks, set(dropped(first, last)), last, ends, stages(plant, last, ends))


def stages(plant: Plant, last: Book, ends: Dict[Tuple[int, int], List[int]]) -> Dict[int, int]:
    """The kept states' stages: one more than the most states that are not settled, itself included, that the listed
    moves can lead through. The listing leaves them out, and this is how they show in it."""
    after = {state: {end for entry in row for end in ends.get((state, entry.move), [])}
             for state, row in last.rows.items()}
    before: Dict[int, Set[int]] = {state: set() for state in after}
    for state, states in after.items():
        for end in states & after.keys():
            before[end].add(state)
    found = {state: 1 for state in after}
    waiting = sorted(after) if plant.settles else []
    while waiting:
        state = waiting.pop()
        stage = max(found[end] for end in after[state]) + (not plant.settled(state))
        if stage > plant.states:
            raise PlannerError("planbook's listing does not add up: its moves may never settle")
        if stage > found[state]:
            found[state] = stage
            waiting += before[state]
    return found


def named(kind: str, number: int, names: Dict[int, str]) -> str:
    return f"{kind} {number} {names[number]}" if number in names else f"{kind} {number}"


def move_list(plant: Plant, mask: int) -> str:
    """The plant's moves in a mask, with their names; a name may have a comma in it."""
    moves = [named("move", move, plant.move_names) for move in range(plant.moves) if mask >> move & 1]
    return "; ".join(moves) or "no move"


def state_lines(plant: Plant, states: List[int]) -> List[str]:
    """The numbers in a column, then, set off from them, the names that there are: a name may begin with a number."""
    width = max((len(str(state)) for state in states), default=0)
    return [f"{state:{width}}  {plant.state_names.get(state, '')}".rstrip() for state in states]


def ranges(numbers: Sequence[int]) -> str:
    """Rising numbers as people write them: 1, 4 to 7, 9."""
    parts: List[str] = []
    at = 0
    while at < len(numbers):
        end = at
        while end + 1 < len(numbers) and numbers[end + 1] == numbers[end] + 1:
            end += 1
        parts += [f"{numbers[at]} to {numbers[end]}"] if end > at + 1 else [str(n) for n in numbers[at:end + 1]]
        at = end + 1
    return ", ".join(parts) if parts else "none"
