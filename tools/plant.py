#!/usr/bin/env python3
"""The text form of a plant, and its conversion to the plant's bytes and back.

    plant.py encode IN.txt OUT.bin    text to bytes
    plant.py decode IN.bin OUT.txt    bytes to text
    plant.py check IN                 say whether IN (text or bytes) is a good plant

docs/USING.md describes the text form. IN or OUT may be -, for standard input or output. A plant that breaks a rule gets
one line on standard error and exit status 2, a fault of the machine one line and 3; nothing is written then.
"""
from __future__ import annotations

import errno
import os
import re
import struct
import sys
from dataclasses import dataclass, field
from typing import Callable, Dict, Iterator, List, NoReturn, Optional, Tuple

from console import Failure, MachineError, complain, run, say, say_bytes

Arrow = Tuple[int, int, int]  # from, move, to

MAX_STATES = 1024
MAX_MOVES = 32
MAX_GOALS = 8
MAX_ARROWS = 8192
MAX_FILE = 8 * 1024 * 1024  # no plant needs a longer file, comments included
MAX_NAME = 40
SETTLED = 1 << 9  # the label's bit for a settled state, in a plant that must settle
ENDS_ON_A_LINE = 16
HEADER = struct.Struct("<8H")
ARROW = struct.Struct("<3H")


# Errors of the file's name that was given, and not of the machine.
NAME_ERRORS = (errno.ENOENT, errno.ENOTDIR, errno.EISDIR, errno.ENAMETOOLONG, errno.ELOOP)


class PlantError(Failure):
    """A file that is no plant: the message says where and why, in one line."""

    status = 2


@dataclass
class Plant:
    """A plant and the names its text gives. Arrows ascend by from, then move, then to. One that must settle has 1 as
    its last header number."""

    states: int
    moves: int
    goals: int
    labels: List[int]
    arrows: List[Arrow]
    settles: bool = False
    state_names: Dict[int, str] = field(default_factory=dict)
    move_names: Dict[int, str] = field(default_factory=dict)
    goal_names: Dict[int, str] = field(default_factory=dict)

    def allowed(self, state: int) -> bool:
        return self.labels[state] & 1 == 1

    def settled(self, state: int) -> bool:
        return self.labels[state] & SETTLED != 0

    def goals_of(self, state: int) -> List[int]:
        return [goal for goal in range(self.goals) if self.labels[state] >> (1 + goal) & 1]

    def state_named(self, name: str) -> int:
        """The one state that has this name."""
        states = [state for state, other in sorted(self.state_names.items()) if other == name]
        if not states:
            raise PlantError(f"no state has the name {shown(name)}: give a name from the plant's text, or a number "
                             f"from 0 to {self.states - 1}")
        if len(states) > 1:
            raise PlantError(f"states {states[0]} and {states[1]} have the name {shown(name)}: give the number")
        return states[0]


# The text form.

TOKEN = re.compile(r'"(?P<name>[^"]*)"|(?P<quote>")|(?P<word>[^\s,"#]+)|(?P<comment>#.*)|[\s,]+')


@dataclass
class Word:
    text: str
    quoted: bool


class Line:
    """The words of one line of a text, taken from the left; what does not fit is an error with the line's number."""

    def __init__(self, path: str, number: int, text: str) -> None:
        self.path = path
        self.number = number
        self.words: List[Word] = []
        for match in TOKEN.finditer(text):
            if match["quote"]:
                self.fail('a name has no closing quote (")')
            if match["name"] is not None:
                self.words.append(Word(match["name"], True))
            elif match["word"]:
                self.words.append(Word(match["word"], False))

    def fail(self, reason: str) -> NoReturn:
        raise PlantError(f"{self.path}:{self.number}: {reason}")

    def next_is(self, *texts: str) -> bool:
        return bool(self.words) and not self.words[0].quoted and self.words[0].text in texts

    def next_is_number(self) -> bool:
        return bool(self.words) and not self.words[0].quoted and self.words[0].text[0] in "0123456789"

    def take(self, what: str) -> str:
        if not self.words:
            self.fail(f"the line ends where {what} is expected")
        if self.words[0].quoted:
            self.fail(f"{what} is expected, found the name {shown(self.words[0].text)}")
        return self.words.pop(0).text

    def expect(self, text: str) -> None:
        found = self.take(f"'{text}'")
        if found != text:
            self.fail(f"'{text}' is expected, found {shown(found)}")

    def count(self, what: str, low: int, high: int) -> int:
        """A number from low to high."""
        found = self.take(f"the {what}")
        if not re.fullmatch(r"[0-9]+", found):
            self.fail(f"the {what} is a number, found {shown(found)}")
        digits = found.lstrip("0") or "0"
        if len(digits) > 9 or not low <= int(digits) <= high:
            self.fail(f"the {what} is {low} to {high}, found {shown(found)}")
        return int(digits)

    def name(self) -> Optional[str]:
        """The quoted name that ends the line, if there is one."""
        if not self.words or not self.words[0].quoted:
            return None
        name = self.words.pop(0).text.strip()
        if not 1 <= len(name) <= MAX_NAME or not name.isprintable():
            self.fail(f"a name has 1 to {MAX_NAME} printable characters")
        return name

    def end(self) -> None:
        if self.words:
            self.fail(f"nothing more is expected on this line, found {shown(self.words[0].text)}")


def shown(text: str) -> str:
    """A word of the file as an error shows it: printable, and short."""
    safe = "".join(letter if letter.isprintable() else "?" for letter in text)
    return "'" + (safe if len(safe) <= 24 else safe[:21] + "...") + "'"


class TextReader:
    """Reads a plant's text line by line: the plant line first, then the others in any order."""

    def __init__(self, path: str) -> None:
        self.path = path
        self.plant: Optional[Plant] = None
        self.plant_line = 0
        self.state_lines: Dict[int, int] = {}
        self.arrow_lines: Dict[Arrow, int] = {}

    def read(self, text: str) -> Plant:
        for line in lines_of(self.path, text):
            self.line(line)
        if self.plant is None:
            raise PlantError(f"{self.path}:1: the file has no line 'plant states S moves U goals N'")
        return self.finished(self.plant)

    def line(self, line: Line) -> None:
        if self.plant is None:
            self.plant = self.plant_header(line)
            self.plant_line = line.number
        elif line.next_is("state"):
            self.state(line, self.plant)
        elif line.next_is("arrow"):
            self.arrow(line, self.plant)
        elif line.next_is("move"):
            self.named(line, "move", self.plant.moves, self.plant.move_names)
        elif line.next_is("goal"):
            self.named(line, "goal", self.plant.goals, self.plant.goal_names)
        elif line.next_is("plant"):
            line.fail(f"the plant line stands already on line {self.plant_line}")
        else:
            line.fail(f"a line starts with state, arrow, move or goal, found {shown(line.words[0].text)}")
        line.end()

    def plant_header(self, line: Line) -> Plant:
        if not line.next_is("plant"):
            line.fail(f"the first line is 'plant states S moves U goals N', found {shown(line.words[0].text)}")
        line.expect("plant")
        line.expect("states")
        states = line.count("number of states", 1, MAX_STATES)
        line.expect("moves")
        moves = line.count("number of moves", 1, MAX_MOVES)
        line.expect("goals")
        goals = line.count("number of goals", 1, MAX_GOALS)
        settles = line.next_is("settle")
        if settles:
            line.expect("settle")
        line.end()
        return Plant(states, moves, goals, [0] * states, [], settles)

    def state(self, line: Line, plant: Plant) -> None:
        line.expect("state")
        state = line.count("state", 0, plant.states - 1)
        if state in self.state_lines:
            line.fail(f"state {state} stands already on line {self.state_lines[state]}")
        self.state_lines[state] = line.number
        kind = line.take("'allowed' or 'not-allowed'")
        if kind not in ("allowed", "not-allowed"):
            line.fail(f"'allowed' or 'not-allowed' is expected, found {shown(kind)}")
        plant.labels[state] = (1 if kind == "allowed" else 0) | self.settled_bit(line, plant)
        plant.labels[state] |= self.goal_bits(line, plant)
        name = line.name()
        if name is not None:
            plant.state_names[state] = name

    def settled_bit(self, line: Line, plant: Plant) -> int:
        """The label bit of a state that is settled."""
        if not line.next_is("settled"):
            return 0
        line.take("'settled'")
        if not plant.settles:
            line.fail(f"a state is settled only where line {self.plant_line} ends in 'settle'")
        return SETTLED

    def goal_bits(self, line: Line, plant: Plant) -> int:
        """The label bits of the goals that a state line names."""
        if not line.next_is("goal", "goals"):
            return 0
        line.take("'goal'")
        bits = 0
        while bits == 0 or line.next_is_number():
            goal = line.count("goal", 0, plant.goals - 1)
            if bits >> (1 + goal) & 1:
                line.fail(f"goal {goal} is named twice")
            bits |= 1 << (1 + goal)
        return bits

    def arrow(self, line: Line, plant: Plant) -> None:
        line.expect("arrow")
        start = line.count("state that the arrow leaves", 0, plant.states - 1)
        move = line.count("move", 0, plant.moves - 1)
        line.expect("->")
        self.end_state(line, plant, start, move)
        while line.words:
            self.end_state(line, plant, start, move)

    def end_state(self, line: Line, plant: Plant, start: int, move: int) -> None:
        arrow = (start, move, line.count("state that the arrow ends in", 0, plant.states - 1))
        if arrow in self.arrow_lines:
            line.fail(f"arrow {start} {move} -> {arrow[2]} stands already on line {self.arrow_lines[arrow]}")
        if len(self.arrow_lines) == MAX_ARROWS:
            line.fail(f"a plant has at most {MAX_ARROWS} arrows")
        self.arrow_lines[arrow] = line.number

    def named(self, line: Line, kind: str, limit: int, names: Dict[int, str]) -> None:
        line.expect(kind)
        number = line.count(kind, 0, limit - 1)
        if number in names:
            line.fail(f"{kind} {number} has a name already, '{names[number]}'")
        name = line.name()
        if name is None:
            line.fail(f'a name in quotes is expected, as in: {kind} {number} "name"')
        names[number] = name

    def finished(self, plant: Plant) -> Plant:
        missing = [state for state in range(plant.states) if state not in self.state_lines]
        if missing:
            raise PlantError(f"{self.path}:{self.plant_line}: {plant.states} states are announced, "
                             f"but there is no line for state {missing[0]}")
        plant.arrows = sorted(self.arrow_lines)
        return plant


def from_text(path: str, data: bytes) -> Plant:
    """The plant of a text file's content."""
    return TextReader(path).read(decoded(path, data))


def decoded(path: str, data: bytes) -> str:
    """The text of a file's content, which is UTF-8."""
    if is_utf16(data):
        raise PlantError(f"{path}:1: the text is UTF-16; save it as UTF-8")
    if b"\0" in data:
        number = data.count(b"\n", 0, data.index(b"\0")) + 1
        raise PlantError(f"{path}:{number}: this is no text, it has a zero byte (is it a plant's bytes?)")
    try:
        return data.decode("utf-8-sig")
    except UnicodeDecodeError as error:
        number = data.count(b"\n", 0, error.start) + 1
        raise PlantError(f"{path}:{number}: the text is not UTF-8") from None


def lines_of(path: str, text: str) -> Iterator[Line]:
    """The lines of a text that have words."""
    for number, content in enumerate(re.split(r"\r\n|\n|\r", text), 1):
        line = Line(path, number, content)
        if line.words:
            yield line


def to_text(plant: Plant) -> str:
    """A plant's text, in the order of the numbers."""
    lines = [f"plant states {plant.states} moves {plant.moves} goals {plant.goals}" + " settle" * plant.settles, ""]
    lines += [f'goal {goal} "{name}"' for goal, name in sorted(plant.goal_names.items())]
    lines += [f'move {move} "{name}"' for move, name in sorted(plant.move_names.items())]
    lines += [state_line(plant, state) for state in range(plant.states)]
    lines += [""] + arrow_lines(plant)
    return "\n".join(lines).rstrip("\n") + "\n"


def state_line(plant: Plant, state: int) -> str:
    words = ["state", str(state), "allowed" if plant.allowed(state) else "not-allowed"]
    words += ["settled"] * plant.settled(state)
    goals = plant.goals_of(state)
    if goals:
        words += ["goal" if len(goals) == 1 else "goals"] + [str(goal) for goal in goals]
    if state in plant.state_names:
        words.append(f'"{plant.state_names[state]}"')
    return " ".join(words)


def arrow_lines(plant: Plant) -> List[str]:
    """One line for each state and move; a long list of ends goes on several."""
    ends: Dict[Tuple[int, int], List[int]] = {}
    for start, move, end in plant.arrows:
        ends.setdefault((start, move), []).append(end)
    lines = []
    for (start, move), to in ends.items():
        for at in range(0, len(to), ENDS_ON_A_LINE):
            some = " ".join(str(end) for end in to[at:at + ENDS_ON_A_LINE])
            lines.append(f"arrow {start} {move} -> {some}")
    return lines


# The plant's bytes.


def to_bytes(plant: Plant) -> bytes:
    """A plant's bytes: eight header numbers, a label for each state, the arrows."""
    arrows_at = 16 + 2 * plant.states
    length = arrows_at + 6 * len(plant.arrows)
    counts = plant.states, plant.moves, plant.goals, len(plant.arrows)
    header = HEADER.pack(*counts, 16, arrows_at, length, plant.settles)
    labels = struct.pack(f"<{plant.states}H", *plant.labels)
    return header + labels + b"".join(ARROW.pack(*arrow) for arrow in plant.arrows)


def from_bytes(path: str, data: bytes) -> Plant:
    """The plant of these bytes, refused as planbook refuses it: 1 the header, 2 a label, 3 an arrow."""
    states, moves, goals, count, last = checked_header(path, data)
    arrows_at = 16 + 2 * states
    labels = list(struct.unpack(f"<{states}H", data[16:arrows_at]))
    for state, label in enumerate(labels):
        if (label & ~(SETTLED * last)) >> (1 + goals):
            refuse(path, 2, f"the label of state {state} has a bit for a goal that the plant does not have")
    arrows = [stored_arrow(data, arrows_at + 6 * at) for at in range(count)]
    for at, (start, move, end) in enumerate(arrows):
        if start >= states or end >= states or move >= moves:
            refuse(path, 3, f"arrow number {at} ({start}, {move}, {end}) has a state or move out of range")
        if at > 0 and arrows[at - 1] >= arrows[at]:
            refuse(path, 3, f"arrow number {at} ({start}, {move}, {end}) does not come after the one before it")
    return Plant(states, moves, goals, labels, arrows, last == 1)


def stored_arrow(data: bytes, at: int) -> Arrow:
    start, move, end = ARROW.unpack_from(data, at)
    return start, move, end


def checked_header(path: str, data: bytes) -> Tuple[int, int, int, int, int]:
    """S, U, N, E and the last number of a plant whose header is in order."""
    if len(data) < 16:
        refuse(path, 1, f"a plant has at least 16 bytes, this file has {len(data)}")
    states, moves, goals, count, labels_at, arrows_at, length, last = HEADER.unpack_from(data)
    for what, number, low, high in (("states", states, 1, MAX_STATES), ("moves", moves, 1, MAX_MOVES),
                                    ("goals", goals, 1, MAX_GOALS), ("arrows", count, 0, MAX_ARROWS),
                                    ("as its last number", last, 0, 1)):
        if not low <= number <= high:
            refuse(path, 1, f"the header has {number} {what}, allowed are {low} to {high}")
    whole = 16 + 2 * states + 6 * count
    for what, number, right in (("offset of labels", labels_at, 16), ("offset of arrows", arrows_at, 16 + 2 * states),
                                ("total length", length, whole)):
        if number != right:
            refuse(path, 1, f"the header's {what} is {number} and should be {right}")
    if len(data) != whole:
        refuse(path, 1, f"the header says {whole} bytes, the file has {len(data)}")
    return states, moves, goals, count, last


def refuse(path: str, number: int, reason: str) -> NoReturn:
    raise PlantError(f"{path}: {reason} (planbook refuses this with {number})")


# Files.


def shown_name(path: str) -> str:
    """How a file is called in errors."""
    return "standard input" if path == "-" else path


def is_utf16(data: bytes) -> bool:
    """A byte order mark, or every second byte 0. No plant's bytes begin so: S would be above 1,024, or N above 8."""
    if data[:2] in (b"\xff\xfe", b"\xfe\xff"):
        return True
    even, odd = data[0:6:2], data[1:6:2]
    return any(zeros == bytes(3) and len(letters) == 3 and min(letters) > 8
               for zeros, letters in ((even, odd), (odd, even)))


def is_binary(path: str, data: bytes) -> bool:
    """Bytes rather than text: by the file's ending, or by a zero byte (each header has one, no text in UTF-8 does)."""
    return path.endswith(".bin") or (b"\0" in data and not is_utf16(data))


def read_file(path: str, sort: str = "plant") -> bytes:
    try:
        with open(0 if path == "-" else path, "rb", closefd=path != "-") as file:
            data = file.read(MAX_FILE + 1)
    except OSError as error:
        raise sort_of(error, errno.EACCES)(f"{shown_name(path)}: cannot be read ({error.strerror})") from None
    if len(data) > MAX_FILE:
        raise PlantError(f"{shown_name(path)}: the file is longer than any {sort} needs ({MAX_FILE} bytes)")
    return data


def sort_of(error: OSError, *more: int) -> Callable[[str], Failure]:
    """Whether an error is one of the name that was given, or of these sorts, or else of the machine."""
    return PlantError if error.errno in NAME_ERRORS + more else MachineError


def read_plant(path: str) -> Plant:
    """The plant of a file in either form."""
    data = read_file(path)
    read = from_bytes if is_binary(path, data) else from_text
    return read(shown_name(path), data)


def write_file(path: str, data: bytes) -> None:
    """Writes the whole file or nothing: to a temporary neighbour first, which then takes its name."""
    if path == "-":
        say_bytes(data)
        return
    target = os.path.realpath(path)
    if os.path.exists(target) and not os.path.isfile(target):
        raise PlantError(f"{path}: is not an ordinary file, so it is not overwritten")
    temporary = f"{target}.{os.getpid()}.tmp"
    try:
        with open(temporary, "xb") as file:
            file.write(data)
        os.replace(temporary, target)
    except OSError as error:
        try:
            os.remove(temporary)
        except OSError:
            pass
        raise sort_of(error)(f"{path}: cannot be written ({error.strerror})") from None


# The commands.


def encode(source: str, target: str) -> None:
    write_file(target, to_bytes(from_text(shown_name(source), read_file(source))))


def decode(source: str, target: str) -> None:
    write_file(target, to_text(from_bytes(shown_name(source), read_file(source))).encode())


def check(source: str) -> None:
    """Prints the plant's size, and what is likely a slip though it breaks no rule."""
    plant = read_plant(source)
    allowed = sum(plant.allowed(state) for state in range(plant.states))
    lines = [f"good: {plant.states} states ({allowed} allowed), {plant.moves} moves, {plant.goals} goals, "
             f"{len(plant.arrows)} arrows"] + [f"note: {note}" for note in notes(plant)]
    say("".join(f"{shown_name(source)}: {line}\n" for line in lines))


def notes(plant: Plant) -> List[str]:
    leaving = {start for start, _, _ in plant.arrows}
    used = {move for _, move, _ in plant.arrows}
    served = {goal for state in range(plant.states) if plant.allowed(state) for goal in plant.goals_of(state)}
    stuck = [state for state in range(plant.states) if plant.allowed(state) and state not in leaving]
    found = [f"goal {goal} has no allowed state, so every state is lost"
             for goal in range(plant.goals) if goal not in served]
    if plant.settles and not any(plant.allowed(state) and plant.settled(state) for state in range(plant.states)):
        found.append("the plant must settle and no allowed state is settled, so every state is lost")
    found += [f"move {move} has no arrow" for move in range(plant.moves) if move not in used]
    if stuck:
        some = ", ".join(str(state) for state in stuck[:10]) + (" and more" if len(stuck) > 10 else "")
        found.append(f"allowed states with no arrow, so always lost: {some}")
    return found


def main(words: List[str]) -> int:
    commands: Dict[str, Tuple[Callable[..., None], int]]
    commands = {"encode": (encode, 2), "decode": (decode, 2), "check": (check, 1)}
    if words in (["-h"], ["--help"]):
        return run(lambda: say((__doc__ or "").strip() + "\n"))
    if not words or words[0] not in commands or len(words) - 1 != commands[words[0]][1]:
        complain("usage: plant.py encode IN.txt OUT.bin | decode IN.bin OUT.txt | check IN")
        return 2

    def work() -> None:
        same_file(words[1:])
        commands[words[0]][0](*words[1:])

    return run(work)


def same_file(paths: List[str]) -> None:
    """A conversion onto its own source would lose it."""
    if len(paths) == 2 and "-" not in paths and os.path.realpath(paths[0]) == os.path.realpath(paths[1]):
        raise PlantError(f"{paths[1]}: is the file to read from; give another name to write to")


if __name__ == "__main__":
    sys.exit(main(sys.argv[1:]))
