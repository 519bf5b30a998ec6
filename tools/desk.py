#!/usr/bin/env python3
"""Follows a book at the mill desk: says the move to make, is told the state that followed, and says the next move.

    desk.py PLANT MASK [MASK...] --state STATE [--bands BANDS --aim AIM] [--script]

PLANT is a plant file in either form; masks are decimal or 0x hex. The first mask is the moves in service, each further
one is withdrawn in turn. STATE is where the strip is at first: a state's number, or its name in the plant's text. With
a table of bands and the aim a reading of the gauge can be reported, too. Reports come from standard input, a line each.
To a person at a terminal all is said in words. Otherwise, and with --script, each line that is read gets one line of
answer in a fixed form (docs/USING.md describes it). Books, moves, waits and refusals are those of planbook's library,
PLANBOOK_LIB or else target/libplanbook.so.
"""
from __future__ import annotations

import ctypes
import os
import re
import struct
import sys
from typing import Any, Dict, Iterator, List, Optional, Sequence, Tuple

from command import masks_from, run_command
from console import MachineError, say
from facts import move_list, ranges, state_lines
from gauge import NUMBER, Library, Table, number_from, placed, read_table
from library import BUFFER, BYTES, LibraryError, call, numbers
from listing import Refused, ends_of, meaning, service
from plant import Plant, PlantError, read_plant, shown, shown_name, to_bytes
from reach import state_from

U32 = ctypes.c_uint32
LARGEST = (1 << 32) - 1
LONGEST = 1000  # bytes of a line; no name or number needs more
MOST_WAIT = 1023
OPTIONS = "--state", "--bands", "--aim"

Answer = numbers("number", "length", "drops")
Advice = numbers("number", "lost", "move", "wait", "seek", "state", "goal")


# The book and the desk.


class NotTaken(Exception):
    """A report that changes nothing: its sort, as a script is told it, and why, as a person is."""

    def __init__(self, sort: str, text: str) -> None:
        super().__init__(text)
        self.sort = sort


class Desk:
    """Where the strip is and what is sought there, by the library's answers alone; `now` is the last one that was
    accepted, and `sought` the goal with which it was asked for."""

    def __init__(self, plant: Plant, masks: Sequence[int], state: int) -> None:
        self.plant, self.mask, self.bytes = plant, service(masks), to_bytes(plant)
        self.ends = ends_of(plant)
        self.book = self.made(masks)
        lent = [*BYTES, *BYTES]
        self.call = call("planbook_report", Advice, *lent, U32, U32, U32)
        self.sought = 0
        self.now = self.checked(call("planbook_start", Advice, *lent, U32)(*self.lent(), state), state)

    def lent(self) -> Tuple[bytes, int, bytes, int]:
        return self.bytes, len(self.bytes), self.book, len(self.book)

    def made(self, masks: Sequence[int]) -> bytes:
        """The book of the first mask, with each further one withdrawn in turn."""
        plant = self.plant
        size = 16 + 2 * plant.states * plant.settles + 4 * plant.states * plant.goals
        book, drops = (ctypes.c_uint8 * size)(), (ctypes.c_uint8 * (2 * plant.states))()
        make = call("planbook_make", Answer, *BYTES, U32, *BUFFER)
        withdraw = call("planbook_withdraw", Answer, *BYTES, *BYTES, U32, *BUFFER, *BUFFER)
        self.written(make(self.bytes, len(self.bytes), masks[0], book, size), size)
        for mask in masks[1:]:
            before = bytes(book)
            self.written(withdraw(self.bytes, len(self.bytes), before, size, mask, book, size, drops, len(drops)), size)
        header = struct.unpack_from("<3H2xI", bytes(book))
        if header != (plant.states, plant.moves, plant.goals, self.mask):
            raise LibraryError("libplanbook.so does not add up: its book is not one of this plant and these moves")
        return bytes(book)

    @staticmethod
    def written(answer: Any, size: int) -> None:
        if answer.number:
            raise Refused(f"refused {answer.number}: {meaning(str(answer.number))}")
        if answer.length != size:
            raise LibraryError("libplanbook.so does not add up: its book has another length than the plant's")

    def kept(self) -> int:
        return struct.unpack_from("<H", self.book, 6)[0]

    def stage(self, state: int) -> int:
        """The stage of a kept state, in the book of a plant that must settle."""
        return struct.unpack_from("<H", self.book, 16 + state * (2 + 4 * self.plant.goals))[0]

    def follow(self) -> List[int]:
        """The states that can follow by the move given."""
        return self.ends.get((self.now.state, self.now.move), [])

    def leaves(self) -> bool:
        """Whether the move given leads wholly into earlier stages."""
        return self.plant.settles and all(self.stage(end) < self.stage(self.now.state) for end in self.follow())

    def met(self) -> List[int]:
        """The goals that are met in the state: those passed on the way to the one arrived at, or all of them. A state
        whose move leaves the stage has wait 0 for goals that it is not in, so none is said to be met there."""
        goals = self.plant.goals
        if self.now.wait == 0:
            return [] if self.leaves() else list(range(goals))
        return [(self.sought + step) % goals for step in range((self.now.seek - self.sought) % goals)]

    def report(self, state: int) -> None:
        """The state that followed; the desk goes on from there if the library accepts it."""
        held = self.now
        said = self.call(*self.lent(), held.state, held.goal, state)
        wrong = 8 if state >= self.plant.states else 13 if state not in self.follow() else 0
        if said.number != wrong or (wrong and (said.state, said.goal) != (held.state, held.goal)):
            raise LibraryError("libplanbook.so does not add up: it takes or refuses a report against the arrows")
        if wrong == 8:
            raise NotTaken("refused 8", f"refused 8: there is no state {short(state)}, the states are 0 to "
                                        f"{self.plant.states - 1}")
        if wrong:
            raise NotTaken("refused 13", f"refused 13: {self.state_text(state)} cannot follow move {held.move} in "
                                         f"state {held.state}")
        self.sought, self.now = held.goal, self.checked(said, state, held.goal)

    def checked(self, said: Any, state: int, sought: int = 0) -> Any:
        """An accepted answer, if it can be one."""
        if said.number:
            raise Refused(f"refused {said.number}: {meaning(str(said.number))}")
        if said.lost:
            right = (said.lost, said.move, said.wait, said.seek, said.goal) == (1, 0, 0, 0, sought)
        else:
            right = said.goal == said.seek < self.plant.goals and said.wait <= MOST_WAIT and \
                self.mask >> said.move & 1 == 1 and (state, said.move) in self.ends
        if not right or said.state != state:
            raise LibraryError("libplanbook.so does not add up: its answer is none for this state")
        return said

    def state_text(self, state: int) -> str:
        return in_text("state", state, self.plant.state_names)

    def goal_text(self, goal: int) -> str:
        return in_text("goal", goal, self.plant.goal_names)


def in_text(kind: str, number: int, names: Dict[int, str]) -> str:
    return f"{kind} {number}" + (f" ({names[number]})" if number in names else "")


def short(number: int) -> str:
    return str(number) if number < LARGEST else "of so high a number"


# What a line means.


class Ears:
    """Reads reports: states by number or name and, where there is a table of bands, readings of the gauge."""

    def __init__(self, plant: Plant, table: Optional[Table], aim: str) -> None:
        self.plant, self.table, self.aim = plant, table, aim
        if table is not None:
            self.gauge = Library()
            placed(self.gauge, table, ("0", aim))  # a table or an aim that is refused is refused before the dialogue

    def heard(self, line: str) -> Tuple[int, str]:
        """The state that a line reports and, if it is a reading, where its deviation lies."""
        quoted = re.fullmatch(r'"([^"]*)"', line)
        if quoted:
            return self.named(quoted[1].strip()), ""
        if re.fullmatch(r"[0-9]+", line):
            digits = line.lstrip("0") or "0"
            return (int(digits) if len(digits) < 10 else LARGEST), ""
        if line.startswith("="):
            return self.read(line[1:].strip())
        if self.table is not None and NUMBER.fullmatch(line):
            return self.read(line)
        return self.named(line), ""

    def named(self, name: str) -> int:
        try:
            return self.plant.state_named(name)
        except PlantError as error:
            hint = ""
            if re.fullmatch(r"[+-]?[0-9]*[.,][0-9]+", name):
                hint = "; a reading needs --bands and --aim" if self.table is None else \
                    "; a reading has a point, as in 2.013" if "," in name else ""
            raise NotTaken("unknown", f"{error}{hint}") from None

    def read(self, word: str) -> Tuple[int, str]:
        """The state that a reading means."""
        if self.table is None:
            raise NotTaken("unknown", f"{shown(word)} is a reading, and the desk has no table for it: start it with "
                                      "--bands and --aim")
        try:
            state, lines = placed(self.gauge, self.table, (word, self.aim))
        except PlantError as error:
            raise NotTaken("unknown", str(error)) from None
        except Refused as error:
            raise NotTaken(str(error).split(":")[0], str(error)) from None
        if state is None:
            raise NotTaken("none", "; ".join(lines))
        return state, lines[1]


def lines_in() -> Iterator[Optional[str]]:
    """The lines of standard input as they come, without spaces around them; nothing in place of one that is too long.
    The last one may lack its end."""
    kept = b""
    while True:
        try:
            data = os.read(0, 1 << 16)
        except OSError as error:
            raise MachineError(f"standard input could not be read ({error.strerror})") from None
        if not data:
            break
        *whole, kept = (kept + data).split(b"\n")
        kept = kept[:LONGEST + 1]
        yield from map(line_of, whole)
    if kept:
        yield line_of(kept)


def line_of(data: bytes) -> Optional[str]:
    return data.decode("utf-8", "surrogateescape").strip() if len(data) <= LONGEST else None


# What is said.


class Script:
    """One line of numbers for each line that is read."""

    def __init__(self, desk: Desk, ears: Ears) -> None:
        self.desk, self.ears = desk, ears

    def begin(self) -> None:
        self.place("")

    def place(self, note: str) -> None:
        """Where the strip is, and what to do there."""
        now = self.desk.now
        say(f"lost {now.state} seek {now.goal}\n" if now.lost else
            f"state {now.state} move {now.move} wait {now.wait} seek {now.seek}\n")

    def again(self) -> None:
        self.place("")

    def not_taken(self, why: NotTaken) -> None:
        say(f"{why.sort} state {self.desk.now.state} goal {self.desk.now.goal}\n")

    def help(self) -> None:
        say(" ".join(["follow", *map(str, self.desk.follow())]) + "\n")

    def quit(self) -> None:
        say("end\n")

    def closed(self) -> None:
        """Standard input has ended, or Ctrl-C was pressed: no line was read, so none is said."""


class Person(Script):
    """The same in words, with a question after it."""

    def ask(self, lines: List[str]) -> None:
        """The lines and, where the dialogue goes on, the question for the next report."""
        what = "state" if self.ears.table is None else "state or reading"
        say("".join(f"{line}\n" for line in lines) + ("" if self.desk.now.lost else f"{what} that followed? "))

    def begin(self) -> None:
        desk = self.desk
        self.ask([f"in service: {move_list(desk.plant, desk.mask)}",
                  f"{desk.kept()} of {desk.plant.states} states kept; ? says what can be typed", *self.lines()])

    def place(self, note: str) -> None:
        self.ask(self.lines(note))

    def lines(self, note: str = "") -> List[str]:
        """Where the strip is, what is met there, the move and its wait; set off by an empty line."""
        desk, now = self.desk, self.desk.now
        lines = ["", *([note] if note else []), f"state {state_lines(desk.plant, [now.state])[0]}"]
        if now.lost:
            return [*lines, "lost: the strip goes back through the stands"]
        if desk.plant.settles:
            lines.append(f"{'' if desk.plant.settled(now.state) else 'not '}settled, stage {desk.stage(now.state)}")
        if desk.met():
            lines.append(f"met here: {'; '.join(desk.goal_text(goal) for goal in desk.met())}")
        name = desk.plant.move_names.get(now.move, "")
        return [*lines, f"make move {now.move}  {name}".rstrip(), self.wait()]

    def wait(self) -> str:
        """How long the goal sought can take."""
        desk, now = self.desk, self.desk.now
        goal = desk.goal_text(now.seek)
        if now.wait:
            # In stage 1 there is no earlier one to come to.
            leaving = desk.plant.settles and desk.stage(now.state) > 1
            stages = ", an earlier stage, or a state whose move leaves the stage" * leaving
            return f"at most {now.wait} move{'s' * (now.wait > 1)} to {goal}{stages}"
        if desk.leaves():
            return "the move leaves the stage: it leads to earlier ones alone"
        return f"all goals are met: {goal} is sought anew in the state that follows"

    def not_taken(self, why: NotTaken) -> None:
        self.ask([f"{why}; can follow: {ranges(self.desk.follow())}"])

    def help(self) -> None:
        desk, table = self.desk, self.ears.table
        lines = ["what can be typed:", "  a state's number, or its name: the state that followed the move"]
        if table is not None:
            lines += [f"  a reading with a point, as 2.013, or after =, as =2: {table.path} and aim {self.ears.aim} "
                      "say which state it is"]
        lines += ["  nothing: says again where the strip is and what to do", "  ? or help: this list",
                  "  quit, or the end of input: ends",
                  'a name that could be taken for one of these stands in quotes, as "12"',
                  f"refused 13: {meaning('13')}",
                  f"what can follow move {desk.now.move} in state {desk.now.state}:",
                  *(f"  {line}" for line in state_lines(desk.plant, desk.follow()))]
        self.ask(lines)

    def quit(self) -> None:
        pass

    def closed(self) -> None:
        say("\n")


def talk(voice: Script) -> None:
    """The dialogue, from the start to its end or to a lost state."""
    voice.begin()
    for line in lines_in() if not voice.desk.now.lost else ():
        if line == "quit":
            voice.quit()
            return
        answer(voice, line)
        if voice.desk.now.lost:
            return
    if not voice.desk.now.lost:
        voice.closed()


def answer(voice: Script, line: Optional[str]) -> None:
    """What is said to a line."""
    if line in ("?", "help"):
        voice.help()
        return
    if line == "":
        voice.again()
        return
    try:
        if line is None:
            raise NotTaken("unknown", "the line is too long for a name or a number")
        state, note = voice.ears.heard(line)
        try:
            voice.desk.report(state)
        except NotTaken as why:
            raise NotTaken(why.sort, f"{why}{note and '; '}{note}") from None
    except NotTaken as why:
        voice.not_taken(why)
        return
    voice.place(note)


# The command line.


def options_from(words: Sequence[str]) -> Tuple[List[str], Dict[str, str], bool]:
    """The words that are no options, the options' values, and whether a script is to be answered."""
    plain: List[str] = []
    options: Dict[str, str] = {}
    script = False
    left = list(words)
    while left:
        word = left.pop(0)
        if word in OPTIONS:
            if not left:
                raise PlantError(f"{word} needs a word after it")
            if word in options:
                raise PlantError(f"{word} is given twice")
            options[word] = left.pop(0)
        elif word == "--script":
            script = True
        elif word.startswith("--"):
            raise PlantError(f"unknown option {word}; ./run --help says what there is")
        else:
            plain.append(word)
    return plain, options, script


def table_for(plant: Plant, source: str, bands: str) -> Table:
    """The table of bands, which must be one for this plant."""
    table = read_table(bands)
    if to_bytes(table.plant) != to_bytes(plant):
        raise PlantError(f"{shown_name(bands)}: its bands have the states of another plant than {source}")
    return table


def main(words: List[str]) -> int:
    def work(*given: str) -> None:
        plain, options, script = options_from(given)
        if len(plain) < 2 or "--state" not in options:
            raise PlantError("give a plant, the moves in service and --state STATE")
        if ("--bands" in options) != ("--aim" in options):
            raise PlantError("--bands and --aim go together: give both, or neither")
        if "-" in (plain[0], options.get("--bands")):
            raise PlantError("standard input has the reports: give the plant and the table of bands as files")
        aim = options.get("--aim", "0")
        number_from(aim)
        masks, plant = masks_from(plain[1:]), read_plant(plain[0])
        state = state_from(plant, options["--state"])
        table = table_for(plant, plain[0], options["--bands"]) if "--bands" in options else None
        desk, ears = Desk(plant, masks, state), Ears(plant, table, aim)
        voice = Script(desk, ears) if script or not os.isatty(0) else Person(desk, ears)
        try:
            talk(voice)
        except KeyboardInterrupt:
            voice.closed()
            raise

    return run_command(__doc__, 1, work, words)


if __name__ == "__main__":
    sys.exit(main(sys.argv[1:]))
