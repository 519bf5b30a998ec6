#!/usr/bin/env python3
"""Says which state a reading of the thickness gauge means, by a table of bands.

    gauge.py BANDS READING AIM

BANDS is a table of bands as text (docs/USING.md describes it), or - for standard input; READING and AIM are decimal
numbers of millimetres. The answer is that of planbook_gauge in planbook's library, PLANBOOK_LIB or else
target/libplanbook.so. What is said about it besides is asked of the library, too: which band holds the deviation, or
between which ones it lies. Only the deviation that is shown, and why a table was refused, are worked out here.
"""
from __future__ import annotations

import ctypes
import math
import os
import re
import sys
from dataclasses import dataclass
from typing import List, Optional, Sequence, Tuple

from command import run_command, say_lines
from console import MachineError
from facts import state_lines
from library import LibraryError, call, numbers
from listing import Refused, meaning
from plant import Line, Plant, PlantError, decoded, lines_of, read_file, read_plant, shown, shown_name

MAX_BANDS = 64
NUMBER = re.compile(r"[+-]?([0-9]+\.?[0-9]*|\.[0-9]+)([eE][+-]?[0-9]+)?")
LONGEST = 24  # letters of a number that is shown as it was written


@dataclass
class End:
    """An end of a band as it is written, and its number of millimetres: none if it is open."""

    text: str
    at: Optional[float]


@dataclass
class Band:
    line: int
    lower: End
    upper: End
    state: int


@dataclass
class Table:
    """The bands of a text in the order of its lines, and the plant that has their states."""

    path: str
    plant: Plant
    bands: List[Band]


OPEN = End("open", None)


# The text form.


def read_table(source: str) -> Table:
    """The table of a text file, or of standard input."""
    path = shown_name(source)
    lines = lines_of(path, decoded(path, read_file(source, "table of bands")))
    first = next(lines, None)
    if first is None:
        raise PlantError(f"{path}:1: the file has no line 'plant \"FILE\"'")
    plant = plant_of(first, source)
    return Table(path, plant, [band_of(line, plant) for line in lines])


def plant_of(line: Line, source: str) -> Plant:
    """The plant that the first line names, by a path from the folder of the table."""
    if not line.next_is("plant"):
        line.fail(f"the first line is 'plant \"FILE\"', found {shown(line.words[0].text)}")
    line.expect("plant")
    if line.next_is("states"):
        line.fail("this is a plant and no table of bands; a table's first line is 'plant \"FILE\"'")
    if not line.words or not line.words[0].quoted or not line.words[0].text:
        line.fail("the name of the plant's file is expected, in quotes, as in: plant \"gauge-bands.plant\"")
    name = os.fsdecode(line.words.pop(0).text.encode())  # a file's name is in UTF-8, whatever the terminal is set to
    line.end()
    folder = os.path.dirname(source) or os.curdir
    try:
        return read_plant(os.path.join(folder, name))
    except (PlantError, MachineError) as error:
        raise type(error)(f"{line.path}:{line.number}: {error}") from None


def band_of(line: Line, plant: Plant) -> Band:
    if line.next_is("plant"):
        line.fail("the plant is named already; every line after it is a band")
    if not line.next_is("band"):
        line.fail(f"a line starts with band, found {shown(line.words[0].text)}")
    line.expect("band")
    lower = end_of(line, "the lower end")
    line.expect("..")
    upper = end_of(line, "the upper end")
    line.expect("state")
    band = Band(line.number, lower, upper, state_of(line, plant))
    line.end()
    return band


def end_of(line: Line, what: str) -> End:
    word = line.take(what)
    if word == "open":
        return OPEN
    if not NUMBER.fullmatch(word):
        hint = "; write a space on each side of '..'" if ".." in word and word != ".." else ""
        line.fail(f"{what} is 'open' or a number, found {shown(word)}{hint}")
    if line.next_is_number():  # commas count as spaces
        line.fail(f"{what} is one number, found {shown(word)} and {shown(line.words[0].text)}; "
                  "a decimal number has a point and no comma")
    return End(word, float(word))


def state_of(line: Line, plant: Plant) -> int:
    """The state at the end of a band's line, by its number or by its name in quotes."""
    if line.words and not line.words[0].quoted and not line.next_is_number():
        line.fail(f"the state is a number or a name in quotes, found {shown(line.words[0].text)}")
    name = line.name()
    if name is None:
        return line.count("state", 0, plant.states - 1)
    try:
        return plant.state_named(name)
    except PlantError as error:
        line.fail(str(error))


def number_from(word: str) -> float:
    """The 64-bit float nearest to a number of the command line; one that is too large is infinite."""
    if not NUMBER.fullmatch(word):
        raise PlantError(f"{shown(word)} is no number of millimetres: write it as in 2.013, with a point")
    return float(word)


# The library.


# What planbook_gauge answers: 0 or why it refused, whether a band holds the deviation, and the band's state.
Place = numbers("number", "found", "state")


class Library:
    """The library's one function that is used here, for a table of bands as three lists and for one as text."""

    def __init__(self) -> None:
        lists = [kind for item in (ctypes.c_uint8, ctypes.c_double, ctypes.c_uint32)
                 for kind in (ctypes.POINTER(item), ctypes.c_size_t)]
        self.call = call("planbook_gauge", Place, *lists, ctypes.c_uint32, ctypes.c_double, ctypes.c_double)

    def place(self, kinds: Sequence[int], ends: Sequence[float], band_states: Sequence[int], states: int,
              reading: float, aim: float) -> Tuple[int, int, int]:
        """For each band two kinds and two ends, the lower one first, and a state. A kind is 0 open or 1 at."""
        found = self.call((ctypes.c_uint8 * len(kinds))(*kinds), len(kinds), (ctypes.c_double * len(ends))(*ends),
                          len(ends), (ctypes.c_uint32 * len(band_states))(*band_states), len(band_states), states,
                          reading, aim)
        return found.number, found.found, found.state

    def answer(self, bands: Sequence[Band], states: int, reading: float, aim: float) -> Tuple[int, int, int]:
        ends = [end.at for band in bands for end in (band.lower, band.upper)]
        return self.place([int(at is not None) for at in ends], [0.0 if at is None else at for at in ends],
                          [band.state for band in bands], states, reading, aim)

    def spot(self, bands: Sequence[Band], reading: float, aim: float) -> int:
        """Where a deviation lies, asked of each band and gap by itself: 2i in the gap below band i, 2i + 1 in it."""
        ends = [OPEN, *(end for band in bands for end in (band.lower, band.upper)), OPEN]
        for at, (lower, upper) in enumerate(zip(ends, ends[1:])):
            gap = at % 2 == 0
            nothing = gap and lower.at is None and upper.at is None  # an outer gap where the band itself is open
            if not nothing and self.answer([Band(0, lower, upper, 0)], 1, reading, aim)[1]:
                return at
        raise LibraryError("libplanbook.so does not add up: a deviation lies in no band and in no gap")


# What is said.


def report(table: Table, words: Sequence[str]) -> List[str]:
    """The state, or that there is none; then the deviation and where it lies."""
    return placed(Library(), table, words)[1]


def placed(library: Library, table: Table, words: Sequence[str]) -> Tuple[Optional[int], List[str]]:
    """The state that a reading means with an aim, if there is one, and the lines that are said about it."""
    reading, aim = (number_from(word) for word in words)
    bands = table.bands
    number, found, state = library.answer(bands, table.plant.states, reading, aim)
    if number:
        hint = fault_of(table) if number == 11 else infinite(reading, aim)
        raise Refused(f"refused {number}: {meaning(str(number))}{hint and '; '}{hint}")
    at = library.spot(bands, reading, aim)
    if found != at % 2 or (found and state != bands[at // 2].state) or library.spot(bands, reading - aim, 0.0) != at:
        raise LibraryError("libplanbook.so does not add up: its answers contradict each other")
    first, last = where(bands, at)
    if found:
        first = f"state {state_lines(table.plant, [state])[0]}"
    short = rounded(reading - aim)
    if library.spot(bands, float(short), 0.0) != at:
        short = repr(reading - aim)
    typed = " less ".join(word if len(word) <= LONGEST else repr(float(word)) for word in words)
    return state if found else None, [first, f"deviation {short} mm ({typed}): {last}"]


def where(bands: Sequence[Band], at: int) -> Tuple[str, str]:
    """What is said of a place with no state, and of the bands there."""
    if at % 2:
        return "", band_text(bands[at // 2])
    if at == 0:
        return "no state: the deviation lies below all bands", f"below {band_text(bands[0])}"
    if at == 2 * len(bands):
        return "no state: the deviation lies above all bands", f"above {band_text(bands[-1])}"
    return ("no state: the deviation lies in a gap between the bands",
            f"between {band_text(bands[at // 2 - 1])} and {band_text(bands[at // 2])}")


def band_text(band: Band) -> str:
    return f"band {end_text(band.lower)} .. {end_text(band.upper)}"


def end_text(end: End) -> str:
    return end.text if end.at is None or len(end.text) <= LONGEST else repr(end.at)


def rounded(deviation: float) -> str:
    """To a millionth of a millimetre, or as it is where that leaves nothing, or it is no thickness."""
    short = f"{deviation:.6f}".rstrip("0").rstrip(".")
    if deviation == 0:
        return "0"
    return short if abs(deviation) < 1e6 and float(short) != 0 else repr(deviation)


def infinite(reading: float, aim: float) -> str:
    """Which number is infinite, of those that a refusal is about."""
    for what, number in (("reading", reading), ("aim", aim), ("deviation", reading - aim)):
        if not math.isfinite(number):
            return f"the {what} is too large"
    return ""


def fault_of(table: Table) -> str:
    """Which line of a table that was refused breaks what, as far as that is seen here."""
    bands = table.bands
    if not bands:
        return f"{table.path}: the table has no band"
    if len(bands) > MAX_BANDS:
        return f"{table.path}:{bands[MAX_BANDS].line}: this is band number {MAX_BANDS + 1} of {len(bands)}"
    for at, band in enumerate(bands):
        fault = own_fault(band) or (step_fault(bands[at - 1], band) if at else "")
        if fault:
            return f"{table.path}:{band.line}: {fault}"
    return ""


def own_fault(band: Band) -> str:
    """Why a band is wrong by itself."""
    for what, end in (("lower", band.lower), ("upper", band.upper)):
        if end.at is not None and math.isinf(end.at):
            return f"the {what} end is too large for a 64-bit float"
    if band.lower.at is None or band.upper.at is None or band.lower.at < band.upper.at:
        return ""
    return f"the band is empty: {end_text(band.upper)} is not above {end_text(band.lower)}"


def step_fault(before: Band, band: Band) -> str:
    """Why a band cannot follow the one before it; both are right by themselves."""
    if band.lower.at is None:
        return "only the first band can be open below"
    if before.upper.at is None:
        return f"no band can follow that of line {before.line}, which is open above"
    if before.upper.at <= band.lower.at:
        return ""
    if band.upper.at is not None and before.lower.at is not None and band.upper.at <= before.lower.at:
        return f"the band is out of order: it lies below that of line {before.line}"
    return f"the band overlaps that of line {before.line}: {end_text(band.lower)} is below {end_text(before.upper)}"


def main(words: List[str]) -> int:
    def work(source: str, *numbers: str) -> None:
        if len(numbers) > 2:
            raise PlantError(f"give one reading and one aim, and not {len(numbers)} numbers")
        for word in numbers:
            number_from(word)
        say_lines(report(read_table(source), numbers))

    return run_command(__doc__, 3, work, words)


if __name__ == "__main__":
    sys.exit(main(sys.argv[1:]))
