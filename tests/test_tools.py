"""Tests of ./run and of plant.py, picture.py, cost.py, gain.py, reach.py and gauge.py in tools/. tests/tools.sh runs
them."""
from __future__ import annotations

import os
import random
import re
import shutil
import struct
import subprocess
import sys
import tempfile
import unittest
import xml.etree.ElementTree as xml
from collections import Counter
from dataclasses import dataclass, replace
from fractions import Fraction
from typing import Callable, Dict, List, Optional, Set, Tuple

TOP = os.path.dirname(os.path.dirname(os.path.abspath(__file__)))
sys.path.insert(0, os.path.join(TOP, "tools"))

import cost  # noqa: E402
import facts  # noqa: E402
import gain  # noqa: E402
import gauge  # noqa: E402
import listing  # noqa: E402
import plant  # noqa: E402
import reach  # noqa: E402

RUN = os.path.join(TOP, "run")
PLANT_PY, PICTURE_PY, COST_PY, GAIN_PY, REACH_PY, GAUGE_PY = (
    os.path.join(TOP, "tools", f"{name}.py") for name in ("plant", "picture", "cost", "gain", "reach", "gauge"))
EXAMPLES = os.path.join(TOP, "examples")
BANDS = os.path.join(EXAMPLES, "gauge-bands.bands")
EXAMPLE_PLANTS = sorted(name for name in os.listdir(EXAMPLES) if name.endswith(".plant"))

# Document 01's listing of P with masks 7 and 4, written by hand.
with open(os.path.join(TOP, "crates", "planbook", "stdout"), encoding="ascii") as sample:
    STRIP_LISTING = sample.read()

SMALL = """plant states 2 moves 1 goals 1
state 0 allowed
state 1 allowed goal 0
arrow 0 0 -> 1
arrow 1 0 -> 1
"""

# The same as a plant that must settle, with state 1 settled.
SETTLE = SMALL.replace("goals 1\n", "goals 1 settle\n").replace("1 allowed", "1 allowed settled")


class Case(unittest.TestCase):
    """A test with a folder of its own."""

    def setUp(self) -> None:
        folder = tempfile.TemporaryDirectory()
        self.addCleanup(folder.cleanup)
        self.folder = folder.name

    def path(self, name: str) -> str:
        return os.path.join(self.folder, name)

    def write(self, name: str, content: bytes) -> str:
        with open(self.path(name), "wb") as file:
            file.write(content)
        return self.path(name)

    def example(self, name: str) -> str:
        return os.path.join(EXAMPLES, name + ".plant")

    def program(self, name: str, text: str) -> str:
        """A stand-in for a program: a shell script."""
        path = self.write(name, f"#!/bin/sh\n{text}\n".encode())
        os.chmod(path, 0o755)
        return path

    def few_tools(self) -> str:
        """A folder with the common tools alone: no python3, no rt, no apt-get."""
        os.mkdir(self.path("few"))
        for tool in ("bash", "dirname", "readlink", "mktemp", "rm", "wc", "tr", "od", "awk", "cat", "head", "tail",
                     "sed", "find", "sort", "xargs", "sha256sum", "mkdir"):
            os.symlink(str(shutil.which(tool)), self.path(f"few/{tool}"))
        return self.path("few")

    def call(self, *words: str, env: Optional[Dict[str, str]] = None) -> Tuple[int, str, str]:
        done = subprocess.run(words, capture_output=True, text=True, check=False, cwd=self.folder,
                              env={**os.environ, **(env or {})})
        return done.returncode, done.stdout, done.stderr

    def fails(self, status: int, words: str, *call: str, env: Optional[Dict[str, str]] = None) -> str:
        """The call ends with this status, prints nothing, and says one line that has these words: that line."""
        code, out, error = self.call(*call, env=env)
        self.assertEqual((code, out), (status, ""), error)
        self.assertEqual(error.count("\n"), 1, error)
        self.assertIn(words, error)
        by_run = any(os.path.basename(word) == "run" for word in call)
        self.assertEqual(error.startswith("run: "), by_run, error)
        return error


def random_plant(seed: int) -> plant.Plant:
    pick = random.Random(seed)
    states, moves, goals = pick.choice([1, 2, 5, 40, 1024]), pick.choice([1, 3, 32]), pick.choice([1, 2, 8])
    labels = [pick.randrange(1 << (1 + goals)) for _ in range(states)]
    arrows = {(pick.randrange(states), pick.randrange(moves), pick.randrange(states))
              for _ in range(pick.randrange(300))}
    settles = pick.randrange(2) == 1
    if settles:
        labels = [label | pick.choice([0, 512]) for label in labels]
    return plant.Plant(states, moves, goals, labels, sorted(arrows), settles)


class RoundTrips(Case):
    def test_bytes_to_text_and_back(self) -> None:
        for seed in range(60):
            data = plant.to_bytes(random_plant(seed))
            text = plant.to_text(plant.from_bytes("b", data)).encode()
            self.assertEqual(plant.to_bytes(plant.from_text("t", text)), data)

    def test_text_to_bytes_and_back(self) -> None:
        for name in EXAMPLE_PLANTS:
            written = plant.read_plant(os.path.join(EXAMPLES, name))
            again = plant.from_bytes("b", plant.to_bytes(written))
            written.state_names, written.move_names, written.goal_names = {}, {}, {}
            self.assertEqual(again, written)

    def test_names_stay_in_the_text(self) -> None:
        written = plant.read_plant(os.path.join(EXAMPLES, "three-orders.plant"))
        self.assertEqual(plant.from_text("t", plant.to_text(written).encode()), written)

    def test_commands(self) -> None:
        text = self.write("a.plant", SMALL.encode())
        one, other, back = self.path("a.bin"), self.path("b.bin"), self.path("b.plant")
        self.assertEqual(self.call(PLANT_PY, "encode", text, one), (0, "", ""))
        self.assertEqual(self.call(PLANT_PY, "decode", one, back), (0, "", ""))
        self.assertEqual(self.call(PLANT_PY, "encode", back, other), (0, "", ""))
        with open(one, "rb") as first, open(other, "rb") as second:
            self.assertEqual(first.read(), second.read())

    def test_strip_plant_has_the_bytes_of_the_request(self) -> None:
        arrows = [(0, 0, 1), (0, 1, 1), (0, 1, 2), (1, 0, 2), (1, 1, 3), (1, 2, 0), (2, 0, 0), (2, 2, 1)]
        numbers = [4, 3, 2, 8, 16, 24, 72, 0, 3, 1, 5, 0] + [number for arrow in arrows for number in arrow]
        data = plant.to_bytes(plant.read_plant(os.path.join(EXAMPLES, "strip.plant")))
        self.assertEqual(data, struct.pack(f"<{len(numbers)}H", *numbers))

    def test_limits_are_accepted(self) -> None:
        arrows = [(state, 31, end) for state in range(1024) for end in range(8)]
        largest = plant.Plant(1024, 32, 8, [511] * 1024, arrows)
        data = plant.to_bytes(plant.from_text("t", plant.to_text(largest).encode()))
        self.assertEqual(len(data), 51216)
        self.assertEqual(plant.to_bytes(plant.from_bytes("b", data)), data)

    def test_every_order_comma_ending_and_mark_is_read(self) -> None:
        text = "\ufeff# head\r\nplant states 2 moves 1 goals 2 # here\r\narrow 1 0 -> 1, 0\r\n" \
               "state 1 not-allowed goals 0, 1 \"a # b\"\r\nstate 0 allowed\r\n"
        read = plant.from_text("t", text.encode())
        self.assertEqual((read.labels, read.arrows), ([1, 6], [(1, 0, 0), (1, 0, 1)]))
        self.assertEqual(read.state_names, {1: "a # b"})


class Malformed(Case):
    """Texts with the line and the words of their error."""

    TEXTS: List[Tuple[str, int, str]] = [
        ("", 1, "has no line 'plant"),
        ("# only words\n\n", 1, "has no line 'plant"),
        ("\nstate 0 allowed\n", 2, "first line is 'plant"),
        ("plant states 0 moves 1 goals 1\n", 1, "number of states is 1 to 1024"),
        ("plant states 1025 moves 1 goals 1\n", 1, "number of states is 1 to 1024"),
        ("plant states 1 moves 0 goals 1\n", 1, "number of moves is 1 to 32"),
        ("plant states 1 moves 33 goals 1\n", 1, "number of moves is 1 to 32"),
        ("plant states 1 moves 1 goals 0\n", 1, "number of goals is 1 to 8"),
        ("plant states 1 moves 1 goals 9\n", 1, "number of goals is 1 to 8"),
        ("plant states 1 moves 1\n", 1, "ends where 'goals' is expected"),
        ("plant states one moves 1 goals 1\n", 1, "is a number, found 'one'"),
        ("plant states 99999999999999999999999 moves 1 goals 1\n", 1, "number of states is 1 to 1024"),
        ("plant states -1 moves 1 goals 1\n", 1, "is a number, found '-1'"),
        ("plant states 2 moves 1 goals 1 extra\n", 1, "nothing more is expected"),
        (SMALL + "plant states 2 moves 1 goals 1\n", 6, "stands already on line 1"),
        (SMALL + "colour 3\n", 6, "starts with state, arrow, move or goal"),
        (SMALL + "state 1 allowed\n", 6, "state 1 stands already on line 3"),
        (SMALL + "state 2 allowed\n", 6, "state is 0 to 1"),
        (SMALL.replace("0 allowed", "0 perhaps"), 2, "'allowed' or 'not-allowed' is expected"),
        (SMALL.replace("state 0 allowed", "state 0"), 2, "ends where 'allowed'"),
        (SMALL.replace("goals 1\n", "goals 1 settles\n"), 1, "nothing more is expected"),
        (SMALL.replace("0 allowed", "0 allowed settled"), 2, "settled only where line 1 ends in 'settle'"),
        (SETTLE.replace("allowed settled", "allowed settled settled"), 3, "nothing more is expected"),
        (SETTLE.replace("allowed settled goal 0", "allowed goal 0 settled"), 3, "nothing more is expected"),
        (SMALL.replace("goal 0", "goal 1"), 3, "goal is 0 to 0"),
        (SMALL.replace("goal 0", "goal"), 3, "ends where the goal"),
        (SMALL.replace("goal 0", "goal 0 0"), 3, "goal 0 is named twice"),
        (SMALL.replace("goal 0", 'goal 0 "open'), 3, "no closing quote"),
        (SMALL.replace("goal 0", 'goal 0 ""'), 3, "1 to 40 printable"),
        (SMALL.replace("state 0 allowed\n", ""), 1, "no line for state 0"),
        (SMALL + "arrow 0 0 -> 1\n", 6, "arrow 0 0 -> 1 stands already on line 4"),
        (SMALL + "arrow 2 0 -> 1\n", 6, "leaves is 0 to 1"),
        (SMALL + "arrow 0 1 -> 1\n", 6, "move is 0 to 0"),
        (SMALL + "arrow 0 0 -> 2\n", 6, "ends in is 0 to 1"),
        (SMALL + "arrow 0 0 1\n", 6, "'->' is expected"),
        (SMALL + "arrow 0 0 ->\n", 6, "ends where the state"),
        (SMALL + 'arrow 0 0 -> "one"\n', 6, "found the name 'one'"),
        (SMALL + "move 0\n", 6, "a name in quotes"),
        (SMALL + 'move 1 "up"\n', 6, "move is 0 to 0"),
        (SMALL + 'goal 0 "a"\ngoal 0 "b"\n', 7, "has a name already"),
    ]

    def test_each_has_its_line_and_writes_nothing(self) -> None:
        for text, line, words in self.TEXTS:
            with self.subTest(words=words, text=text[-40:]):
                path = self.write("bad.plant", text.encode())
                error = self.fails(2, words, PLANT_PY, "encode", path, self.path("out.bin"))
                self.assertIn(f"bad.plant:{line}: ", error)
                self.assertEqual(os.listdir(self.folder), ["bad.plant"])

    def test_too_many_arrows(self) -> None:
        lines = ["plant states 1024 moves 1 goals 1"] + [f"state {state} allowed" for state in range(1024)]
        lines += [f"arrow {state} 0 -> 0 1 2 3 4 5 6 7" for state in range(1024)] + ["arrow 9 0 -> 8"]
        path = self.write("bad.plant", "\n".join(lines).encode())
        self.fails(2, "bad.plant:2050: a plant has at most 8192 arrows", PLANT_PY, "check", path)

    def test_text_that_is_no_text(self) -> None:
        self.fails(2, "bad.plant:2: the text is not UTF-8", PLANT_PY, "check", self.write("bad.plant", b"#\n\xff\n"))
        path = self.write("bad.plant", b"#\n#\n\0")
        self.fails(2, "bad.plant:3: this is no text", PLANT_PY, "encode", path, self.path("out.bin"))

    def test_a_failed_conversion_leaves_the_old_file(self) -> None:
        old = self.write("out.bin", b"old")
        self.fails(2, "bad.plant:1", PLANT_PY, "encode", self.write("bad.plant", b"x"), old)
        with open(old, "rb") as file:
            self.assertEqual(file.read(), b"old")

    def test_files_that_are_not_written(self) -> None:
        text = self.write("a.plant", SMALL.encode())
        self.fails(2, "the file to read from", PLANT_PY, "encode", text, text)
        self.fails(2, "not an ordinary file", PLANT_PY, "encode", text, self.folder)
        self.fails(2, "cannot be written", PLANT_PY, "encode", text, self.path("none/out.bin"))
        self.fails(2, "cannot be read", PLANT_PY, "encode", self.path("none.plant"), self.path("out.bin"))
        self.fails(2, "usage", PLANT_PY, "encode", text)

    def test_bytes_are_refused_as_planbook_refuses_them(self) -> None:
        good = plant.to_bytes(plant.from_text("t", SMALL.encode()))
        header = [(0, 0), (0, 1025), (1, 0), (1, 33), (2, 0), (2, 9), (3, 8193), (4, 17), (5, 21), (6, 31), (7, 2),
                  (7, 256)]
        bad = [(1, changed(good, at, number)) for at, number in header]
        settle = plant.to_bytes(plant.from_text("t", SETTLE.encode()))
        bad += [(2, changed(good, 8, 513)), (2, changed(settle, 8, 257)), (2, changed(settle, 8, 517)),
                (2, changed(settle, 8, 1025)), (2, changed(settle, 7, 0)), (1, changed(settle, 7, 2))]
        bad += [(1, good[:15]), (1, good[:-1]), (1, good + b"\0"), (2, changed(good, 8, 5)), (3, changed(good, 10, 2)),
                (3, changed(good, 11, 1)), (3, changed(good, 12, 2)), (3, changed(good, 10, 1))]
        for number, data in bad:
            path = self.write("bad.bin", data)
            self.fails(2, f"planbook refuses this with {number}", PLANT_PY, "decode", path, self.path("out.plant"))
            self.assertEqual(os.listdir(self.folder), ["bad.bin"])

    def test_notes(self) -> None:
        text = "plant states 1 moves 1 goals 1\nstate 0 allowed\n"
        code, out, _ = self.call(PLANT_PY, "check", self.write("a.plant", text.encode()))
        self.assertEqual((code, out.count("note:")), (0, 3))
        text = SETTLE.replace("allowed settled", "allowed")
        code, out, _ = self.call(PLANT_PY, "check", self.write("a.plant", text.encode()))
        self.assertEqual((code, out.count("note: the plant must settle and no allowed state is settled")), (0, 1))


def changed(data: bytes, at: int, number: int) -> bytes:
    """The bytes with the two-byte number at this place changed."""
    return data[:2 * at] + struct.pack("<H", number) + data[2 * at + 2:]


class Run(Case):
    def test_strip_plant_by_itself_and_by_name(self) -> None:
        self.assertEqual(self.call(RUN), (0, STRIP_LISTING, ""))
        self.assertEqual(self.call(RUN, self.example("strip"), "7", "0x4"), (0, STRIP_LISTING, ""))

    def test_binary_plant_by_ending_and_by_content(self) -> None:
        data = plant.to_bytes(plant.read_plant(self.example("strip")))
        for name in ("strip.bin", "strip"):
            self.assertEqual(self.call(RUN, self.write(name, data), "0x7", "004"), (0, STRIP_LISTING, ""))

    def test_binary_plant_needs_no_python(self) -> None:
        data = plant.to_bytes(plant.read_plant(self.example("strip")))
        self.program("planner", f"cat >/dev/null; printf '%s' '{STRIP_LISTING}'")
        env = {"PATH": self.few_tools(), "PLANBOOK_BIN": self.path("planner")}
        plant_path = self.write("strip.bin", data)
        bash = self.path("few/bash")
        self.assertEqual(self.call(bash, RUN, plant_path, "7", "4", env=env), (0, STRIP_LISTING, ""))
        self.fails(3, "python3 is needed for plants in the text form", bash, RUN, self.example("strip"), "7", env=env)

    def test_examples_do_what_their_comments_say(self) -> None:
        kept = {("strip", "7"): 3, ("strip", "7 1"): 0, ("gauge-bands", "0x1f"): 5, ("gauge-bands", "0x1f 0x18"): 5,
                ("gauge-bands", "0x1f 0x12"): 0, ("lockout", "0x1f"): 5, ("lockout", "0x1f 0x08"): 5,
                ("lockout", "0x1f 0x1c"): 2, ("may-miss", "0xf"): 3, ("may-miss", "0xf 0x2"): 2,
                ("three-orders", "0x1f"): 6, ("three-orders", "0x1f 0x10"): 6, ("three-orders", "0x1f 0x04"): 0,
                ("tight-band", "0x1f"): 7, ("tight-band", "0x1f 0x08"): 7, ("tight-band", "0x1f 0x10"): 6,
                ("gauge-tension", "0x3f"): 26, ("gauge-tension", "0x3f 0x22"): 17, ("gauge-tension", "0x3f 0x10"): 0,
                ("slitter", "0x3f"): 5, ("slitter", "0x1f"): 5}
        for (name, masks), count in kept.items():
            code, out, error = self.call(RUN, self.example(name), *masks.split())
            self.assertEqual((code, error), (0, ""))
            self.assertTrue(out.startswith(f"{count} of "), (name, masks, out[:40]))

    def test_a_move_that_may_miss_is_not_listed(self) -> None:
        _, out, _ = self.call(RUN, self.example("may-miss"), "0xf")
        self.assertIn("\n0 0 2 1\n", out)

    def test_bad_masks_on_the_command_line(self) -> None:
        strip = self.example("strip")
        for text in ("", "x", "-1", "7x", "0x", "0xg", "4294967296", "0x100000000", "9" * 20, "1 2", "1.0"):
            self.fails(2, f"'{text}' is no mask", RUN, strip, text)
        self.fails(2, "give at least one mask", RUN, strip)
        self.fails(2, "17 masks are too many", RUN, strip, *["1"] * 17)
        self.assertEqual(self.call(RUN, strip, "7", *["4"] * 15), (0, STRIP_LISTING, ""))

    def test_files_that_are_no_plants(self) -> None:
        self.fails(2, "there is no such file", RUN, self.path("none.plant"), "7")
        self.fails(2, "is not a file", RUN, self.folder, "7")
        self.fails(2, "bad.plant:3: ", RUN, self.write("bad.plant", b"\n\nx\n"), "7")
        self.fails(2, "a header alone has 16", RUN, self.write("a.bin", b""), "7")
        data = plant.to_bytes(plant.read_plant(self.example("strip")))
        self.fails(2, "its header says 72 bytes, the file has 68", RUN, self.write("a.bin", data[:-4]), "7")
        self.fails(2, "its header says 72 bytes, the file has 76", RUN, self.write("a.bin", data + b"\1\0\0\0"), "7")

    def test_refusals_are_explained(self) -> None:
        data = plant.to_bytes(plant.read_plant(self.example("strip")))
        self.fails(1, "refused 1: the plant's header", RUN, self.write("a.bin", changed(data, 7, 2)), "7")
        self.fails(1, "refused 2: a state's label", RUN, self.write("a.bin", changed(data, 8, 8)), "7")
        self.fails(1, "refused 3: an arrow", RUN, self.write("a.bin", changed(data, 12, 4)), "7")
        self.fails(1, "refused 6: a mask names a move", RUN, self.example("strip"), "8")
        self.fails(1, "refused 6: a mask names a move", RUN, self.example("strip"), "7", "0xffffffff")

    def test_a_planner_that_says_something_else(self) -> None:
        strip = self.example("strip")
        for script, status, words in (("echo bad masks", 1, "bad masks: "), ("echo refused 4", 1, "refused 4: "),
                                      ("exit 5", 3, "ended with status 5"), ("echo hello", 3, "no listing"),
                                      (f"printf '%s' '{STRIP_LISTING}'; exit 4", 3, "ended with status 4"),
                                      ("echo refused 2; exit 1", 3, "ended with status 1"),
                                      ("echo refused 2; kill -9 $$", 3, "planbook was killed by signal 9"),
                                      (f"printf '%s' '{STRIP_LISTING}'; kill -SEGV $$", 3, "killed by signal 11"),
                                      (f"printf '%s' '{STRIP_LISTING}'; echo planbook: worn >&2", 3, "planbook: worn")):
            env = {"PLANBOOK_BIN": self.program("planner", script)}
            self.fails(status, words, RUN, strip, "7", env=env)
            self.fails(status, words, RUN, "--picture", self.path("out.html"), strip, "7", env=env)
            self.assertFalse(os.path.exists(self.path("out.html")))
            self.fails(status, words, RUN, "--cost", strip, "7", "1", env=env)
            self.fails(status, words, RUN, "--gain", strip, "7", "1", "1", env=env)
            self.fails(status, words, RUN, "--reach", "0", strip, "7", env=env)
        self.fails(3, "PLANBOOK_BIN names no program", RUN, strip, "7", env={"PLANBOOK_BIN": self.path("none")})

    def test_help_and_options(self) -> None:
        code, out, error = self.call(RUN, "--help")
        self.assertEqual((code, error), (0, ""))
        self.assertIn("--picture OUT.html", out)
        self.assertIn("--cost PLANT", out)
        self.assertIn("--gain PLANT", out)
        self.assertIn("--reach STATE PLANT MASK", out)
        self.assertIn("gauge BANDS READING AIM", out)
        self.fails(2, "unknown option --colour", RUN, "--colour")
        self.fails(2, "there is no such file", RUN, "", "7")


def proved(name: str) -> str:
    """What rt says of a crate that it has proved, as commands that say it."""
    return f"echo 'crate {name}: modules loaded=3 checked=14' >&2; echo 'logic=proved functions=2 sum=0' >&2"


class Build(Case):
    """How ./run builds the planner, in a copy of the repository's outside with a stand-in for rt."""

    CRATES = b"# what it rests on\nlaws:\nrows: laws\nother: rows\nplanbook: rows io\n"

    def setUp(self) -> None:
        super().setUp()
        for folder in ("top", "top/crates", "top/crates/planbook", "top/crates/planbook_c", "top/crates/rows", "bin"):
            os.mkdir(self.path(folder))
        for name in ("run", "tools", "examples"):
            subprocess.run(["cp", "-R", os.path.join(TOP, name), self.path("top")], check=True)
        self.write("top/crates.txt", self.CRATES)
        self.write("top/crates/rows/source", b"")
        self.env = {"PLANBOOK_BIN": "", "PATH": self.path("bin") + os.pathsep + os.environ["PATH"]}
        self.planner = self.path("top/target/bin/planbook")

    def stand_in(self, text: str) -> None:
        self.program("bin/rt", f'echo "${{PWD##*/}}: $*" >>"{self.path("calls")}"\n{text}')

    def builds(self) -> None:
        """A stand-in that builds the planner, and says what rt says."""
        self.stand_in(f"echo 'fn rows::mask: proved'; {proved('laws')}; {proved('rows')}\n"
                      f'mkdir -p out && cp "{os.environ["PLANBOOK_BIN"]}" out/planbook\n{proved("planbook")}\n'
                      "echo 'what the program prints on no input'")

    def calls(self) -> List[str]:
        with open(self.path("calls"), encoding="utf-8") as file:
            return file.read().splitlines()

    def lists(self, calls: int) -> str:
        """./run prints the listing of P, and has asked rt so many times by then: what it said on the way."""
        code, out, error = self.call(self.path("top/run"), env=self.env)
        self.assertEqual((code, out), (0, STRIP_LISTING), error)
        self.assertEqual(self.calls(), ["planbook: run"] * calls)
        return error

    def ends(self, status: int, words: str) -> None:
        """./run prints nothing and ends with this status, and the last line that it says has these words."""
        code, out, error = self.call(self.path("top/run"), env=self.env)
        self.assertEqual((code, out), (status, ""), error)
        self.assertIn(words, error.splitlines()[-1])
        self.assertTrue(all(line.startswith("run: ") for line in error.splitlines()), error)

    def test_built_when_missing_or_old_and_not_again(self) -> None:
        self.builds()
        self.lists(1)
        self.assertEqual(self.lists(1), "")
        source = self.path("top/crates/rows/source")
        later = os.stat(self.planner).st_mtime + 10
        os.utime(source, (later, later))
        self.assertEqual(self.lists(1), "")  # times of files do not count
        self.write("top/crates/rows/source", b"more")
        os.utime(source, (1, 1))
        self.lists(2)
        os.rename(source, source + "s")
        self.lists(3)
        with open(self.planner, "ab") as file:
            file.write(b"\0")  # another planner than the one that was built
        self.lists(4)
        self.write("top/crates.txt", self.CRATES + b"new:\n")
        self.lists(5)
        self.assertEqual(self.lists(5), "")

    def test_edits_that_must_fail_are_no_sources(self) -> None:
        self.builds()
        self.lists(1)
        os.mkdir(self.path("top/crates/rows/must-fail"))
        self.write("top/crates/rows/must-fail/a.edit", b"")
        self.assertEqual(self.lists(1), "")

    def test_progress_is_told(self) -> None:
        self.builds()
        lines = self.lists(1).splitlines()
        self.assertRegex(lines[0], "^run: proving and building planbook; this may take .* minutes")
        self.assertEqual(lines[1:], ["run: 1 of 3 proved: laws", "run: 2 of 3 proved: rows",
                                     "run: 3 of 3 proved: planbook"])
        self.write("top/crates/rows/source", b"more")
        self.stand_in(proved("rows"))  # of laws, which has not changed, rt says nothing
        self.assertEqual(self.lists(2).splitlines()[1:], ["run: 2 of 3 proved: rows"])

    def test_progress_is_told_at_once(self) -> None:
        # The stand-in goes on only when the line about its first crate was read.
        os.mkfifo(self.path("go"))
        self.stand_in(f"{proved('laws')}; cat {self.path('go')}\n"
                      f'mkdir -p out && cp "{os.environ["PLANBOOK_BIN"]}" out/planbook')
        with subprocess.Popen([self.path("top/run")], stdout=subprocess.PIPE, stderr=subprocess.PIPE, text=True,
                              env={**os.environ, **self.env}) as running:
            assert running.stderr is not None and running.stdout is not None
            running.stderr.readline()
            self.assertEqual(running.stderr.readline(), "run: 1 of 3 proved: laws\n")
            self.write("go", b"")
            self.assertEqual(running.stdout.read(), STRIP_LISTING)

    def test_no_toolchain(self) -> None:
        self.builds()
        built = {**self.env, "PATH": self.few_tools()}
        source = self.write("a.bin", plant.to_bytes(plant.from_text("t", SMALL.encode())))
        call = [self.path("few/bash"), self.path("top/run"), source, "1"]
        error = self.fails(3, "planbook is not built, and rt (the Rattle toolchain) is not on the PATH", *call,
                           env=built)
        self.assertNotIn("PLANBOOK_BIN", error)
        self.lists(1)
        self.assertEqual(self.call(*call, env=built)[0], 0)
        self.write("top/crates/rows/source", b"more")
        self.fails(3, "target/bin/planbook was not built from the sources that are here now, and rt (the Rattle "
                   "toolchain) is not on the PATH to prove and build it; to use it all the same, set "
                   f"PLANBOOK_BIN={self.planner}", *call, env=built)
        self.assertEqual(self.call(*call, env={**built, "PLANBOOK_BIN": self.planner})[0], 0)

    def test_a_build_that_fails(self) -> None:
        self.stand_in("exit 1")
        self.ends(3, "planbook could not be built; target/run-build.log has the reason")
        self.stand_in("kill -9 $$")
        self.ends(3, "planbook could not be built; target/run-build.log has the reason")
        self.stand_in("exit 0")
        self.ends(3, "rt built no planbook")

    def test_a_folder_that_cannot_be_written(self) -> None:
        self.builds()
        self.write("top/target", b"")
        self.ends(3, f"planbook is not built, and it cannot be built here: {self.path('top/target')} cannot be written")

    def test_a_clone_that_is_read_only(self) -> None:
        # As nobody, since root may write everywhere.
        if os.geteuid() != 0 or not shutil.which("setpriv"):
            self.skipTest("only root can become nobody, with setpriv")
        for folder, _, files in os.walk(self.folder):
            for name in [folder] + [os.path.join(folder, file) for file in files]:
                os.chmod(name, os.stat(name).st_mode | 0o55)
        shutil.copy(os.environ["PLANBOOK_BIN"], self.path("planner"))
        nobody = ["setpriv", "--reuid=65534", "--regid=65534", "--clear-groups"]
        self.builds()
        self.fails(3, "top/target cannot be written", *nobody, self.path("top/run"), env=self.env)
        env = {**self.env, "PLANBOOK_BIN": self.path("planner")}
        self.assertEqual(self.call(*nobody, self.path("top/run"), env=env), (0, STRIP_LISTING, ""))

    def builds_library(self) -> None:
        """Stand-ins that build the library: rt the archive, and cc the library, at the place that follows -o."""
        self.stand_in(f"mkdir -p out && echo archive >out/libplanbook_c.a\n{proved('laws')}")
        self.program("bin/cc", f'echo "$@" >>"{self.path("links")}"; [ "$2" = -o ] || exit 1\n'
                     f'grep -q archive target/staticlib/libplanbook_c.a && cp "{os.environ["PLANBOOK_LIB"]}" "$3"')
        self.write("top/crates.txt", self.CRATES + b"planbook_c: rows\n")
        self.env["PLANBOOK_LIB"] = ""

    def places(self, calls: int) -> str:
        """./run gauge answers, and has asked rt so many times by then: what it said on the way."""
        code, out, error = self.call(self.path("top/run"), "gauge", BANDS, "2.013", "2", env=self.env)
        self.assertEqual((code, out), (0, ON_AIM), error)
        self.assertEqual(self.calls(), ["planbook_c: lib"] * calls)
        return error

    def test_the_library_is_built_when_missing_or_old_and_not_again(self) -> None:
        self.builds_library()
        library = self.path("top/target/libplanbook.so")
        lines = self.places(1).splitlines()
        self.assertRegex(lines[0], "^run: proving and building libplanbook.so; this may take .* minutes")
        self.assertEqual(lines[1:], ["run: 1 of 3 proved: laws"])
        with open(self.path("links"), encoding="utf-8") as file:
            self.assertEqual(file.read(), "-shared -o target/libplanbook.so -Wl,--whole-archive target/staticlib/"
                             "libplanbook_c.a -Wl,--no-whole-archive -Wl,-z,defs -Wl,-z,relro,-z,now\n")
        self.assertEqual(self.places(1), "")
        self.write("top/crates/rows/source", b"more")
        self.places(2)
        with open(library, "ab") as file:
            file.write(b"\0")  # another library than the one that was built
        self.places(3)
        os.remove(library)
        self.places(4)
        self.assertEqual(self.places(4), "")
        self.assertFalse(os.path.exists(self.planner))  # the gauge needs no planner

    def test_planner_and_library_have_records_of_their_own(self) -> None:
        self.builds_library()
        self.places(1)
        os.remove(self.path("calls"))
        self.builds()
        self.lists(1)
        self.write("top/crates/rows/source", b"more")
        self.lists(2)
        os.remove(self.path("calls"))
        self.builds_library()
        self.places(1)
        self.assertEqual(self.places(1), "")

    def test_a_library_that_cannot_be_built(self) -> None:
        self.builds_library()
        few = {**self.env, "PATH": self.few_tools()}
        os.symlink(sys.executable, self.path("few/python3"))
        call = [self.path("few/bash"), self.path("top/run"), "gauge", BANDS, "2.013", "2"]
        self.fails(3, "libplanbook.so is not built, and rt (the Rattle toolchain) is not on the PATH", *call, env=few)
        os.symlink(self.path("bin/rt"), self.path("few/rt"))
        self.fails(3, "libplanbook.so is not built, and cc (a C compiler) is not on the PATH to link it\n", *call,
                   env=few)
        self.places(1)
        self.assertEqual(self.call(*call, env=few), (0, ON_AIM, ""))
        self.write("top/crates/rows/source", b"more")
        library = self.path("top/target/libplanbook.so")
        self.fails(3, "target/libplanbook.so was not built from the sources that are here now, and cc (a C compiler) "
                   f"is not on the PATH to link it; to use it all the same, set PLANBOOK_LIB={library}\n", *call,
                   env=few)
        self.assertEqual(self.call(*call, env={**few, "PLANBOOK_LIB": library}), (0, ON_AIM, ""))
        for script in ("exit 1", "kill -9 $$"):
            self.program("bin/cc", script)
            code, out, error = self.call(self.path("top/run"), *call[2:], env=self.env)
            self.assertEqual((code, out), (3, ""))
            self.assertEqual(error.splitlines()[-1],
                             "run: libplanbook.so could not be built; target/run-build.log has the reason")
        os.remove(library)
        self.program("bin/cc", "exit 0")
        self.assertIn("rt built no libplanbook.so", self.call(self.path("top/run"), *call[2:], env=self.env)[2])

    def test_the_desk_has_its_words_looked_at_before_the_library_is_built(self) -> None:
        self.builds_library()
        desk, strip = [self.path("top/run"), "desk"], self.example("strip")
        for words in ([strip, "7"], [strip, "--state", "0"], [strip, "7x", "--state", "0"], ["-", "7", "--state", "0"],
                      ["none", "7", "--state", "0"], [strip, "7", "--state", "0", "--aim", "2"],
                      [strip, "7", "--state", "0", "--bands", "none", "--aim", "2"],
                      [strip, "7", "--state", "0", "--bands", BANDS, "--aim", "x"]):
            self.fails(2, "", *desk, *words, env=self.env)
            self.assertFalse(os.path.exists(self.path("calls")), words)
        for _ in range(2):
            code, out, error = self.call("bash", "-c", '"$0" "$@" </dev/null', *desk, strip, "7", "--state", "0",
                                         env=self.env)
            self.assertEqual((code, out), (0, "state 0 move 0 wait 2 seek 1\n"), error)
            self.assertEqual(self.calls(), ["planbook_c: lib"])
        self.assertEqual(error, "")
        self.assertFalse(os.path.exists(self.planner))  # the desk needs no planner

    def test_by_a_symbolic_link(self) -> None:
        self.builds()
        os.symlink("top/run", self.path("one"))
        os.symlink(self.path("one"), self.path("bin/two"))
        for name in ("one", "bin/two"):
            self.assertEqual(self.call(self.path(name), env=self.env)[:2], (0, STRIP_LISTING))
        self.assertEqual(self.calls(), ["planbook: run"])

    def test_nothing_is_installed(self) -> None:
        few = self.few_tools()
        self.program("few/apt-get", f'echo "$@" >>"{self.path("installed")}"')
        os.symlink(str(shutil.which("id")), self.path("few/id"))
        env = {"PATH": few}
        call = [self.path("few/bash"), self.path("top/run"), self.example("strip"), "7"]
        self.call(*call, env=env)
        self.assertFalse(os.path.exists(self.path("installed")))
        self.fails(3, "python3 is needed for plants in the text form, and is not on the PATH", *call, env=env)


# A call that writes to a pipe whose reader is gone before it begins, however slow the machine is.
LEFT = 'exec 4> >(:); wait $! && exec "$0" "$@" >&4 4>&-'

# A plant whose listing is longer than 60 KiB: every state kept for 8 goals.
LONG = plant.Plant(1024, 1, 8, [511] * 1024, [(state, 0, state) for state in range(1024)])


class Machine(Case):
    """Faults of the machine: status 3 and one line, and no answer that could be taken for whole."""

    # No stream is set to UTF-8 behind Python's back.
    ASCII = {"LC_ALL": "C", "PYTHONUTF8": "0", "PYTHONCOERCECLOCALE": "0"}

    def shell(self, script: str, *words: str, env: Optional[Dict[str, str]] = None) -> Tuple[int, str, str]:
        """What a call that the script makes of these words gives."""
        return self.call("bash", "-c", script, "bash", *words, env=env)

    def breaks(self, words: str, script: str, *call: str, env: Optional[Dict[str, str]] = None) -> None:
        """As `fails` with status 3, of a call in a script."""
        self.fails(3, words, "bash", "-c", script, *call, env=env)

    def questions(self) -> List[List[str]]:
        strip = self.example("strip")
        return [[RUN], [RUN, "--help"], [RUN, "--picture", "-", strip, "7"], [RUN, "--cost", strip, "7", "1"],
                [RUN, "--gain", strip, "7", "1", "1"], [RUN, "--reach", "0", strip, "7"],
                [RUN, "gauge", BANDS, "2", "2"]]

    def long_plant(self) -> str:
        return self.write("long.bin", plant.to_bytes(LONG))

    def test_a_file_that_may_not_grow(self) -> None:
        for ignored in ("trap '' XFSZ; ", ""):
            self.breaks("planbook", ignored + 'ulimit -f 60; exec "$0" "$@"', RUN, self.long_plant(), "1")
        for limit, words in (("0", "is full or cannot be written"), ("1", "is full or cannot be written")):
            self.breaks(words, f'ulimit -f {limit}; exec "$0" "$@"', RUN, self.long_plant(), "1")
        text = self.write("long.plant", plant.to_text(LONG).encode())
        self.breaks("cannot be written", 'ulimit -f 1; exec "$0" "$@"', RUN, text, "1")
        code, out, _ = self.call(RUN, self.long_plant(), "1")
        self.assertEqual((code, out.count("\n")), (0, 8193))

    def test_listings_that_are_not_whole(self) -> None:
        lines = STRIP_LISTING.splitlines(keepends=True)
        torn = ["".join(lines[:count]) for count in range(1, len(lines))]
        torn += [STRIP_LISTING[:-1], STRIP_LISTING[:-3], STRIP_LISTING + "4 lost\n", "".join(lines[:2] + lines[3:]),
                 "".join([lines[0], lines[2], lines[1]] + lines[3:]), STRIP_LISTING.replace("3 of", "2 of"),
                 STRIP_LISTING.replace("of 4", "of 5"), STRIP_LISTING.replace("2 0 1 0", "2 0 1 x")]
        for text in torn:
            env = {"PLANBOOK_BIN": self.program("planner", f"printf '%s' '{text}'")}
            self.fails(3, "planbook's listing is not whole", RUN, self.example("strip"), "7", "4", env=env)

    def test_standard_output_full_closed_or_left(self) -> None:
        for call in self.questions():
            for script in ('exec "$0" "$@" >/dev/full', 'exec "$0" "$@" >&-', 'trap "" PIPE; ' + LEFT, LEFT):
                self.breaks("run: standard output could not be written", script, *call)
        # Much is read, and then no more.
        script = '"$0" "$@" | head -n 3; exit ${PIPESTATUS[0]}'
        code, out, error = self.shell(script.replace("$0", RUN), self.long_plant(), "1")
        self.assertEqual((code, out.count("\n"), error.count("\n")), (3, 3, 1), error)

    def test_standard_error_closed_or_full(self) -> None:
        strip = self.example("strip")
        for script in ('exec "$@" 2>&-', 'exec "$@" 2>/dev/full', 'exec "$@" <&- 2>&-'):
            self.assertEqual(self.shell(script, RUN), (0, STRIP_LISTING, ""))
            for status, words in ((1, [RUN, strip, "8"]), (2, [RUN, strip, "x"]), (2, [RUN, "none", "7"]),
                                  (1, [RUN, "--cost", strip, "7", "8"]), (2, [PLANT_PY, "check", "none"]),
                                  (2, [COST_PY]), (1, [COST_PY, strip, "7", "8"]), (2, [RUN, "gauge", strip, "1", "1"]),
                                  (1, [RUN, "gauge", BANDS, "1e999", "2"]), (1, [GAUGE_PY, BANDS, "1e999", "2"])):
                self.assertEqual(self.shell(script, *words), (status, "", ""), words)
            self.assertEqual(self.shell(script + " >&-", RUN), (3, "", ""))
        # Its reader is gone when the error is said.
        script = 'exec 3>&1; { sleep 0.1; "$@" 2>&1 >/dev/null; echo $? >&3; } | true'
        self.assertEqual(self.shell(script, RUN, strip, "x")[1], "2\n")

    def test_temporary_folder(self) -> None:
        for folder in (self.path("none"), "/proc", self.example("strip")):
            for call in ([RUN], [RUN, "--cost", self.example("strip"), "7", "1"], [RUN, "gauge", BANDS, "2", "2"]):
                self.fails(3, f"no temporary folder can be made in {folder}", *call, env={"TMPDIR": folder})
        self.assertEqual(self.call(RUN, "--help", env={"TMPDIR": self.path("none")})[0], 0)
        os.mkdir(self.path("temporary"))
        self.assertEqual(self.call(RUN, env={"TMPDIR": self.path("temporary")})[0], 0)
        self.assertEqual(os.listdir(self.path("temporary")), [])  # and it is left as it was

    def test_python_that_cannot_run(self) -> None:
        strip, bytes_ = self.example("strip"), self.write("a.bin", plant.to_bytes(LONG))
        os.mkdir(self.path("bin"))
        env = {"PATH": self.path("bin") + os.pathsep + os.environ["PATH"]}
        for script in ("exit 0", "exit 1", "exit 127", "kill -9 $$", "echo Fatal error >&2; exit 2"):
            self.program("bin/python3", script)
            for call in ([RUN, strip, "7"], [RUN, "--cost", bytes_, "1", "1"], [RUN, "gauge", BANDS, "2", "2"]):
                self.fails(3, "the one on the PATH cannot run", *call, env=env)
        self.assertEqual(self.call(RUN, bytes_, "1", env=env)[0], 0)  # bytes need none
        for script in ("exit 1", "echo a >&2; echo b >&2; exit 2", "kill -9 $$", "exit 77"):
            self.program("bin/python3", f'[ "$1" != -c ] || exec {sys.executable} "$@"\n{script}')
            self.fails(3, "python3 could not run tools/plant.py", RUN, strip, "7", env=env)
            self.fails(3, "python3 could not run tools/cost.py", RUN, "--cost", bytes_, "1", "1", env=env)
            self.fails(3, "python3 could not run tools/gauge.py", RUN, "gauge", BANDS, "2", "2", env=env)

    def test_a_planner_that_cannot_be_run(self) -> None:
        path = self.write("planner", b"\x7fELF\0\0")
        os.chmod(path, 0o755)
        for call in ([RUN], [RUN, "--cost", self.example("strip"), "7", "1"]):
            self.fails(3, "planbook could not be run", *call, env={"PLANBOOK_BIN": path})

    def test_tools_say_one_line(self) -> None:
        strip, text = self.example("strip"), self.write("bad\n.plant", b"x")
        scripts = ('exec "$0" "$@" >/dev/full', 'exec "$0" "$@" >&-', LEFT)
        for env, used in (({}, scripts), ({"PYTHONUNBUFFERED": "1"}, scripts[:1]), (self.ASCII, scripts[1:2])):
            for call in ([PLANT_PY, "check", strip], [PLANT_PY, "--help"], [PLANT_PY, "encode", strip, "-"],
                         [COST_PY, strip, "7", "1"], [PICTURE_PY, "-", strip, "7"], [GAIN_PY, "-h"],
                         [GAUGE_PY, BANDS, "2", "2"]):
                for script in used:
                    self.breaks("standard output could not be written", script, *call, env=env)
            for call in ([PLANT_PY, "check", text], [COST_PY, text, "7", "1"], [RUN, text, "7"],
                         [RUN, "--picture", "-", text, "7"], [RUN, "gauge", text, "2", "2"]):
                self.fails(2, "bad?.plant:1: the first line is", *call, env=env)

    def test_files_that_cannot_be_written(self) -> None:
        strip = self.example("strip")
        for call in ([PLANT_PY, "encode", strip, "/proc/a.bin"], [PICTURE_PY, "/proc/a.html", strip, "7"],
                     [RUN, "--picture", "/proc/a.html", strip, "7"]):
            self.fails(2, "cannot be written", *call)  # no such folder
        long = self.write("a.plant", plant.to_text(LONG).encode())
        self.breaks("cannot be written (File too large)", 'ulimit -f 1; exec "$0" "$@"', PLANT_PY, "encode", long,
                    self.path("out.bin"))
        self.assertEqual(os.listdir(self.folder), ["a.plant"])

    def test_names_that_are_no_utf8(self) -> None:
        with open(self.example("strip"), "rb") as file:
            text = file.read()
        name = os.fsdecode(self.folder.encode() + b"/caf\xe9 \xc3\xa9.plant")
        with open(name, "wb") as file:
            file.write(text)
        for env in ({}, self.ASCII):
            self.assertEqual(self.call(RUN, name, "7", "4", env=env), (0, STRIP_LISTING, ""))
            self.assertEqual(self.call(RUN, "--cost", name, "7", "1", env=env)[0], 0)
            code, out, error = self.call(RUN, "--picture", "-", name, "7", env=env)
            self.assertEqual((code, error), (0, ""))
            self.assertIn("<title>Control book: caf\ufffd \xe9.plant</title>", out)
            done = subprocess.run([PLANT_PY, "check", name], capture_output=True, check=True,
                                  env={**os.environ, **env})
            self.assertTrue(done.stdout.startswith(os.fsencode(name) + b": good"), done.stdout)
            self.fails(2, "is no mask", RUN, name, "x", env=env)

    def test_utf16_is_named(self) -> None:
        with open(self.example("strip"), encoding="utf-8") as file:
            text = file.read()
        for code in ("utf-16", "utf-16-le", "utf-16-be"):
            path = self.write("a.plant", text.encode(code))
            for call in ([RUN, path, "7"], [RUN, "--cost", path, "7", "1"], [PLANT_PY, "check", path],
                         [PLANT_PY, "encode", path, self.path("out.bin")], [RUN, "gauge", path, "2", "2"]):
                self.fails(2, "a.plant:1: the text is UTF-16; save it as UTF-8", *call)
        # Bytes that look alike but for one number are a plant: S 35, U 32 and N 8 are no three letters.
        like = plant.Plant(35, 32, 8, [1] * 35, [])
        path = self.write("a", plant.to_bytes(like))
        self.assertTrue(self.call(RUN, path, "1")[1].startswith("0 of 35 kept"))
        self.assertEqual(self.call(PLANT_PY, "check", path)[0], 0)

    def test_standard_input(self) -> None:
        strip = self.example("strip")
        data = self.write("a.bin", plant.to_bytes(plant.read_plant(strip)))
        for source in (strip, data):
            self.assertEqual(self.shell(f'"$@" <"{source}"', RUN, "-", "7", "4"), (0, STRIP_LISTING, ""))
            self.assertEqual(self.shell(f'cat "{source}" | "$@"', RUN, "--cost", "-", "7", "1"),
                             (0, strip_cost("move 0", 3, 3, 0), ""))
            self.assertEqual(self.shell(f'"$@" <"{source}"', PLANT_PY, "check", "-")[:1], (0,))
        code, out, _ = self.shell(f'"$@" <"{strip}"', RUN, "--picture", "-", "-", "7")
        self.assertEqual(code, 0)
        self.assertIn("<title>Control book: standard input</title>", out)
        self.fails(2, "standard input:1: the file has no line", "bash", "-c", '"$0" "$@" </dev/null', RUN, "-", "7")
        self.fails(2, "the file is longer than any plant", "bash", "-c", '"$0" "$@" < <(yes "#")', RUN, "-", "7")
        for script in ('"$0" "$@" <&-', '"$0" "$@" </'):
            self.breaks("standard input could not be read", script, RUN, "-", "7")
        self.breaks("standard input: cannot be read", '"$0" "$@" <&-', PLANT_PY, "check", "-")


# The book of examples/tight-band.plant with all moves, and the stages, worked out by hand. Held within the tight band the
# strip settles (2, 3 and 4); from far thick and thick it gets there at once (0 and 1); after a roll change it may be
# thick (6), and a worn roll has to be changed first (5).
TIGHT_BAND = "7 of 8 kept, 5 moves in service\n0 0 0 3\n1 0 0 2\n2 0 1 2\n3 0 0 0\n4 0 1 1\n5 0 1 4\n6 0 0 0\n7 lost\n"
TIGHT_STAGES = {2: 1, 3: 1, 4: 1, 0: 2, 1: 2, 5: 3, 6: 3}


def stages_by_sets(read: plant.Plant, mask: int) -> Dict[int, int]:
    """The stages of a plant that must settle, by the sets of request (ix), as plainly as can be."""
    ends: Dict[Tuple[int, int], Set[int]] = {}
    for start, move, end in read.arrows:
        if mask >> move & 1:
            ends.setdefault((start, move), set()).add(end)

    def into(states: Set[int]) -> Set[int]:
        return {start for (start, _), to in ends.items() if to <= states and read.allowed(start)}

    settled = {state for state in range(read.states) if read.allowed(state) and read.settled(state)}
    found: Dict[int, int] = {}
    for stage in range(1, read.states + 1):
        exits = into(set(found))
        kept, before = exits | settled, set()
        while kept != before:
            before = kept
            for goal in range(read.goals):
                reach = exits | {state for state in settled & into(before) if goal in read.goals_of(state)}
                for _ in range(read.states):
                    reach |= settled & before & into(reach)
                kept = kept & reach
        found.update({state: stage for state in kept if state not in found})
    return found


class Settling(Case):
    """Plants that must settle: text, listing, stages and picture."""

    def test_the_listing_leaves_stages_out(self) -> None:
        self.assertEqual(self.call(RUN, self.example("tight-band"), "0x1f"), (0, TIGHT_BAND, ""))
        with open(os.path.join(TOP, "docs", "USING.md"), encoding="utf-8") as file:
            shown = f"$ ./run examples/tight-band.plant 0x1f\n{TIGHT_BAND}"
            self.assertIn("".join(f"    {line}\n" for line in shown.splitlines()), file.read())
        without = TIGHT_BAND.replace("5 moves", "4 moves").replace("0 0 0 3", "0 0 0 2")
        self.assertEqual(self.call(RUN, self.example("tight-band"), "0x1f", "0x08"), (0, without, ""))

    def test_cost_and_gain(self) -> None:
        counts = "1 of 7 kept states would be dropped, 6 would stay kept\n5  tight, worn roll\n"
        self.assertEqual(self.call(RUN, "--cost", self.example("tight-band"), "0x1f", "0x10"),
                         (0, "would go out of service: move 4 change roll\n" + counts, ""))
        counts = "1 of 2 lost states would be gained, 7 would then be kept\n5  tight, worn roll\n"
        self.assertEqual(self.call(RUN, "--gain", self.example("tight-band"), "0x0f", "0x10"),
                         (0, "would come back in service: move 4 change roll\n" + counts, ""))

    def test_stages_show_in_the_listing(self) -> None:
        self.assertEqual(facts.gather("t", plant.read_plant(self.example("tight-band")), [31]).stages, TIGHT_STAGES)
        pick, most = random.Random(9), 0
        for _ in range(120):
            states, moves, goals = pick.choice([3, 5, 8, 12]), pick.choice([1, 2, 3]), pick.choice([1, 2])
            labels = [1 | pick.choice([0, 512]) | pick.randrange(1 << goals) * 2 for _ in range(states)]
            arrows = {(pick.randrange(states), pick.randrange(moves), pick.randrange(states))
                      for _ in range(pick.randrange(states, 3 * states))}
            read = plant.Plant(states, moves, goals, labels, sorted(arrows), True)
            stages = facts.gather("t", read, [(1 << moves) - 1]).stages
            self.assertEqual(stages, stages_by_sets(read, (1 << moves) - 1), plant.to_text(read))
            most = max([most, *stages.values()])
        self.assertGreaterEqual(most, 3)

    def test_a_listing_that_never_settles_is_noticed(self) -> None:
        source = self.write("a.plant", SETTLE.replace("-> 1\narrow 1 0 -> 1", "-> 0\narrow 1 0 -> 1").encode())
        text = "2 of 2 kept, 1 moves in service\n0 0 1 0\n1 0 0 0\n"
        env = {"PLANBOOK_BIN": self.program("planner", f"printf '%s' '{text}'")}
        self.fails(3, "does not add up: its moves may never settle", RUN, "--picture", "-", source, "1", env=env)

    def test_the_picture(self) -> None:
        code, out, error = self.call(RUN, "--picture", "-", self.example("tight-band"), "0x1f", "0x10")
        self.assertEqual((code, error), (0, ""))
        page = xml.fromstring(out)
        boxes = {int(group.attrib["data-state"]): "".join(group.itertext()) for group in page.iter("g")
                 if "data-state" in group.attrib}
        self.assertEqual({state for state, text in boxes.items() if "\u25c6" in text}, {2, 3, 4, 5})
        self.assertIn("state 6 roll change: kept; not settled, stage 3; wait 0 for goal 0", boxes[6])
        headings = [text.text for text in page.iter("text") if text.attrib.get("class") == "heading"]
        self.assertEqual(headings[:4], ["Stage 1, wait 0", "Stage 1, wait 1", "Stage 2, wait 0", "Stage 3, wait 0"])
        rows = [[cell.text or "" for cell in row.iter("td")] for row in page.iter("tr") if "id" in row.attrib]
        self.assertEqual([row[3:5] for row in rows][:3], [["no", "2"], ["no", "2"], ["\u25c6 settled", "1"]])
        # The move out of a stage is a listed one, and not one to go on from the goal.
        edges = {(edge.attrib["data-from"], edge.attrib["data-to"]): edge.attrib["class"] for edge in page.iter("path")
                 if "data-from" in edge.attrib}
        self.assertEqual((edges["6", "1"], edges["3", "2"]), ("edge listed", "edge onward"))

    def test_other_plants_have_no_stages(self) -> None:
        _, out, _ = self.call(RUN, "--picture", "-", self.example("lockout"), "0x1f")
        self.assertNotIn("stage", out.lower())
        self.assertNotIn("\u25c6", out)


class Picture(Case):
    def draw(self, source: str, *masks: str) -> Tuple[str, xml.Element]:
        out = self.path("out.html")
        self.assertEqual(self.call(RUN, "--picture", out, source, *masks), (0, "", ""))
        with open(out, encoding="utf-8") as file:
            text = file.read()
        return text, xml.fromstring(text)

    def states(self, page: xml.Element, kind: str, view: str = "view0") -> List[int]:
        view_part = page.find(f".//div[@id='{view}']")
        assert view_part is not None
        return [int(group.attrib["data-state"]) for group in view_part.iter("g")
                if group.attrib.get("class") == f"state {kind}"]

    def test_every_example_is_drawn_well_formed(self) -> None:
        for name in EXAMPLE_PLANTS:
            source = os.path.join(EXAMPLES, name)
            read = plant.read_plant(source)
            mask = (1 << read.moves) - 1
            text, page = self.draw(source, str(mask), "1")
            self.assertEqual(len(page.findall(".//div[@class='view']")), read.goals)
            self.assertEqual(len(page.findall(".//tbody/tr")), read.states)
            self.assertIsNone(re.search(r"https?:|src=|@import|url\((?!#)", text))

    def test_facts_are_those_of_the_listing(self) -> None:
        _, page = self.draw(os.path.join(EXAMPLES, "lockout.plant"), "0x1f", "0x1c")
        self.assertEqual(self.states(page, "kept"), [0, 1])
        self.assertEqual(self.states(page, "dropped"), [2, 3, 4])
        self.assertEqual(self.states(page, "not-allowed"), [5])
        edges = [(edge.attrib["data-from"], edge.attrib["data-to"], edge.attrib["class"]) for edge in page.iter("path")
                 if "data-from" in edge.attrib]
        self.assertEqual([edge for edge in edges if edge[2] in ("edge listed", "edge onward")],
                         [("0", "0", "edge onward"), ("0", "1", "edge onward"), ("1", "0", "edge listed")])
        self.assertIn(("4", "0", "edge out"), edges)
        self.assertIn(("3", "2", "edge other"), edges)

    def test_dropped_states_are_those_of_the_cost(self) -> None:
        for name, masks, dropped in (("strip", "7 4", []), ("may-miss", "0xf 0x2", [0]),
                                     ("lockout", "0x1f 0x1c", [2, 3, 4]),
                                     ("gauge-tension", "0x3f 0x22", [20, 21, 22, 23, 24, 26, 27, 28, 29])):
            _, page = self.draw(self.example(name), *masks.split())
            self.assertEqual(sorted(self.states(page, "dropped")), dropped)
            _, out, _ = self.call(RUN, "--cost", self.example(name), *masks.split())
            self.assertEqual(states_told(out), dropped)

    def test_strip_plant_is_drawn_when_no_plant_is_named(self) -> None:
        self.assertEqual(self.call(RUN, "--picture", self.path("out.html")), (0, "", ""))
        self.assertTrue(os.path.exists(self.path("out.html")))

    def test_the_same_picture_every_time(self) -> None:
        source = os.path.join(EXAMPLES, "gauge-tension.plant")
        self.assertEqual(self.draw(source, "0x3f", "0x22")[0], self.draw(source, "0x3f", "0x22")[0])

    def test_one_state_no_arrows_and_the_empty_mask(self) -> None:
        source = self.write("a.plant", b'plant states 1 moves 1 goals 1\nstate 0 allowed goal 0 "<&>"\n')
        _, page = self.draw(source, "0")
        self.assertEqual(self.states(page, "lost"), [0])

    def test_many_states_are_a_grid(self) -> None:
        lines = ["plant states 1024 moves 1 goals 2"]
        lines += [f"state {state} allowed" + (" goals 0 1" if state == 0 else "") for state in range(1024)]
        lines += [f"arrow {state} 0 -> {max(state - 1, 0)}" for state in range(1024)]
        _, page = self.draw(self.write("a.plant", "\n".join(lines).encode()), "1", "1")
        cells = [group for group in page.iter("g") if group.attrib.get("class") == "cell dropped"]
        self.assertEqual(len(cells), 2048)
        self.assertEqual(len(page.findall(".//tbody/tr")), 1024)

    def test_many_arrows_are_a_grid(self) -> None:
        lines = ["plant states 30 moves 1 goals 1"] + [f"state {state} allowed goal 0" for state in range(30)]
        lines += [f"arrow {state} 0 -> " + " ".join(str(end) for end in range(30)) for state in range(30)]
        _, page = self.draw(self.write("a.plant", "\n".join(lines).encode()), "1")
        self.assertEqual(len([group for group in page.iter("g") if group.attrib.get("class") == "cell kept"]), 30)

    def test_errors(self) -> None:
        out, strip = self.path("out.html"), os.path.join(EXAMPLES, "strip.plant")
        self.fails(2, "needs the name of the HTML file", RUN, "--picture")
        self.fails(2, "at least one mask", RUN, "--picture", out, strip)
        self.fails(1, "refused 6: ", RUN, "--picture", out, strip, "8")
        self.fails(2, "bad.plant:1: ", RUN, "--picture", out, self.write("bad.plant", b"x"), "7")
        for name in (strip, self.path("out"), self.path("out.html.txt"), ""):
            self.fails(2, "a picture's name ends in .html", RUN, "--picture", name, strip, "7")
            self.fails(2, "a picture's name ends in .html", PICTURE_PY, name, strip, "7")
        self.assertEqual(os.listdir(self.folder), ["bad.plant"])
        with open(strip, "rb") as file:
            copy = self.write("plant.html", file.read())
        self.fails(2, "is the plant", RUN, "--picture", copy, copy, "7")

    def test_standard_output(self) -> None:
        text, _ = self.draw(self.example("lockout"), "0x1f", "0x1c")
        self.assertEqual(self.call(RUN, "--picture", "-", self.example("lockout"), "0x1f", "0x1c"), (0, text, ""))


class PictureLook(Case):
    """What a picture has for the keyboard, for paper and for dark screens; tests/paper.sh tries it in a browser."""

    DRAWN = (("strip", "7 1"), ("lockout", "0x1f 0x1c"), ("three-orders", "0x1f 0x04"), ("gauge-tension", "0x3f 0x22"))
    DARK = "@media screen and (prefers-color-scheme: dark)"

    def draw(self, source: str, *masks: str) -> xml.Element:
        out = self.path("out.html")
        self.assertEqual(self.call(RUN, "--picture", out, source, *masks), (0, "", ""))
        return xml.parse(out).getroot()

    def style(self) -> str:
        with open(os.path.join(TOP, "tools", "picture.css"), encoding="utf-8") as file:
            return file.read()

    def colours(self, text: str) -> Dict[str, str]:
        """The colours that the first block of names in a style gives."""
        return dict(re.findall(r"--([a-z0-9-]+): (#[0-9a-f]+);", text[text.index(":root"):].split("}")[0]))

    def test_each_state_is_a_button_that_says_what_it_is(self) -> None:
        for name, masks in self.DRAWN:
            read = plant.read_plant(self.example(name))
            page = self.draw(self.example(name), *masks.split())
            boxes = [group for group in page.iter("g") if "data-state" in group.attrib]
            self.assertEqual(len(boxes), read.states * read.goals)
            for box in boxes:
                title = box.find("title")
                assert title is not None
                self.assertEqual([box.attrib[key] for key in ("tabindex", "role", "aria-pressed", "aria-label")],
                                 ["0", "button", "false", title.text])
                self.assertTrue(str(title.text).startswith(f"state {box.attrib['data-state']}"), title.text)
            # Nothing in a picture may stop being heard for what is around it.
            self.assertEqual([svg for svg in page.iter("svg") if svg.attrib.get("role") == "img"], [])

    def test_paper_has_each_state_once_for_each_goal_and_whole(self) -> None:
        for name, masks in self.DRAWN:
            read = plant.read_plant(self.example(name))
            page = self.draw(self.example(name), *masks.split())
            paper = page.find(".//div[@class='paper']")
            assert paper is not None
            seen: Dict[str, List[int]] = {}
            for sheet in paper.findall("div[@class='sheet']"):
                seen.setdefault(str(sheet.findtext("h3")).strip(), []).extend(self.states_on(sheet))
            self.assertEqual(list(seen), [f"The way to {facts.named('goal', goal, read.goal_names)}"
                                          for goal in range(read.goals)])
            for states in seen.values():
                self.assertEqual(sorted(states), list(range(read.states)))
            self.assertEqual([part for part in paper.iter() if {"data-from", "tabindex", "id"} & set(part.attrib)], [])

    def states_on(self, sheet: xml.Element) -> List[int]:
        """The states of a sheet; it fits on the paper, and no box is cut."""
        svg = sheet.find("svg")
        assert svg is not None
        self.assertLessEqual(float(svg.attrib["width"]), 1040)
        self.assertLessEqual(float(svg.attrib["height"]), 670)
        left, top, width, height = (float(number) for number in svg.attrib["viewBox"].split())
        for box in svg.findall(".//rect[@class='frame']"):
            x, y, wide, high = (float(box.attrib[key]) for key in ("x", "y", "width", "height"))
            self.assertTrue(left < x < x + wide < left + width and top < y < y + high < top + height, box.attrib)
        return [int(str(number.text)) for number in svg.findall(".//tspan[@class='number']")]

    def test_cells_of_a_grid_are_on_sheets(self) -> None:
        lines = ["plant states 1024 moves 1 goals 2"] + [f"state {state} allowed" for state in range(1024)]
        page = self.draw(self.write("a.plant", "\n".join(lines).encode()), "1")
        for goal in range(2):
            sheets = page.findall(f".//div[@id='view{goal}']/div[@class='sheet']")
            self.assertEqual([sheet.findtext("h3/small") for sheet in sheets],
                             [f"a.plant, sheet {number} of 2" for number in (1, 2)])
            self.assertEqual([int(str(text.text)) for sheet in sheets for text in sheet.iter("text")
                              if text.attrib["class"] == "number"], list(range(1024)))

    def test_dark_is_for_screens_alone_and_names_every_colour(self) -> None:
        text = self.style()
        self.assertEqual(text.count("prefers-color-scheme"), text.count(self.DARK))
        self.assertEqual(text.count("color-scheme: light dark"), 1)
        light, dark = self.colours(text), self.colours(text[text.index(self.DARK):])
        self.assertEqual(set(light), set(dark))
        used = set(re.findall(r"var\(--([a-z0-9-]+)\)", text))
        self.assertEqual(used - {"ring", "label"}, set(light) - {"ring", "label"})

    def test_text_stands_out_in_both_styles(self) -> None:
        text = self.style()
        pairs = [("ink", back) for back in ("page", "kept", "dropped", "dropped-row", "lost", "lost-cell", "lost-row",
                                            "band0", "band1", "head")]
        pairs += [("soft", back) for back in ("page", "band0", "band1")] + [("choice", "page")]
        pairs += [("white", "label"), ("white", "never")]
        lines = [(line, back) for line in ("kept-line", "dropped-line", "lost-line", "onward", "thin", "ring")
                 for back in ("band0", "band1")]
        for start in (0, text.index(self.DARK)):
            colours = {**self.colours(text[start:]), "white": "#ffffff"}
            for least, some in ((4.5, pairs), (3.0, lines)):
                for front, back in some:
                    self.assertGreaterEqual(contrast(colours[front], colours[back]), least, (start, front, back))


def contrast(one: str, other: str) -> float:
    """How far two colours are apart in light, as WCAG counts it: 1 to 21."""
    lights = []
    for colour in (one, other):
        digits = colour[1:] if len(colour) == 7 else "".join(digit * 2 for digit in colour[1:])
        parts = [int(digits[at:at + 2], 16) / 255 for at in (0, 2, 4)]
        linear = [part / 12.92 if part <= 0.04045 else ((part + 0.055) / 1.055) ** 2.4 for part in parts]
        lights.append(0.2126 * linear[0] + 0.7152 * linear[1] + 0.0722 * linear[2])
    return (max(lights) + 0.05) / (min(lights) + 0.05)


# The drive side cylinder takes part in moves 2, 3 and 4 of examples/lockout.plant. What taking it out costs, and what
# its repair gains.
LOCKOUT_COST = """would go out of service: move 2 drive side down; move 3 both sides down; move 4 both sides up
3 of 5 kept states would be dropped, 2 would stay kept
2  drive side heavy
3  both sides heavy
4  centre wave
"""
LOCKOUT_GAIN = """would come back in service: move 2 drive side down; move 3 both sides down; move 4 both sides up
3 of 4 lost states would be gained, 5 would then be kept
2  drive side heavy
3  both sides heavy
4  centre wave
"""


def strip_cost(moves: str, dropped: int, kept: int, after: int) -> str:
    """What a lock-out on P costs: none of the states kept, or all of them, which are the first ones."""
    return f"would go out of service: {moves}\n{dropped} of {kept} kept states would be dropped, " \
           f"{after} would stay kept\n" + "".join(f"{state}\n" for state in range(dropped))


def strip_gain(moves: str, gained: int, lost: int, after: int) -> str:
    """What a repair on P gains: none of the states lost, or all that are allowed, which are the first ones."""
    return f"would come back in service: {moves}\n{gained} of {lost} lost states would be gained, " \
           f"{after} would then be kept\n" + "".join(f"{state}\n" for state in range(gained))


def states_told(text: str) -> List[int]:
    """The states that a cost or a gain lists."""
    return [int(line.split()[0]) for line in text.splitlines()[2:]]


def kept_states(text: str) -> Set[int]:
    """The states of a listing that are not lost."""
    return {int(line.split()[0]) for line in text.splitlines()[1:] if not line.endswith(" lost")}


def share(fewer: int, more: int) -> str:
    """How many of the states kept with more moves in service are lost with fewer; both are counts of kept states."""
    return "none" if fewer == more else "some" if fewer else "all"


def example_plants() -> List[Tuple[str, plant.Plant]]:
    """Every example: its path, and the plant."""
    paths = [os.path.join(EXAMPLES, name) for name in EXAMPLE_PLANTS]
    return [(path, plant.read_plant(path)) for path in paths]


# The listings of P with all moves in service, and without move 0.
STRIP_ALL = "3 of 4 kept, 3 moves in service\n0 0 0 0\n0 1 2 0\n1 0 1 2\n1 1 1 0\n2 0 1 0\n2 1 0 0\n3 lost\n"
STRIP_LESS = "0 of 4 kept, 2 moves in service\n0 lost\n1 lost\n2 lost\n3 lost\n"


def contradictions(contrary: str) -> List[Tuple[str, str, str]]:
    """These listings spoilt, with the words of the error: first each keeps what the other should, which is contrary."""
    return [(STRIP_LESS.replace("2 moves", "3 moves"), STRIP_ALL.replace("3 moves", "2 moves"), contrary),
            (STRIP_ALL.replace("3 of", "4 of"), STRIP_LESS, "does not add up"),
            (STRIP_ALL, STRIP_LESS.replace("0 of", "1 of"), "does not add up"),
            (STRIP_ALL.replace("3 moves", "2 moves"), STRIP_LESS, "other moves in service"),
            (STRIP_ALL, STRIP_LESS.replace("2 moves", "3 moves"), "other moves in service")]


class Question(Case):
    """Asks --cost or --gain. The texts expected are worked out by hand, from document 01's M1 to M4 and the plants."""

    def says(self, expected: str, option: str, source: str, masks: str, env: Optional[Dict[str, str]] = None) -> None:
        self.assertEqual(self.call(RUN, option, source, *masks.split(), env=env), (0, expected, ""))

    def refuses(self, status: int, words: str, option: str, source: str, masks: str,
                env: Optional[Dict[str, str]] = None) -> None:
        self.fails(status, words, RUN, option, source, *masks.split(), env=env)

    def kept(self, read: plant.Plant, masks: List[int]) -> Set[int]:
        """The states that the planner's listing of these masks keeps."""
        words = plant.to_bytes(read) + struct.pack(f"<{len(masks)}I", *masks)
        done = subprocess.run([listing.planner()], input=words, capture_output=True, check=True)
        return kept_states(done.stdout.decode("ascii"))

    def tells(self, states: Set[int], counts: str, option: str, source: str, masks: List[int]) -> None:
        """The answer lists these states, and has this line of counts."""
        code, out, error = self.call(RUN, option, source, *(str(mask) for mask in masks))
        self.assertEqual((code, error, states_told(out)), (0, "", sorted(states)), (source, masks))
        self.assertEqual(out.splitlines()[1], counts, (source, masks))

    def two_listings(self, one: str, more: str) -> Dict[str, str]:
        """A stand-in planner with a listing for P and one mask, 76 bytes, and another for P and more."""
        script = f"if [ $(wc -c) -eq 76 ]; then printf '%s' '{one}'; else printf '%s' '{more}'; fi"
        return {"PLANBOOK_BIN": self.program("planner", script)}


class CostAndGain(Question):
    """What ./run says with --cost and with --gain, in like cases."""

    def test_the_guide_has_the_answers_about_a_cylinder(self) -> None:
        with open(os.path.join(TOP, "docs", "USING.md"), encoding="utf-8") as file:
            guide = file.read()
        for expected, option, masks in ((LOCKOUT_COST, "--cost", "0x1f 0x1c"),
                                        (LOCKOUT_GAIN, "--gain", "0x1f 0x1c 0x1c")):
            self.says(expected, option, self.example("lockout"), masks)
            shown = f"$ ./run {option} examples/lockout.plant {masks}\n" + expected
            self.assertIn("".join(f"    {line}\n" for line in shown.splitlines()), guide)

    def test_bytes_have_no_names(self) -> None:
        source = self.write("lockout.bin", plant.to_bytes(plant.read_plant(self.example("lockout"))))
        self.says("would go out of service: move 2; move 3; move 4\n"
                  "3 of 5 kept states would be dropped, 2 would stay kept\n2\n3\n4\n", "--cost", source, "0x1f 0x1c")
        self.says("would come back in service: move 2; move 3; move 4\n3 of 4 lost states would be gained, "
                  "5 would then be kept\n2\n3\n4\n", "--gain", source, "0x1f 0x1c 0x1c")

    def test_names_and_numbers_in_columns(self) -> None:
        lines = ["plant states 11 moves 2 goals 1", 'move 1 "¼ turn up"', 'state 9 allowed goal 0 "½ mm, on aim"']
        lines += [f"state {state} allowed goal 0" for state in range(11) if state != 9]
        lines += [f"arrow {state} {state // 9} -> {state}" for state in range(11)]
        source, env = self.write("a.plant", "\n".join(lines).encode()), {"PYTHONIOENCODING": "ascii"}
        states = " 9  ½ mm, on aim\n10\n"
        self.says("would go out of service: move 1 ¼ turn up\n2 of 11 kept states would be dropped, "
                  "9 would stay kept\n" + states, "--cost", source, "3 2", env=env)
        self.says("would come back in service: move 1 ¼ turn up\n2 of 2 lost states would be gained, "
                  "11 would then be kept\n" + states, "--gain", source, "1 2", env=env)

    def test_the_most_states(self) -> None:
        largest = plant.Plant(1024, 1, 1, [3] * 1024, [(state, 0, state) for state in range(1024)])
        source = self.write("a.bin", plant.to_bytes(largest))
        states = "".join(f"{state:>4}\n" for state in range(1024))
        for words, expected in (("--cost 1 1", "would go out of service: move 0\n"
                                 "1024 of 1024 kept states would be dropped, 0 would stay kept\n"),
                                ("--gain 0 1", "would come back in service: move 0\n"
                                 "1024 of 1024 lost states would be gained, 1024 would then be kept\n")):
            option, *masks = words.split()
            code, out, error = self.call(RUN, option, source, *masks)
            self.assertEqual((code, error), (0, ""))
            self.assertTrue(out == expected + states, out[:200])

    def test_how_many_masks(self) -> None:
        strip = self.example("strip")
        for option, asked, last in (("--cost", "the lock-out", "the lock-out"),
                                    ("--gain", "the moves that come back", "those that come back")):
            self.fails(2, f"{option} needs a plant, the moves in service and {asked};", RUN, option)
            for masks in ("", "7"):
                self.refuses(2, f"least two masks, the moves in service first and {last} last;", option, strip, masks)
            self.refuses(2, "17 masks are too many", option, strip, "7" + " 4" * 15 + " 1")
        self.says(strip_cost("move 0", 3, 3, 0), "--cost", strip, "7" + " 4" * 14 + " 1")
        self.says(strip_gain("move 0", 3, 4, 3), "--gain", strip, "6" + " 4" * 14 + " 1")

    def test_bad_masks_and_files(self) -> None:
        strip = self.example("strip")
        data = plant.to_bytes(plant.read_plant(strip))
        bad = self.write("bad.plant", b"\n\nx\n")
        for option in ("--cost", "--gain"):
            for masks in ("x 1", "7 x", "7 4294967296"):
                self.refuses(2, "is no mask", option, strip, masks)
            for masks in ("8 1", "7 8", "7 8 1", "7 0xffffffff"):
                self.refuses(1, "refused 6: a mask names a move", option, strip, masks)
            self.refuses(2, "there is no such file", option, self.path("none.plant"), "7 1")
            self.refuses(2, "is not a file", option, self.folder, "7 1")
            self.refuses(2, "bad.plant:3: ", option, bad, "7 1")
            for number, spoilt in ((1, data[:-4]), (2, changed(data, 8, 8)), (3, changed(data, 12, 4))):
                self.refuses(2, f"refuses this with {number}", option, self.write("a.bin", spoilt), "7 1")

    def test_no_python_and_no_planner(self) -> None:
        source = self.write("a.bin", plant.to_bytes(plant.read_plant(self.example("strip"))))
        bash, few = shutil.which("bash") or "", {"PATH": self.few_tools()}
        none = {"PLANBOOK_BIN": self.path("none")}
        for option, tool, what in (("--cost", COST_PY, "the cost of a lock-out"),
                                   ("--gain", GAIN_PY, "the gain of a repair")):
            self.fails(3, f"python3 is needed for {what}, ", bash, RUN, option, source, "7", "1", env=few)
            self.refuses(3, "PLANBOOK_BIN names no program", option, source, "7 1", env=none)
            self.fails(3, "planbook is not there", tool, source, "7", "1", env=none)


class Cost(Question):
    """What ./run --cost says."""

    def test_marked_examples(self) -> None:
        strip = self.example("strip")
        self.says(strip_cost("move 0", 3, 3, 0), "--cost", strip, "7 1")
        self.says(strip_cost("move 1", 0, 3, 3), "--cost", strip, "7 0x2")
        self.says(strip_cost("move 2", 0, 3, 3), "--cost", strip, "7 4")

    def test_only_the_last_mask_is_asked_about(self) -> None:
        # Without move 2 state 2 is lost already; state 3 has move 3 left and state 4 move 4.
        self.says("would go out of service: move 3 both sides down; move 4 both sides up\n"
                  "2 of 4 kept states would be dropped, 2 would stay kept\n3  both sides heavy\n4  centre wave\n",
                  "--cost", self.example("lockout"), "0x1f 0x04 0x18")

    def test_moves_that_are_out_already(self) -> None:
        strip = self.example("strip")
        self.says(strip_cost("move 0", 3, 3, 0), "--cost", strip, "7 4 5")
        self.says(strip_cost("no move", 0, 3, 3), "--cost", strip, "7 4 4")
        self.says(strip_cost("no move", 0, 3, 3), "--cost", strip, "7 0")
        self.says(strip_cost("no move", 0, 0, 0), "--cost", strip, "0 7")

    def test_listings_that_do_not_add_up(self) -> None:
        strip, out = self.example("strip"), self.path("out.html")
        self.says(strip_cost("move 0", 3, 3, 0), "--cost", strip, "7 1", env=self.two_listings(STRIP_ALL, STRIP_LESS))
        for one, more, words in contradictions("state 0 is lost before a withdrawal and kept after it"):
            env = self.two_listings(one, more)
            self.refuses(3, words, "--cost", strip, "7 1", env=env)
            self.fails(3, words, RUN, "--picture", out, strip, "7", "1", env=env)
            self.assertFalse(os.path.exists(out))

    def test_dropped_states_are_the_difference_of_two_listings(self) -> None:
        pick = random.Random(1)
        shares = set()
        for source, read in example_plants():
            for count in (2, 2, 3, 3):
                masks = [(1 << read.moves) - 1] + [1 << pick.randrange(read.moves) for _ in range(count - 1)]
                before, after = self.kept(read, masks[:-1]), self.kept(read, masks)
                self.tells(before - after, f"{len(before - after)} of {len(before)} kept states would be dropped, "
                           f"{len(after)} would stay kept", "--cost", source, masks)
                shares.add(share(len(after), len(before)))
        self.assertEqual(shares, {"none", "some", "all"})


class Gain(Question):
    """What ./run --gain says. With move 0 in service P keeps all but state 3, which is not allowed; without it none."""

    def test_marked_examples(self) -> None:
        strip = self.example("strip")
        for masks in ("6 1", "7 1 1", "0 0x1"):
            self.says(strip_gain("move 0", 3, 4, 3), "--gain", strip, masks)
        self.says(strip_gain("move 1", 0, 1, 3), "--gain", strip, "7 2 2")
        self.says(strip_gain("move 2", 0, 1, 3), "--gain", strip, "3 0x4")
        self.says(strip_gain("move 1; move 2", 0, 4, 0), "--gain", strip, "0 6")
        self.says(strip_gain("move 0; move 1; move 2", 3, 4, 3), "--gain", strip, "0 7")

    def test_only_the_last_mask_comes_back(self) -> None:
        # State 2 hangs on move 2, state 4 on move 4; state 3 has move 3, and moves 1 and 2 by way of states 2 and 1.
        lockout = self.example("lockout")
        back = "would come back in service: move 3 both sides down; move 4 both sides up\n"
        for masks in ("0x1f 0x04 0x18 0x18", "0x1f 0x1c 0x18", "0x1f 0x18 0x04 0x18"):
            self.says(back + "2 of 4 lost states would be gained, 4 would then be kept\n"
                      "3  both sides heavy\n4  centre wave\n", "--gain", lockout, masks)
        self.says("would come back in service: move 2 drive side down\n2 of 4 lost states would be gained, "
                  "4 would then be kept\n2  drive side heavy\n3  both sides heavy\n",
                  "--gain", lockout, "0x1f 0x18 0x04 0x04")
        self.says(back + "1 of 2 lost states would be gained, 5 would then be kept\n4  centre wave\n",
                  "--gain", lockout, "0x07 0x18")

    def test_moves_that_are_in_service_already(self) -> None:
        strip = self.example("strip")
        for masks in ("7 7", "7 1", "7 0", "7 4 3"):
            self.says(strip_gain("no move", 0, 1, 3), "--gain", strip, masks)
        self.says(strip_gain("no move", 0, 4, 0), "--gain", strip, "7 1 6")
        self.says(strip_gain("move 0", 3, 4, 3), "--gain", strip, "7 1 7")
        self.says(strip_gain("move 2", 0, 1, 3), "--gain", strip, "7 4 7")

    def test_listings_that_do_not_add_up(self) -> None:
        # The listing without move 0 has two masks and comes before; that with all moves has one and comes after.
        strip = self.example("strip")
        self.says(strip_gain("move 0", 3, 4, 3), "--gain", strip, "7 1 1", env=self.two_listings(STRIP_ALL, STRIP_LESS))
        for one, more, words in contradictions("state 0 is kept before a return and lost after it"):
            self.refuses(3, words, "--gain", strip, "7 1 1", env=self.two_listings(one, more))

    def test_gained_states_are_the_difference_of_two_listings(self) -> None:
        pick = random.Random(1)
        shares = set()
        for source, read in example_plants():
            everything = (1 << read.moves) - 1
            for first, out in ((everything, 1 << pick.randrange(read.moves)), (everything, pick.randint(0, everything)),
                               (pick.randint(0, everything), 0), (pick.randint(0, everything), 1)):
                back = pick.randint(0, everything)
                before, after = self.kept(read, [first, out]), self.kept(read, [first & ~out | back])
                self.tells(after - before, f"{len(after - before)} of {read.states - len(before)} lost states would be "
                           f"gained, {len(after)} would then be kept", "--gain", source, [first, out, back])
                shares.add(share(len(before), len(after)))
        self.assertEqual(shares, {"none", "some", "all"})

    def test_what_is_withdrawn_and_comes_back(self) -> None:
        shares = set()
        for source, read in example_plants():
            for move in range(read.moves):
                masks = [(1 << read.moves) - 1, 1 << move]
                costs, gains = cost.report(read, masks), gain.report(read, masks + [1 << move])
                dropped, kept, after = (int(number) for number in re.findall(r"\d+", costs[1]))
                counts = f"{dropped} of {read.states - after} lost states would be gained, {kept} would then be kept"
                self.assertEqual(gains[1:], [counts, *costs[2:]], (source, masks))
                shares.add(share(after, kept))
        self.assertEqual(shares, {"none", "some", "all"})


# What the row of thick strip in the mill can depend on, when no strip goes on to the slitter.
SLITTER_REACH = """in service: move 0 hold; move 1 screws up; move 2 screws down; move 3 close the knives; \
move 4 back to the mill
the row of state 2 (mill, thick) can depend on 3 of 6 states
3 others can be remodelled without a second look at it
0  mill, thin
1  mill, on aim
2  mill, thick
"""


def strip_reach(state: int, moves: str, others: str, states: List[int]) -> str:
    """What the row of a state of P can depend on."""
    return f"in service: {moves}\nthe row of state {state} can depend on {len(states)} of 4 states\n" \
           f"{others} can be remodelled without a second look at it\n" + "".join(f"{other}\n" for other in states)


def closed(read: plant.Plant, mask: int) -> List[List[int]]:
    """For each state those that it can come to, by whole sets at once: each state's set takes in the set of every state
    that can be gone through, in turn (Warshall)."""
    sets = [1 << state for state in range(read.states)]
    for start, move, end in read.arrows:
        sets[start] |= (mask >> move & 1) << end
    for middle in range(read.states):
        for state in range(read.states):
            sets[state] |= sets[middle] * (sets[state] >> middle & 1)
    return [[end for end in range(read.states) if found >> end & 1] for found in sets]


class Reach(Case):
    """What ./run --reach says. The lists expected are read off the plants by hand, or found by whole sets."""

    def says(self, expected: str, *words: str, env: Optional[Dict[str, str]] = None) -> None:
        self.assertEqual(self.call(RUN, "--reach", *words, env=env), (0, expected, ""))

    def refuses(self, status: int, error: str, *words: str, env: Optional[Dict[str, str]] = None) -> None:
        self.fails(status, error, RUN, "--reach", *words, env=env)

    def test_strip_plant(self) -> None:
        strip, every = self.example("strip"), "move 0; move 1; move 2"
        for state in range(3):
            self.says(strip_reach(state, every, "no others", [0, 1, 2, 3]), str(state), strip, "7")
        self.says(strip_reach(3, every, "3 others", [3]), "3", strip, "7")
        self.says(strip_reach(1, "move 0; move 2", "1 other", [0, 1, 2]), "1", strip, "0x5")
        self.says(strip_reach(0, "move 1", "no others", [0, 1, 2, 3]), "0", strip, "2")
        self.says(strip_reach(2, "move 1", "3 others", [2]), "2", strip, "2")
        self.says(strip_reach(2, "no move", "3 others", [2]), "002", strip, "0")

    def test_the_guide_has_the_answer_about_the_slitter(self) -> None:
        with open(os.path.join(TOP, "docs", "USING.md"), encoding="utf-8") as file:
            guide = file.read()
        self.says(SLITTER_REACH, "2", self.example("slitter"), "0x1f")
        self.says(SLITTER_REACH, "mill, thick", self.example("slitter"), "0x1f")
        shown = "$ ./run --reach 2 examples/slitter.plant 0x1f\n" + SLITTER_REACH
        self.assertIn("".join(f"    {line}\n" for line in shown.splitlines()), guide)

    def test_the_slitter_end_is_remodelled(self) -> None:
        # Knives that may tear the strip: a burr is then taken off in the mill.
        with open(self.example("slitter"), encoding="utf-8") as file:
            before = file.read()
        after = before.replace("arrow 4 3 -> 3 ", "arrow 4 3 -> 3 5 ")
        self.assertNotEqual(before, after)
        for mask, count in (("0x1f", "5 moves"), ("0x3f", "6 moves")):
            mill = f"5 of 6 kept, {count} in service\n0 0 1 1\n1 0 0 0\n2 0 1 2\n3 0 0 0\n"
            for text, burred in ((before, "4 0 1 3\n"), (after, "4 0 2 4\n")):
                source = self.write("a.plant", text.encode())
                self.assertEqual(self.call(RUN, source, mask), (0, mill + burred + "5 lost\n", ""))
        read = plant.from_text("t", before.encode())
        for mask, states in ((0x1f, [3, 4]), (0x3f, [0, 1, 2, 3, 4])):
            self.assertEqual([state for state in range(6) if 4 in reach.reach(read, state, mask)], states)

    def test_states_that_are_not_allowed_are_gone_through(self) -> None:
        lines = ["plant states 4 moves 1 goals 1 settle", "state 0 allowed", "state 1 not-allowed", "state 2 allowed",
                 "state 3 allowed settled goal 0", "arrow 0 0 -> 1", "arrow 1 0 -> 2", "arrow 3 0 -> 3"]
        self.says("in service: move 0\nthe row of state 0 can depend on 3 of 4 states\n"
                  "1 other can be remodelled without a second look at it\n0\n1\n2\n",
                  "0", self.write("a.plant", "\n".join(lines).encode()), "1")

    def test_bytes_and_standard_input(self) -> None:
        data = plant.to_bytes(plant.read_plant(self.example("slitter")))
        source, text = self.write("slitter.bin", data), self.example("slitter")
        bare = "in service: move 0; move 1; move 2; move 3; move 4\nthe row of state 2 can depend on 3 of 6 states\n" \
               "3 others can be remodelled without a second look at it\n0\n1\n2\n"
        self.says(bare, "2", source, "0x1f")
        self.refuses(2, "no state has the name 'mill, thick': give a name from the plant's text, or a number from 0 to "
                     "5", "mill, thick", source, "0x1f")
        for path, expected in ((source, bare), (text, SLITTER_REACH)):
            for tool in (f"{RUN} --reach", REACH_PY):
                self.assertEqual(self.call("bash", "-c", f'{tool} 2 - 0x1f <"$0"', path), (0, expected, ""))

    def test_names_and_numbers(self) -> None:
        lines = ["plant states 11 moves 1 goals 1", 'state 0 allowed "7"', 'state 7 allowed "½ mm, on aim"',
                 'state 9 allowed " thick "', 'state 10 allowed "thick"', "arrow 7 0 -> 10"]
        lines += [f"state {state} allowed" for state in (1, 2, 3, 4, 5, 6, 8)]
        source = self.write("a.plant", "\n".join(lines).encode())
        expected = "in service: move 0\nthe row of state 7 (½ mm, on aim) can depend on 2 of 11 states\n" \
                   "9 others can be remodelled without a second look at it\n 7  ½ mm, on aim\n10  thick\n"
        for env in ({}, Machine.ASCII):
            for word in ("7", "07", "½ mm, on aim", " ½ mm, on aim"):
                self.says(expected, word, source, "1", env=env)
        self.refuses(2, "states 9 and 10 have the name 'thick': give the number", "thick", source, "1")
        for word in ("", "Thick", "-1", "0x7", "7.0", "½ mm", "\u0667", "on\naim", "\udcff"):
            self.refuses(2, "no state has the name '", word, source, "1")
        for word in ("11", "0011", "65536", "4294967303", "9" * 5000):
            self.refuses(2, "the plant's states are 0 to 10", word, source, "1")

    def test_bad_words_masks_and_files(self) -> None:
        strip = self.example("strip")
        for words in ([], ["0"], [strip, "7"], ["0", strip], ["0", strip, "7", "4"]):
            self.refuses(2, "--reach needs a state, a plant and one mask, the moves in service; ./run --help", *words)
        self.fails(2, "give one mask, the moves in service, and not 2", REACH_PY, "0", strip, "7", "4")
        for mask in ("", "x", "-1", "4294967296"):
            self.refuses(2, f"'{mask}' is no mask", "0", strip, mask)
        for mask in ("8", "0xffffffff"):
            self.refuses(1, "refused 6: a mask names a move", "0", strip, mask)
        self.refuses(2, "3: there is no such file", strip, "3", "7")
        self.refuses(2, "is not a file", "0", self.folder, "7")
        self.refuses(2, "bad.plant:3: ", "0", self.write("bad.plant", b"\n\nx\n"), "7")
        data = plant.to_bytes(plant.read_plant(strip))
        for number, spoilt in ((1, data[:-4]), (2, changed(data, 8, 8)), (3, changed(data, 12, 4))):
            self.refuses(2, f"refuses this with {number}", "0", self.write("a.bin", spoilt), "7")

    def test_no_python_and_no_planner(self) -> None:
        source = self.write("a.bin", plant.to_bytes(plant.read_plant(self.example("strip"))))
        few, none = {"PATH": self.few_tools()}, {"PLANBOOK_BIN": self.path("none")}
        self.fails(3, "python3 is needed for the reach of a state, ", shutil.which("bash") or "", RUN, "--reach", "0",
                   source, "7", env=few)
        self.refuses(3, "PLANBOOK_BIN names no program", "0", source, "7", env=none)
        self.fails(3, "planbook is not there", REACH_PY, "0", source, "7", env=none)

    def test_the_most_states(self) -> None:
        chain = plant.Plant(1024, 1, 1, [3] * 1024, [(state, 0, state + 1) for state in range(1023)])
        source = self.write("a.bin", plant.to_bytes(chain))
        for state, others in ((0, "no others"), (1, "1 other"), (1023, "1023 others")):
            self.says(f"in service: move 0\nthe row of state {state} can depend on {1024 - state} of 1024 states\n"
                      f"{others} can be remodelled without a second look at it\n" +
                      "".join(f"{other:>4}\n" for other in range(state, 1024)), str(state), source, "1")

    def test_lists_are_closed_and_no_longer(self) -> None:
        sizes = Counter()
        for seed in range(200):
            for read in (sketch(random.Random(seed), seed % 2 == 1), random_plant(seed)):
                if read.states > 100:
                    continue
                mask = random.Random(seed).randrange(1 << read.moves)
                for state, expected in enumerate(closed(read, mask)):
                    self.assertEqual(reach.reach(read, state, mask), expected, (seed, state))
                    sizes[min(len(expected), 3), len(expected) == read.states] += 1
        self.assertTrue(all(sizes[key] > 50 for key in ((1, False), (2, False), (3, False), (3, True))), sizes)


def sketch(pick: random.Random, settles: bool) -> plant.Plant:
    """A plant of two ends, of which one leads to the other less often than back. Its states have any numbers."""
    states, moves, goals = pick.choice([1, 4, 6, 9, 12, 24]), pick.choice([1, 2, 3, 4, 32]), pick.choice([1, 1, 2, 8])
    made = plant.Plant(states, moves, goals, [new_label(pick, goals, settles) for _ in range(states)], [], settles)
    numbers = pick.sample(range(states), states)
    half = numbers[:states // 2]
    made.arrows = sorted({arrow for state in numbers for arrow in
                          new_arrows(pick, made, state, half if state in half and pick.random() < 0.97 else numbers)})
    return made


def new_label(pick: random.Random, goals: int, settles: bool) -> int:
    label = int(pick.random() < 0.93) + sum(2 << goal for goal in range(goals) if pick.random() < 0.7)
    return label | (plant.SETTLED if settles and pick.random() < 0.75 else 0)


def new_arrows(pick: random.Random, read: plant.Plant, state: int, ends: List[int]) -> Set[plant.Arrow]:
    """A few arrows from a state to some of these, mostly one by each move."""
    moves = [pick.randrange(min(read.moves, 4)) for _ in range(2)] + [pick.randrange(read.moves)]
    return {(state, move, pick.choice(ends)) for move in moves for _ in range(pick.choice([1, 1, 1, 2]))}


@dataclass
class Pair:
    """Two plants made with one mask, a state, and the states whose labels and arrows in service are the same."""

    one: plant.Plant
    other: plant.Plant
    mask: int
    state: int
    listed: List[int]


def pair_of(seed: int, lists: Callable[[plant.Plant, int, int], List[int]]) -> Pair:
    """A plant, and the same remodelled wherever the list for a state allows: new labels and arrows at states that are
    not listed, and new arrows of moves out of service at all. Odd seeds have plants that must settle."""
    pick = random.Random(seed)
    one = sketch(pick, seed % 2 == 1)
    mask = pick.randrange(1 << one.moves) | pick.randrange(1 << one.moves)
    state = pick.randrange(one.states)
    listed = lists(one, state, mask)
    stays = {arrow for arrow in one.arrows if arrow[0] in listed and mask >> arrow[1] & 1}
    new = {arrow for start in range(one.states) for arrow in new_arrows(pick, one, start, list(range(one.states)))
           if start not in listed or not mask >> arrow[1] & 1}
    labels = [label if at in listed else new_label(pick, one.goals, one.settles) for at, label in enumerate(one.labels)]
    return Pair(one, replace(one, labels=labels, arrows=sorted(stays | new)), mask, state, listed)


def rows_of(read: plant.Plant, mask: int) -> List[object]:
    """Every state's row: nothing if it is lost, or its stage and its entries."""
    made = listing.book(read, [mask])
    found = facts.stages(read, made, listing.ends_of(read))
    return [(found[state], made.rows[state]) if state in made.rows else None for state in range(read.states)]


class Elsewhere(unittest.TestCase):
    """Request (x): plants that agree on what a state can come to have the same row for it."""

    def rows_agree(self, seed: int, lists: Callable[[plant.Plant, int, int], List[int]], seen: Counter) -> bool:
        """Whether the rows of the state and of all that are listed for it are the same in both plants of a pair."""
        pair = pair_of(seed, lists)
        one, other = (rows_of(read, pair.mask) for read in (pair.one, pair.other))
        row, unlisted = one[pair.state], set(range(pair.one.states)) - set(pair.listed)
        out = [{arrow for arrow in read.arrows if arrow[0] in pair.listed and not pair.mask >> arrow[1] & 1}
               for read in (pair.one, pair.other)]
        seen.update(pairs=1, kept=row is not None, lost=row is None, several=len(pair.listed) > 1,
                    later=isinstance(row, tuple) and row[0] > 1, some=bool(unlisted), out=out[0] != out[1],
                    counts=one.count(None) != other.count(None), rows=any(one[at] != other[at] for at in unlisted),
                    forbidden=any(not pair.one.allowed(at) for at in pair.listed if at != pair.state))
        return all(one[at] == other[at] for at in {pair.state, *pair.listed})

    def test_rows_that_come_to_the_same_states_are_the_same(self) -> None:
        for sort in range(2):
            seen: Counter = Counter()
            for seed in range(sort, 800, 2):
                self.assertTrue(self.rows_agree(seed, reach.reach, seen), pair_of(seed, reach.reach))
            few = {name for name, count in seen.items() if count < (15 * sort if name == "later" else 60)}
            self.assertEqual(few, set(), seen)

    def test_lists_that_are_too_short_are_found_out(self) -> None:
        def itself_left_out(read: plant.Plant, state: int, mask: int) -> List[int]:
            return [other for other in reach.reach(read, state, mask) if other != state]

        def itself_alone(read: plant.Plant, state: int, mask: int) -> List[int]:
            return [state]

        def one_step(read: plant.Plant, state: int, mask: int) -> List[int]:
            return sorted({state, *(end for start, move, end in read.arrows if start == state and mask >> move & 1)})

        def last_step_left_out(read: plant.Plant, state: int, mask: int) -> List[int]:
            found = [[state], one_step(read, state, mask)]
            while len(found[-1]) > len(found[-2]):
                found.append(sorted({end for other in found[-1] for end in one_step(read, other, mask)}))
            return found[max(0, len(found) - 3)]

        def lowest_move_alone(read: plant.Plant, state: int, mask: int) -> List[int]:
            return reach.reach(read, state, mask & -mask)

        def backward(read: plant.Plant, state: int, mask: int) -> List[int]:
            arrows = [(end, move, start) for start, move, end in read.arrows]
            return reach.reach(replace(read, arrows=arrows), state, mask)

        for lists in (itself_left_out, itself_alone, one_step, last_step_left_out, lowest_move_alone, backward):
            for sort in range(2):
                found = any(not self.rows_agree(seed, lists, Counter()) for seed in range(sort, 800, 2))
                self.assertTrue(found, (lists.__name__, sort))

    def test_what_lies_behind_states_that_are_not_allowed_makes_no_difference(self) -> None:
        # It is listed all the same: request (x) speaks of all that can be reached.
        def through_allowed_states(read: plant.Plant, state: int, mask: int) -> List[int]:
            arrows = [arrow for arrow in read.arrows if read.allowed(arrow[0])]
            return reach.reach(replace(read, arrows=arrows), state, mask)

        shorter = 0
        for seed in range(400):
            pair = pair_of(seed, reach.reach)
            if through_allowed_states(pair.one, pair.state, pair.mask) != pair.listed:
                self.assertTrue(self.rows_agree(seed, through_allowed_states, Counter()), seed)
                shorter += 1
        self.assertGreater(shorter, 20)


# What ./run gauge says of strip that is 0.013 mm off its aim of 2 mm.
ON_AIM = "state 2  on aim\ndeviation 0.013 mm (2.013 less 2): band -0.02 .. 0.02\n"

TABLE = """plant "p.plant"
band open .. -1 state 0
band -1 .. 1 state "b"
band 2 .. open state "c"
"""


class Bands(Case):
    """A table of bands as text."""

    # Texts with the line and the words of their error.
    TEXTS: List[Tuple[str, int, str]] = [
        ("", 1, "the file has no line 'plant \"FILE\"'"),
        ("# only words\n\n", 1, "the file has no line 'plant \"FILE\"'"),
        ("\nband open .. 1 state 0\n", 2, "the first line is 'plant \"FILE\"', found 'band'"),
        ("\"p.plant\"\n", 1, "the first line is 'plant \"FILE\"', found 'p.plant'"),
        ("plant states 1 moves 1 goals 1\n", 1, "this is a plant and no table of bands"),
        ("plant\n", 1, "name of the plant's file is expected, in quotes"),
        ("plant p.plant\n", 1, "name of the plant's file is expected, in quotes"),
        ("plant \"\"\n", 1, "name of the plant's file is expected, in quotes"),
        ("plant \"p.plant\n", 1, "no closing quote"),
        ("plant \"p.plant\" 3\n", 1, "nothing more is expected on this line, found '3'"),
        ("\n\nplant \"q.plant\"\n", 3, "./q.plant: cannot be read (No such file or directory)"),
        ("plant \".\"\n", 1, "./.: cannot be read (Is a directory)"),
        ("plant \"-\"\n", 1, "./-: cannot be read (No such file or directory)"),
        ("plant \"bad.plant\"\n", 1, "./bad.plant:2: a line starts with state, arrow, move or goal, found 'x'"),
        ("plant \"bad.bin\"\n", 1, "./bad.bin: a plant has at least 16 bytes, this file has 3 (planbook refuses"),
        (TABLE + "plant \"p.plant\"\n", 5, "the plant is named already"),
        (TABLE + "state 0\n", 5, "a line starts with band, found 'state'"),
        (TABLE + "\"band\" 3 .. 4 state 0\n", 5, "a line starts with band, found 'band'"),
        (TABLE + "band\n", 5, "ends where the lower end is expected"),
        (TABLE + "band 3\n", 5, "ends where '..' is expected"),
        (TABLE + "band 3 ..\n", 5, "ends where the upper end is expected"),
        (TABLE + "band 3 .. 4\n", 5, "ends where 'state' is expected"),
        (TABLE + "band 3 .. 4 state\n", 5, "ends where the state is expected"),
        (TABLE + "band 3 4 state 0\n", 5, "the lower end is one number, found '3' and '4'; a decimal number has"),
        (TABLE + "band 3 to 4 state 0\n", 5, "'..' is expected, found 'to'"),
        (TABLE + "band 3 .. 4 \"a\"\n", 5, "'state' is expected, found the name 'a'"),
        (TABLE + "band 3 .. 4 0\n", 5, "the upper end is one number, found '4' and '0'"),
        (TABLE + "band 3,5 .. 4 state 0\n", 5, "the lower end is one number, found '3' and '5'; a decimal number has"),
        (TABLE + "band 3 .. 4,5 state 0\n", 5, "the upper end is one number, found '4' and '5'; a decimal number has"),
        (TABLE + "band .. 4 state 0\n", 5, "the lower end is 'open' or a number, found '..'\n"),
        (TABLE + "band 3..4 state 0\n", 5, "is 'open' or a number, found '3..4'; write a space on each side of '..'"),
        (TABLE + "band 3.. 4 state 0\n", 5, "is 'open' or a number, found '3..'; write a space on each side of '..'"),
        (TABLE + "band 3 ..4 state 0\n", 5, "'..' is expected, found '..4'"),
        (TABLE + "band \"3\" .. 4 state 0\n", 5, "the lower end is expected, found the name '3'"),
        (TABLE + "band 3 .. 4 state a\n", 5, "the state is a number or a name in quotes, found 'a'"),
        (TABLE + "band 3 .. 4 state -1\n", 5, "the state is a number or a name in quotes, found '-1'"),
        (TABLE + "band 3 .. 4 state 1x\n", 5, "the state is a number, found '1x'"),
        (TABLE + "band 3 .. 4 state 5\n", 5, "the state is 0 to 4, found '5'"),
        (TABLE + "band 3 .. 4 state 4294967296\n", 5, "the state is 0 to 4, found '4294967296'"),
        (TABLE + "band 3 .. 4 state \"\"\n", 5, "a name has 1 to 40 printable characters"),
        (TABLE + "band 3 .. 4 state \"d\"\n", 5, "no state has the name 'd': give a name from the plant's text, or"),
        (TABLE + "band 3 .. 4 state \"twice\"\n", 5, "states 3 and 4 have the name 'twice': give the number"),
        (TABLE + "band 3 .. 4 state 0 1\n", 5, "nothing more is expected on this line, found '1'"),
        (TABLE + "band 3 .. 4 state 0 \"a\"\n", 5, "nothing more is expected on this line, found 'a'"),
    ]

    NO_NUMBERS = ("nan", "inf", "-inf", "Infinity", "1_0", "0x10", "0x1p3", "1e", "e5", ".", "-", "+-1", "--1", "1.2.3",
                  "1e5.0", "1d0", "\u0661", "one", "Open")

    def setUp(self) -> None:
        super().setUp()
        names = ["a", "b", "c", "twice", "twice"]
        lines = ["plant states 5 moves 1 goals 1", *(f'state {at} allowed "{name}"' for at, name in enumerate(names))]
        self.write("p.plant", "\n".join(lines).encode())
        self.write("bad.plant", b"plant states 1 moves 1 goals 1\nx\n")
        self.write("bad.bin", b"abc")

    def table(self, text: str, name: str = "a.bands") -> gauge.Table:
        return gauge.read_table(self.write(name, text.encode()))

    def test_each_error_has_its_line(self) -> None:
        texts = self.TEXTS + [(TABLE + f"band {word} .. 4 state 0\n", 5, f"is 'open' or a number, found '{word}'")
                              for word in self.NO_NUMBERS]
        for text, line, words in texts:
            with self.subTest(words=words, text=text[-40:]):
                self.write("bad.bands", text.encode())
                error = self.fails(2, words, GAUGE_PY, "bad.bands", "0", "0")
                self.assertTrue(error.startswith(f"bad.bands:{line}: "), error)

    def test_errors_by_way_of_run(self) -> None:
        for text, line, words in self.TEXTS[::6]:
            self.write("bad.bands", text.encode())
            self.fails(2, f"run: bad.bands:{line}: ", RUN, "gauge", "bad.bands", "0", "0")
            self.fails(2, words, RUN, "gauge", "bad.bands", "0", "0")
            error = self.fails(2, f"run: standard input:{line}: ", "bash", "-c", '"$0" gauge - 0 0 <bad.bands', RUN)
            self.assertIn(words.rstrip("\n"), error)

    def test_text_that_is_no_text(self) -> None:
        for data, words in ((b"#\n\xff\n", "a.bands:2: the text is not UTF-8"),
                            (b"#\n#\n\0", "a.bands:3: this is no text, it has a zero byte"),
                            ("plant".encode("utf-16"), "a.bands:1: the text is UTF-16; save it as UTF-8"),
                            (b"#" * (8 << 20) + b"\n", "the file is longer than any table of bands needs")):
            self.fails(2, words, RUN, "gauge", self.write("a.bands", data), "0", "0")

    def test_what_is_read(self) -> None:
        text = "\ufeff# head\r\nplant \"p.plant\" # whose\r\n\r\nband, open .. -1e-3 state \"c\"\r\n" \
               "band +.5 .. 1. state 0004 # \"x\"\rband 1.0E+2 .. open state 0\n"
        table = self.table(text)
        self.assertEqual([(band.line, band.lower.at, band.upper.at, band.state) for band in table.bands],
                         [(4, None, -0.001, 2), (5, 0.5, 1.0, 4), (6, 100.0, None, 0)])
        self.assertEqual((table.plant.states, table.plant.state_names[1]), (5, "b"))
        self.assertEqual(self.table("plant \"p.plant\"").bands, [])  # the library decides how many there are

    def test_numbers_are_the_nearest_floats(self) -> None:
        pick = random.Random(4)
        words = ["0.1", "-0.02", "1e-400", "4.9e-324", "2.4703282292062327e-324", "2.4703282292062328e-324", "1e999",
                 "-1e999", "1.7976931348623157e308", "1.7976931348623159e308", "9007199254740993", "0." + "3" * 400,
                 "1" + "0" * 400, "-0", "1e-99999999999999999999", "1e99999999999999999999"]
        words += [f"{pick.choice(['', '-'])}{pick.randrange(10 ** 20)}e{pick.randrange(-345, 300)}" for _ in range(200)]
        lines = "".join(f"band {word} .. open state 0\n" for word in words)
        for word, band in zip(words, self.table('plant "p.plant"\n' + lines).bands):
            read, right = exact(band.lower.at or 0.0), decimal(word)
            self.assertEqual(read, None if right is None else right, word)
        self.assertEqual(str(self.table('plant "p.plant"\nband -0 .. open state 0\n').bands[0].lower.at), "-0.0")

    def test_the_plant_beside_the_table(self) -> None:
        os.mkdir(self.path("in"))
        table = 'plant "{}"\nband open .. open state 1\n'
        expected = "state 1  b\ndeviation 1 mm (3 less 2): band open .. open\n"
        for name, path in (("a.bands", "p.plant"), ("in/a.bands", "../p.plant"), ("in/b.bands", self.path("p.plant"))):
            self.write(name, table.format(path).encode())
            self.assertEqual(self.call(RUN, "gauge", name, "3", "2"), (0, expected, ""))
            self.assertEqual(self.call(RUN, "gauge", self.path(name), "3", "2"), (0, expected, ""))
        self.write("in/c.bands", table.format("p.plant").encode())
        self.fails(2, "run: in/c.bands:1: in/p.plant: cannot be read", RUN, "gauge", "in/c.bands", "3", "2")
        # From standard input it is looked for in the folder where one stands.
        self.assertEqual(self.call("bash", "-c", '"$0" gauge - 3 2 <in/c.bands', RUN), (0, expected, ""))
        self.assertEqual(self.call("bash", "-c", '"$0" - 3 2 <in/c.bands', GAUGE_PY), (0, expected, ""))
        data = plant.to_bytes(plant.read_plant(self.path("p.plant")))
        for name in ("p.bin", "bytes"):  # they have no names
            self.write(name, data)
            self.write("a.bands", table.format(name).encode())
            self.assertEqual(self.call(RUN, "gauge", "a.bands", "3", "2"), (0, expected.replace("  b", ""), ""))
        self.write("a.bands", b'plant "p.bin"\nband open .. open state "b"\n')
        self.fails(2, "a.bands:2: no state has the name 'b'", RUN, "gauge", "a.bands", "3", "2")

    def test_letters_beyond_ascii(self) -> None:
        self.write("b\u00e4nder.plant", 'plant states 1 moves 1 goals 1\nstate 0 allowed "\u00bd mm"\n'.encode())
        self.write("a.bands", 'plant "b\u00e4nder.plant"\nband 0 .. open state "\u00bd mm"\n'.encode())
        for env in ({}, Machine.ASCII):
            self.assertEqual(self.call(RUN, "gauge", "a.bands", "1", "0", env=env),
                             (0, "state 0  \u00bd mm\ndeviation 1 mm (1 less 0): band 0 .. open\n", ""))


def decimal(word: str) -> Optional[Fraction]:
    """The float nearest to a decimal number, by integers; nothing where it is infinite."""
    digits, _, power = word.lower().partition("e")
    if abs(int(power or "0")) > 5000:
        return None if int(power) > 0 else Fraction(0)
    return nearest(Fraction(digits) * Fraction(10) ** int(power or "0"))


class Gauge(Case):
    """What ./run gauge says."""

    def says(self, expected: str, *words: str, env: Optional[Dict[str, str]] = None) -> None:
        self.assertEqual(self.call(RUN, "gauge", *words, env=env), (0, expected, ""))

    def refuses(self, status: int, error: str, *words: str, env: Optional[Dict[str, str]] = None) -> str:
        return self.fails(status, error, RUN, "gauge", *words, env=env)

    def table(self, *bands: str) -> str:
        """A table for a plant of four states with names."""
        lines = ["plant states 4 moves 1 goals 1", *(f'state {state} allowed "{state} off"' for state in range(4))]
        self.write("p.plant", "\n".join(lines).encode())
        self.write("a.bands", "\n".join(['plant "p.plant"', *(f"band {band}" for band in bands)]).encode())
        return "a.bands"

    def test_the_guide_has_the_answers(self) -> None:
        with open(os.path.join(TOP, "docs", "USING.md"), encoding="utf-8") as file:
            guide = file.read()
        asked = ("examples/gauge-bands.bands 2.013 2", "examples/gauge-bands.bands 0 2",
                 "examples/gauge-bands.bands 2.05 2")
        for words in asked:
            code, out, error = self.call("bash", "-c", f"cd {TOP} && ./run gauge {words}")
            self.assertEqual((code, error), (0, ""))
            shown = f"$ ./run gauge {words}\n{out}"
            self.assertIn("".join(f"    {line}\n" for line in shown.splitlines()), guide)
        self.says(ON_AIM, BANDS, "2.013", "2")
        with open(BANDS, encoding="utf-8") as file:
            table = file.read()
        self.assertIn("".join(f"    {line}".rstrip() + "\n" for line in table[table.index("plant \""):].splitlines()),
                      guide)

    def test_the_example(self) -> None:
        for reading, line in (("1.5", "state 0  far thin"), ("1.94", "state 0  far thin"), ("1.96", "state 1  thin"),
                              ("1.981", "state 2  on aim"), ("2", "state 2  on aim"), ("2.019", "state 2  on aim"),
                              ("2.03", "state 3  thick"), ("2.1", "state 4  far thick"), ("99", "state 4  far thick"),
                              ("1.4", "no state: the deviation lies below all bands"),
                              ("0", "no state: the deviation lies below all bands")):
            code, out, error = self.call(RUN, "gauge", BANDS, reading, "2")
            self.assertEqual((code, error, out.splitlines()[0]), (0, "", line), reading)

    def test_bands_and_gaps(self) -> None:
        table = self.table("-2 .. -1 state 0", "-1 .. 1 state \"3 off\"", "2 .. 3 state 1")
        gap = "no state: the deviation lies in a gap between the bands\n"
        for reading, expected in (
                ("-2.5", "no state: the deviation lies below all bands\n"
                 "deviation -2.5 mm (-2.5 less 0): below band -2 .. -1\n"),
                ("-2", "state 0  0 off\ndeviation -2 mm (-2 less 0): band -2 .. -1\n"),
                ("-1.0", "state 3  3 off\ndeviation -1 mm (-1.0 less 0): band -1 .. 1\n"),
                ("-0", "state 3  3 off\ndeviation 0 mm (-0 less 0): band -1 .. 1\n"),
                ("1", gap + "deviation 1 mm (1 less 0): between band -1 .. 1 and band 2 .. 3\n"),
                ("+1.5", gap + "deviation 1.5 mm (+1.5 less 0): between band -1 .. 1 and band 2 .. 3\n"),
                ("2", "state 1  1 off\ndeviation 2 mm (2 less 0): band 2 .. 3\n"),
                ("3e0", "no state: the deviation lies above all bands\n"
                 "deviation 3 mm (3e0 less 0): above band 2 .. 3\n")):
            self.says(expected, table, reading, "0")

    def test_bands_with_one_state(self) -> None:
        table = self.table("-2 .. -1 state 1", "-1 .. 1 state 0", "1 .. 2 state 1")
        for reading, band in (("-1.5", "-2 .. -1"), ("1.5", "1 .. 2")):
            self.says(f"state 1  1 off\ndeviation {reading} mm ({reading} less 0): band {band}\n", table, reading, "0")

    def test_the_most_bands(self) -> None:
        bands = [f"{at} .. {at + 1} state {at % 4}" for at in range(64)]
        self.says("state 3  3 off\ndeviation 63.5 mm (63.5 less 0): band 63 .. 64\n", self.table(*bands), "63.5", "0")
        for more, count in ((["64 .. open state 0"], 65), (bands[:2], 66)):
            self.refuses(1, f"; a.bands:66: this is band number 65 of {count}\n", self.table(*bands, *more), "0", "0")

    def test_the_deviation_is_rounded_once(self) -> None:
        # 0.3 less 0.1 is 0.19999999999999998, and 4.1 less 0.1 is 3.9999999999999996.
        for ends, typed, deviation in (("0.2", ("0.3", "0.1"), "0.19999999999999998"),
                                       ("4", ("4.1", "0.1"), "3.9999999999999996")):
            table = self.table(f"0 .. {ends} state 1", f"{ends} .. open state 2")
            self.says(f"state 1  1 off\ndeviation {deviation} mm ({typed[0]} less {typed[1]}): band 0 .. {ends}\n",
                      table, *typed)
        # All digits are shown only where fewer would mean another place.
        self.says("state 1  1 off\ndeviation 0.2 mm (0.3 less 0.1): band 0 .. 1\n", self.table("0 .. 1 state 1"), "0.3",
                  "0.1")

    def test_numbers_that_are_no_thickness(self) -> None:
        table = self.table("open .. 0 state 0", "0 .. open state 1")
        longer = "2." + "0" * 400 + "1"
        for reading, aim, line in (
                ("1e300", "2", "deviation 1e+300 mm (1e300 less 2): band 0 .. open"),
                ("1e-7", "0", "deviation 1e-07 mm (1e-7 less 0): band 0 .. open"),
                ("-1e-7", "0", "deviation -1e-07 mm (-1e-7 less 0): band open .. 0"),
                ("5e-324", "0", "deviation 5e-324 mm (5e-324 less 0): band 0 .. open"),
                ("1e-400", "0", "deviation 0 mm (1e-400 less 0): band 0 .. open"),
                ("1234567", "0", "deviation 1234567.0 mm (1234567 less 0): band 0 .. open"),
                (longer, "1", "deviation 1 mm (2.0 less 1): band 0 .. open"),
                ("123456.5", "0", "deviation 123456.5 mm (123456.5 less 0): band 0 .. open")):
            code, out, error = self.call(RUN, "gauge", table, reading, aim)
            self.assertEqual((code, error, out.splitlines()[1]), (0, "", line))

    def test_tables_that_are_refused(self) -> None:
        for bands, line, words in (
                ([], 0, "the table has no band"),
                (["0 .. 1e999 state 0"], 2, "the upper end is too large for a 64-bit float"),
                (["-1e999 .. 0 state 0"], 2, "the lower end is too large for a 64-bit float"),
                (["1 .. 1 state 0"], 2, "the band is empty: 1 is not above 1"),
                (["0 .. 1 state 0", "3 .. 2 state 1"], 3, "the band is empty: 2 is not above 3"),
                (["0 .. -0 state 0"], 2, "the band is empty: -0 is not above 0"),
                (["0 .. 1e-400 state 0"], 2, "the band is empty: 1e-400 is not above 0"),
                (["0 .. 1 state 0", "-2 .. -1 state 1"], 3, "out of order: it lies below that of line 2"),
                (["0 .. 1 state 0", "-2 .. 0 state 1"], 3, "out of order: it lies below that of line 2"),
                (["0 .. 1 state 0", "0 .. 1 state 1"], 3, "the band overlaps that of line 2: 0 is below 1"),
                (["0 .. 2 state 0", "3 .. 5 state 1", "4 .. 6 state 2"], 4, "overlaps that of line 3: 4 is below 5"),
                (["open .. 2 state 0", "0 .. 1 state 1"], 3, "the band overlaps that of line 2: 0 is below 2"),
                (["0 .. open state 0", "1 .. 2 state 1"], 3, "no band can follow that of line 2, which is open above"),
                (["0 .. 1 state 0", "open .. 3 state 1"], 3, "only the first band can be open below"),
                (["open .. 1 state 0", "open .. 0 state 1"], 3, "only the first band can be open below")):
            place = f"; a.bands:{line}: " if line else "; a.bands: "
            error = self.refuses(1, words + "\n", self.table(*bands), "1e999", "0")  # 11 comes before 12
            self.assertTrue(error.startswith("run: refused 11: the table of bands is not in order: "), error)
            self.assertIn(place, error)

    def test_readings_that_are_refused(self) -> None:
        table = self.table("open .. open state 0")
        meaning = "refused 12: the reading, the aim or the deviation is not finite: check both numbers, in millimetres"
        for reading, aim, what in (("1e999", "2", "reading"), ("-1e999", "2", "reading"), ("2", "1e999", "aim"),
                                   ("1e999", "1e999", "reading"), ("1.7e308", "-1.7e308", "deviation"),
                                   ("-1.7e308", "1.7e308", "deviation")):
            self.refuses(1, f"{meaning}; the {what} is too large\n", table, reading, aim)
        self.says("state 0  0 off\ndeviation 1.7e+308 mm (1.7e308 less 0): band open .. open\n", table, "1.7e308", "0")

    def test_bad_words_and_files(self) -> None:
        table = self.table("open .. open state 0")
        for words in ([], [table], [table, "1"], [table, "1", "2", "3"]):
            self.refuses(2, "gauge needs a table of bands, the reading and the aim", *words)
        for word in (*Bands.NO_NUMBERS, "", " 1", "1 ", "2,013", "1\n", "1\n2", "open"):
            for words in ([word, "1"], ["1", word]):
                error = self.refuses(2, "is no number of millimetres: write it as in 2.013, with a point", table,
                                     *words)
                if len(word) > 2 and word.isprintable():
                    self.assertIn(f"'{word}' is no number", error)
                self.fails(2, "is no number of millimetres", GAUGE_PY, table, *words)
        self.refuses(2, "none.bands: there is no such file", "none.bands", "1", "1")
        self.refuses(2, "is not a file", self.folder, "1", "1")
        self.refuses(2, "p.plant:1: this is a plant and no table of bands", "p.plant", "1", "1")
        self.fails(2, "give one reading and one aim, and not 3 numbers", GAUGE_PY, table, "1", "1", "1")
        self.fails(2, "none.bands: cannot be read", GAUGE_PY, "none.bands", "1", "1")
        # The numbers are looked at first.
        self.refuses(2, "'x' is no number", "none.bands", "x", "1")
        self.fails(3, "standard input could not be read", "bash", "-c", '"$0" gauge - 1 1 <&-', RUN)

    def test_a_plant_that_is_called_gauge(self) -> None:
        with open(self.example("strip"), "rb") as file:
            self.write("gauge", file.read())
        self.refuses(2, "(a plant file of this name is ./gauge)", "7")
        self.assertEqual(self.call(RUN, "./gauge", "7", "4"), (0, STRIP_LISTING, ""))

    def test_neither_python_nor_library(self) -> None:
        call = [shutil.which("bash") or "", RUN, "gauge", BANDS, "2", "2"]
        self.fails(3, "python3 is needed for the gauge, and is not on the PATH", *call, env={"PATH": self.few_tools()})
        self.program("few/python3", f'case "$*" in *ctypes*) exit 1 ;; esac; exec {sys.executable} "$@"')
        self.fails(3, "the one on the PATH cannot run (3.7 or newer is needed, with ctypes)", *call,
                   env={"PATH": self.path("few")})
        for name in ("none", "."):
            env = {"PLANBOOK_LIB": self.path(name)}
            self.refuses(3, f"PLANBOOK_LIB names no library: {self.path(name)}", BANDS, "2", "2", env=env)
            self.fails(3, "libplanbook.so is not there", GAUGE_PY, BANDS, "2", "2", env=env)
        env = {"PLANBOOK_LIB": self.write("a.so", b"\x7fELF\0\0")}
        self.refuses(3, "a.so: cannot be loaded as a library", BANDS, "2", "2", env=env)
        # No planner is needed, and a path may be one from here.
        shutil.copy(os.environ["PLANBOOK_LIB"], self.path("b.so"))
        self.says(ON_AIM, BANDS, "2.013", "2", env={"PLANBOOK_LIB": "b.so", "PLANBOOK_BIN": self.path("none")})

    def library(self, answer: str) -> Dict[str, str]:
        """A stand-in for the library that answers this, in C."""
        cc = shutil.which("cc")
        if cc is None:
            self.skipTest("there is no C compiler")
        self.write("a.c", f"""#include <stddef.h>
#include <stdint.h>
typedef struct {{ uint32_t number, found, state; }} planbook_place;
planbook_place planbook_gauge(const uint8_t *kinds, size_t kinds_len, const double *ends, size_t ends_len,
                              const uint32_t *of, size_t n, uint32_t states, double reading, double aim) {{
    double d = reading - aim;
    (void)d; (void)kinds; (void)ends; (void)of; (void)kinds_len; (void)ends_len; (void)n; (void)states;
    {answer}
}}
""".encode())
        subprocess.run([cc, "-shared", "-fPIC", "-o", self.path("a.so"), self.path("a.c")], check=True)
        return {"PLANBOOK_LIB": self.path("a.so")}

    def test_a_library_that_says_something_else(self) -> None:
        table = self.table("-1 .. 1 state 2", "1 .. open state 1")
        holds = "(n == 1 && (!kinds[0] || ends[0] <= d) && (!kinds[1] || d < ends[1]))"
        right = f"return (planbook_place){{ 0, n > 1 || {holds}, n > 1 ? 2 : 0 }};"
        expected = "state 2  2 off\ndeviation 0.5 mm (0.5 less 0): band -1 .. 1\n"
        self.says(expected, table, "0.5", "0", env=self.library(right))
        for answer, status, words in (
                ("return (planbook_place){ 7, 0, 0 };", 1, "refused 7: this number is not one that planbook gives"),
                ("return (planbook_place){ 0, 0, 0 };", 3, "add up: a deviation lies in no band and in no gap"),
                ("return (planbook_place){ 0, 1, 2 };", 3, "does not add up: its answers contradict each other"),
                (right.replace("? 2", "? 1"), 3, "does not add up: its answers contradict each other"),
                (right.replace("? 2", "? 9"), 3, "does not add up: its answers contradict each other"),
                (right.replace("n > 1 ||", ""), 3, "does not add up: its answers contradict each other"),
                ("return *(planbook_place *)0;", 3, "python3 could not run tools/gauge.py (status 139)")):
            self.refuses(status, words, table, "0.5", "0", env=self.library(answer))
        env = self.library(right + "\n}\nvoid planbook_other(void) {")
        subprocess.run(["cc", "-shared", "-fPIC", "-Dplanbook_gauge=planbook_other_gauge", "-o", self.path("a.so"),
                        self.path("a.c")], check=True)
        self.refuses(3, "a.so: has no planbook_gauge; it is another library, or an old one", table, "0.5", "0", env=env)


# Request (xi) once more, in exact numbers. Floats are taken apart by their bits and never subtracted or compared.

BITS, FLOAT = struct.Struct("<Q"), struct.Struct("<d")
Answer = Tuple[int, int, int]
Edge = Tuple[int, Fraction]  # an end among all numbers: -1 for open below, 0 and the number, 1 for open above


def exact(number: float) -> Optional[Fraction]:
    """The number that a float stands for; nothing if it is infinite or undefined."""
    bits, = BITS.unpack(FLOAT.pack(number))
    power, digits = bits >> 52 & 0x7ff, bits & (1 << 52) - 1
    if power == 0x7ff:
        return None
    digits, power = (digits, 1) if power == 0 else (digits | 1 << 52, power)
    whole = digits << power - 1  # of 2 ** -1074
    return Fraction(-whole if bits >> 63 else whole, 1 << 1074)


def nearest(number: Fraction, up: Optional[Callable[[int, int, bool], bool]] = None) -> Optional[Fraction]:
    """The float nearest to a number, of two equally near the one whose last digit is 0; nothing if it is infinite. `up`
    is another rule: it gets twice the rest, what it is a rest of, and whether the digits are odd."""
    size, over = abs(number.numerator), number.denominator
    place = max(size.bit_length() - over.bit_length() - 53, -1074)  # of the last digit, or one below
    if (size << max(-place, 0)) // (over << max(place, 0)) >= 1 << 53:
        place += 1
    size, over = size << max(-place, 0), over << max(place, 0)
    digits, rest = divmod(size, over)
    odd = digits % 2 == 1
    digits += up(2 * rest, over, odd) if up else 2 * rest > over or (2 * rest == over and odd)
    found = Fraction(digits) * (Fraction(2) ** place)
    if found >= Fraction(2) ** 1024:
        return None
    return -found if number < 0 else found


@dataclass
class Asked:
    """What planbook_gauge is given."""

    kinds: List[int]
    ends: List[float]
    band_states: List[int]
    states: int
    reading: float
    aim: float


class Solver:
    """The answer of request (xi), from its words."""

    def answer(self, asked: Asked) -> Answer:
        refusals = self.refusals(asked)
        if refusals:
            return refusals[0], 0, 0
        held = [band for band in self.bands(asked) if self.holds(band, asked)]
        return (0, 1, self.chosen(held)[2]) if held else (0, 0, 0)

    def refusals(self, asked: Asked) -> List[int]:
        return [11] * (not self.in_order(asked)) + [12] * (not self.readable(asked))

    def bands(self, asked: Asked) -> List[Tuple[Edge, Edge, int]]:
        edges = [self.edge(kind, end, 2 * (at % 2) - 1) for at, (kind, end) in enumerate(zip(asked.kinds, asked.ends))]
        return list(zip(edges[0::2], edges[1::2], asked.band_states))

    def edge(self, kind: int, end: float, side: int) -> Edge:
        return (side, Fraction(0)) if kind == 0 else (0, exact(end) or Fraction(0))

    def in_order(self, asked: Asked) -> bool:
        count = len(asked.band_states)
        if not 1 <= count <= self.most or len(asked.kinds) != 2 * count or len(asked.ends) != 2 * count:
            return False
        if any(kind > 1 or kind == 1 and not self.end_ok(end) for kind, end in zip(asked.kinds, asked.ends)):
            return False
        bands = self.bands(asked)
        rising = all(self.rises(one[1], other[0]) for at, other in enumerate(bands) for one in bands[:at])
        return rising and all(self.some(lower, upper) for lower, upper, _ in bands) and \
            all(self.state_ok(state, asked.states) for state in asked.band_states)

    most = 64

    def end_ok(self, end: float) -> bool:
        return exact(end) is not None

    def rises(self, upper: Edge, lower: Edge) -> bool:
        return upper <= lower

    def some(self, lower: Edge, upper: Edge) -> bool:
        return lower < upper

    def state_ok(self, state: int, states: int) -> bool:
        return state < states

    def readable(self, asked: Asked) -> bool:
        return self.deviation(asked) is not None

    def deviation(self, asked: Asked) -> Optional[Fraction]:
        reading, aim = exact(asked.reading), exact(asked.aim)
        return None if reading is None or aim is None else self.rounded(reading - aim)

    def rounded(self, difference: Fraction) -> Optional[Fraction]:
        return nearest(difference)

    def holds(self, band: Tuple[Edge, Edge, int], asked: Asked) -> bool:
        found = self.deviation(asked)
        return found is not None and self.within(band[0], (0, found), band[1])

    def within(self, lower: Edge, deviation: Edge, upper: Edge) -> bool:
        return lower <= deviation < upper

    def chosen(self, held: List[Tuple[Edge, Edge, int]]) -> Tuple[Edge, Edge, int]:
        only, = held
        return only


class UpperIncluded(Solver):
    def within(self, lower: Edge, deviation: Edge, upper: Edge) -> bool:
        return lower <= deviation <= upper

    def chosen(self, held: List[Tuple[Edge, Edge, int]]) -> Tuple[Edge, Edge, int]:
        return held[0]


class LastThatFits(UpperIncluded):
    """Right where bands touch, and wrong at the upper end of one that has a gap after it."""

    def chosen(self, held: List[Tuple[Edge, Edge, int]]) -> Tuple[Edge, Edge, int]:
        return held[-1]


class UpperNotLookedAt(LastThatFits):
    def within(self, lower: Edge, deviation: Edge, upper: Edge) -> bool:
        return lower <= deviation


class LowerExcluded(Solver):
    def within(self, lower: Edge, deviation: Edge, upper: Edge) -> bool:
        return lower < deviation < upper


class TwelveFirst(Solver):
    def refusals(self, asked: Asked) -> List[int]:
        return super().refusals(asked)[::-1]


class ReadingAgainstAimAndEnd(Solver):
    def holds(self, band: Tuple[Edge, Edge, int], asked: Asked) -> bool:
        lower, upper = (edge if edge[0] else self.moved(edge[1] + (exact(asked.aim) or 0)) for edge in band[:2])
        return lower <= (0, exact(asked.reading) or Fraction(0)) < upper

    def moved(self, end: Fraction) -> Edge:
        found = nearest(end)
        return (0, found) if found is not None else (1 if end > 0 else -1, Fraction(0))

    def chosen(self, held: List[Tuple[Edge, Edge, int]]) -> Tuple[Edge, Edge, int]:
        return held[0]


class NotRounded(Solver):
    def rounded(self, difference: Fraction) -> Optional[Fraction]:
        return None if nearest(difference) is None else difference


class CutOff(Solver):
    def rounded(self, difference: Fraction) -> Optional[Fraction]:
        return None if nearest(difference) is None else nearest(difference, lambda rest, over, odd: False)


class TiesAway(Solver):
    def rounded(self, difference: Fraction) -> Optional[Fraction]:
        return None if nearest(difference) is None else nearest(difference, lambda rest, over, odd: rest >= over)


class DeviationNotLookedAt(Solver):
    """Only reading and aim are refused with 12; a deviation that is too large is above or below every end."""

    def readable(self, asked: Asked) -> bool:
        return exact(asked.reading) is not None and exact(asked.aim) is not None

    def holds(self, band: Tuple[Edge, Edge, int], asked: Asked) -> bool:
        found = self.deviation(asked)
        above = (exact(asked.reading) or 0) > 0
        return self.within(band[0], (0, found if found is not None else Fraction(2 if above else -2) ** 1025), band[1])


class TouchingRefused(Solver):
    def rises(self, upper: Edge, lower: Edge) -> bool:
        return upper < lower


class OrderNotLookedAt(Solver):
    def rises(self, upper: Edge, lower: Edge) -> bool:
        return True

    def chosen(self, held: List[Tuple[Edge, Edge, int]]) -> Tuple[Edge, Edge, int]:
        return held[0]


class EmptyTaken(Solver):
    def some(self, lower: Edge, upper: Edge) -> bool:
        return lower <= upper


class UndefinedTaken(Solver):
    """An undefined end passes, as it does where the test is that no end is too large."""

    def end_ok(self, end: float) -> bool:
        return end != end or super().end_ok(end)


class StateAtSTaken(Solver):
    def state_ok(self, state: int, states: int) -> bool:
        return state <= states


class SixtyThree(Solver):
    most = 63


class SixtyFive(Solver):
    most = 65


WRONG = (UpperIncluded, LastThatFits, UpperNotLookedAt, LowerExcluded, TwelveFirst, ReadingAgainstAimAndEnd, NotRounded,
         CutOff, TiesAway, DeviationNotLookedAt, TouchingRefused, OrderNotLookedAt, EmptyTaken, UndefinedTaken,
         StateAtSTaken, SixtyThree, SixtyFive)

NAN, INFINITE = float("nan"), float("inf")
LARGEST, TINIEST, LEAST_NORMAL = 1.7976931348623157e308, 5e-324, 2.2250738585072014e-308


def beside(number: float, steps: int) -> float:
    """The float so many steps above a finite one, by its bits; both zeros are one step from the tiniest."""
    bits, = BITS.unpack(FLOAT.pack(number))
    place = (bits & (1 << 63) - 1) * (-1 if bits >> 63 else 1) + steps
    place = max(min(place, 0x7ff << 52), -(0x7ff << 52))
    return FLOAT.unpack(BITS.pack(abs(place) | (1 << 63 if place < 0 else 0)))[0]


def some_number(pick: random.Random) -> float:
    """A finite float: one of a mill, or of any size, down to the least and up to the largest, or a zero."""
    sort = pick.randrange(10)
    if sort < 5:
        return beside(pick.randrange(-200, 200) / pick.choice([10, 100, 1000]), pick.choice([0, 0, 0, -1, 1]))
    if sort == 5:
        return pick.choice([0.0, -0.0, 1.0, 0.1, 0.2, 0.3, 4.1, 4.0, -1.0, 2.0 ** 53, 1e16])
    if sort == 6:
        return beside(0.0, pick.choice([1, -1]) * pick.choice([1, 2, 3, pick.randrange(1 << 52)]))
    if sort == 7:
        edge = pick.choice([LARGEST, LEAST_NORMAL, TINIEST, 2.0 ** 1023])
        return pick.choice([1, -1]) * beside(edge, -pick.randrange(3))
    found = FLOAT.unpack(BITS.pack(pick.getrandbits(64)))[0]
    return found if exact(found) is not None else 0.5


def some_junk(pick: random.Random) -> float:
    return pick.choice([NAN, -NAN, INFINITE, -INFINITE, some_number(pick)])


def good_table(pick: random.Random) -> Asked:
    """A table in order, with bands that touch or have gaps between them; outer ends may be open."""
    count = pick.choice([1, 1, 2, 2, 3, 3, 4, 5, 6, 63, 64, 65] if pick.random() < 0.1 else [1, 1, 2, 2, 3, 4])
    numbers: Dict[Fraction, float] = {}
    start = some_number(pick)
    close = pick.random() < 0.3  # ends that are neighbours, or nearly
    while len(numbers) < 2 * count:
        number = beside(start, pick.randrange(-3 * count, 3 * count)) if close else some_number(pick)
        value = exact(number)
        if value is not None:
            numbers.setdefault(value, number)
    ends = [numbers[value] for value in sorted(numbers)]
    for at in range(2, len(ends), 2):
        ends[at] = ends[at - 1] if pick.random() < 0.5 else ends[at]
    kinds = [1] * len(ends)
    for at in (0, -1):
        if pick.random() < 0.35:
            kinds[at], ends[at] = 0, some_junk(pick)
    states = pick.choice([1, 4, 6, 1024, (1 << 32) - 1])
    asked = [pick.choice([0, states - 1, pick.randrange(states)]) for _ in range(count)]
    return Asked(kinds, ends, asked, states, 0.0, 0.0)


def spoil(pick: random.Random, asked: Asked) -> None:
    """One thing in a table is made wrong, or may be."""
    at, band = pick.randrange(len(asked.ends)), pick.randrange(len(asked.band_states))
    sort = pick.randrange(12)
    if sort == 0:
        asked.kinds[at] = pick.choice([2, 3, 128, 255])
    elif sort in (1, 2):
        asked.kinds[at], asked.ends[at] = 1, pick.choice([NAN, INFINITE, -INFINITE])
    elif sort == 3:
        asked.kinds[at] = 0
    elif sort in (4, 5):
        asked.ends[at] = beside(asked.ends[at - 1], pick.choice([-1, 0, 1])) if at and asked.kinds[at - 1] else 0.0
    elif sort == 6:
        other = pick.randrange(len(asked.band_states))
        for items, width in ((asked.kinds, 2), (asked.ends, 2), (asked.band_states, 1)):
            one, two = slice(width * band, width * band + width), slice(width * other, width * other + width)
            items[one], items[two] = items[two], items[one]
    elif sort == 7:
        asked.band_states[band] = pick.choice([asked.states, min(asked.states + 1, (1 << 32) - 1), (1 << 32) - 1])
    elif sort == 8:
        asked.states = pick.choice([0, max(asked.band_states), max(asked.band_states) // 2])
    elif sort == 9:
        asked.kinds[2 * band:2 * band + 2], asked.ends[2 * band:2 * band + 2] = [1, 1], pick.choice(
            [[0.0, -0.0], [-0.0, 0.0], [1.0, 1.0], [1.0, beside(1.0, -1)]])
    elif sort == 10:
        items = pick.choice([asked.kinds, asked.ends, asked.band_states])
        items.append(items[-1]) if pick.random() < 0.5 else items.pop()
    else:
        asked.kinds, asked.ends, asked.band_states = [], [], []


def read_near(pick: random.Random, asked: Asked) -> None:
    """A reading and an aim whose difference is near an end of the table, or between two floats there, or anywhere."""
    ends = [end for end in asked.ends if exact(end) is not None] or [0.0]
    end, sort = pick.choice(ends), pick.randrange(10)
    asked.reading, asked.aim = some_number(pick), some_number(pick)
    if sort < 3:
        asked.reading, asked.aim = beside(end, pick.choice([-1, 0, 0, 1])), pick.choice([0.0, -0.0, TINIEST, -TINIEST])
    elif sort < 7:
        asked.reading = beside(float(nearest((exact(asked.aim) or Fraction(0)) + (exact(end) or 0)) or 0),
                               pick.choice([-2, -1, 0, 0, 0, 1, 2]))
    elif sort == 7:  # half a step off, or a little more or less
        asked.reading = beside(end, pick.choice([-1, 0, 1]))
        step = abs((exact(beside(asked.reading, 1)) or Fraction(0)) - (exact(asked.reading) or 0)) / 2
        asked.aim = beside(float(step), pick.choice([-1, 0, 0, 0, 1])) * pick.choice([1, -1])
    elif sort == 8:
        asked.reading, asked.aim = (pick.choice([some_junk(pick), LARGEST, -LARGEST, some_number(pick)]) for _ in "ra")


def case_of(seed: int) -> Asked:
    pick = random.Random(seed)
    asked = good_table(pick)
    read_near(pick, asked)
    if pick.random() < 0.3:
        spoil(pick, asked)
    return asked


class Placed(unittest.TestCase):
    """Request (xi): the library's answers against a solver in exact numbers, and against wrong ones."""

    CASES = 20000
    answers: List[Tuple[Asked, Answer]] = []

    @classmethod
    def setUpClass(cls) -> None:
        library = gauge.Library()
        for seed in range(cls.CASES):
            asked = case_of(seed)
            cls.answers.append((asked, library.place(asked.kinds, asked.ends, asked.band_states, asked.states,
                                                     asked.reading, asked.aim)))

    def test_the_library_answers_as_the_request_says(self) -> None:
        seen: Counter = Counter()
        for asked, answer in self.answers:
            self.assertEqual(answer, Solver().answer(asked), asked)
            refusals = Solver().refusals(asked)
            seen.update([answer[:2], *(("both",) if len(refusals) == 2 else ())])
            if answer[:2] != (11, 0):
                seen.update(self.sorts(asked))
        few = {name for name, count in seen.items() if count < 100}
        self.assertEqual((few, len(seen)), (set(), 14), seen)

    def sorts(self, asked: Asked) -> List[str]:
        """What is of note in a table in order and its reading."""
        solver, found = Solver(), Solver().deviation(asked)
        edges = [edge[1] for band in solver.bands(asked) for edge in band[:2] if edge[0] == 0]
        difference = (exact(asked.reading) or Fraction(0)) - (exact(asked.aim) or 0)
        return [name for name, there in (
            ("open", 0 in asked.kinds), ("touching", any(one == two for one, two in zip(edges, edges[1:]))),
            ("at an end", found in edges), ("rounded onto an end", found in edges and found != difference),
            ("subnormal", found is not None and 0 < abs(found) < exact(LEAST_NORMAL)),
            ("a zero with a sign", FLOAT.pack(-0.0) in (FLOAT.pack(asked.reading), *map(FLOAT.pack, asked.ends))),
            ("huge", found is not None and abs(found) > 2 ** 1000), ("many", len(asked.band_states) >= 63),
            ("deviation alone", found is None and None not in (exact(asked.reading), exact(asked.aim)))) if there]

    def test_wrong_solvers_are_found_out(self) -> None:
        for wrong in WRONG:
            found = next((asked for asked, answer in self.answers if wrong().answer(asked) != answer), None)
            self.assertIsNotNone(found, wrong.__name__)

    def test_traps(self) -> None:
        library = gauge.Library()
        for kinds, ends, states, reading, aim, answer in (
                ([1, 1], [0.0, 1.0], [3], 0.5, 0.0, (0, 1, 3)), ([1, 1], [0.0, 1.0], [3], 0.0, 0.0, (0, 1, 3)),
                ([1, 1], [0.0, 1.0], [3], -0.0, 0.0, (0, 1, 3)), ([1, 1], [0.0, 1.0], [3], 1.0, 0.0, (0, 0, 0)),
                ([1, 1], [0.0, 1.0], [4], 0.5, 0.0, (11, 0, 0)), ([1, 1], [0.0, 1.0], [4], NAN, 0.0, (11, 0, 0)),
                ([1, 1], [0.0, 1.0], [3], NAN, 0.0, (12, 0, 0)), ([1, 1], [0.0, 1.0], [3], 0.0, INFINITE, (12, 0, 0)),
                ([1, 1], [0.0, 1.0], [3], LARGEST, -LARGEST, (12, 0, 0)),
                ([1, 1], [0.2, 0.3], [3], 0.3, 0.1, (0, 0, 0)), ([1, 0], [4.0, 0.0], [3], 4.1, 0.1, (0, 0, 0)),
                ([1, 1], [0.0, -0.0], [3], 0.0, 0.0, (11, 0, 0)),
                ([1, 1], [NAN, 1.0], [3], 0.5, 0.0, (11, 0, 0)), ([0, 1], [NAN, 1.0], [3], 0.5, 0.0, (0, 1, 3)),
                ([0, 0], [NAN, INFINITE], [3], -1e300, 0.0, (0, 1, 3)), ([2, 1], [0.0, 1.0], [3], 0.5, 0.0, (11, 0, 0)),
                ([], [], [], 0.5, 0.0, (11, 0, 0)), ([1, 1], [0.0], [3], 0.5, 0.0, (11, 0, 0)),
                ([0, 1], [0.0, -LARGEST], [3], 0.0, 0.0, (0, 0, 0)),
                ([0, 1, 1, 0], [0.0, 1.0, 1.0, 0.0], [1, 2], 1.0, 0.0, (0, 1, 2)),
                ([0, 1, 1, 0], [0.0, 1.0, beside(1.0, -1), 0.0], [1, 2], 1.0, 0.0, (11, 0, 0))):
            asked = Asked(kinds, ends, states, 4, reading, aim)
            self.assertEqual(library.place(kinds, ends, states, 4, reading, aim), answer, asked)
            self.assertEqual(Solver().answer(asked), answer, asked)

    def test_rounding_by_integers_is_that_of_the_machine(self) -> None:
        pick = random.Random(3)
        for _ in range(3000):
            one, two = some_number(pick), some_number(pick)
            self.assertEqual(nearest((exact(one) or Fraction(0)) - (exact(two) or 0)), exact(one - two), (one, two))


class Commands(Case):
    """picture.py, cost.py, gain.py, reach.py and gauge.py by themselves, without ./run."""

    def test_help_and_usage(self) -> None:
        for path, call in ((PICTURE_PY, "picture.py OUT.html PLANT MASK [MASK...]"),
                           (COST_PY, "cost.py PLANT MASK [MASK...] MASK"),
                           (GAIN_PY, "gain.py PLANT MASK [MASK...] MASK"), (REACH_PY, "reach.py STATE PLANT MASK"),
                           (GAUGE_PY, "gauge.py BANDS READING AIM")):
            for word in ("-h", "--help"):
                code, out, error = self.call(path, word)
                self.assertEqual((code, error, out.splitlines()[2]), (0, "", "    " + call))
            self.fails(2, f"usage: {call}\n", path)
            self.fails(2, f"usage: {call}\n", path, "one", "two")

    def test_masks(self) -> None:
        strip, out = self.example("strip"), self.path("out.html")
        for start in ([PICTURE_PY, out, strip], [COST_PY, strip], [GAIN_PY, strip]):
            self.fails(2, "'7x' is no mask", *start, "7", "7x")
            self.fails(2, "17 masks are too many: a list has at most 16", *start, *["7"] * 17)
            self.fails(1, "refused 6: a mask names a move", *start, "7", "8")
            self.assertFalse(os.path.exists(out))
        self.assertEqual(self.call(PICTURE_PY, out, strip, *["7"] * 16), (0, "", ""))
        self.assertEqual(self.call(COST_PY, strip, "7", *["4"] * 14, "1"), (0, strip_cost("move 0", 3, 3, 0), ""))
        self.assertEqual(self.call(GAIN_PY, strip, "6", *["4"] * 14, "1"), (0, strip_gain("move 0", 3, 4, 3), ""))


class Listing(Case):
    def test_a_listing_that_does_not_add_up_is_noticed(self) -> None:
        read = plant.read_plant(os.path.join(EXAMPLES, "strip.plant"))
        lines = STRIP_LISTING.splitlines()
        self.assertEqual(sorted(listing.parsed(read, lines).rows), [0, 1, 2])
        for bad in (lines[:-1], lines + ["4 lost"], lines[1:], ["4" + lines[0][1:]] + lines[1:],
                    lines[:2] + lines[3:]):
            with self.assertRaises(listing.PlannerError):
                listing.parsed(read, bad)

    def test_masks_and_ranges(self) -> None:
        self.assertEqual([listing.mask_from(text) for text in ("7", "0x1C", "0010", "4294967295", "x", "1_0", "0x")],
                         [7, 28, 10, 4294967295, None, None, None])
        self.assertEqual(facts.ranges([0, 2, 3, 4, 7, 8]), "0, 2 to 4, 7, 8")
        self.assertEqual(listing.service([7, 4, 4]), 3)

    def test_the_guide_has_every_refusal(self) -> None:
        with open(os.path.join(TOP, "docs", "USING.md"), encoding="utf-8") as file:
            guide = file.read()
        with open(os.path.join(TOP, "tools", "refusals.txt"), encoding="utf-8") as file:
            for line in file:
                self.assertIn(f"| `refused {line.split()[0]}` |", guide)


if __name__ == "__main__":
    unittest.main()
