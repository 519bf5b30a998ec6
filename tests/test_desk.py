"""Tests of ./run desk and tools/desk.py: at a pseudo terminal, through pipes, and against a second desk. tests/tools.sh
runs them."""
from __future__ import annotations

import functools
import os
import pty
import random
import re
import select
import shutil
import signal
import struct
import subprocess
import sys
import tempfile
import time
import unittest
from collections import Counter
from typing import Dict, List, Optional, Set, Tuple, Type

from test_tools import BANDS, EXAMPLES, LEFT, RUN, SMALL, STRIP_LISTING, TOP, Case, changed

import plant  # tools/ is on the path by way of test_tools

DESK_PY = os.path.join(TOP, "tools", "desk.py")
STRIP = os.path.join(EXAMPLES, "strip.plant")
GAUGE_BANDS = os.path.join(EXAMPLES, "gauge-bands.plant")
TIGHT = os.path.join(EXAMPLES, "tight-band.plant")
WITH_BANDS = "--bands", BANDS, "--aim", "2"
LIMIT = 30  # seconds until a desk that says nothing has failed

STATE, READING = "state that followed? ", "state or reading that followed? "

STRIP_HEAD = "in service: move 0; move 1; move 2\n3 of 4 states kept; ? says what can be typed\n"
IN_0 = "\nstate 0\nmet here: goal 0\nmake move 0\nat most 2 moves to goal 1\n"
IN_1 = "\nstate 1\nmake move 0\nat most 1 move to goal 1\n"
IN_2 = "\nstate 2\nmet here: goal 1\nmake move 0\nat most 1 move to goal 0\n"


def some_bytes(stream: int) -> bytes:
    """What there is to read next; nothing at the end, of a terminal too."""
    ready, _, _ = select.select([stream], [], [], LIMIT)
    if not ready:
        raise AssertionError("the desk says nothing")
    try:
        return os.read(stream, 1 << 16)
    except OSError:
        return b""


class Terminal:
    """./run desk with a person at a terminal."""

    def __init__(self, *words: str, env: Optional[Dict[str, str]] = None) -> None:
        self.pid, self.stream = pty.fork()
        if self.pid == 0:
            try:
                os.chdir(TOP)
                os.execvpe(words[0], words, {**os.environ, **(env or {})})
            finally:
                os._exit(99)
        self.rest = ""

    def until(self, ending: str) -> str:
        """What is said up to these words, which end it."""
        while not self.rest.endswith(ending):
            data = some_bytes(self.stream)
            if not data:
                raise AssertionError(f"the desk has ended with: {self.rest}")
            self.rest += data.decode("utf-8", "replace").replace("\r\n", "\n")
        said, self.rest = self.rest, ""
        return said

    def types(self, text: str) -> None:
        os.write(self.stream, text.encode())

    def end(self) -> Tuple[int, str]:
        """The exit status, and all that is still said."""
        while True:
            data = some_bytes(self.stream)
            if not data:
                break
            self.rest += data.decode("utf-8", "replace").replace("\r\n", "\n")
        os.close(self.stream)
        _, status = os.waitpid(self.pid, 0)
        return (os.WEXITSTATUS(status) if os.WIFEXITED(status) else -os.WTERMSIG(status)), self.rest


class Pipe:
    """A desk that a program talks to."""

    def __init__(self, *words: str, env: Optional[Dict[str, str]] = None, cwd: str = TOP) -> None:
        self.process = subprocess.Popen(words, stdin=subprocess.PIPE, stdout=subprocess.PIPE, stderr=subprocess.PIPE,
                                        cwd=cwd, env={**os.environ, **(env or {})})
        self.waiting = b""

    def line(self) -> str:
        """The next line that is said."""
        assert self.process.stdout is not None
        while b"\n" not in self.waiting:
            data = some_bytes(self.process.stdout.fileno())
            if not data:
                raise AssertionError(f"the desk has ended after {self.waiting!r}")
            self.waiting += data
        line, self.waiting = self.waiting.split(b"\n", 1)
        return line.decode()

    def ask(self, line: str) -> str:
        """The answer to a line, which comes before anything else is sent."""
        assert self.process.stdin is not None
        os.write(self.process.stdin.fileno(), f"{line}\n".encode("utf-8", "surrogateescape"))
        answer = self.line()
        if self.waiting:
            raise AssertionError(f"more than a line is answered: {self.waiting!r}")
        return answer

    def end(self) -> Tuple[int, str, str]:
        """Status, what is still said, and the error, after the end of input."""
        out, error = self.process.communicate(timeout=LIMIT)
        return self.process.returncode, (self.waiting + out).decode(), error.decode()


class DeskCase(Case):
    def desk(self, *words: str, env: Optional[Dict[str, str]] = None) -> Terminal:
        return Terminal(RUN, "desk", *words, env=env)

    def pipe(self, *words: str, env: Optional[Dict[str, str]] = None) -> Pipe:
        return Pipe(RUN, "desk", *words, env=env)

    def lines(self, text: str, *words: str) -> List[str]:
        """What is answered to these lines, all sent at once."""
        done = subprocess.run([RUN, "desk", *words], input=text.encode("utf-8", "surrogateescape"),
                              capture_output=True, check=False, cwd=self.folder)
        self.assertEqual((done.returncode, done.stderr), (0, b""), words)
        return done.stdout.decode().splitlines()

    def ends(self, desk: Terminal, status: int, said: str) -> None:
        self.assertEqual(desk.end(), (status, said))

    def text(self, name: str, text: str) -> str:
        return self.write(name, text.encode())


class Dialogue(DeskCase):
    """A person at a terminal."""

    def test_strip_plant(self) -> None:
        desk = self.desk(STRIP, "7", "--state", "0")
        self.assertEqual(desk.until(STATE), STRIP_HEAD + IN_0 + STATE)
        for typed, said in (("1", IN_1), ("", IN_1), ("2", IN_2), ("0", IN_0), (" 01 ", IN_1)):
            desk.types(typed + "\n")
            self.assertEqual(desk.until(STATE), f"{typed}\n{said}{STATE}")
        desk.types("quit\n")
        self.ends(desk, 0, "quit\n")

    def test_withdrawn_moves_and_hex(self) -> None:
        desk = self.desk(STRIP, "0x7", "4", "0", "--state", "1")
        self.assertEqual(desk.until(STATE), "in service: move 0; move 1\n3 of 4 states kept; ? says what can be typed\n"
                         "\nstate 1\nmake move 0\nat most 2 moves to goal 0\n" + STATE)
        desk.types("2\n")
        # State 2 serves goal 1, which is not sought, so that it is not passed.
        self.assertEqual(desk.until(STATE), "2\n\nstate 2\nmake move 0\nat most 1 move to goal 0\n" + STATE)
        desk.types("\4")
        self.ends(desk, 0, "\n")

    # Without a table of bands: what is typed in state 0 of P, and the line that is said of it.
    WRONG = (
        ("2", "refused 13: state 2 cannot follow move 0 in state 0"),
        ("0", "refused 13: state 0 cannot follow move 0 in state 0"),
        ("3", "refused 13: state 3 cannot follow move 0 in state 0"),
        ("4", "refused 8: there is no state 4, the states are 0 to 3"),
        ("65536", "refused 8: there is no state 65536, the states are 0 to 3"),
        ("999999999", "refused 8: there is no state 999999999, the states are 0 to 3"),
        ("4294967297", "refused 8: there is no state of so high a number, the states are 0 to 3"),
        ("thin", "no state has the name 'thin': give a name from the plant's text, or a number from 0 to 3"),
        ("-1", "no state has the name '-1': give a name from the plant's text, or a number from 0 to 3"),
        ("1 2", "no state has the name '1 2': give a name from the plant's text, or a number from 0 to 3"),
        ('"1"', "no state has the name '1': give a name from the plant's text, or a number from 0 to 3"),
        ('""', "no state has the name '': give a name from the plant's text, or a number from 0 to 3"),
        ("2.013", "no state has the name '2.013': give a name from the plant's text, or a number from 0 to 3; a "
         "reading needs --bands and --aim"),
        ("=2", "'2' is a reading, and the desk has no table for it: start it with --bands and --aim"),
        ("x" * 1001, "the line is too long for a name or a number"),
        ("x" * 999, "no state has the name 'xxxxxxxxxxxxxxxxxxxxx...': give a name from the plant's text, or a number "
         "from 0 to 3"),
        ("QUIT", "no state has the name 'QUIT': give a name from the plant's text, or a number from 0 to 3"),
    )

    def test_wrong_reports_keep_the_place(self) -> None:
        desk = self.desk(STRIP, "7", "--state", "0")
        desk.until(STATE)
        for typed, said in self.WRONG:
            desk.types(typed + "\n")
            self.assertEqual(desk.until(STATE), f"{typed}\n{said}; can follow: 1\n{STATE}")
            desk.types("\n")
            self.assertEqual(desk.until(STATE), f"\n{IN_0}{STATE}")
        desk.types("1\n")
        self.assertEqual(desk.until(STATE), f"1\n{IN_1}{STATE}")
        desk.types("quit\n")
        self.ends(desk, 0, "quit\n")

    THICK = "state 3  thick\nmake move 2  screws down, fine\nat most 1 move to goal 0 (gauge on aim)\n"
    AIM = "state 2  on aim\nmet here: goal 0 (gauge on aim)\nmake move 0  hold\n" \
          "all goals are met: goal 0 (gauge on aim) is sought anew in the state that follows\n"

    def test_readings(self) -> None:
        desk = self.desk(GAUGE_BANDS, "0x1f", "--state", "far thick", *WITH_BANDS)
        self.assertEqual(
            desk.until(READING), "in service: move 0 hold; move 1 screws up, fine; move 2 screws down, fine; move 3 "
            "screws down, coarse; move 4 screws up, coarse\n5 of 6 states kept; ? says what can be typed\n\nstate 4  "
            f"far thick\nmake move 2  screws down, fine\nat most 2 moves to goal 0 (gauge on aim)\n{READING}")
        for typed, said in (
                ("2.03", f"\ndeviation 0.03 mm (2.03 less 2): band 0.02 .. 0.05\n{self.THICK}"),
                ("2.1", "refused 13: state 4 (far thick) cannot follow move 2 in state 3; deviation 0.1 mm (2.1 less "
                 "2): band 0.05 .. open; can follow: 2\n"),
                ("0.0", "no state: the deviation lies below all bands; deviation -2 mm (0.0 less 2): below band -0.5 "
                 ".. -0.05; can follow: 2\n"),
                ("-1", "no state: the deviation lies below all bands; deviation -3 mm (-1 less 2): below band -0.5 "
                 ".. -0.05; can follow: 2\n"),
                ("1e999", "refused 12: the reading, the aim or the deviation is not finite: check both numbers, in "
                 "millimetres; the reading is too large; can follow: 2\n"),
                ("=", "'' is no number of millimetres: write it as in 2.013, with a point; can follow: 2\n"),
                ("=nan", "'nan' is no number of millimetres: write it as in 2.013, with a point; can follow: 2\n"),
                ("2,01", "no state has the name '2,01': give a name from the plant's text, or a number from 0 to 5; a "
                 "reading has a point, as in 2.013; can follow: 2\n"),
                ("4", "refused 13: state 4 (far thick) cannot follow move 2 in state 3; can follow: 2\n"),
                ("", f"\n{self.THICK}"),
                ("= 2", f"\ndeviation 0 mm (2 less 2): band -0.02 .. 0.02\n{self.AIM}"),
                ("20e-1", f"\ndeviation 0 mm (20e-1 less 2): band -0.02 .. 0.02\n{self.AIM}"),
                ("+2.", f"\ndeviation 0 mm (+2. less 2): band -0.02 .. 0.02\n{self.AIM}"),
                ("2", f"\n{self.AIM}"), ("on aim", f"\n{self.AIM}"),
                ("0", "refused 13: state 0 (far thin) cannot follow move 0 in state 2; can follow: 1 to 3\n"),
                ("thick", f"\n{self.THICK}")):
            desk.types(typed + "\n")
            self.assertEqual(desk.until(READING), f"{typed}\n{said}{READING}")
        desk.types("quit\n")
        self.ends(desk, 0, "quit\n")

    def test_help(self) -> None:
        follows = "a state's number, or its name: the state that followed the move\n"
        more = "  nothing: says again where the strip is and what to do\n  ? or help: this list\n" \
               "  quit, or the end of input: ends\n" \
               "a name that could be taken for one of these stands in quotes, as \"12\"\n" \
               "refused 13: the state reported cannot follow by the move given: look again; if it did follow, end " \
               "the desk, start it anew in that state and have the plant corrected\n"
        desk = self.desk(STRIP, "7", "--state", "1")
        desk.until(STATE)
        for word in ("?", "help"):
            desk.types(word + "\n")
            self.assertEqual(desk.until(STATE), f"{word}\nwhat can be typed:\n  {follows}{more}"
                             f"what can follow move 2 in state 1:\n  0\n{STATE}")
        desk.types("\4")
        self.ends(desk, 0, "\n")
        desk = self.desk(GAUGE_BANDS, "0x1f", "--state", "2", *WITH_BANDS)
        desk.until(READING)
        desk.types("?\n")
        self.assertEqual(desk.until(READING), f"?\nwhat can be typed:\n  {follows}  a reading with a point, as 2.013, "
                         f"or after =, as =2: {BANDS} and aim 2 say which state it is\n{more}what can follow move 0 in "
                         f"state 2:\n  1  thin\n  2  on aim\n  3  thick\n{READING}")
        desk.types("quit\n")
        self.ends(desk, 0, "quit\n")

    def test_the_ways_to_end(self) -> None:
        os.mkdir(self.path("temporary"))
        for typed, status, said in (("quit\n", 0, "quit\n"), (" quit \n", 0, " quit \n"), ("\4", 0, "\n"),
                                    ("\3", 130, "^C\n")):
            desk = self.desk(STRIP, "7", "--state", "0", env={"TMPDIR": self.path("temporary")})
            desk.until(STATE)
            desk.types(typed)
            self.ends(desk, status, said)
            self.assertEqual(os.listdir(self.path("temporary")), [])
        # In the middle of a line, and after some reports.
        desk = self.desk(STRIP, "7", "--state", "0")
        desk.until(STATE)
        desk.types("1\n")
        desk.until(STATE)
        desk.types("tw")
        desk.until("tw")
        desk.types("\3")
        self.ends(desk, 130, "^C\n")

    def test_the_terminal_is_gone(self) -> None:
        desk = self.desk(STRIP, "7", "--state", "0")
        desk.until(STATE)
        os.close(desk.stream)
        self.assertNotEqual(os.waitpid(desk.pid, 0)[1], 0)

    def test_a_lost_start(self) -> None:
        self.ends(self.desk(STRIP, "7", "--state", "3"), 0,
                  STRIP_HEAD + "\nstate 3\nlost: the strip goes back through the stands\n")
        self.ends(self.desk(GAUGE_BANDS, "0", "--state", "on aim", *WITH_BANDS), 0,
                  "in service: no move\n0 of 6 states kept; ? says what can be typed\n"
                  "\nstate 2  on aim\nlost: the strip goes back through the stands\n")

    def test_names(self) -> None:
        names = ["1", "2.5", "quit", "?", "=2", "same", "same", "\u00fcber 1 \u03bcm", "", "help"]
        lines = ["plant states 10 moves 1 goals 1"]
        lines += [f"state {at} allowed goal 0" + (f' "{name}"' if name else "") for at, name in enumerate(names)]
        lines += [f"arrow {at} 0 -> 0 1 2 3 4 5 6 7 8 9" for at in range(10)]
        path = self.text("a.plant", "\n".join(lines))
        desk = self.desk(path, "1", "--state", "8")
        desk.until(STATE)
        for typed, state in (("1", 1), ('"1"', 0), ("2.5", 1), ('"2.5"', 1), ('"quit"', 2), ('" quit "', 2), ('"?"', 3),
                             ('"=2"', 4), ("\u00fcber 1 \u03bcm", 7), ("0005", 5), ('"help"', 9)):
            desk.types(typed + "\n")
            self.assertEqual(desk.until(STATE).splitlines()[:3],
                             [typed, "", f"state {state}  {names[state]}".rstrip()])
        desk.types("same\n")
        self.assertEqual(desk.until(STATE), "same\nstates 5 and 6 have the name 'same': give the number; can follow: 0 "
                         f"to 9\n{STATE}")
        desk.types("quit\n")
        desk.end()
        # With a table what looks like a number is a reading, and in quotes it is a name.
        self.text("a.bands", 'plant "a.plant"\nband 2 .. 3 state 7\n')
        desk = self.desk(path, "1", "--state", "8", "--bands", self.path("a.bands"), "--aim", "0")
        desk.until(READING)
        for typed, state in (("2.5", 7), ('"2.5"', 1), ("=2", 7), ("2", 2)):
            desk.types(typed + "\n")
            self.assertIn(f"\nstate {state}  {names[state]}\n", desk.until(READING))
        desk.types("quit\n")
        desk.end()

    def test_what_does_not_print_is_not_said(self) -> None:
        desk = self.desk(STRIP, "7", "--state", "0")
        desk.until(STATE)
        os.write(desk.stream, b"a\x1b[31m\x07\xff\n")
        said = desk.until(STATE)
        self.assertIn("no state has the name 'a?[31m??': ", said.split("\n", 1)[1])
        self.assertNotIn("\x1b", said)
        desk.types("quit\n")
        self.ends(desk, 0, "quit\n")

    def test_a_script_at_a_terminal(self) -> None:
        desk = self.desk(STRIP, "7", "--script", "--state", "0")
        self.assertEqual(desk.until("seek 1\n"), "state 0 move 0 wait 2 seek 1\n")
        desk.types("1\n")
        self.assertEqual(desk.until("seek 1\n"), "1\nstate 1 move 0 wait 1 seek 1\n")
        desk.types("\3")
        self.ends(desk, 130, "^C")

    def test_a_plant_that_must_settle(self) -> None:
        desk = self.desk(TIGHT, "0x1f", "--state", "roll change")
        leaves = "the move leaves the stage: it leads to earlier ones alone\n"
        said = desk.until(STATE)
        self.assertIn("\n\nstate 6  roll change\nnot settled, stage 3\nmake move 0  hold\n" + leaves, said)
        for typed, words in (
                ("thick", f"state 1  thick\nnot settled, stage 2\nmake move 2  trim down\n{leaves}"),
                ("2", "state 2  tight, upper half\nsettled, stage 1\nmake move 2  trim down\n"
                 "at most 1 move to goal 0 (on aim)\n"),
                ("3", "state 3  tight, on aim\nsettled, stage 1\nmet here: goal 0 (on aim)\nmake move 0  hold\n"
                 "all goals are met: goal 0 (on aim) is sought anew in the state that follows\n")):
            desk.types(typed + "\n")
            self.assertEqual(desk.until(STATE), f"{typed}\n\n{words}{STATE}")
        desk.types("quit\n")
        desk.end()
        # State 5 is settled and of stage 3: the wait may end at a state whose move leaves the stage.
        desk = self.desk(TIGHT, "0x1f", "--state", "5")
        self.assertTrue(desk.until(STATE).endswith(
            "settled, stage 3\nmake move 4  change roll\nat most 1 move to goal 0 (on aim), an earlier stage, or a "
            f"state whose move leaves the stage\n{STATE}"))
        desk.types("quit\n")
        desk.end()

    def test_goals_that_are_met(self) -> None:
        """A ring of four states: 0 serves goals 0 and 1, 1 serves 1 and 2, 2 serves none, 3 serves all."""
        path = self.text("a.plant", 'plant states 4 moves 1 goals 3\ngoal 1 "wide"\nstate 0 allowed goals 0 1\n'
                         "state 1 allowed goals 1 2\nstate 2 allowed\nstate 3 allowed goals 0 1 2\narrow 0 0 -> 1\n"
                         "arrow 1 0 -> 2\narrow 2 0 -> 3\narrow 3 0 -> 0\n")
        desk = self.desk(path, "1", "--state", "0")
        met = [desk.until(STATE).split("\n\n")[1]]
        for typed in ("1", "2", "3", "0"):
            desk.types(typed + "\n")
            met.append(desk.until(STATE).split("\n\n")[1])
        self.assertEqual(met, [f"{text}{STATE}" for text in (
            "state 0\nmet here: goal 0; goal 1 (wide)\nmake move 0\nat most 1 move to goal 2\n",
            "state 1\nmet here: goal 2\nmake move 0\nat most 2 moves to goal 0\n",
            "state 2\nmake move 0\nat most 1 move to goal 0\n",
            "state 3\nmet here: goal 0; goal 1 (wide); goal 2\nmake move 0\n"
            "all goals are met: goal 0 is sought anew in the state that follows\n",
            "state 0\nmet here: goal 0; goal 1 (wide)\nmake move 0\nat most 1 move to goal 2\n")])
        desk.types("quit\n")
        desk.end()


class Guide(DeskCase):
    """docs/USING.md shows what is really said."""

    def blocks(self) -> List[Tuple[str, str]]:
        """The calls of the desk in the guide, and what stands there as said."""
        with open(os.path.join(TOP, "docs", "USING.md"), encoding="utf-8") as file:
            lines = file.read().splitlines()
        found = []
        for at, line in enumerate(lines):
            if line.startswith("    $ ") and "./run desk" in line:
                end = at + 1
                while lines[end].startswith("    ") or not lines[end]:
                    end += 1
                said = "".join(f"{said[4:]}\n" for said in lines[at + 1:end]).rstrip("\n") + "\n"
                found.append((line[6:], said))
        return found

    def test_dialogues(self) -> None:
        typed: List[str] = []
        for call, shown in self.blocks():
            if "printf" in call:
                continue
            desk = Terminal("bash", "-c", f"exec {call}")
            said = ""
            for answer in re.findall(r" that followed\? (.*)\n", shown):
                said += desk.until("followed? ")
                desk.types(answer + "\n")
                typed.append(answer)
            status, rest = desk.end()
            self.assertEqual((status, said + rest), (0, shown))
        self.assertEqual(typed, ["far thin", "2.03", "2", "quit"])

    def test_scripts(self) -> None:
        scripts = [(call, said) for call, said in self.blocks() if "printf" in call]
        self.assertEqual(len(scripts), 1)
        for call, said in scripts:
            self.assertEqual(self.call("bash", "-c", f"cd {TOP} && {call}"), (0, said, ""))

    def test_every_sort_of_line_is_in_the_table(self) -> None:
        with open(os.path.join(TOP, "docs", "USING.md"), encoding="utf-8") as file:
            guide = file.read()
        sorts = {line.split()[0] for line in re.findall(r"^\| `([a-z]+ ?.*?)` \| |, `(refused .*?)`", guide, re.M)
                 for line in line if line}
        self.assertGreaterEqual(sorts, {"state", "lost", "refused", "none", "unknown", "follow", "end"})


class Lines(DeskCase):
    """A program at a pipe: one line in, one line out."""

    def test_each_answer_comes_before_the_next_line(self) -> None:
        pipe = self.pipe(STRIP, "7", "--state", "0")
        self.assertEqual(pipe.line(), "state 0 move 0 wait 2 seek 1")
        for line, answer in (("2", "refused 13 state 0 goal 1"), ("4", "refused 8 state 0 goal 1"),
                             ("99999999999", "refused 8 state 0 goal 1"), ("", "state 0 move 0 wait 2 seek 1"),
                             ("?", "follow 1"), ("help", "follow 1"), ("x", "unknown state 0 goal 1"),
                             ("1.5", "unknown state 0 goal 1"), ("=1", "unknown state 0 goal 1"),
                             ("1", "state 1 move 0 wait 1 seek 1"), ("1", "refused 13 state 1 goal 1"),
                             ("\t2\r", "state 2 move 0 wait 1 seek 0"), ("1", "refused 13 state 2 goal 0"),
                             ("", "state 2 move 0 wait 1 seek 0"), ("0", "state 0 move 0 wait 2 seek 1"),
                             ("quit", "end")):
            self.assertEqual(pipe.ask(line), answer, line)
        self.assertEqual(pipe.end(), (0, "", ""))

    def test_readings(self) -> None:
        pipe = self.pipe(GAUGE_BANDS, "0x1f", "--state", "2", *WITH_BANDS)
        self.assertEqual(pipe.line(), "state 2 move 0 wait 0 seek 0")
        for line, answer in (("2.03", "state 3 move 2 wait 1 seek 0"), ("2.1", "refused 13 state 3 goal 0"),
                             ("0.1", "none state 3 goal 0"), ("1e999", "refused 12 state 3 goal 0"),
                             ("=x", "unknown state 3 goal 0"), ("2,0", "unknown state 3 goal 0"),
                             ("=2", "state 2 move 0 wait 0 seek 0"), ("?", "follow 1 2 3"),
                             ("thin", "state 1 move 1 wait 1 seek 0")):
            self.assertEqual(pipe.ask(line), answer, line)
        self.assertEqual(pipe.end(), (0, "", ""))

    def test_a_lost_start(self) -> None:
        for words, line in (((STRIP, "7", "--state", "3"), "lost 3 seek 0"), ((STRIP, "7", "1", "--state", "0"),
                                                                             "lost 0 seek 0")):
            pipe = self.pipe(*words)
            self.assertEqual(pipe.line(), line)
            self.assertEqual(pipe.process.wait(LIMIT), 0)  # it does not wait for the end of input
            self.assertEqual(pipe.end(), (0, "", ""))

    def test_ends_of_input(self) -> None:
        first = "state 0 move 0 wait 2 seek 1"
        self.assertEqual(self.lines("", STRIP, "7", "--state", "0"), [first])
        self.assertEqual(self.lines("1", STRIP, "7", "--state", "0"), [first, "state 1 move 0 wait 1 seek 1"])
        self.assertEqual(self.lines("1\nquit\n2\n", STRIP, "7", "--state", "0"),
                         [first, "state 1 move 0 wait 1 seek 1", "end"])
        self.assertEqual(self.lines("1\r\n2\r\n", STRIP, "7", "--state", "0")[1:],
                         ["state 1 move 0 wait 1 seek 1", "state 2 move 0 wait 1 seek 0"])

    def test_many_lines_at_once(self) -> None:
        answers = self.lines("1\n2\n0\n" * 5000, STRIP, "7", "--state", "0")
        rounds = ["state 1 move 0 wait 1 seek 1", "state 2 move 0 wait 1 seek 0", "state 0 move 0 wait 2 seek 1"]
        self.assertEqual(answers, rounds[2:] + rounds * 5000)

    def test_lines_that_are_no_reports(self) -> None:
        for line in ("\0", "1\0", "\udcff", "\x1b", "x" * 10 ** 6, "1" + " " * 10 ** 6, "1" + " " * 10 ** 6 + "1",
                     '"1', "'1'", "1.", "0x1", "\u0661", "state 1", "1,", "quit now", "\u2028"):
            expected = "unknown state 0 goal 1" if line != "\u2028" else "state 0 move 0 wait 2 seek 1"
            self.assertEqual(self.lines(f"{line}\n1\n", STRIP, "7", "--state", "0")[1:],
                             [expected, "state 1 move 0 wait 1 seek 1"], line[:20])
        # A line that comes in parts and whose middle is left out is none of those that its parts could be.
        pipe = self.pipe(STRIP, "7", "--state", "0")
        pipe.line()
        assert pipe.process.stdin is not None
        os.write(pipe.process.stdin.fileno(), b"1" + b" " * 3000 + b"2")
        time.sleep(0.3)
        self.assertEqual(pipe.ask(""), "unknown state 0 goal 1")
        self.assertEqual(pipe.end(), (0, "", ""))

    def test_bytes_and_settling(self) -> None:
        path = self.write("a.bin", plant.to_bytes(plant.read_plant(STRIP)))
        self.assertEqual(self.lines("2\n1\n", path, "7", "--state", "0"),
                         ["state 0 move 0 wait 2 seek 1", "refused 13 state 0 goal 1", "state 1 move 0 wait 1 seek 1"])
        self.assertEqual(self.lines("thick\nthick\n2\n", TIGHT, "0x1f", "--state", "6"),
                         ["state 6 move 0 wait 0 seek 0", "state 1 move 2 wait 0 seek 0", "refused 13 state 1 goal 0",
                          "state 2 move 2 wait 1 seek 0"])
        # The table names the text, and the desk has the same plant as bytes: it has no names then.
        path = self.write("b.bin", plant.to_bytes(plant.read_plant(GAUGE_BANDS)))
        self.assertEqual(self.lines("2.03\nthick\n", path, "0x1f", "--state", "2", *WITH_BANDS)[1:],
                         ["state 3 move 2 wait 1 seek 0", "unknown state 3 goal 0"])

    def test_options_stand_anywhere(self) -> None:
        for words in (("--state", "0", STRIP, "7"), (STRIP, "--state", "0", "7", "--script"),
                      ("--script", STRIP, "7", "--state", "0"), (STRIP, "7", "--script", "--script", "--state", "00")):
            self.assertEqual(self.lines("", *words), ["state 0 move 0 wait 2 seek 1"])


class Refusals(DeskCase):
    """Command lines, plants, masks and tables that are not taken: nothing is said but one line."""

    def refuses(self, status: int, error: str, *words: str, env: Optional[Dict[str, str]] = None) -> None:
        self.fails(status, error, RUN, "desk", *words, env=env)

    def test_words(self) -> None:
        needs = "desk needs a plant, the moves in service and --state STATE (a plant file of this name is ./desk)"
        for words in ((), (STRIP,), (STRIP, "7"), ("--state", "0"), ("--script",)):
            self.refuses(2, needs, *words)
        self.refuses(2, "give at least one mask", STRIP, "--state", "0")
        for option in ("--state", "--bands", "--aim"):
            self.refuses(2, f"{option} needs a word after it", STRIP, "7", option)
            self.fails(2, f"{option} needs a word after it\n", DESK_PY, STRIP, "7", option)
        self.refuses(2, "--state is given twice", STRIP, "7", "--state", "0", "--state", "1")
        self.refuses(2, "unknown option --colour; ./run --help says what there is", STRIP, "7", "--state", "0",
                     "--colour")
        self.fails(2, "unknown option --colour; ./run --help says what there is", DESK_PY, "--colour")
        self.refuses(2, "'-1' is no mask", STRIP, "-1", "--state", "0")
        self.refuses(2, "'7x' is no mask", STRIP, "7", "7x", "--state", "0")
        self.refuses(2, "17 masks are too many", STRIP, *["7"] * 17, "--state", "0")
        for words in (("--bands", BANDS), ("--aim", "2")):
            for call in ((RUN, "desk"), (DESK_PY,)):
                self.fails(2, "--bands and --aim go together: give both, or neither", *call, STRIP, "7", "--state", "0",
                           *words)
        for words in (("-", "7"), (STRIP, "7", "--bands", "-", "--aim", "2")):
            for call in ((RUN, "desk"), (DESK_PY,)):
                self.fails(2, "standard input has the reports: give the plant and the table of bands as files", *call,
                           *words, "--state", "0")
        for aim in ("x", "2,0", "nan", "", "0x2"):
            for call in ((RUN, "desk"), (DESK_PY,)):
                self.fails(2, "is no number of millimetres", *call, GAUGE_BANDS, "1", "--state", "0", "--bands", BANDS,
                           "--aim", aim)

    def test_states(self) -> None:
        for state, error in (("4", "there is no state '4': the plant's states are 0 to 3"),
                             ("x", "no state has the name 'x'"), ("", "no state has the name ''"),
                             ("-1", "no state has the name '-1'"), ("--aim", "no state has the name '--aim'"),
                             ("9" * 30, "there is no state '999999999999999999999...'")):
            self.refuses(2, error, STRIP, "7", "--state", state)

    def test_plants(self) -> None:
        self.refuses(2, "none.plant: there is no such file", "none.plant", "7", "--state", "0")
        self.refuses(2, "is not a file", self.folder, "7", "--state", "0")
        self.refuses(2, "bad.plant:1: the first line is", self.text("bad.plant", "x"), "7", "--state", "0")
        data = plant.to_bytes(plant.read_plant(STRIP))
        for number, bad in ((1, changed(data, 7, 2)), (1, data[:-2]), (2, changed(data, 8, 8)),
                            (3, changed(data, 12, 4))):
            self.refuses(2, f"(planbook refuses this with {number})", self.write("a.bin", bad), "7", "--state", "0")
        for masks in (("8",), ("7", "8"), ("7", "4", "0xffffffff")):
            for call in ((RUN, "desk"), (DESK_PY,)):
                self.fails(1, "refused 6: a mask names a move that the plant does not have", *call, STRIP, *masks,
                           "--state", "0")

    def test_tables(self) -> None:
        def refuses(status: int, error: str, table: str, aim: str = "2") -> None:
            self.refuses(status, error, GAUGE_BANDS, "1", "--state", "0", "--bands", table, "--aim", aim)

        refuses(2, "none.bands: there is no such file", "none.bands")
        refuses(2, "this is a plant and no table of bands", GAUGE_BANDS)
        refuses(1, "refused 12: the reading, the aim or the deviation is not finite: check both numbers, in "
                "millimetres; the aim is too large", BANDS, "-1e999")
        table = self.text("a.bands", f'plant "{GAUGE_BANDS}"\nband 1 .. 0 state 1\n')
        refuses(1, "refused 11: the table of bands is not in order", table)
        refuses(1, "a.bands:2: the band is empty: 0 is not above 1", table, "1e999")
        self.refuses(2, f"{BANDS}: its bands have the states of another plant than {STRIP}", STRIP, "7", "--state",
                     "0", *WITH_BANDS)
        # As many states, and one arrow less.
        with open(GAUGE_BANDS, encoding="utf-8") as file:
            other = self.text("b.plant", file.read().replace("arrow 2 4 -> 3 4", "arrow 2 4 -> 3"))
        self.refuses(2, "its bands have the states of another plant", other, "1", "--state", "0", *WITH_BANDS)

    def test_a_plant_that_is_called_desk(self) -> None:
        shutil.copy(STRIP, self.path("desk"))
        self.refuses(2, "(a plant file of this name is ./desk)", "7")
        self.assertEqual(self.call(RUN, "./desk", "7", "4"), (0, STRIP_LISTING, ""))
        self.assertEqual(self.lines("1\n", "desk", "7", "--state", "0")[1:], ["state 1 move 0 wait 1 seek 1"])

    def test_help(self) -> None:
        code, out, _ = self.call(RUN, "--help")
        self.assertIn("./run desk PLANT MASK [MASK...] --state STATE [--bands BANDS --aim AIM] [--script]\n", out)
        self.assertEqual(code, 0)
        usage = "desk.py PLANT MASK [MASK...] --state STATE [--bands BANDS --aim AIM] [--script]"
        for word in ("-h", "--help"):
            code, out, error = self.call(DESK_PY, word)
            self.assertEqual((code, error, out.splitlines()[2]), (0, "", "    " + usage))
        self.fails(2, f"usage: {usage}\n", DESK_PY)
        self.fails(2, "give a plant, the moves in service and --state STATE\n", DESK_PY, STRIP, "7")
        self.fails(2, "give a plant, the moves in service and --state STATE\n", DESK_PY, STRIP, "--state", "0")


class Machine(DeskCase):
    """Faults of the machine: status 3 and one line."""

    CALL = RUN, "desk", STRIP, "7", "--state", "0"

    def test_standard_output_full_closed_or_left(self) -> None:
        for call in (self.CALL, (DESK_PY, *self.CALL[2:])):
            for script in ('exec "$0" "$@" >/dev/full', 'exec "$0" "$@" >&-', 'trap "" PIPE; ' + LEFT, LEFT):
                self.fails(3, "standard output could not be written", "bash", "-c", f"sleep 0.2 | {{ {script}; }}",
                           *call)

    def test_a_reader_that_stops_on_the_way(self) -> None:
        pipe = self.pipe(*self.CALL[2:])
        pipe.line()
        assert pipe.process.stdout is not None and pipe.process.stdin is not None
        pipe.process.stdout.close()
        pipe.process.stdout = None
        os.write(pipe.process.stdin.fileno(), b"1\n")
        _, error = pipe.process.communicate(timeout=LIMIT)
        self.assertEqual((pipe.process.returncode, error),
                         (3, b"run: standard output could not be written (Broken pipe)\n"))

    def test_standard_input(self) -> None:
        self.assertEqual(self.call("bash", "-c", '"$0" "$@" <&-', *self.CALL),
                         (3, "state 0 move 0 wait 2 seek 1\n",
                          "run: standard input could not be read (Bad file descriptor)\n"))
        self.fails(3, "standard input could not be read: it is a folder", "bash", "-c", '"$0" "$@" </', *self.CALL)

    def test_standard_error_closed_or_full(self) -> None:
        for script in ('exec "$@" 2>&- <&-', 'exec "$@" 2>/dev/full <&-'):
            code, out, error = self.call("bash", "-c", script, "bash", *self.CALL)
            self.assertEqual((code, out, error), (3, "state 0 move 0 wait 2 seek 1\n", ""))
            self.assertEqual(self.call("bash", "-c", script, "bash", *self.CALL[:4], "--state", "9"), (2, "", ""))

    def test_stopped(self) -> None:
        """An interrupt reaches both, as Ctrl-C does; by itself the tool says that it was stopped."""
        for call, error in ((self.CALL, b""), ((DESK_PY, *self.CALL[2:]), b"stopped\n")):
            process = subprocess.Popen(call, stdin=subprocess.PIPE, stdout=subprocess.PIPE, stderr=subprocess.PIPE,
                                       start_new_session=True)
            assert process.stdout is not None
            self.assertEqual(process.stdout.readline(), b"state 0 move 0 wait 2 seek 1\n")
            os.killpg(process.pid, signal.SIGINT)
            out, said = process.communicate(timeout=LIMIT)
            self.assertEqual((process.returncode, out, said), (130, b"", error))

    def test_temporary_folder(self) -> None:
        self.fails(3, "no temporary folder can be made in", *self.CALL, env={"TMPDIR": self.path("none")})

    def test_neither_python_nor_library(self) -> None:
        call = [shutil.which("bash") or "", *self.CALL]
        self.fails(3, "python3 is needed for the desk, and is not on the PATH", *call, env={"PATH": self.few_tools()})
        self.program("few/python3", f'case "$*" in *ctypes*) exit 1 ;; esac; exec {sys.executable} "$@"')
        self.fails(3, "python3 is needed for the desk, and the one on the PATH cannot run (3.7 or newer is needed, "
                   "with ctypes)", *call, env={"PATH": self.path("few")})
        env = {"PLANBOOK_LIB": self.path("none")}
        self.fails(3, f"PLANBOOK_LIB names no library: {self.path('none')}", *self.CALL, env=env)
        self.fails(3, "libplanbook.so is not there", DESK_PY, *self.CALL[2:], env=env)
        self.fails(3, "a.so: cannot be loaded as a library", *self.CALL,
                   env={"PLANBOOK_LIB": self.write("a.so", b"\x7fELF\0\0")})
        shutil.copy(os.environ["PLANBOOK_LIB"], self.path("b.so"))  # a path from here, and no planner
        env = {"PLANBOOK_LIB": "b.so", "PLANBOOK_BIN": self.path("none")}
        code, out, error = self.call("bash", "-c", '"$0" "$@" </dev/null', *self.CALL, env=env)
        self.assertEqual((code, out, error), (0, "state 0 move 0 wait 2 seek 1\n", ""))

    MAKE = "uint16_t header[] = { 2, 1, 1, 2, 1, 0, 16, 24 }; memcpy(book, header, 16); return (answer){ 0, 24, 0 };"
    START = "return (desk){ 0, 0, 0, state == 0, 0, state, 0 };"
    REPORT = "return said == 1 ? (desk){ 0, 0, 0, 0, 0, 1, 0 } : (desk){ said > 1 ? 8 : 13, 0, 0, 0, 0, held, goal };"

    def library(self, make: str = MAKE, start: str = START, report: str = REPORT, *flags: str) -> Dict[str, str]:
        """A stand-in for the library that answers so about SMALL, in C."""
        cc = shutil.which("cc")
        if cc is None:
            self.skipTest("there is no C compiler")
        lent = "const uint8_t *plant, size_t plant_len, const uint8_t *old, size_t old_len"
        self.write("a.c", f"""#include <stddef.h>
#include <stdint.h>
#include <string.h>
typedef struct {{ uint32_t number, length, drops; }} answer;
typedef struct {{ uint32_t number, lost, move, wait, seek, state, goal; }} desk;
answer planbook_make(const uint8_t *plant, size_t plant_len, uint32_t mask, uint8_t *book, size_t len) {{ {make} }}
answer planbook_withdraw({lent}, uint32_t mask, uint8_t *book, size_t len, uint8_t *drops, size_t n) {{ {make} }}
desk planbook_start({lent}, uint32_t state) {{ {start} }}
desk planbook_report({lent}, uint32_t held, uint32_t goal, uint32_t said) {{ {report} }}
""".encode())
        subprocess.run([cc, *flags, "-w", "-shared", "-fPIC", "-o", self.path("a.so"), self.path("a.c")], check=True)
        return {"PLANBOOK_LIB": self.path("a.so")}

    def small(self, text: str, env: Dict[str, str]) -> Tuple[int, str, str]:
        path = self.text("small.plant", SMALL)
        return self.call("bash", "-c", f"printf '{text}' | \"$0\" \"$@\"", RUN, "desk", path, "1", "--state", "0",
                         env=env)

    def test_a_library_that_is_right(self) -> None:
        first = "state 0 move 0 wait 1 seek 0\n"
        for env in (self.library(), {}):
            self.assertEqual(self.small("0\\n2\\n1\\n", env),
                             (0, f"{first}refused 13 state 0 goal 0\nrefused 8 state 0 goal 0\n"
                              "state 1 move 0 wait 0 seek 0\n", ""))

    def test_a_library_that_says_something_else(self) -> None:
        none = "its answer is none for this state"
        for make, start, status, words in (
                ("return (answer){ 7, 0, 0 };", self.START, 1, "refused 7: this number is not one that planbook gives"),
                (self.MAKE.replace("0, 24, 0 }", "0, 26, 0 }"), self.START, 3, "another length than the plant's"),
                (self.MAKE.replace("2, 1, 0, 16", "2, 3, 0, 16"), self.START, 3, "not one of this plant and these"),
                (self.MAKE.replace("{ 2, 1, 1", "{ 3, 1, 1"), self.START, 3, "not one of this plant and these moves"),
                (self.MAKE, "return (desk){ 4 };", 1, "refused 4: this number is not one that planbook gives"),
                (self.MAKE, "return (desk){ 8 };", 1, "refused 8: there is no such state"),
                (self.MAKE, "return (desk){ 0, 0, 0, 1, 0, 1, 0 };", 3, none),  # another state
                (self.MAKE, "return (desk){ 0, 0, 1, 1, 0, 0, 0 };", 3, none),  # a move that there is not
                (self.MAKE, "return (desk){ 0, 0, 0, 1024, 0, 0, 0 };", 3, none),
                (self.MAKE, "return (desk){ 0, 0, 0, 1, 1, 0, 1 };", 3, none),  # a goal that there is not
                (self.MAKE, "return (desk){ 0, 0, 0, 1, 0, 0, 1 };", 3, none),
                (self.MAKE, "return (desk){ 0, 2, 0, 0, 0, 0, 0 };", 3, none),
                (self.MAKE, "return (desk){ 0, 1, 0, 1, 0, 0, 0 };", 3, none),
                (self.MAKE, "return (desk){ 0, 1, 0, 0, 0, 0, 1 };", 3, none),
                (self.MAKE, "return (desk){ 0, 1, 0, 0, 0, 1, 0 };", 3, none),
                ("return *(answer *)0;", self.START, 3, "python3 could not run tools/desk.py (status 139)")):
            code, out, error = self.small("", self.library(make, start))
            self.assertEqual((code, out, error.count("\n")), (status, "", 1), error)
            self.assertIn(words, error)

    def test_a_library_that_gives_a_move_that_cannot_be_made(self) -> None:
        """Move 1 is in service and has no arrow in state 0; move 2 has one, and is out of service."""
        path = self.text("a.plant", SMALL.replace("moves 1", "moves 3") + "arrow 0 2 -> 1\n")
        for move, status in ((0, 0), (1, 3), (2, 3)):
            env = self.library(self.MAKE.replace("{ 2, 1, 1, 2, 1,", "{ 2, 3, 1, 2, 3,"),
                               f"return (desk){{ 0, 0, {move}, 1, 0, 0, 0 }};")
            code, _, error = self.call("bash", "-c", '"$0" "$@" </dev/null', RUN, "desk", path, "3", "--state", "0",
                                       env=env)
            self.assertEqual(code, status)
            self.assertEqual("its answer is none for this state" in error, status == 3, error)

    def test_a_library_that_errs_about_a_report(self) -> None:
        against = "run: libplanbook.so does not add up: it takes or refuses a report against the arrows\n"
        none = "run: libplanbook.so does not add up: its answer is none for this state\n"
        for line, report, error in (
                ("0", "return (desk){ 0, 0, 0, 1, 0, 0, 0 };", against), ("1", "return (desk){ 13 };", against),
                ("2", "return (desk){ 13 };", against), ("0", "return (desk){ 8 };", against),
                ("1", "return (desk){ 5 };", against), ("0", "return (desk){ 13, 0, 0, 0, 0, 1, 0 };", against),
                ("0", "return (desk){ 13, 0, 0, 0, 0, 0, 1 };", against), ("1", "return (desk){ 0 };", none),
                ("1", "return (desk){ 0, 0, 0, 0, 0, 0, 0 };", none),
                ("1", "return *(desk *)0;", "run: python3 could not run tools/desk.py (status 139)\n")):
            self.assertEqual(self.small(f"{line}\\n", self.library(self.MAKE, self.START, report)),
                             (3, "state 0 move 0 wait 1 seek 0\n", error))

    def test_a_lost_report(self) -> None:
        """As it can be in a book that was not made for the plant: it is said, and the desk ends."""
        env = self.library(self.MAKE, self.START, "return (desk){ 0, 1, 0, 0, 0, said, goal };")
        self.assertEqual(self.small("1\\n1\\n1\\n", env), (0, "state 0 move 0 wait 1 seek 0\nlost 1 seek 0\n", ""))
        desk = self.desk(self.path("small.plant"), "1", "--state", "0", env=env)
        desk.until(STATE)
        desk.types("1\n")
        self.ends(desk, 0, "1\n\nstate 1\nlost: the strip goes back through the stands\n")

    def test_a_library_without_the_calls(self) -> None:
        for name in ("make", "withdraw", "start", "report"):
            env = self.library(self.MAKE, self.START, self.REPORT, f"-Dplanbook_{name}=planbook_other")
            code, out, error = self.small("", env)
            self.assertEqual((code, out, error.count("\n")), (3, "", 1))
            self.assertIn(f"a.so: has no planbook_{name}; it is another library, or an old one", error)


# Request (xii) once more: a second desk, from the planner's listing and the plant's bytes.


@functools.lru_cache(maxsize=None)
def listed(data: bytes, masks: Tuple[int, ...]) -> Dict[int, Dict[int, Tuple[int, int]]]:
    """The rows of the planner's listing: for each kept state and goal the wait and the move."""
    planner = subprocess.run([os.environ["PLANBOOK_BIN"]], input=data + struct.pack(f"<{len(masks)}I", *masks),
                             stdout=subprocess.PIPE, check=True)
    rows: Dict[int, Dict[int, Tuple[int, int]]] = {}
    for line in planner.stdout.decode().splitlines()[1:]:
        if not line.endswith(" lost"):
            state, goal, wait, move = map(int, line.split())
            rows.setdefault(state, {})[goal] = wait, move
    return rows


class Follower:
    """What a desk has to answer. Each part that can be got wrong is a function of its own."""

    def __init__(self, data: bytes, masks: List[int]) -> None:
        numbers = struct.unpack(f"<{len(data) // 2}H", data)
        self.states, self.goals, self.mask = numbers[0], numbers[2], masks[0]
        for mask in masks[1:]:
            self.mask &= ~mask
        at = numbers[5] // 2
        self.arrows = {numbers[place:place + 3] for place in range(at, len(numbers), 3)}
        self.rows = listed(data, tuple(masks))
        self.state = self.goal = 0

    def start(self, state: int) -> str:
        return self.come(state, self.first())

    def first(self) -> int:
        return 0

    def come(self, state: int, goal: int) -> str:
        """What is said in a state in which a goal is sought."""
        if state not in self.rows:
            self.state, self.goal = state, goal
            return f"lost {state} seek {goal}"
        self.state, self.goal = state, self.arrive(state, goal)
        wait, move = self.entry()
        return f"state {state} move {move} wait {wait} seek {self.goal}"

    def arrive(self, state: int, goal: int) -> int:
        """The first goal from this one on that the state does not serve, or this one."""
        turn = [(goal + step) % self.goals for step in range(self.goals)]
        return next((one for one in turn if not self.serves(state, one)), self.left(goal))

    def serves(self, state: int, goal: int) -> bool:
        return self.rows[state][goal][0] == 0

    def left(self, goal: int) -> int:
        """The goal that is sought where all are served."""
        return goal

    def entry(self) -> Tuple[int, int]:
        return self.rows[self.state][self.goal]

    def follow(self) -> List[int]:
        return sorted(end for end in range(self.states) if (self.state, self.entry()[1], end) in self.arrows)

    def answer(self, line: str) -> str:
        """What is said to a line; the plant has no names, and there is no table of bands."""
        if line == "":
            wait, move = self.entry()
            return f"state {self.state} move {move} wait {wait} seek {self.goal}"
        if line == "?":
            return " ".join(["follow", *map(str, self.follow())])
        if not line.isdigit():
            return f"unknown state {self.state} goal {self.goal}"
        number = self.number(int(line))
        return self.refuse(number, int(line)) if number else self.come(int(line), self.next_goal())

    def number(self, state: int) -> int:
        return 8 if state >= self.states else 0 if state in self.taken() else 13

    def taken(self) -> List[int]:
        return self.follow()

    def next_goal(self) -> int:
        return self.goal

    def refuse(self, number: int, state: int) -> str:
        return f"refused {number} state {self.state} goal {self.goal}"


class PassesNone(Follower):
    def arrive(self, state: int, goal: int) -> int:
        return goal


class PassesOne(Follower):
    def arrive(self, state: int, goal: int) -> int:
        return (goal + 1) % self.goals if self.serves(state, goal) else goal


class NoTurn(Follower):
    """After the last goal it does not come to the first."""

    def arrive(self, state: int, goal: int) -> int:
        return next((one for one in range(goal, self.goals) if not self.serves(state, one)), goal)


class FromTheFirst(Follower):
    """Looks for a goal that is not served from goal 0 on."""

    def arrive(self, state: int, goal: int) -> int:
        return super().arrive(state, 0) if self.serves(state, goal) else goal


class AllServedGoesOn(Follower):
    def left(self, goal: int) -> int:
        return (goal + 1) % self.goals


class AllServedFirst(Follower):
    def left(self, goal: int) -> int:
        return 0


class NextAfterEachReport(Follower):
    def next_goal(self) -> int:
        return (self.goal + 1) % self.goals


class ForgetsTheGoal(Follower):
    def next_goal(self) -> int:
        return 0


class StartsAtTheLast(Follower):
    def first(self) -> int:
        return self.goals - 1


class AnyMove(Follower):
    """Takes the end of an arrow of any move."""

    def taken(self) -> List[int]:
        return [end for start, _, end in self.arrows if start == self.state]


class AnyMoveInService(Follower):
    def taken(self) -> List[int]:
        return [end for start, move, end in self.arrows if start == self.state and self.mask >> move & 1]


class AnyKept(Follower):
    def taken(self) -> List[int]:
        return list(self.rows)


class Backward(Follower):
    """Takes the start of an arrow into the state held."""

    def taken(self) -> List[int]:
        return [start for start, move, end in self.arrows if end == self.state and move == self.entry()[1]]


class LowestEnd(Follower):
    def taken(self) -> List[int]:
        return self.follow()[:1]


class MoveOfGoalZero(Follower):
    """Holds the report against the move that is listed for goal 0."""

    def taken(self) -> List[int]:
        move = self.rows[self.state][0][1]
        return [end for start, other, end in self.arrows if (start, other) == (self.state, move)]


class ThirteenAlone(Follower):
    def number(self, state: int) -> int:
        return 0 if state in self.taken() else 13


class EightAboveS(Follower):
    def number(self, state: int) -> int:
        return 13 if state == self.states else super().number(state)


class RefusedMovesOn(Follower):
    """A refused report of a kept state changes the state held."""

    def refuse(self, number: int, state: int) -> str:
        if state in self.rows:
            self.state = state
        return super().refuse(number, state)


class RefusedForgetsTheGoal(Follower):
    def refuse(self, number: int, state: int) -> str:
        self.goal = 0
        return super().refuse(number, state)


class OneMoveLess(Follower):
    """The wait after the move, and not before it."""

    def entry(self) -> Tuple[int, int]:
        wait, move = super().entry()
        return max(wait - 1, 0), move


WRONG_DESKS: List[Type[Follower]] = [
    PassesNone, PassesOne, NoTurn, FromTheFirst, AllServedGoesOn, AllServedFirst, NextAfterEachReport, ForgetsTheGoal,
    StartsAtTheLast, AnyMove, AnyMoveInService, AnyKept, Backward, LowestEnd, MoveOfGoalZero, ThirteenAlone,
    EightAboveS, RefusedMovesOn, RefusedForgetsTheGoal, OneMoveLess]


def some_plant(pick: random.Random) -> plant.Plant:
    """Any plant, of which nothing need be kept."""
    states, moves, goals = pick.randrange(2, 14), pick.randrange(1, 5), pick.randrange(1, 5)
    share = pick.choice([0.2, 0.4, 0.7])
    labels = [int(pick.random() < 0.95) | sum(2 << goal for goal in range(goals) if pick.random() < share)
              for _ in range(states)]
    ends = pick.choice([[1], [0, 1, 1, 2], [1, 2, 3]])
    arrows = {(state, move, pick.randrange(states)) for state in range(states) for move in range(moves)
              for _ in range(pick.choice(ends))}
    settles = pick.random() < 0.6
    if settles:
        labels = [label | (512 if pick.random() < 0.7 else 0) for label in labels]
    return plant.Plant(states, moves, goals, labels, sorted(arrows), settles)


def some_masks(pick: random.Random, moves: int) -> List[int]:
    """All moves, then few of them withdrawn, or none."""
    withdrawn = [1 << pick.randrange(moves) & pick.getrandbits(4) for _ in range(pick.choice([0, 1, 2]))]
    return [(1 << moves) - 1, *withdrawn]


class Walk:
    """A dialogue of right and wrong reports: what was sent and what was answered."""

    def __init__(self, seed: int, folder: str) -> None:
        pick = random.Random(seed)
        for _ in range(1 if seed % 9 == 0 else 60):  # until much is kept, or whatever comes first
            self.plant = some_plant(pick)
            self.data = plant.to_bytes(self.plant)
            self.masks = some_masks(pick, self.plant.moves)
            self.right = Follower(self.data, self.masks)
            if 2 * len(self.right.rows) > self.plant.states > 3:
                break
        kept, lost = (sorted(state for state in range(self.plant.states) if (state in self.right.rows) == wanted)
                      for wanted in (True, False))
        self.first = pick.choice(kept if kept and (not lost or pick.random() < 0.8) else lost)
        self.sent: List[str] = []
        self.expected = [self.right.start(self.first)]
        path = os.path.join(folder, f"{seed}.bin")
        with open(path, "wb") as file:
            file.write(self.data)
        pipe = Pipe(DESK_PY, path, *map(str, self.masks), "--state", str(self.first))
        self.answers = [pipe.line()]
        while len(self.sent) < 80 and self.answers == self.expected and self.first in self.right.rows:
            self.step(self.choose(pick), pipe)
        self.ending = pipe.end()

    def step(self, line: str, pipe: Pipe) -> None:
        self.sent.append(line)
        self.expected.append(self.right.answer(line))
        self.answers.append(pipe.ask(line))

    def choose(self, pick: random.Random) -> str:
        """The next line: mostly a state that can follow."""
        states, here, sort = self.plant.states, self.right.state, pick.random()
        if sort < 0.6:
            return str(pick.choice(self.right.follow()))
        if sort < 0.7:
            return str(pick.choice([end for start, _, end in self.plant.arrows if start == here]))
        if sort < 0.75:
            return str(pick.choice([start for start, _, end in self.plant.arrows if end == here] or [here]))
        if sort < 0.9:
            return str(pick.randrange(states))
        return pick.choice([str(states), str(states + pick.randrange(70000)), str(1 << 32), "", "?", "x", "1.5", "-1"])

    def replayed(self, sort: Type[Follower]) -> bool:
        """Whether another desk gives the same answers."""
        desk = sort(self.data, self.masks)
        for at, answer in enumerate(self.answers):
            if at and desk.state not in desk.rows:
                return False  # it has come to a lost state, where the dialogue ends
            if (desk.answer(self.sent[at - 1]) if at else desk.start(self.first)) != answer:
                return False
        return True


class Walks(Case):
    """The desk's answers against those of a second one, and against wrong ones."""

    WALKS = 120
    walks: List[Walk] = []

    @classmethod
    def setUpClass(cls) -> None:
        with tempfile.TemporaryDirectory() as folder:
            cls.walks = [Walk(seed, folder) for seed in range(cls.WALKS)]

    def test_every_line_is_the_one_that_is_expected(self) -> None:
        seen: Counter = Counter()
        for walk in self.walks:
            self.assertEqual(walk.answers, walk.expected, (walk.data, walk.masks, walk.sent))
            self.assertEqual(walk.ending, (0, "", ""))
            seen.update(self.sorts(walk))
        few = {name for name, count in seen.items() if count < 5}
        self.assertEqual((few, len(seen)), (set(), 14), seen)

    def sorts(self, walk: Walk) -> Set[str]:
        """What is of note in a walk."""
        found = {" ".join(line.split()[:2]) if line.startswith("refused") else line.split()[0] for line in walk.answers}
        found |= {"settles"} if walk.plant.settles else {"does not settle"}
        found |= {"withdrawn"} if len(walk.masks) > 1 else set()
        found |= {"kept only in part"} if 0 < len(walk.right.rows) < walk.plant.states else set()
        told = [list(map(int, line.split()[1::2])) for line in walk.answers if line.startswith("state")]
        found |= {"all served"} if any(wait == 0 for _, _, wait, _ in told) else set()
        found |= {"more than a goal passed"} if walk.plant.goals > 2 and any(
            (two[3] - one[3]) % walk.plant.goals > 1 for one, two in zip(told, told[1:])) else set()
        found |= {"round the goals"} if any(one[3] > two[3] for one, two in zip(told, told[1:])) else set()
        found |= {"a long wait"} if any(wait > 2 for _, _, wait, _ in told) else set()
        return found

    def test_wrong_desks_are_found_out(self) -> None:
        self.assertTrue(all(walk.replayed(Follower) for walk in self.walks))
        for wrong in WRONG_DESKS:
            self.assertFalse(all(walk.replayed(wrong) for walk in self.walks), wrong.__name__)

    def test_waits_are_kept(self) -> None:
        """In plants that need not settle a goal is met within the wait shown when it became the one sought."""
        met = 0
        for walk in self.walks:
            left = sought = -1  # moves that are left for the goal sought, and that goal; none at first
            for line, sent in zip(walk.answers, ["start", *walk.sent]):
                if walk.plant.settles or not line.startswith("state") or not sent:
                    continue
                _, _, wait, seek = map(int, line.split()[1::2])
                reached = seek != sought or wait == 0
                if sought >= 0:
                    left -= 1
                    self.assertGreaterEqual(left, 0 if reached else 1, walk.answers)
                if reached:
                    met += sought >= 0
                    left, sought = wait, seek if wait else -1  # where all are served it is sought anew in the next
        self.assertGreater(met, 500)


if __name__ == "__main__":
    unittest.main()
