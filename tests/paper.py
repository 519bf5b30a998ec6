"""Prints pictures with a headless Chromium and looks at the paper; then tries keys and the dark style in the browser.

    paper.py CHROMIUM

tests/paper.sh runs it. A state counts as drawn where its number stands on paper with the word of its box (wait,
DROPPED, ...) right below it, before the table begins: the table has every state too, so a number alone shows nothing.
"""
from __future__ import annotations

import os
import re
import shutil
import subprocess
import sys
import tempfile
import xml.etree.ElementTree as xml
from collections import Counter
from dataclasses import dataclass
from typing import Dict, List, Sequence, Tuple

TOP = os.path.dirname(os.path.dirname(os.path.abspath(__file__)))
sys.path.insert(0, os.path.join(TOP, "tools"))

import facts  # noqa: E402
import picture  # noqa: E402
import plant  # noqa: E402

A4_LANDSCAPE = (841.9, 595.3)  # points
TIME_LIMIT = 120  # seconds for one start of the browser
CONTROLS = ("Click", "Tab", "Escape", "Point at", "other arrows in service", "withdrawn arrows")
# The first word in a state's box or cell below its number.
BOX_WORDS = {facts.KEPT: "wait", facts.DROPPED: "DROPPED", facts.LOST: "LOST", facts.NOT_ALLOWED: "NOT"}
CELL_WORDS = {facts.KEPT: "w", facts.DROPPED: "DROP", facts.LOST: "lost", facts.NOT_ALLOWED: "n.a."}

HEADER = {("state", "name"), ("state", "book")}  # how the table's header begins

# What is withdrawn from an example, so that states are dropped.
WITHDRAWN = {"gauge-bands": 0x12, "gauge-tension": 0x22, "lockout": 0x1c, "may-miss": 2, "slitter": 4, "strip": 1,
             "three-orders": 4, "tight-band": 0x10}


@dataclass
class Word:
    """A word on paper, in points from the page's upper left corner; pages count from 0."""

    text: str
    page: int
    left: float
    top: float
    right: float
    bottom: float


class Browser:
    """Chromium without a window, with a profile of its own."""

    def __init__(self, program: str, folder: str) -> None:
        self.program = program
        self.folder = folder

    def call(self, page: str, *options: str) -> str:
        """What the browser prints when it opens a page with these options."""
        words = [self.program, "--headless", "--no-sandbox", "--disable-gpu", "--disable-dev-shm-usage",
                 "--disable-background-networking", "--no-first-run", f"--user-data-dir={self.folder}/profile"]
        try:
            done = subprocess.run([*words, *options, f"file://{page}"], capture_output=True, text=True,
                                  timeout=TIME_LIMIT, check=False)
        except subprocess.TimeoutExpired:
            raise SystemExit(f"paper: the browser took more than {TIME_LIMIT} seconds") from None
        if done.returncode != 0:
            raise SystemExit(f"paper: the browser ended with status {done.returncode}: {done.stderr[-400:]}")
        return done.stdout

    def printed(self, page: str) -> List[Tuple[float, float, List[Word]]]:
        """Each page of the PDF: width, height and words."""
        pdf = os.path.join(self.folder, "out.pdf")
        self.call(page, "--no-pdf-header-footer", f"--print-to-pdf={pdf}")
        if not os.path.exists(pdf):
            raise SystemExit("paper: the browser printed nothing")
        text = subprocess.run(["pdftotext", "-bbox", pdf, "-"], capture_output=True, check=True).stdout
        os.remove(pdf)
        pages = xml.fromstring(text).iter("{http://www.w3.org/1999/xhtml}page")
        return [(float(page.attrib["width"]), float(page.attrib["height"]), [
            Word(word.text or "", number, *(float(word.attrib[side]) for side in ("xMin", "yMin", "xMax", "yMax")))
            for word in page]) for number, page in enumerate(pages)]


def drawn(words: Sequence[Word], collapsed: bool) -> Counter[Tuple[int, str]]:
    """How often each state is drawn, with the first word of its box or cell."""
    ends = CELL_WORDS.values() if collapsed else BOX_WORDS.values()
    below: Dict[int, List[Word]] = {}
    for word in words:
        if word.text in ends:
            below.setdefault(word.page, []).append(word)
    found: Counter[Tuple[int, str]] = Counter()
    for word in words:
        if re.fullmatch(r"\d{1,4}", word.text):
            found.update((int(word.text), other.text) for other in below.get(word.page, [])
                         if is_below(other, word, collapsed))
    return found


def is_below(word: Word, number: Word, collapsed: bool) -> bool:
    """Whether a word is the one below a state's number: left edges agree in a box, middles nearly in a cell."""
    if not 0 < word.top - number.top < 1.7 * (number.bottom - number.top):
        return False
    if collapsed:
        return abs((word.left + word.right) / 2 - (number.left + number.right) / 2) < 14
    return abs(word.left - number.left) < 1.5


def looked_at(about: facts.Facts, pages: List[Tuple[float, float, List[Word]]]) -> List[str]:
    """What is wrong on paper, in words."""
    wrong = []
    if any(abs(width - A4_LANDSCAPE[0]) > 2 or abs(height - A4_LANDSCAPE[1]) > 2 for width, height, _ in pages):
        wrong.append(f"a page is {pages[0][0]} by {pages[0][1]} points, not A4 landscape")
    words = [word for _, _, page in pages for word in page]
    if any(word.left < 0 or word.top < 0 or word.right > pages[word.page][0] or word.bottom > pages[word.page][1]
           for word in words):
        wrong.append("a word is over the paper's edge")
    first = " ".join(word.text for word in pages[0][2])
    counts = [f"{len(about.of_kind(kind))}" for kind in facts.KINDS]
    if f"Control book: {about.title}" not in first or any(count not in first.split() for count in counts):
        wrong.append("the first page has no title or no counts")
    text = " ".join(word.text for word in words)
    wrong += [f"a control is on paper: {control}" for control in CONTROLS if control in text]
    heads = [word for word, after in zip(words, words[1:]) if (word.text, after.text) == ("All", "states")]
    if not heads:
        return wrong + ["there is no table"]
    start = (heads[-1].page, heads[-1].top - 1)
    return wrong + drawings_looked_at(about, [word for word in words if (word.page, word.top) < start]) + \
        table_looked_at(about, [word for word in words if (word.page, word.top) >= start])


def drawings_looked_at(about: facts.Facts, words: Sequence[Word]) -> List[str]:
    """What is wrong with the drawings: each goal has its heading, and each state is drawn once for each goal."""
    wrong = []
    text = " ".join(word.text for word in words)
    for goal in range(about.plant.goals):
        name = " ".join(about.goal_text(goal).split())
        headings = text.count(f"The way to {name}")
        if headings == 0:
            wrong.append(f"{name} has no heading")
        if goal in about.plant.goal_names and text.count(name) != headings:
            wrong.append(f"{name} stands on paper outside of its headings")
    collapsed = picture.collapsed(about)
    have = drawn(words, collapsed)
    for state in range(about.plant.states):
        word = (CELL_WORDS if collapsed else BOX_WORDS)[about.kind(state)]
        if have[state, word] != about.plant.goals:
            wrong.append(f"state {state} ({word}) is drawn {have[state, word]} times for {about.plant.goals} goals")
    return wrong


def table_looked_at(about: facts.Facts, words: Sequence[Word]) -> List[str]:
    """What is wrong with the table: a row for each state, and the header on each page."""
    wrong = []
    edges = Counter(round(word.right) for word in words if word.text.isdigit())
    column = edges.most_common(1)[0][0]
    rows = {int(word.text) for word in words if word.text.isdigit() and abs(word.right - column) < 1.5}
    missing = sorted(set(range(about.plant.states)) - rows)
    if missing:
        wrong.append(f"the table has no row for {facts.ranges(missing)}")
    pages = {word.page for word in words}
    headed = {word.page for word, after in zip(words, words[1:]) if (word.text, after.text) in HEADER}
    return wrong + ([f"the table's header is missing on a page of {len(pages)}"] if pages - headed else [])


def large_plant(bands: int, tensions: int) -> plant.Plant:
    """A gauge with this many bands, each with so many tensions; screws move the band, the reel moves the tension."""
    middle = bands // 2 * tensions
    labels = [1] * (bands * tensions)
    labels[tensions - 1] = 0
    labels[middle + tensions // 2] |= 2
    labels[middle + 1] |= 4
    arrows = []
    for state in range(bands * tensions):
        band, tension = divmod(state, tensions)
        arrows += [(state, 0, state), (state, 1, max(band - 1, 0) * tensions + tension),
                   (state, 2, min(band + 1, bands - 1) * tensions + tension),
                   (state, 3, band * tensions + max(tension - 1, 0)),
                   (state, 4, band * tensions + min(tension + 1, tensions - 1))]
    return plant.Plant(bands * tensions, 5, 2, labels, sorted(arrows),
                       goal_names={0: "on aim at mid tension", 1: "low tension, for the weld"})


def pictures() -> List[facts.Facts]:
    """What is printed: every example with all moves and with states dropped, and two larger plants."""
    found = []
    for file in sorted(name for name in os.listdir(os.path.join(TOP, "examples")) if name.endswith(".plant")):
        read = plant.read_plant(os.path.join(TOP, "examples", file))
        every = (1 << read.moves) - 1
        for masks in ([every], [every, WITHDRAWN.get(file[:-6], 1)]):
            found.append(facts.gather(file, read, masks))
    for bands, tensions, masks in ((8, 5, [0x1f]), (8, 5, [0x1f, 0x04]), (32, 32, [0x1f, 0x04])):
        found.append(facts.gather(f"{bands * tensions}-states", large_plant(bands, tensions), masks))
    return found


# Goes to the second state of a drawing, presses keys there and notes what the page does; the notes end the page.
KEYS = """
<script>
window.addEventListener("load", function () {
  var svg = document.querySelector("svg.diagram"), box = svg.querySelectorAll(".state")[1], notes = [];
  function press(key) {
    box.dispatchEvent(new KeyboardEvent("keydown", { key: key, bubbles: true, cancelable: true }));
    notes.push(svg.classList.contains("picked") + " " + box.getAttribute("aria-pressed"));
  }
  box.focus();
  notes.push("focus " + (document.activeElement === box) + " " + box.tabIndex);
  ["Enter", "Enter", " ", "Escape", "x"].forEach(press);
  var dark = matchMedia("(prefers-color-scheme: dark)").matches;
  notes.push("dark " + dark + " " + getComputedStyle(document.body).backgroundColor);
  document.body.append("NOTES " + notes.join("; "));
});
</script>
"""


def keys_and_dark(browser: Browser, about: facts.Facts) -> List[str]:
    """What is wrong with the keys, and with the style that follows the system's."""
    path = os.path.join(browser.folder, "keys.html")
    with open(path, "w", encoding="utf-8") as file:
        file.write(picture.page(about).replace("</body>", KEYS + "</body>"))
    keys = "focus true 0; true true; false false; true true; false false; false false; "
    wrong = []
    for number, expected in ((1, "dark false rgb(255, 255, 255)"), (0, "dark true rgb(21, 24, 28)")):
        page = browser.call(path, f"--blink-settings=preferredColorScheme={number}", "--dump-dom")
        notes = page[page.rfind("NOTES "):].split("</body>")[0].strip()
        if notes != f"NOTES {keys}{expected}":
            wrong.append(f"in the browser: {notes}, not {keys}{expected}")
    return wrong


def check(browser: Browser, drawings: List[facts.Facts]) -> int:
    """Prints what was done, and what is wrong; gives how many things are."""
    count = 0
    path = os.path.join(browser.folder, "out.html")
    for about in drawings:
        with open(path, "w", encoding="utf-8") as file:
            file.write(picture.page(about))
        pages = browser.printed(path)
        print(f"paper: {about.title}, masks {' '.join(map(hex, about.masks))}: {len(pages)} pages, "
              f"{len(about.of_kind(facts.DROPPED))} of {about.plant.states} states dropped", flush=True)
        count += said(looked_at(about, pages))
    return count + said(keys_and_dark(browser, drawings[0]))


def said(wrong: List[str]) -> int:
    for line in wrong[:12]:
        print(f"paper:   {line}")
    return len(wrong)


def main(program: str) -> int:
    drawings = pictures()
    folder = tempfile.mkdtemp()
    try:
        count = check(Browser(program, folder), drawings)
    finally:
        shutil.rmtree(folder, ignore_errors=True)
    if count:
        print(f"paper: {count} things are wrong")
        return 1
    print(f"paper: {len(drawings)} pictures printed, all states on paper; keys and dark style work")
    return 0


if __name__ == "__main__":
    sys.exit(main(sys.argv[1]))
