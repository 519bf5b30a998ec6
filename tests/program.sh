#!/bin/bash
# Runs the program `planbook` on plants and masks that are packed here, and compares what it prints with what document
# 01 says, or with a small solver written for this test alone. Exits with 1 on any difference. Run it after `./run`,
# which builds the program; the program may be given as the first argument.
set -u
cd "$(dirname "$0")/.." || exit 1
exec python3 - "${1:-target/bin/planbook}" <<'PYTHON'
import os
import shutil
import struct
import subprocess
import sys
import tempfile
import time

PROGRAM = sys.argv[1]
results = {True: 0, False: 0}


def words(numbers):
    return struct.pack("<%dH" % len(numbers), *numbers)


def plant(moves, goals, labels, arrows, **changed):
    """The bytes of a plant; `changed` sets numbers of the header by their place, as h6=70."""
    s, e = len(labels), len(arrows)
    head = [s, moves, goals, e, 16, 16 + 2 * s, 16 + 2 * s + 6 * e, 0]
    for name, value in changed.items():
        head[int(name[1:])] = value
    return words(head + labels + [n for arrow in arrows for n in arrow])


def masks(*values):
    return struct.pack("<%dI" % len(values), *values)


def check(name, data, expected):
    run = subprocess.run([PROGRAM], input=data, stdout=subprocess.PIPE, check=True)
    same = run.stdout == expected.encode()
    results[same] += 1
    if not same:
        print("DIFFERS: %s\n  expected %r\n  printed  %r" % (name, expected[:200], run.stdout[:200]))


def solve(moves, goals, labels, arrows, service):
    """Kept states with their waits and moves: the greatest set in which every goal can be forced, by plain search."""
    ends = {}
    for x, u, y in arrows:
        if service >> u & 1:
            ends.setdefault(x, {}).setdefault(u, set()).add(y)

    def lowest(x, target):
        return next((u for u in sorted(ends.get(x, {})) if ends[x][u] <= target), None)

    def waits(kept, goal):
        stay = {x for x in kept if lowest(x, kept) is not None}
        found = {x: 0 for x in stay if labels[x] >> 1 + goal & 1}
        level = 0
        while True:
            level += 1
            more = {x for x in stay - set(found) if lowest(x, set(found)) is not None}
            if not more:
                return found
            found.update({x: level for x in more})

    kept = {x for x in range(len(labels)) if labels[x] & 1}
    while True:
        left = set(kept)
        for goal in range(goals):
            left &= set(waits(kept, goal))
        if left == kept:
            break
        kept = left
    rows = {}
    for goal in range(goals):
        found = waits(kept, goal)
        for x in kept:
            target = {y for y in kept if found[y] < found[x]} if found[x] else kept
            rows[x, goal] = (found[x], lowest(x, target))
    return kept, rows


def listing(moves, goals, labels, arrows, service):
    kept, rows = solve(moves, goals, labels, arrows, service)
    lines = ["%d of %d kept, %d moves in service" % (len(kept), len(labels), bin(service).count("1"))]
    for x in range(len(labels)):
        if x in kept:
            lines += ["%d %d %d %d" % ((x, goal) + rows[x, goal]) for goal in range(goals)]
        else:
            lines.append("%d lost" % x)
    return "".join(line + "\n" for line in lines)


ARROWS = [(0, 0, 1), (0, 1, 1), (0, 1, 2), (1, 0, 2), (1, 1, 3), (1, 2, 0), (2, 0, 0), (2, 2, 1)]
P = (3, 2, [3, 1, 5, 0], ARROWS)
with open("crates/planbook/stdout", encoding="ascii") as sample:
    SAMPLE = sample.read()
LOST = "0 of 4 kept, %d moves in service\n0 lost\n1 lost\n2 lost\n3 lost\n"

# document 01's sample, and the books of M1, M3 and M4
check("masks 7 and 4", plant(*P) + masks(7, 4), SAMPLE)
check("the solver on the sample", plant(*P) + masks(7, 4), listing(*P, 3))
check("M1", plant(*P) + masks(7), SAMPLE.replace("2 moves", "3 moves").replace("1 0 2 0", "1 0 1 2"))
check("M3", plant(*P) + masks(7, 1), LOST % 2)
check("M4", plant(*P) + masks(7, 2), SAMPLE.replace("1 0 2 0", "1 0 1 2"))
check("mask 0", plant(*P) + masks(0), LOST % 0)
check("a move named that is out already", plant(*P) + masks(7, 4, 4, 0), SAMPLE)
check("16 masks", plant(*P) + masks(7, 4, *[0] * 14), SAMPLE)
check("16 masks, the last withdraws", plant(*P) + masks(7, 4, *[0] * 13, 1), LOST % 1)
for mask in range(8):
    for gone in range(8):
        check("masks %d, %d" % (mask, gone), plant(*P) + masks(mask, gone), listing(*P, mask & ~gone))

# refusals of the plant: each before bad masks and before a bad mask
for name, tail in [("no masks", b""), ("a good mask", masks(7)), ("a bad mask", masks(8))]:
    check("refused 1 with " + name, plant(*P, h1=33) + tail, "refused 1\n")
    check("refused 1, total length, with " + name, plant(*P, h6=73) + tail, "refused 1\n")
    check("refused 2 with " + name, plant(3, 2, [3, 1, 5, 8], ARROWS) + tail, "refused 2\n")
    check("refused 3 with " + name, plant(3, 2, [3, 1, 5, 0], ARROWS + [(2, 2, 1)]) + tail, "refused 3\n")
check("no input", b"", "refused 1\n")
check("15 bytes", plant(*P)[:15], "refused 1\n")
check("16 bytes", plant(*P)[:16], "refused 1\n")
check("a cut plant", plant(*P)[:71], "refused 1\n")
check("masks cut short of the plant's length", plant(*P, h6=80) + masks(7), "refused 1\n")

# bad masks after an accepted plant, before a mask is used
check("no masks", plant(*P), "bad masks\n")
check("17 masks", plant(*P) + masks(*[7] * 17), "bad masks\n")
check("17 masks, the first bad", plant(*P) + masks(8, *[7] * 16), "bad masks\n")
for cut in (1, 2, 3):
    check("a first mask of %d bytes" % cut, plant(*P) + masks(7)[:cut], "bad masks\n")
    check("a second mask of %d bytes" % cut, plant(*P) + masks(8, 4)[:4 + cut], "bad masks\n")
check("16 masks and a byte", plant(*P) + masks(*[7] * 16) + b"\0", "bad masks\n")
check("far too long", plant(*P) + bytes(10 ** 6), "bad masks\n")
check("a refused plant far too long", plant(*P, h1=0) + bytes(10 ** 6), "refused 1\n")

# bad masks in their places
check("a bad first mask", plant(*P) + masks(8), "refused 6\n")
check("a bad first mask, its high bit", plant(*P) + masks(0x80000007), "refused 6\n")
check("a bad second mask", plant(*P) + masks(7, 8), "refused 6\n")
check("a bad mask in the middle", plant(*P) + masks(7, 8, 4), "refused 6\n")
check("a bad sixteenth mask", plant(*P) + masks(7, *[0] * 14, 8), "refused 6\n")

# the longest plant with 16 masks, and 17; a plant with 32 moves
ring = [(x, u, (x + 1 + u) % 1024) for x in range(1024) for u in range(8)]
long = (8, 1, [1] * 1023 + [3], ring)
check("the longest plant", plant(*long) + masks(255, *[16] * 15), listing(*long, 239))
check("the longest plant, 17 masks", plant(*long) + masks(*[255] * 17), "bad masks\n")
wide = (32, 1, [3], [(0, 31, 0)])
check("32 moves", plant(*wide) + masks(0xFFFFFFFF), "1 of 1 kept, 32 moves in service\n0 0 0 31\n")
wide_lost = "0 of 1 kept, 31 moves in service\n0 lost\n"
check("32 moves, the last withdrawn", plant(*wide) + masks(0xFFFFFFFF, 1 << 31), wide_lost)

# the longest listings: every state kept for 8 goals, at wait 0 by move 31, and on a ring of long waits
still = (32, 8, [511] * 1024, [(x, 31, x) for x in range(1024)])
lines = ["%d %d 0 31\n" % (x, goal) for x in range(1024) for goal in range(8)]
check("every state kept", plant(*still) + masks(1 << 31), "1024 of 1024 kept, 1 moves in service\n" + "".join(lines))
around = (32, 8, [1] * 1023 + [511], [(x, 31, (x + 1) % 1024) for x in range(1024)])
lines = ["%d %d %d 31\n" % (x, goal, 1023 - x) for x in range(1024) for goal in range(8)]
check("a ring", plant(*around) + masks(1 << 31), "1024 of 1024 kept, 1 moves in service\n" + "".join(lines))



# plants that must settle: a state may leave a stage though it is not settled itself, by the lowest move into earlier
# ones, with wait 0; waits end at the goal, at an earlier stage or at a state of the own stage that can leave
def settling(name, moves, goals, labels, arrows, rows, given, served):
    """The listing has these rows, strings with an entry wait/move for each goal, or nothing for a lost state; masks
    are given, and so many moves are then in service."""
    lines = ["%d of %d kept, %d moves in service\n" % (sum(map(bool, rows)), len(rows), served)]
    for x, row in enumerate(rows):
        entries = ["%d %d %s\n" % (x, i, entry.replace("/", " ")) for i, entry in enumerate(row.split())]
        lines += entries or ["%d lost\n" % x]
    check(name, plant(moves, goals, labels, arrows, h7=1) + masks(*given), "".join(lines))


DETOUR = [(0, 0, 1), (0, 1, 2), (1, 0, 3), (2, 0, 3), (3, 0, 3)]
settling("leaving before the goal's rule", 2, 1, [3, 515], [(0, 0, 0), (0, 1, 1), (1, 0, 1)], ["0/1", "0/0"], [3], 2)
settling("settled again and again", 1, 1, [515, 1], [(0, 0, 0), (0, 0, 1), (1, 0, 0)], ["", ""], [1], 1)
settling("three stages", 1, 1, [1, 1, 515], [(0, 0, 1), (1, 0, 2), (2, 0, 2)], ["0/0"] * 3, [1], 1)
settling("a longer way that is settled", 2, 1, [513, 3, 513, 515], DETOUR, ["2/1", "0/0", "1/0", "0/0"], [3], 2)
settling("the same withdrawn", 2, 1, [513, 3, 513, 515], DETOUR, ["1/0", "0/0", "1/0", "0/0"], [3, 2], 1)
settling("a wait to a state that can leave", 2, 1, [513, 1, 515],
         [(0, 0, 0), (0, 1, 1), (0, 1, 2), (1, 0, 2), (2, 0, 2)], ["1/1", "0/0", "0/0"], [3], 2)
settling("two goals", 2, 2, [515, 1, 519], [(0, 0, 0), (0, 1, 1), (1, 0, 2), (1, 1, 0), (2, 0, 2)],
         ["0/0 1/1", "0/0 0/0", "0/0 0/0"], [3], 2)
for label, last, number in [(515, 0, 2), (259, 1, 2), (1539, 1, 2), (3, 2, 1), (3, 256, 1)]:
    check("label %d, last number %d" % (label, last), plant(1, 1, [label], [(0, 0, 0)], h7=last) + masks(1),
          "refused %d\n" % number)
lines = ["%d %d 0 31\n" % (x, goal) for x in range(1024) for goal in range(8)]
check("every state kept and settled", plant(32, 8, [511 + 512] * 1024, still[3], h7=1) + masks(1 << 31),
      "1024 of 1024 kept, 1 moves in service\n" + "".join(lines))
check("1,024 stages", plant(1, 1, [1] * 1023 + [515], [(x, 0, min(x + 1, 1023)) for x in range(1024)], h7=1) + masks(1),
      "1024 of 1024 kept, 1 moves in service\n" + "".join("%d 0 0 0\n" % x for x in range(1024)))


def fault(name, words, **streams):
    """The program, with streams that fail, prints nothing and says this in one line on standard error."""
    run = subprocess.run([PROGRAM], stderr=subprocess.PIPE, check=True, **{"stdout": subprocess.PIPE, **streams})
    right = (run.stdout or b"") == b"" and run.stderr == b"planbook: %s\n" % words
    results[right] += 1
    if not right:
        print("DIFFERS: %s\n  printed  %r\n  said     %r" % (name, run.stdout, run.stderr))


def pipe(data, blocks):
    """The reading end of a pipe that holds these bytes and whose writing end stays open."""
    ends = os.pipe()
    os.write(ends[1], data)
    os.set_blocking(ends[0], blocks)
    return ends[0]


# a read that fails is not the end of the input: after a plant, between masks, within one, and at once
for name, data in [("the plant", plant(*P)), ("a mask", plant(*P) + masks(7)), ("two masks", plant(*P) + masks(7, 4)),
                   ("a cut mask", plant(*P) + masks(7, 4)[:6]), ("no byte", b""), ("a cut plant", plant(*P)[:40])]:
    fault("would block after " + name, b"standard input could not be read", stdin=pipe(data, False))
fault("closed input", b"standard input could not be read", preexec_fn=lambda: os.close(0))
folder = os.open("/", os.O_RDONLY)
fault("a folder for input", b"standard input could not be read", stdin=folder)

# nor does it matter in how many parts the input comes
for cuts in ([1, 15, 16, 17, 60, 72, 73, 76], range(1, 80)):
    data, ends = plant(*P) + masks(7, 4), os.pipe()
    run = subprocess.Popen([PROGRAM], stdin=ends[0], stdout=subprocess.PIPE)
    for one, other in zip([0, *cuts], [*cuts, len(data)]):
        os.write(ends[1], data[one:other])
        time.sleep(0.002)
    os.close(ends[1])
    same = run.communicate()[0] == SAMPLE.encode()
    results[same] += 1
    if not same:
        print("DIFFERS: input in parts")

# a write that fails is told
sample = os.path.join(tempfile.mkdtemp(), "input")
with open(sample, "wb") as file:
    file.write(plant(*P) + masks(7))
for name, streams in [("full output", {"stdout": open("/dev/full", "wb")}),
                      ("closed output", {"stdout": None, "preexec_fn": lambda: os.close(1)})]:
    fault(name, b"standard output could not be written", stdin=open(sample, "rb"), **streams)
shutil.rmtree(os.path.dirname(sample))

print("%d passed, %d failed" % (results[True], results[False]))
sys.exit(bool(results[False]))
PYTHON
