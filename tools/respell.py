#!/usr/bin/env python3
"""Brings the repository's own definitions, fields and lemmas to today's spelling, once, after port.py.

usage: tools/respell.py [ROOT]

Words of specs/ and proofs/ are in snake case, types in camel case. A lemma or a field that would then have the name of
a definition gets _lem behind it. Rust names, exported C names, strings and names that the toolchain makes stay.
"""
import os
import re
import sys

NAME = r"[^\W\d][\w'\-]*"
TOKEN = re.compile(r"(?<![\w'\-\u25cc\u228e])" + NAME)
DECLARES = re.compile(r"^(\s*)(?:(?:unfoldable|abbrev|pub)\s+)*((?:" + NAME + r"\s+)*" + NAME + r")\s*:(?!:)")
TYPE = re.compile(r"^\s*(?:pub\s+)?(?:data|record)\s+(" + NAME + r")(?=\s|$)")
LIBRARY = re.compile(r"use (?!Rattle\.(?!std|core)\w+\.(?:specs|proofs))[\w.\u25cc'-]+\.\{([^}]*)\}")
WORDS = {"let", "use", "where", "module", "open", "in", "elim", "unfolding", "record", "data"}


def texts(root):
    for folder, dirs, files in os.walk(os.path.join(root, "crates")):
        dirs[:] = sorted(d for d in dirs if d != "out")
        for f in sorted(files):
            if f.endswith((".antt", ".rt", ".edit")):
                yield os.path.join(folder, f)


def of_function(path):
    """A file of one function's proof: in a folder of its own below proofs/."""
    folder, name = os.path.split(path)
    return name in ("Proof.antt", "Invariants.antt", "Answers.antt") and os.path.basename(folder) != "proofs"


def snake(name):
    return re.sub(r"(?<=[a-z0-9'])([A-Z])", lambda m: "_" + m[1].lower(), name.replace("-", "_"))


def camel(name):
    return "".join(p[:1].upper() + p[1:] for p in re.split(r"[-_]", name))


def declared(path, text):
    """Names that a file declares, each with how: 'type', 'definition' or 'lemma'."""
    lines = text.split("\n")
    for i, line in enumerate(lines):
        if line.lstrip().startswith("--"):
            continue
        m = TYPE.match(line)
        if m:
            yield m[1], "type"
            continue
        m = DECLARES.match(line)
        if not m or len(m[1]) > 8 or m[2].split()[0] in WORDS:
            continue
        whole = line
        for more in lines[i + 1:i + 12]:
            if not more.startswith(" " * (len(m[1]) + 4)):
                break
            whole += more
        ends = re.search(r"(?:\u2192|:)\s*Type( 0)?\s*$", whole)
        head = line.lstrip().split(":")[0]
        field = m[1] and not re.search(r"unfoldable|abbrev", head)
        is_definition = re.search(r"\babbrev\b|\bunfoldable\b", head) and not field
        for n in m[2].split():
            yield n, "type" if ends and not field else "definition" if is_definition else "lemma"


def table(root):
    found = {}
    for path in texts(root):
        if path.endswith(".antt") and not of_function(path):
            with open(path, encoding="utf-8") as f:
                for n, how in declared(path, f.read()):
                    kinds = found.setdefault(n, set())
                    kinds.add(how)
    spelled, taken = {}, {}
    order = sorted(found, key=lambda n: (0 if "type" in found[n] else 1 if "definition" in found[n] else 2, n))
    for n in order:
        new = camel(n) if "type" in found[n] else n if n[0].isupper() else snake(n)
        if "type" not in found[n] and new in taken and taken[new] != n:
            new += "_lem"
        if new in taken:
            raise SystemExit(f"{n} and {taken[new]} would both be {new}")
        taken[new] = n
        if new != n:
            spelled[n] = new
    return spelled


def turn(path, text, spelled):
    own = {}
    if path.endswith(".antt"):
        imported = {w.split(" as ")[0].strip() for m in LIBRARY.finditer(text) for w in m[1].split(",")}
        own = {n: n for n in imported if n in spelled}
    if of_function(path):
        for m in re.finditer(r"(?m)^(?:abbrev |pub )*(" + NAME + r") : (.*(?:\n[ ]+.*)*)", text):
            if "tie.Need-" not in m[2] and not re.match(r"(tie|goal)\.", m[2]) and m[1] not in spelled and snake(m[1]) != m[1]:
                own[m[1]] = snake(m[1])

    def name(m):
        word = m[0]
        if "_" in word and "-" not in word:
            # such a word is also a Rust name: in a path of the toolchain's it stays
            if not path.endswith(".antt") or re.search(r"proofs\.$|goal\.$|tie\.$|\bc\.[\w.-]*$", text[max(0, m.start() - 60):m.start()]):
                return word
        return own.get(word) or spelled.get(word, word)

    out, at = [], 0
    comment = re.compile(r"(?m)^\s*--.*$" if path.endswith(".antt") else r"(?m)^\s*//.*$")
    for m in comment.finditer(text):
        out.append(TOKEN.sub(name, text[at:m.start()]) if False else text[at:m.start()])
        out.append(m[0])
        at = m.end()
    out.append(text[at:])
    place, result = 0, []
    for k, part in enumerate(out):
        if k % 2:
            result.append(TOKEN.sub(lambda m: spelled.get(m[0], m[0]) if re.search(r"[a-z][A-Z]", m[0]) or f"`{m[0]}`" in part else m[0], part))
        else:
            base = place
            result.append(TOKEN.sub(lambda m: name(Shift(m, text, base)), part))
        place += len(part)
    return "".join(result)


class Shift:
    """A match in a part of a text, seen from the whole."""

    def __init__(self, m, text, base):
        self.m, self.base = m, base

    def __getitem__(self, k):
        return self.m[k]

    def start(self):
        return self.m.start() + self.base


def main():
    root = os.path.abspath(sys.argv[1] if len(sys.argv) > 1 else ".")
    spelled = table(root)
    for path in texts(root):
        with open(path, encoding="utf-8") as f:
            text = f.read()
        new = turn(path, text, spelled)
        if new != text:
            with open(path, "w", encoding="utf-8") as f:
                f.write(new)
    for n in sorted(spelled):
        print(n, spelled[n])


if __name__ == "__main__":
    main()
