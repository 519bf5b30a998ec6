#!/usr/bin/env python3
"""What each public call, and the program's answer, cites besides its own contract is what the table "Cited" of
docs/STATEMENTS.md says, no more and no less. That a clause which stands in the sources holds is proved; that it stands
there is looked up here.

    tests/cited.py [TOP]
"""
import pathlib
import re
import sys

CALLS = {
    "make": "make_book", "withdraw": "withdraw_moves", "list": "withdraw_list", "return": "return_moves",
    "make by index": "make_indexed", "withdraw by index": "withdraw_indexed", "index": "index_plant",
    "preview": "preview_withdrawal", "consult": "consult_book", "with plant": "consult_plant", "step": "consult_step",
    "moves": "good_moves", "row": "state_row", "gauge": "find_place", "start": "start_desk",
    "report": "report_state", "program": "reply",
}
CRATES = ("books", "consult", "gauge", "desk", "reply")
FUNCTION = re.compile(r"^pub fn (\w+)(.*?)^\{", re.M | re.S)
CLAUSE = re.compile(r"ensures \w+ \{ ([A-Z]\w*) \}")


def in_the_table(text):
    """The records cited by each call, from the rows of the table: the names before the clauses' own in parentheses."""
    lines = text[text.index("| Cited |"):].split("\n\n", 1)[0].splitlines()
    heads = [cell.strip() for cell in lines[0].strip("|").split("|")][1:]
    if heads != list(CALLS):
        raise SystemExit(f"cited: the table has the calls {heads}")
    cited = {head: set() for head in heads}
    for line in lines[2:]:
        first, *marks = (cell.strip() for cell in line[1:-1].split("|"))
        for head, mark in zip(heads, marks):
            if mark == "x":
                cited[head].update(re.findall(r"`(\w+)`", first.split("(")[0]))
    return cited


def in_the_sources(top):
    """The records cited by each public function of the crates with calls."""
    return {name: set(CLAUSE.findall(head)) for crate in CRATES
            for name, head in FUNCTION.findall((top / "crates" / crate / "src" / "lib.rt").read_text("utf-8"))}


def main():
    top = pathlib.Path(sys.argv[1] if len(sys.argv) > 1 else pathlib.Path(__file__).resolve().parent.parent)
    said = in_the_table((top / "docs" / "STATEMENTS.md").read_text("utf-8"))
    found = in_the_sources(top)
    wrong = [f"{name} is in no column" for name in sorted(set(found) - set(CALLS.values()))]
    for call, name in CALLS.items():
        for record in sorted(said[call] ^ found.get(name, set())):
            where = "only the table" if record in said[call] else "only the source"
            wrong.append(f"{record} of {name}: {where} has it")
    for line in wrong:
        print(f"cited: {line}")
    if wrong or not all(said.values()):
        raise SystemExit(1)
    print(f"cited: {sum(map(len, said.values()))} clauses of {len(CALLS)} functions, as the table says")


if __name__ == "__main__":
    main()
