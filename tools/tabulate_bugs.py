#!/usr/bin/env python3
"""Prints tables of the planted bugs, from the lists of bugs and from what a run of them printed.

    python3 tools/plant_bugs.py | tee run.log
    python3 tools/tabulate_bugs.py run.log > page.md

For each bug of tools/planted/*.txt its last line in the log counts. A bug that has none was not run.
"""
import glob
import os
import re
import sys

from plant_bugs import bugs

KINDS = ["a contract", "a proof", "what rests on it", "a program's output", "a test", "nothing", "not run"]


def kind(name, said):
    """By what a bug is refused: the words of the page for what a run said."""
    if said.startswith(("PROVED", "RAN AS BEFORE")):
        return "nothing"
    found = re.match(r"refused by (?:a |the )?(\w+) (?:of )?(\w+)", said)
    if not found:
        return "not run"
    what, crate = found.groups()
    if what in ("output", "status"):
        return "a program's output"
    if what == "tests":
        return "a test"
    return f"a {what}" if crate == name else "what rests on it"


def main():
    root = os.path.dirname(os.path.dirname(os.path.abspath(__file__)))
    if len(sys.argv) != 2:
        sys.exit(__doc__)
    with open(sys.argv[1], encoding="utf-8") as log:
        told = {tuple(parts[:2]): parts[2] for parts in (line.rstrip("\n").split(" | ") for line in log) if len(parts) > 2}
    sums, tables, rows = [0] * len(KINDS), [], []
    for path in sorted(glob.glob(f"{root}/tools/planted/*.txt")):
        name = os.path.basename(path)[:-4]
        counts, lines = [0] * len(KINDS), []
        for bug, changes in bugs(path):
            file = changes[0][0]
            said = told.get((bug, file), "")
            by = kind(file.split("/")[1], said)
            counts[KINDS.index(by)] += 1
            more = re.sub(r"refused by .* of ", "", said) if by in ("what rests on it", "a program's output", "a test") else ""
            where = " and ".join(f"`{name.split('/', 1)[1]}`" for name in dict.fromkeys(change[0] for change in changes))
            lines.append(f"| {bug.replace('|', chr(92) + '|')} | {where} | {by}{f' (`{more}`)' if more else ''} |")
        rows.append(f"| `{name}` | {sum(counts)} | " + " | ".join(map(str, counts)) + " |")
        sums = [a + b for a, b in zip(sums, counts)]
        tables += [f"### `{name}`", "", "| what was planted | where | refused by |", "| --- | --- | --- |", *lines, ""]
    rows.append(f"| all | {sum(sums)} | " + " | ".join(map(str, sums)) + " |")
    heads = ["| list | planted | " + " | ".join(KINDS) + " |", "| --- |" + " --- |" * (len(KINDS) + 1)]
    print("\n".join(["## In numbers", "", *heads, *rows, "", "## Each bug", "", *tables]))


if __name__ == "__main__":
    main()
