#!/usr/bin/env python3
"""Writes the table of docs/PERFORMANCE.md: how many seconds each crate's proof and tests took.

    python3 tools/proof_costs.py FILE..

Of the files it reads the lines `NAME SECONDS` and `NAME.tests SECONDS`, `rt: NAME proof passed 91s`
(also `tests`), and those of a gate with the seconds since 1970 before each, as
`rt ci | while read -r line; do echo "$(date +%s) $line"; done` makes them: there a line
`STAMP == NAME proof` ends the check of a crate, which began at the line `==` before it, so the times
are right where one check runs at a time. The last of several lines for one crate counts, all other
lines are passed over. What the table says in its last column stays.
"""
import re
import sys
from pathlib import Path

ROOT = Path(__file__).resolve().parent.parent
PAGE = ROOT / "docs" / "PERFORMANCE.md"
BEGIN, END = "<!-- made by tools/proof_costs.py -->\n", "<!-- end -->\n"
PLAIN = re.compile(r"(\w+)(\.tests)? (\d+)s?$")
PASSED = re.compile(r"rt: (\w+) (proof|tests) passed (\d+)s$")
STAMPED = re.compile(r"(\d+) == (\w+) (proof|tests)\b")


def crates():
    lines = (ROOT / "crates.txt").read_text().splitlines()
    return [line.split(":")[0].split()[0] for line in lines if line.strip() and line[0] != "#"]


def costs(files):
    """The seconds of (crate, proof or tests)."""
    found = {}
    for file in files:
        last = None
        for line in Path(file).read_text(errors="replace").splitlines():
            if match := PASSED.search(line):
                found[match[1], match[2]] = int(match[3])
            elif match := PLAIN.match(line):
                found[match[1], "tests" if match[2] else "proof"] = int(match[3])
            elif match := STAMPED.match(line):
                if last is not None:
                    found[match[2], match[3]] = int(match[1]) - last
                last = int(match[1])
    return found


def remarks(table):
    """What stands in the last column of the page's table, by crate."""
    rows = re.findall(r"^\| `(\w+)` \|[^|]*\|[^|]*\|(.*)\|$", table, re.MULTILINE)
    return {crate: remark.strip() for crate, remark in rows if remark.strip()}


def table(found, said):
    names = [name for name in crates() if name in said or name in {name for name, _ in found}]
    rows = ["| Crate | Proof | Tests | What is slow |", "|---|---|---|---|"]
    for name in names:
        proof, tests = (found.get((name, what), "") for what in ("proof", "tests"))
        rows.append(f"| `{name}` | {proof} | {tests} | {said.get(name, '')} |")
    sums = [sum(found.get((name, what), 0) for name in names) for what in ("proof", "tests")]
    rows.append(f"| {len(names)} crates | {sums[0]} | {sums[1] or str()} | |")
    return "\n".join(rows) + "\n"


def main():
    if not sys.argv[1:] or sys.argv[1].startswith("-"):
        sys.exit(__doc__)
    page = PAGE.read_text()
    before, rest = page.split(BEGIN)
    old, after = rest.split(END)
    found = costs(sys.argv[1:])
    if not found:
        sys.exit("no line with a crate and its seconds")
    PAGE.write_text(before + BEGIN + table(found, remarks(old)) + END + after)


if __name__ == "__main__":
    main()
