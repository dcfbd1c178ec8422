#!/usr/bin/env python3
"""Writes docs/LAWS.md: every public law with its crate and file, from the text of the crates.

    python3 tools/laws.py          writes the page
    python3 tools/laws.py --check  fails where the page isn't what this would write

A law is a public function that has a contract, no result, and no arguments, or some and an empty
body. What it says is the comment above it, or its name; its statement is its contract, or the
definition that this names in the crate's specs.
"""
import re
import sys
from pathlib import Path

ROOT = Path(__file__).resolve().parent.parent
PAGE = ROOT / "docs" / "LAWS.md"
LAW = re.compile(
    r"(?P<doc>(?:^[ ]*///[^\n]*\n)*)(?P<marks>(?:^[ ]*#\[[^\n]*\n)*)"
    r"^pub fn (?P<name>\w+)(?:<[^()]*>)?\((?P<takes>[^()&]*)\)\s*\n"
    r"(?P<clauses>(?:^(?:[ ]{4}[^\n]*|)\n)+)(?P<body>\{[^\n]*)",
    re.MULTILINE,
)
HEAD = """# Laws

Every public law, by crate, in the order of crates.txt: {count} of them. A law is a function that does nothing; its contract
is proved, and names the definition in the crate's `specs` that states it, or states it itself. Made by `tools/laws.py` from
the comments above the laws, word for word; change them there. What the laws are for, [PROMISES.md](PROMISES.md) says.
"""


def crates():
    """The crates of crates.txt, with the group that each stands in."""
    group = ""
    for line in (ROOT / "crates.txt").read_text().splitlines():
        if line.startswith("#"):
            group = line.lstrip("# ").rstrip(".")
        elif line.strip():
            yield group, line.split(":")[0].strip()


def sources(crate):
    """Its files, that of a module before those below it."""
    files = (ROOT / "crates" / crate / "src").rglob("*.rt")
    return sorted(files, key=lambda file: str(file.with_suffix("")).split("/"))


def laws_of(file):
    for found in LAW.finditer(file.read_text()):
        if found["takes"].strip() and found["body"] != "{}":
            continue
        if re.search(r"^\s+ensures\b", found["clauses"], re.MULTILINE):
            lines = (line.strip()[3:].strip() for line in found["doc"].splitlines())
            says = " ".join(lines) or found["name"].replace("_", " ").capitalize() + "."
            yield found["name"], says.replace("|", "\\|")


def page():
    rows, count, last = [], 0, None
    for group, crate in crates():
        found = [(file, *law) for file in sources(crate) for law in laws_of(file)]
        if not found:
            continue
        if group != last:
            rows.append(f"\n## {group}\n")
            last = group
        rows.append(f"\n### `{crate}`\n\n| Law | What it says | In `src` |\n|---|---|---|\n")
        for file, name, says in found:
            place = file.relative_to(ROOT / "crates" / crate / "src")
            rows.append(f"| `{name}` | {says} | `{place}` |\n")
        count += len(found)
    return HEAD.format(count=count) + "".join(rows)


def main():
    text = page()
    if sys.argv[1:] == ["--check"]:
        if not PAGE.exists() or PAGE.read_text() != text:
            sys.exit("docs/LAWS.md isn't what tools/laws.py writes: run it")
    elif sys.argv[1:]:
        sys.exit(__doc__)
    else:
        PAGE.write_text(text)


if __name__ == "__main__":
    main()
