#!/usr/bin/env python3
"""Looks whether each rule of the grammar and each refusal of reading has an example.

    python3 tools/docs_examples.py          fails where a production of docs/LANGUAGE.md isn't in its
                                            table of examples, or an example there lacks its words, or
                                            a kind of docs/USING.md has no program in examples/refusals
    python3 tools/docs_examples.py --words  lists the words of cob_words that no example has

A production is in the table by its name, or between two names with `to`. The capital words of a row
are to stand in the programs that the row names.
"""
import re
import sys
from pathlib import Path

ROOT = Path(__file__).resolve().parent.parent
EXAMPLES = ROOT / "examples"
PRODUCTION = re.compile(r"^(?:    )?([a-z_]+) +=|   ([a-z]+) = ")


def text_of(file):
    """A program in capitals, without comment lines and numbers of lines."""
    lines = file.read_text(errors="replace").upper().splitlines()
    return " ".join(line[7:72] for line in lines if line[6:7] in (" ", "-"))


def programs():
    found = {}
    for file in EXAMPLES.glob("*/*.cob"):
        if not file.name.endswith(".result.cob") and file.parent.name != "refusals":
            found[file.stem] = text_of(file)
    return found


def missing_productions(page, table):
    names = []
    for line in page.splitlines():
        if line.startswith("    ") or re.match(r"[a-z]+ +=", line):
            names += [one or other for one, other in PRODUCTION.findall(line)]
    shown = set(re.findall(r"`([a-z_]+)`", table))
    for first, last in re.findall(r"`([a-z_]+)` to `([a-z_]+)`", table):
        shown.update(names[names.index(first) : names.index(last) + 1])
    return [f"docs/LANGUAGE.md: no example of {name}" for name in names if name not in shown]


def missing_words(table, known):
    for row in re.findall(r"^\| (.*) \| (.*) \|$", table, re.MULTILINE):
        texts = [known.get(name, "") for name in re.findall(r"`([a-z0-9-]+)`", row[1])]
        for word in re.findall(r"\b[A-Z][A-Z-]+\b", row[0]):
            if not any(re.search(rf"(?<![A-Z-]){word}(?![A-Z-])", text) for text in texts):
                yield f"docs/LANGUAGE.md: {word} is in none of {row[1]}"


def missing_kinds():
    table = (ROOT / "docs" / "USING.md").read_text().split("| Kind | What is wrong |")[1].split("\n\n")[0]
    for row in re.findall(r"^\| ([A-Z][^|]*) \|", table, re.MULTILINE):
        for kind in re.findall(r"[A-Z][A-Z-]+", row):
            notes = EXAMPLES / "refusals" / f"{kind.lower()}.notes"
            if not notes.exists() or f"NOT SUBSET {kind}" not in notes.read_text():
                yield f"docs/USING.md: no program examples/refusals/{kind.lower()}.cob"


def words_without(known):
    lists = (ROOT / "crates/cob_words/specs/Lists.antt").read_text()
    reserved, left_out = (re.findall(r'codes "([^"]+)"', part) for part in lists.split("pub left_out_words")[:2])
    read = set(re.findall(r"[A-Z0-9][A-Z0-9-]*", " ".join(known.values())))
    refused = (EXAMPLES / "refused.txt").read_text()
    refused += "".join(file.read_text() for file in (EXAMPLES / "refusals").glob("*.notes"))
    yield from (f"reserved: {word}" for word in reserved if word not in read)
    yield from (f"left out: {word}" for word in left_out if not re.search(rf"LEFT-OUT {word}\b", refused))


def main():
    known = programs()
    if sys.argv[1:] == ["--words"]:
        found = list(words_without(known))
    elif sys.argv[1:]:
        sys.exit(__doc__)
    else:
        page = (ROOT / "docs" / "LANGUAGE.md").read_text()
        table = page.split("## An example of each")[1]
        found = [*missing_productions(page, table), *missing_words(table, known), *missing_kinds()]
    print("\n".join(found), end="\n" if found else "")
    sys.exit(1 if found else 0)


if __name__ == "__main__":
    main()
