#!/usr/bin/env python3
"""Looks up each path, crate and name that the documents name in back quotes or as a link.

Prints those that the tree doesn't have and fails where there are any. A path is looked for from the
root, from crates/, from docs/ and within each crate; `a::b::c` is a crate with modules or items of
it; any other name is to stand somewhere in the text of crates, tools, .ci or examples.
"""
import re
import sys
from pathlib import Path

ROOT = Path(__file__).resolve().parent.parent
CRATES = ROOT / "crates"
TEXTS = {".rt", ".antt", ".edit", ".py", ".sh", ".cob", ".notes", ".out", ""}
WORD = re.compile(r"[A-Za-z_][A-Za-z0-9_]*|[A-Z][A-Z0-9-]+")


def files_of(folder):
    return (file for file in sorted(folder.rglob("*")) if file.is_file() and "/out/" not in str(file))


def words_of(folder):
    found = set()
    for file in files_of(folder):
        found.update(file.stem.split("."))
        if file.suffix in TEXTS:
            found.update(WORD.findall(file.read_text(errors="replace")))
    return found


def is_path(name, paths):
    name = name.rstrip("/")
    if any((base / name).exists() for base in (ROOT, CRATES, ROOT / "docs", ROOT / "examples")):
        return True
    return any(path.endswith("/" + name) or path.endswith("/" + name + ".antt") for path in paths)


def is_of_crate(name, crates):
    head, *rest = name.split("::")
    if head in crates:
        return all(part in crates[head] for part in rest)
    return all(any(part in words for words in crates.values()) for part in [head] + rest)


def main():
    crates = {folder.name: words_of(folder) for folder in CRATES.iterdir() if folder.is_dir()}
    paths = ["/" + str(file.relative_to(ROOT)) for file in files_of(CRATES)]
    paths += sorted({str(Path(path).parent) for path in paths})
    known = set(crates) | {word for words in crates.values() for word in words}
    for folder in ("tools", ".ci", "examples"):
        known |= words_of(ROOT / folder)
    missing = 0
    for page in [ROOT / "README.md", *sorted((ROOT / "docs").glob("*.md"))]:
        fenced = False
        for number, line in enumerate(page.read_text().splitlines(), 1):
            if line.startswith("```"):
                fenced = not fenced
            if fenced or line.startswith("    "):
                continue
            names = re.findall(r"`([^`]+)`", line)
            links = [link.split("#")[0] for link in re.findall(r"\]\(([^)]+)\)", line)]
            for link in links:
                if link and "://" not in link and not (page.parent / link).exists():
                    names.append(link)
            for name in names:
                if re.search(r"[\s<>=*$|(),{}\"]", name):
                    continue
                if "out/" in name:
                    continue
                if "/" in name and not name.startswith("/"):
                    good = is_path(name, paths)
                elif "::" in name:
                    good = is_of_crate(name, crates)
                elif re.fullmatch(r"[A-Za-z_][A-Za-z0-9_.]*", name):
                    good = all(part in known for part in name.split(".") if part) or is_path(name, paths)
                else:
                    continue
                if not good:
                    print(f"{page.relative_to(ROOT)}:{number}: {name}")
                    missing += 1
    sys.exit(1 if missing else 0)


if __name__ == "__main__":
    main()
