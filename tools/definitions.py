#!/usr/bin/env python3
"""Lists the files of definitions that the main theorem comes down to, with their lines.

    python3 tools/definitions.py        in the order in which to read them: what is used comes first
    python3 tools/definitions.py --sum  the lines by crate and folder

Begins with the three words of `IsRestructured` that say what is promised, and follows the imports of
their files. Lines that are blank, a comment or an import aren't counted. Types of code
(`specs.declared`) are listed with the file of code that declares them.
"""
import re
import sys
from pathlib import Path

CRATES = Path(__file__).resolve().parent.parent / "crates"
ROOTS = [
    "struct_form/specs/Structured.antt",
    "cobol_theory/specs/cobol_meaning/Same.antt",
    "cobol_read/specs/Reading.antt",
]
USE = re.compile(r"^\s*use Rattle\.(\w+)\.specs\.([\w.]+?)(?:\.\{[^}]*\})?(?: as \w+)?$", re.MULTILINE)


def file_of(crate, path):
    """The file of a module that is imported; for a type of code the one that declares it."""
    parts = path.split(".")
    if parts[0] == "declared":
        for end in range(len(parts), 1, -1):
            file = CRATES / crate / "src" / ("/".join(parts[1:end]) + ".rt")
            if file.exists():
                return file
        return CRATES / crate / "src" / "lib.rt"
    for end in range(len(parts), 0, -1):
        file = CRATES / crate / "specs" / ("/".join(parts[:end]) + ".antt")
        if file.exists():
            return file
    return None


def used_by(file):
    if file.suffix != ".antt":
        return
    for crate, path in USE.findall(file.read_text()):
        if (CRATES / crate).is_dir():
            found = file_of(crate, path)
            if found is not None and found.exists():
                yield found


def in_order(files):
    """Each file that these come down to, after those that it uses."""
    seen, order = set(), []

    def visit(file):
        if file in seen:
            return
        seen.add(file)
        for used in used_by(file):
            visit(used)
        order.append(file)

    for file in files:
        visit(file)
    return order


def lines_of(file):
    lines = (line.strip() for line in file.read_text().splitlines())
    return sum(1 for line in lines if line and not line.startswith(("--", "use ", "//", "ghost use")))


def main():
    if sys.argv[1:] not in ([], ["--sum"]):
        sys.exit(__doc__)
    order = in_order([CRATES / root for root in ROOTS])
    sums = {}
    for file in order:
        name = file.relative_to(CRATES)
        if not sys.argv[1:]:
            print(f"{lines_of(file):5} {name}")
        parts = name.parts
        key = "/".join(parts[:3] if len(parts) > 3 else parts[:2])
        files, lines = sums.get(key, (0, 0))
        sums[key] = (files + 1, lines + lines_of(file))
    if sys.argv[1:]:
        for key, (files, lines) in sums.items():
            print(f"{lines:5} {key} ({files} files)")


if __name__ == "__main__":
    main()
