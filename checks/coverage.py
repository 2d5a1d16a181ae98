#!/usr/bin/env python3
"""Holds docs/COVERAGE.md to the repository: no row has an empty cell, and every name that it cites is there.

    python3 checks/coverage.py

A name is a file (`layout/specs/Layout`), a must-fail edit (`blocks/refuses_always`), a function of a crate (`lists::read`), a crate, a
definition or law, or a case of a program of checks. The last line is 'N passed, 0 failed'.
"""
import pathlib
import re
import sys

TOP = pathlib.Path(__file__).resolve().parent.parent
CRATES = TOP / "crates"
PAGE = TOP / "docs" / "COVERAGE.md"


def sources():
    """Every line that may name something: code, definitions, proofs and scripts."""
    for pattern in ("crates/**/*.antt", "crates/**/*.rt", "checks/*.py", "docs/PORT-OTHER.md"):
        for path in sorted(TOP.glob(pattern)):
            yield path.read_text()


def cases():
    """The words that the programs of checks write: names of cases, and words with `=`."""
    for path in CRATES.glob("*_check/stdout"):
        text = path.read_text()
        yield from text.split()
        yield from re.findall(r"\b[a-z_]+=", text)


def is_path(name):
    crate, _, rest = name.rstrip("/").partition("/")
    places = [TOP / name, CRATES / f"{name}.antt", CRATES / f"{name}.rt", CRATES / crate / "must-fail" / f"{rest}.edit"]
    return any(place.exists() for place in places) or ("*" in name and any(True for _ in TOP.glob(name)))


def is_function(name):
    crate, function = name.split("::")[0], name.split("::")[-1]
    return any(re.search(rf"\bfn {function}\b", path.read_text()) for path in (CRATES / crate / "src").glob("**/*.rt"))


def is_there(name, text, words):
    if "/" in name:
        return is_path(name)
    if "::" in name:
        return is_function(name)
    return name in words or (CRATES / name).is_dir() or re.search(rf"(?<![\w-]){re.escape(name)}(?![\w-])", text) is not None


def main():
    text, words = "\n".join(sources()), set(cases())
    passed = failed = 0
    for number, line in enumerate(PAGE.read_text().split("\n"), 1):
        row = line.startswith("| ")
        cells = [cell.strip() for cell in line.strip("|").split(" | ")] if row else [line]
        wrong = ["a cell is empty"] if row and (len(cells) != 3 or not all(cells)) else []
        cited = [name for cell in (cells[1:] if row else cells) for name in re.findall(r"`([^`]+)`", cell)]
        wrong += [f"`{name}` is not there" for name in cited if not is_there(name, text, words)]
        for what in wrong:
            print(f"docs/COVERAGE.md:{number}: {what}")
        passed, failed = passed + row, failed + len(wrong)
    print(f"{passed} passed, {failed} failed")
    sys.exit(1 if failed else 0)


if __name__ == "__main__":
    main()
