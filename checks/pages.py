#!/usr/bin/env python3
"""Follows README and the pages of the four readers: every command prints what the page shows, and every link of every page leads somewhere.

    python3 checks/pages.py [--quick] [PAGE ..]

Without a PAGE all five are followed. A command stands behind `$ ` in a block of code, and what it prints below it. A block behind the words
"as `NAME`:" is a file that the page has one write; it is written. --quick leaves out the gate and host/test. What a page shows is for an
x86-64 machine with rt, cc and cargo. The last line is 'N passed, M failed'.
"""
import pathlib
import re
import subprocess
import sys

TOP = pathlib.Path(__file__).resolve().parent.parent
PAGES = ["README.md", "docs/TECHNICIAN.md", "docs/WARD.md", "docs/FIRMWARE.md", "docs/AUDIT.md"]
LONG = (".ci/run", "host/test")


def blocks(text):
    """Each block of code, and the line of words before it."""
    for found in re.finditer(r"([^\n]*)\n\n((?:    [^\n]*\n|\n(?=    ))+)", text):
        yield found[1], re.sub(r"^    ", "", found[2], flags=re.M)


def commands(block):
    """Each command of a block, and what it is to print."""
    for part in re.split(r"^\$ ", block, flags=re.M)[1:]:
        command, _, shown = part.partition("\n")
        yield command, shown


def written_file(before, block):
    """The name and the bytes of a file that the page has one write, up to the first command below it."""
    name = re.search(r"as `([\w.]+)`:$", before)
    return (name[1], block.split("\n$ ")[0].rstrip("\n") + "\n") if name else None


def anchors(page):
    """The names by which a link can lead to a heading of the page."""
    heads = re.findall(r"^#+ (.*)$", page.read_text(), re.M)
    return {re.sub(r"[^\w\- ]", "", head.lower()).replace(" ", "-") for head in heads}


def lost_links(page):
    """The links of a page that lead to no file of the repository, or to no heading of it."""
    for link in re.findall(r"\]\(([^)\s]+)\)", page.read_text()):
        path, _, anchor = link.partition("#")
        to = (page.parent / path).resolve() if path else page
        if not link.startswith("http") and (not to.exists() or (anchor and anchor not in anchors(to))):
            yield link


def main():
    words = sys.argv[1:]
    passed = failed = 0
    for page in sorted([TOP / "README.md", TOP / "CHANGELOG.md", *TOP.glob("docs/*.md"), TOP / "oracle" / "README.md", TOP / "examples" / "README.md"]):
        lost = list(lost_links(page))
        passed, failed = passed + (not lost), failed + bool(lost)
        print(*(f"{page.relative_to(TOP)}: leads nowhere: {link}\n" for link in lost), sep="", end="")
    for page in [word for word in words if word != "--quick"] or PAGES:
        for before, block in blocks((TOP / page).read_text()):
            file = written_file(before, block)
            if file:
                (TOP / file[0]).write_text(file[1])
            for command, shown in commands(block):
                if "--quick" in words and command.startswith(LONG):
                    print(f"{page}: left out: {command}")
                    continue
                done = subprocess.run(["bash", "-c", command], cwd=TOP, stdout=subprocess.PIPE, stderr=subprocess.STDOUT, stdin=subprocess.DEVNULL)
                printed = done.stdout.decode(errors="replace")
                holds = printed.rstrip("\n") == shown.rstrip("\n")
                passed, failed = passed + holds, failed + (not holds)
                print(f"{page}: {'as shown' if holds else 'NOT AS SHOWN'}: {command}")
                if not holds:
                    print(f"it printed:\n{printed[:1000]}and the page shows:\n{shown}")
    print(f"{passed} passed, {failed} failed")
    return 1 if failed else 0


if __name__ == "__main__":
    sys.exit(main())
