#!/usr/bin/env python3
"""Holds docs/FORMAT.md to document 01 as files.py has it: the file of section 1, and every case of section 12. And counts, for docs/WARD.md, how
many changes of one bit in the body of examples/sound.list give another sound file.

    python3 checks/format.py [PROGRAM]

With PROGRAM, as target/page_list, each file of section 12 is also given to it by name, and what it writes must be the same. The last line is
'N passed, M failed'.
"""
import pathlib
import re
import subprocess
import sys
import tempfile

from files import file_of, header_of, read_file

TOP = pathlib.Path(__file__).resolve().parent.parent
PAGE = (TOP / "docs" / "FORMAT.md").read_text()
MOST = 4096


def section(number):
    return re.search(rf"^## {number}\. .*?(?=^## |\Z)", PAGE, re.M | re.S)[0]


def hex_bytes(words):
    """`02 39 00*7` as bytes; `-` is none, and `128 times 00` is what it says."""
    times = re.fullmatch(r"(\d+) times `(.*)`", words)
    if times:
        return int(times[1]) * hex_bytes(times[2])
    pairs = (word.partition("*") for word in words.strip("`").split() if word != "-")
    return b"".join(bytes.fromhex(pair) * int(count or 1) for pair, _, count in pairs)


def values(words):
    """`0 (9 times), 7` as a list."""
    found = []
    for word in words.replace("the empty list", "").split(", "):
        if word:
            value, times = re.fullmatch(r"(\d+)(?: \(([\d,]+) times\))?", word).groups()
            found += [int(value)] * int((times or "1").replace(",", ""))
    return found


def small_file():
    """The bytes of section 1, place by place."""
    lines = re.findall(r"^ +\d+  ((?:[0-9a-f]{2} )+)", section(1), re.M)
    return b"".join(bytes.fromhex(line) for line in lines)


def cases():
    """Each file of section 12 with what it gives: a number, or a list."""
    for line in section(12).split("\n"):
        cells = [cell.strip() for cell in line.strip("|").split("|")]
        if len(cells) != 5 or not cells[0].isdigit():
            continue
        lanes, mode, first, words, answers = cells
        body = hex_bytes(words)
        for answer in answers.split(" / "):
            count, what = answer.split(": ", 1)
            file = f"lanes={lanes}\nmode={mode}\nfirst={first}\ncount={count}\nbytes={len(body)}\n\n".encode() + body
            number = re.match(r"no\. (\d+)", what)
            yield f"{line} {answer}", file, int(number[1]) if number else values(what)
    whole = small_file()
    wrong = re.findall(r"`((?:lanes|mode|first|count|bytes)=[^`]*)`", section(12).split("is 12 with any of these")[1].split("So are")[0])
    for line in wrong:
        name = line.split("=")[0]
        yield line, re.sub(rf"^{name}=.*$".encode(), line.encode(), whole, flags=re.M), 12


def one_bit():
    """How many changes of one bit in the body of the sound example there are, and how many of these are read."""
    file = (TOP / "examples" / "sound.list").read_bytes()
    start = len(file) - len(header_of(file)[4])
    changed = [file[:at] + bytes([file[at] ^ (1 << bit)]) + file[at + 1:] for at in range(start, len(file)) for bit in range(8)]
    return len(changed), sum(read_file(other, MOST)[0] == 0 for other in changed)


def written(answer):
    return f"refused={answer}\n" if isinstance(answer, int) else "".join(f"{value}\n" for value in answer)


def shown(program, file):
    with tempfile.NamedTemporaryFile() as named:
        named.write(file)
        named.flush()
        return subprocess.run([program, named.name], capture_output=True, text=True).stdout


def main():
    passed = failed = 0

    def check(name, holds):
        nonlocal passed, failed
        passed, failed = passed + holds, failed + (not holds)
        if not holds:
            print(f"not so: {name}")

    check("the file of section 1", small_file() == file_of(1, ("plain", None), [1, 2, 3]) and header_of(small_file()) is not None)
    changes, read = one_bit()
    check(f"docs/WARD.md: of {changes} changes of one bit {read} are read", f"Of the {changes} ways to change one bit in the packed part of `examples/sound.list`,\n  {read} are read" in (TOP / "docs" / "WARD.md").read_text())
    for name, file, said in cases():
        number, _, read = read_file(file, MOST)
        check(name, said == (number if number != 0 else read))
        for program in sys.argv[1:]:
            check(f"{program}: {name}", shown(program, file) == written(said))
    print(f"{passed} passed, {failed} failed")
    return 1 if failed else 0


sys.exit(main())
