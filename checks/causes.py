#!/usr/bin/env python3
"""Which number comes of which damage: changes list files in every place and counts what the reader's rule of document 01 says of them.

    python3 checks/causes.py > docs/CAUSES.md
    python3 checks/causes.py --check

The rule is read_file of checks/files.py, which knows document 01 alone. The seed is fixed, so the first gives the same page again. The
second says whether docs/CAUSES.md is that page; whether each row of the table of numbers in docs/TECHNICIAN.md names the causes that
gave the number, and no other; and whether the text of each damaged list in examples/ names them. The last line is then
'N passed, M failed'.
"""
import collections
import pathlib
import random
import re
import sys

from files import file_of, header_of, header_text, read_file
from lists import LARGEST, NONE, PLAIN, entries_in, payload_of, sorted_from, strict_from

TOP = pathlib.Path(__file__).resolve().parent.parent
MOST = 4096
NUMBERS = (12, 7, 5, 2, 10, 9, 8, 11)  # what list_to_text can say, in the order of the tests

# ---- The lists: for each lanes and mode a slot as boxes have them, a short one, a full block, blocks of several
# widths, and numbers over the whole range ----


def slot(rng, start, count):
    """Pages in runs, with gaps between them."""
    pages, page = [], start
    while len(pages) < count:
        run = rng.randint(1, 24)
        pages += range(page, page + run)
        page += run + rng.choice((0, 1, 4, 9, 19, 60, 500))
    return pages[:count]


def rising(rng, start, steps):
    """Each page greater than the one before, by as much as the steps say."""
    pages = []
    for step in steps:
        start += 1 + rng.randrange(step)
        pages.append(start)
    return pages


def steps_of(rng, lanes):
    """Two blocks and a part of a third, each with steps of its own size."""
    size = 32 * lanes
    return sum(([2**rng.randint(0, 14)] * length for length in (size, size, rng.randint(1, size - 1))), [])


def far(rng, mode, start, count):
    """Numbers over the whole range, to the largest that there is."""
    if mode[0] == "plain":
        return [rng.randrange(LARGEST) for _ in range(count)]
    return sorted(rng.sample(range(start, LARGEST), count - 1)) + [LARGEST]


def lists(rng):
    for lanes in (1, 4, 8):
        size = 32 * lanes
        for mode in (PLAIN, sorted_from(rng.randrange(4000, 9000)), NONE, strict_from(rng.randrange(4000, 9000))):
            start = 4096 if mode[1] is None else mode[1] + 1
            yield lanes, mode, slot(rng, start, rng.randint(size + 1, 2 * size - 1))
            yield lanes, mode, slot(rng, start, rng.randint(1, size - 1))
            yield lanes, mode, slot(rng, start, size)
            yield lanes, mode, rising(rng, start, steps_of(rng, lanes))
            yield lanes, mode, far(rng, mode, start, rng.randint(2, size - 1))


# ---- The damages: a cause, and the changed files ----


def with_line(file, name, value):
    return re.sub(rb"(?m)^%s=.*$" % name, b"%s=%s" % (name, str(value).encode()), file, count=1)


def with_body(header, body, count=None):
    lanes, mode, old, _, _ = header
    return header_text(lanes, mode, old if count is None else count, len(body)) + body


def blocks_in(header):
    """Of each block: where its width byte stands in the body, its width, and how many of its entries are pages."""
    lanes, _, count, _, body = header
    at = 0
    for done in range(0, count, 32 * lanes):
        yield at, body[at], min(32 * lanes, count - done)
        at += 1 + 4 * lanes * body[at]


def is_of_a_page(lanes, width, real, place, bit):
    """Whether a bit of a payload belongs to a page and not to the filling."""
    word, lane = place // 4 // lanes, place // 4 % lanes
    row = (32 * word + place % 4 * 8 + bit) // width
    return row * lanes + lane < real


def header_cause(other, header):
    """What a changed header is to a reader: no header any more, or one that says something else in one line."""
    found = header_of(other)
    if found is None:
        return "a byte of the header"
    names = [name for name, was, now in zip(("`lanes`", "`mode`", "`first`"), (header[0], *header[1]), (found[0], *found[1])) if was != now]
    if not names:
        return "`count`, over 4,096" if found[2] > MOST else "`count`, larger" if found[2] > header[2] else "`count`, smaller"
    assert len(names) == 1 and found[2:] == header[2:], names
    return names[0]


def header_damage(rng, file, header):
    """Each line made to say something else; each bit changed, each byte lost, and a byte added in each place."""
    lanes, mode, count, _, body = header
    start = len(file) - len(body)
    near = [] if mode[1] is None else [mode[1] + d for d in (-512, -2, -1, 1, 2, 512)] + ["none"]
    lines = [(b"lanes", (1, 4, 8)), (b"mode", ("plain", "sorted", "strict")),
             (b"first", near + [0, LARGEST - 1, LARGEST] + [rng.randrange(LARGEST) for _ in range(3)]),
             (b"count", [count + d for d in (-100, -5, -2, -1, 1, 2, 5, 100, 5000) if count + d >= 0] + [0, rng.randrange(count), rng.randint(count, MOST), LARGEST])]
    for name, values in lines:
        for value in values:
            other = with_line(file, name, value)
            if other != file:
                yield header_cause(other, header), other
    for at in range(start):
        others = [file[:at] + bytes([file[at] ^ 1 << bit]) + file[at + 1:] for bit in range(8)]
        for other in others + [file[:at] + file[at + 1:], file[:at] + bytes([rng.choice(b"0123456789\r\n -")]) + file[at:]]:
            if other != file:
                yield header_cause(other, header), other
    for value in (0, len(body) - 1, len(body) + 1, rng.randrange(100000)):
        if value != len(body):
            yield "`bytes`", with_line(file, b"bytes", value)
    yield "ends of lines as in a text", file[:start].replace(b"\n", b"\r\n") + body
    yield "ends of lines as in a text", file.replace(b"\n", b"\r\n")


def body_damage(rng, file, header):
    """Each value of a width byte, each bit of a payload, each block stored wider, and sixteen bytes in a row erased."""
    lanes, _, _, _, body = header
    start = len(file) - len(body)

    def changed(at, byte):
        return file[:start + at] + bytes([byte]) + file[start + at + 1:]

    for at, width, real in blocks_in(header):
        for other in range(256):
            cause = "a width byte, over 32" if other > 32 else "a width byte, greater" if other > width else "a width byte, smaller"
            if other != width:
                yield cause, changed(at, other)
        for place in range(4 * lanes * width):
            byte = body[at + 1 + place]
            for bit in range(8):
                cause = "a bit of a page" if is_of_a_page(lanes, width, real, place, bit) else "a bit of the filling"
                yield cause, changed(at + 1 + place, byte ^ 1 << bit)
        for other in range(width + 1, 33):
            entries = entries_in(lanes, width, body[at + 1:at + 1 + 4 * lanes * width])
            wider = bytes([other]) + payload_of(lanes, other, entries)
            yield "another packer, wider", with_body(header, body[:at] + wider + body[at + 1 + 4 * lanes * width:])
    for at in range(0, len(body), 16):
        line = body[at:at + 16]
        for byte in (0, 255):
            if line != bytes([byte]) * len(line):
                yield f"16 bytes erased to {byte:02x}", file[:start + at] + bytes([byte]) * len(line) + file[start + at + 16:]


def length_damage(rng, file, header):
    """The body cut, a byte of it lost, and a byte added in each place: on the way, and before the header was made, so that `bytes` agrees."""
    body = header[4]
    start = len(file) - len(body)
    for at in range(len(file)):
        yield "cut on the way", file[:at]
    for at in range(len(body)):
        less, more = body[:at] + body[at + 1:], body[:at] + bytes([rng.randrange(256)]) + body[at:]
        yield "a byte lost or added on the way", file[:start] + less
        yield "a byte lost or added on the way", file[:start] + more
        yield "a byte lost or added before", with_body(header, less)
        yield "a byte lost or added before", with_body(header, more)
        yield "cut before", with_body(header, body[:at])
    for behind in (b"\0", b"\xff", b"\n", b"\xff" * (-len(file) % 4096)):
        yield "bytes behind the file", file + behind
        yield "bytes behind, before", with_body(header, body + behind)


def counted():
    """The lists, and for each cause how often each outcome came."""
    rng = random.Random(18)
    files, found = [], collections.defaultdict(collections.Counter)
    for lanes, mode, values in lists(rng):
        file = file_of(lanes, mode, values)
        header = header_of(file)
        files.append(file)
        for damage in (header_damage, body_damage, length_damage):
            for cause, other in damage(rng, file, header):
                assert other != file, cause
                found[cause][read_file(other, MOST)[0]] += 1
    return files, found


# ---- The page ----

# The words of docs/TECHNICIAN.md and examples/ for each cause.
BEFORE, ON_THE_WAY = "lost, added or cut before the header was made", "lost, added or cut on the way"
WORDS = {
    "`lanes`": "`lanes`",
    "`mode`": "`mode`",
    "`first`": "`first`",
    "`count`, smaller": "`count` too small",
    "`count`, larger": "`count` too large",
    "`count`, over 4,096": "`count` too large",
    "`bytes`": "`bytes`",
    "a byte of the header": "a byte of the header",
    "ends of lines as in a text": "a byte of the header",
    "a width byte, smaller": "a width byte",
    "a width byte, greater": "a width byte",
    "a width byte, over 32": "a width byte",
    "a bit of a page": "a bit of a page",
    "a bit of the filling": "a bit of the filling",
    "16 bytes erased to 00": "bytes erased",
    "16 bytes erased to ff": "bytes erased",
    "another packer, wider": "another packer",
    "cut before": BEFORE,
    "a byte lost or added before": BEFORE,
    "bytes behind, before": BEFORE,
    "cut on the way": ON_THE_WAY,
    "a byte lost or added on the way": ON_THE_WAY,
    "bytes behind the file": ON_THE_WAY,
}

PAGE = """# Which number comes of which damage

{lists} sound list files, of 1, 4 and 8 lanes and every mode, were damaged in one place at a time: {changes} damaged files. Each was read by
the rule of document 01. A cell says how often the damage of its row gave the number of its column; "read" is a damaged file that is read without
a word, nearly always as another list. A script makes this page, the same one every time:

    python3 checks/causes.py > docs/CAUSES.md

| Damage | read | {numbers} |
|---|---|{rule}|
{rows}

- **a byte of the header**: a bit changed, a byte lost, or a byte added, and no header is left. Where one is left that says something else,
  it is counted under the line that says it: a digit lost from `count=40` is `count`, smaller. Each line was also made to say other things.
- **a width byte**: each other value of it. **A bit of a page**, **a bit of the filling**: each bit of each payload, by what it belongs to.
- **erased**: sixteen bytes in a row of the body, all of them 00 or all of them ff.
- **before**: the header was made afterwards, so that its `bytes` agrees with the damaged body. **On the way**: it does not agree.
- **another packer**: one block stored with a width that is greater than it needs.

The counts say what can happen, and not how likely it is: that depends on how many bits, bytes and files break in the field, which nobody
has counted. Each damage stands alone here; two at once can give yet other numbers.
"""


def page(files, found):
    rows = []
    for cause in WORDS:
        cells = [found[cause][number] for number in (0, *NUMBERS)]
        rows.append(f"| {cause} | " + " | ".join(f"{cell:,}" if cell else "" for cell in cells) + " |")
    return PAGE.format(lists=len(files), changes=f"{sum(sum(counts.values()) for counts in found.values()):,}", numbers=" | ".join(map(str, NUMBERS)),
                       rule="|".join("---" for _ in NUMBERS), rows="\n".join(rows))


def comes_of(found, number):
    """The words for what gave the number."""
    return {WORDS[cause] for cause in found if found[cause][number]}


def rows_of_numbers():
    """The row of each number in docs/TECHNICIAN.md: what it comes of, as a set of words."""
    text = (TOP / "docs" / "TECHNICIAN.md").read_text()
    for number, cell in re.findall(r"^\| (\d+) \| [A-Z_]+ \| [^|]* \| ([^|]*) \|", text, re.M):
        yield int(number), {word.strip() for word in cell.split(";")}


def damaged_examples():
    """The number of each damaged list in examples/, and the text beside it in one line."""
    for path in sorted((TOP / "examples").glob("refused_*.list")):
        yield int(path.name.split("_")[1]), path.with_suffix(".txt").name, " ".join(path.with_suffix(".txt").read_text().split())


def check(files, found):
    passed = failed = 0

    def held(name, holds):
        nonlocal passed, failed
        passed, failed = passed + holds, failed + (not holds)
        if not holds:
            print(f"not so: {name}")

    held("docs/CAUSES.md is what this script writes", (TOP / "docs" / "CAUSES.md").read_text() == page(files, found))
    rows = dict(rows_of_numbers())
    for number in NUMBERS:
        held(f"docs/TECHNICIAN.md: {number} comes of {'; '.join(sorted(comes_of(found, number)))}", rows.get(number) == comes_of(found, number))
    for number, name, text in damaged_examples():
        missing = sorted(word for word in comes_of(found, number) if word.replace("`", "") not in text)
        held(f"examples/{name} names {'; '.join(missing)}", not missing)
    print(f"{passed} passed, {failed} failed")
    return 1 if failed else 0


def main():
    files, found = counted()
    if sys.argv[1:] == ["--check"]:
        return check(files, found)
    print(page(files, found), end="")
    return 0


if __name__ == "__main__":
    sys.exit(main())
