#!/usr/bin/env python3
"""Draws the pictures of the pages, from what is there and not by hand.

    python3 checks/pictures.py
    python3 checks/pictures.py --check

docs/pictures/lanes1.svg and lanes4.svg are whole blocks: place_of of checks/blocks.py, which is document 01's bit layout, says where each bit
stands. file.svg is examples/sound.list. layers.svg is crates.txt. Each picture can be read on a light and on a dark page. With --check
nothing is written; the last line is 'N passed, M failed'.
"""
import pathlib
import re
import sys
from html import escape

from blocks import entries_in, least_width, payload_of, place_of
from files import header_of, read_file

TOP = pathlib.Path(__file__).resolve().parent.parent
FOLDER = TOP / "docs" / "pictures"

STYLE = """
    text { font: 13px ui-sans-serif, system-ui, sans-serif; fill: #1f2328; }
    .code { font-family: ui-monospace, monospace; }
    .small { font-size: 11px; }
    .quiet { fill: #57606a; }
    .head { font-size: 15px; font-weight: 600; }
    .middle { text-anchor: middle; }
    .end { text-anchor: end; }
    .page { fill: #ffffff; }
    .line { stroke: #8c959f; fill: none; }
    .box { stroke: #8c959f; fill: #f6f8fa; }
    .a { stroke: #8c959f; fill: #cfe3fb; } .b { stroke: #8c959f; fill: #cdeed6; } .c { stroke: #8c959f; fill: #fbe7b2; } .d { stroke: #8c959f; fill: #f6d3e6; }
    .one { font-weight: 700; } .zero { fill: #57606a; }
    @media (prefers-color-scheme: dark) {
      text { fill: #e6edf3; }
      .page { fill: #0d1117; }
      .quiet, .zero { fill: #a3acb6; }
      .line, .box, .a, .b, .c, .d { stroke: #6e7681; }
      .box { fill: #161b22; }
      .a { fill: #1b3a5f; } .b { fill: #1b4429; } .c { fill: #4d3c0c; } .d { fill: #52233d; }
    }
"""


def text(x, y, words, kind=""):
    return f'<text x="{x:g}" y="{y:g}"' + (f' class="{kind}"' if kind else "") + f">{escape(str(words))}</text>"


def box(x, y, width, height, kind, round_by=0):
    return f'<rect x="{x:g}" y="{y:g}" width="{width:g}" height="{height:g}" class="{kind}"' + (f' rx="{round_by}"' if round_by else "") + "/>"


def line(x1, y1, x2, y2):
    return f'<path d="M{x1:g} {y1:g}L{x2:g} {y2:g}" class="line"/>'


def picture(width, height, title, parts):
    head = f'<svg xmlns="http://www.w3.org/2000/svg" viewBox="0 0 {width:g} {height:g}" width="{width:g}" height="{height:g}" role="img">'
    return "\n".join([head, f"<title>{escape(title)}</title>", f"<style>{STYLE}</style>", box(0, 0, width, height, "page", 8), *parts, "</svg>"]) + "\n"


# ---- A block's bits: a line for each word of the payload, in the order of its bytes ----

CELL, GAP, LEFT, ROW = 19, 7, 132, 66


def column(bit):
    """Where bit 0 to 31 of a word is drawn, lowest first, with a gap between bytes."""
    return LEFT + bit * CELL + bit // 8 * GAP


def words_of(lanes, n):
    """Of each word of the payload the runs of bits that belong to one entry: the entry, its first bit that stands here, and where."""
    words = [{} for _ in range(lanes * n)]
    for k in range(32 * lanes):
        for j in range(n):
            byte, bit = place_of(lanes, n, k, j)
            words[byte // 4].setdefault(k, []).append((j, byte % 4 * 8 + bit))
    return words


def block(title, under, lanes, entries):
    n = least_width(entries)
    payload = payload_of(lanes, n, entries)
    assert entries_in(lanes, n, payload) == entries
    parts = [text(12, 24, title, "head")] + [text(12, 44 + 17 * i, words, "quiet") for i, words in enumerate(under)]
    top = 60 + 17 * len(under)
    for number, runs in enumerate(words_of(lanes, n)):
        y = top + number * ROW
        word, lane = number // lanes, number % lanes
        parts.append(text(12, y + 16, f"word {word}" + (f", lane {lane}" if lanes > 1 else "")))
        parts.append(text(12, y + 32, f"bytes {4 * number} to {4 * number + 3}", "small quiet"))
        for k, bits in runs.items():
            first, last = column(bits[0][1]), column(bits[-1][1]) + CELL
            name = ("… " if bits[0][0] > 0 else "") + str(k) + (" …" if bits[-1][0] < n - 1 else "")
            parts.append(text((first + last) / 2, y - 2, name, "small middle"))
            for j, bit in bits:
                one = payload[4 * number + bit // 8] >> bit % 8 & 1
                assert one == entries[k] >> j & 1
                parts.append(box(column(bit), y + 2, CELL, 22, "abcd"[lane] if lanes > 1 else "ab"[k % 2]))
                parts.append(text(column(bit) + CELL / 2, y + 17, one, "code middle " + ("one" if one else "zero")))
            parts.append(line(last, y - 10, last, y + 28) if bits[-1][0] == n - 1 else "")
        for at in range(4):
            parts.append(text(column(8 * at) + 4 * CELL, y + 39, f"byte {4 * number + at} = {payload[4 * number + at]:02x}", "small middle code quiet"))
    return picture(column(31) + CELL + 14, top + len(payload) // 4 * ROW - 12, title, [part for part in parts if part])


def lanes1():
    return block("A block of 1 lane, width 5, in which entry k is k",
                 ["Over each run of bits is its entry. With 1 lane the row is the entry. Bit 0 of a byte is drawn first.",
                  "Entry 6 begins in word 0 and ends in word 1: the string of bits goes on from word to word."],
                 1, list(range(32)))


def lanes4():
    return block("A block of 4 lanes, width 2: entries 0, 1, 2, 3, 3, 2, 1, 0, and entry 64 is 1",
                 ["Over each run of bits is its entry k. It is in lane k mod 4, which has a colour here, and row k div 4.",
                  "Word 0 of every lane stands before word 1 of any."],
                 4, [0, 1, 2, 3, 3, 2, 1, 0] + [0] * 56 + [1] + [0] * 63)


# ---- A list file ----


def file():
    data = (TOP / "examples" / "sound.list").read_bytes()
    lanes, mode, count, size, body = header_of(data)
    number, _, pages = read_file(data, 4096)
    assert number == 0 and body[0] <= 32 and len(body) == 1 + 4 * lanes * body[0]
    entries = entries_in(lanes, body[0], body[1:])
    says = [f"a block has 32 times {lanes} = {32 * lanes} entries", "an entry is a page less the one before it, less 1",
            "stands before the first page", f"{count} pages, so 1 block", "the length of the body", "the empty line ends the header"]
    parts = [text(12, 24, f"A list file of {len(data)} bytes: examples/sound.list", "head"), text(12, 50, "place", "small quiet"),
             text(70, 50, "bytes", "small quiet"), text(290, 50, "what it says", "small quiet")]
    y, place = 58, 0
    for row, says_it in zip(data[:len(data) - size].split(b"\n"), says):
        parts += [text(48, y + 17, place, "code end quiet"), box(66, y, 206, 25, "a"), text(74, y + 17, row.decode() + "⏎", "code"), text(290, y + 17, says_it)]
        y, place = y + 25, place + len(row) + 1
    y += 6
    parts += [text(48, y + 17, place, "code end quiet"), box(66, y, 206, 25, "c"), text(74, y + 17, f"{body[0]:02x}", "code"),
              text(290, y + 17, f"the width byte of the block: {body[0]} bits to an entry")]
    y, place = y + 31, place + 1
    parts += [text(48, y + 17, place, "code end quiet"), box(66, y, 206, 25, "b"), text(74, y + 17, f"{body[1:7].hex(' ')} ..", "code"),
              text(290, y + 17, f"its payload, 4 times {lanes} times {body[0]} = {size - 1} bytes: {32 * lanes} entries")]
    y += 47
    parts.append(text(12, y, f"The {32 * lanes} entries: {count} pages, and {32 * lanes - count} of filling, which are 0"))
    y += 10
    for k, entry in enumerate(entries):
        x, down = 12 + k % 32 * 24, y + k // 32 * 24
        parts += [box(x, down, 24, 24, "b" if k < count else "box"), text(x + 12, down + 16, entry, "code small middle " + ("one" if entry else "zero"))]
    y += len(entries) // 32 * 24 + 20
    previous = [mode[1]] + pages
    shown = [0] + [k for k, entry in enumerate(entries) if entry]
    sums = "; ".join(f"entry {k}: {previous[k]} + {entries[k]} + 1 = {pages[k]}" for k in shown)
    parts.append(text(12, y, sums, "small quiet"))
    return picture(792, y + 14, "A list file, from its header to its filling", parts)


# ---- The layers ----


def crates():
    """Of each crate of crates.txt the crates of the repository that it stands on."""
    rows = re.findall(r"^(\w+)(?: staticlib)?:(.*)$", (TOP / "crates.txt").read_text(), re.M)
    names = {name for name, _ in rows}
    return {name: [dep for dep in deps.split() if dep in names] for name, deps in rows}


def code_of(name):
    return "\n".join(path.read_text() for path in sorted((TOP / "crates" / name / "src").glob("**/*.rt")))


def kind_of(name):
    if (TOP / "crates" / name / "src" / "main.rt").exists():
        return "d" if name.endswith("_check") or name == "oracle_replay" else "c"
    return "b" if re.search(r"\bfn ", code_of(name)) else "a"


def levels(stands_on):
    """A crate stands over all that it stands on, and as near to the first that stands on it as that lets it."""
    level, above = {}, {name: [other for other in stands_on if name in stands_on[other]] for name in stands_on}
    for name in stands_on:  # crates.txt has a crate behind those that it stands on
        level[name] = 1 + max((level[dep] for dep in stands_on[name]), default=-1)
    for name in reversed(stands_on):
        level[name] = min((level[other] - 1 for other in above[name]), default=level[name])
    return level, above


def layers():
    stands_on = crates()
    level, above = levels(stands_on)
    straight = {name: [dep for dep in deps if not any(dep in stands_on[other] for other in deps)] for name, deps in stands_on.items()}
    kinds = {name: kind_of(name) for name in stands_on}

    def zone(name):
        """Programs of checks and what only they use stand on the left, the other programs and what only they use on the right."""
        users = {kinds[other] for other in above[name]} | ({kinds[name]} if kinds[name] in "cd" else set()) | ({"C"} if "no_mangle" in code_of(name) else set())
        return 0 if users == {"d"} else 2 if users == {"c"} else 1

    width, high, wide = 850, 62, 126
    across = {}
    for at in range(max(level.values()) + 1):
        for place, middle in enumerate((150, 434, 706)):
            row = [name for name in stands_on if level[name] == at and zone(name) == place]
            for number, name in enumerate(row):
                across[name] = middle + (number - (len(row) - 1) / 2) * (wide + 12)
    top = 74
    rows = max(level.values()) + 1

    def down(name):
        return top + (rows - 1 - level[name]) * high

    parts = [text(12, 24, "The crates of crates.txt, each above those that it stands on", "head")]
    for place, (kind, words) in enumerate((("a", "definitions and laws"), ("b", "library"), ("c", "program"), ("d", "program of checks"))):
        parts += [box(12 + place * 170, 38, 16, 16, kind), text(34 + place * 170, 51, words)]
    for name, deps in straight.items():
        parts += [line(across[name], down(name) + 34, across[dep], down(dep)) for dep in deps]
    for name in stands_on:
        parts += [box(across[name] - wide / 2, down(name), wide, 34, kinds[name], 5), text(across[name], down(name) + 22, name, "code middle")]
    parts.append(text(12, top + rows * high - 24, "A line that passes behind a box goes on.", "small quiet"))
    return picture(width, top + rows * high - 14, "The crates, each on those that it stands on", parts)


PICTURES = {"lanes1": lanes1, "lanes4": lanes4, "file": file, "layers": layers}


def main():
    failed = 0
    FOLDER.mkdir(exist_ok=True)
    for name, draw in PICTURES.items():
        path = FOLDER / f"{name}.svg"
        if sys.argv[1:] != ["--check"]:
            path.write_text(draw())
        elif not path.exists() or path.read_text() != draw():
            failed += 1
            print(f"not what this script draws: docs/pictures/{name}.svg")
    print(f"{len(PICTURES) - failed} passed, {failed} failed")
    return 1 if failed else 0


if __name__ == "__main__":
    sys.exit(main())
