#!/usr/bin/env python3
"""The inputs that the program programs_check is given, what it must write, and the folder of examples, worked out from document 01.

    python3 checks/programs.py cases > crates/programs_check/stdin
    python3 checks/programs.py > crates/programs_check/stdout
    python3 checks/programs.py examples

The first part is the two programs of document 01, with the file calls of checks/files.py. The second does with an input what the program
of checks does with it. The third is the examples, and the fourth the table of inputs.
"""
import pathlib
import re
import sys
import textwrap

from files import BYTE_MARK, NUMBER, answered, edge as file_edge, file_of, first_text, header_of, header_text, read_file, write_file
from lists import BOUND, LARGEST, NONE, PLAIN, block_of, block_size, body_of, entries_of, payload_of, sorted_from, strict_from

# ---- The two programs of document 01 ----

LIMIT = 65536  # "or input over 65,536 bytes, is 12"


def refused_line(refusal):
    """ "the line `refused=` and the number" """
    return b"refused=%d\n" % refusal


def value_lines(values):
    """ "each value in decimal on its own line" """
    return b"".join(b"%d\n" % value for value in values)


def list_to_text(file):
    """ "One program reads such a file on standard input and writes each value in decimal on its own line, or the line `refused=` and the
    number." "Number 4 does not arise in the programs": there is room for any count. """
    refusal, _, values = (12, 0, []) if len(file) > LIMIT else read_file(file, BOUND)
    return value_lines(values) if refusal == 0 else refused_line(refusal)


def settings_of(lines):
    """ "the lanes, mode and first lines": lanes and mode, or None. They are sound where a file that begins with them is. """
    header = header_of(b"".join(line + b"\n" for line in lines) + b"count=0\nbytes=0\n\n")
    return header and header[:2]


def value_in(line):
    """ "Numbers are decimal, at most 4,294,967,295, without leading zeros." None for any other line. """
    if not re.fullmatch(NUMBER.encode(), line) or int(line) > LARGEST:
        return None
    return int(line)


def parts_of(text):
    """ "the lanes, mode and first lines and then one value a line": lanes, mode and the values. "Text that breaks this form anywhere (a
    last line without byte 10 too), or input over 65,536 bytes, is 12": None. """
    *lines, rest = text.split(b"\n")
    if len(text) > LIMIT or rest != b"" or len(lines) < 3:
        return None
    settings, values = settings_of(lines[:3]), [value_in(line) for line in lines[3:]]
    return None if settings is None or None in values else (*settings, values)


def text_to_list(text):
    """ "The other reads the lanes, mode and first lines and then one value a line, and writes a file or that same line." "12 comes before
    any other number." """
    parts = parts_of(text)
    refusal, _, file = (12, 0, b"") if parts is None else write_file(*parts, BOUND)
    return file if refusal == 0 else refused_line(refusal)


def text_of(lanes, mode, values):
    """The text that the writing program takes for a list."""
    return b"lanes=%d\nmode=%s\nfirst=%s\n" % (lanes, mode[0].encode(), first_text(mode).encode()) + value_lines(values)


# ---- What the program of checks does with an input ----
#
# It writes the name of the case, and what the call answers: the number of the refusal, the length, and the checksum of the output, which
# was full of marks before. The output has room to spare, then just enough, and then one byte too little.

PROGRAMS = {"r": list_to_text, "w": text_to_list}
ROOM = 45064


def put(output, room):
    """What the programs write, at the front of so much room; or 4, and the room as it was."""
    return (4, 0, b"") if room < len(output) else (0, len(output), output)


def answers(letter, data):
    output = PROGRAMS[letter](data)
    for word, room in [("full", ROOM), ("exact", len(output))] + [("short", len(output) - 1)] * (output != b""):
        yield f"{word}=" + answered(put(output, room), BYTE_MARK, room)


def repeats(data, at, period):
    """How many times the bytes of one period stand there one after another."""
    end = at + period
    while end < len(data) and data[end] == data[end - period]:
        end += 1
    return (end - at) // period


def best_repeat(data, at, longest=130, enough=400):
    """How many letters a repetition there saves, how many times it is, and its period: the one that saves most, or saves enough."""
    best = (0, 1, 1)
    for period in range(1, min(longest, len(data) - at) + 1):
        times = repeats(data, at, period)
        best = max(best, (2 * period * (times - 1) - 16, times, period))
        if best[0] > enough:
            break
    return best


def pieces(data):
    """The input as pieces: bytes in hex; and where they repeat, `*` and how many times."""
    found, plain, at = [], b"", 0
    while at < len(data):
        saved, times, period = best_repeat(data, at)
        if saved > 0:
            found += [plain.hex()] * (plain != b"") + [f"{data[at:at + period].hex()}*{times}"]
            plain, at = b"", at + period * times
        else:
            plain, at = plain + data[at:at + 1], at + 1
    return found + [plain.hex()] * (plain != b"")


def input_of(words):
    """The input that the pieces stand for."""
    return b"".join(bytes.fromhex(hex) * int(times or 1) for hex, _, times in (word.partition("*") for word in words))


# ---- The examples ----

LANES, FIRST = 4, 4095
MODE = strict_from(FIRST)
PAGES = [*range(4096, 4108), *range(4112, 4121), *range(4130, 4141), *range(4160, 4168)]
MOVED = 512
SWAPPED = PAGES[:15] + [PAGES[16], PAGES[15]] + PAGES[17:]
ENTRIES = entries_of(MODE, PAGES) + [0] * (block_size(LANES) - len(PAGES))
BODY = body_of(LANES, MODE, PAGES)
SOUND = file_of(LANES, MODE, PAGES)
SOUND_TEXT = text_of(LANES, MODE, PAGES)


def with_body(body, count=len(PAGES), mode=MODE):
    """A file whose `bytes` agrees with its body."""
    return header_text(LANES, mode, count, len(body)) + body


def wider_body():
    """The same entries, stored one bit wider than they need."""
    return bytes([BODY[0] + 1]) + payload_of(LANES, BODY[0] + 1, ENTRIES)


def filled_body():
    """The first filling entry is 1 and not 0."""
    return block_of(LANES, ENTRIES[:len(PAGES)] + [1] + ENTRIES[len(PAGES) + 1:])


def crlf(text):
    return text.replace(b"\n", b"\r\n")


# A stem, what it is about, and its files with their bytes.
EXAMPLES = [
    ("sound",
     f"""sound.list is a recovery slot as it should be: {len(PAGES)} flash pages, from page {PAGES[0]} to page {PAGES[-1]}, in strict
mode with 4 lanes. sound.text is the text that gives it.

list_to_text writes the {len(PAGES)} page numbers, one a line. text_to_list writes sound.list for sound.text, byte for byte.

For the technician: the list can be used. Whether it is the right list is another question, see stale.txt.
""",
     [("list", SOUND), ("text", SOUND_TEXT)]),
    ("stale",
     f"""stale.list has the same body as sound.list. Its first number is {FIRST - MOVED} where sound.list has {FIRST}.

list_to_text accepts it. Every page it writes is {MOVED} lower than in sound.list: {PAGES[0] - MOVED} for {PAGES[0]}, and so on to
{PAGES[-1] - MOVED} for {PAGES[-1]}.

For the technician: nothing in the file tells that it is stale. Compare its pages with those of the other slot's list. If every page is
off by one and the same amount, one of the two has a stale first number.
""",
     [("list", with_body(BODY, mode=strict_from(FIRST - MOVED)))]),
    ("refused_02_bad_width",
     """refused_02_bad_width.list is sound.list with the width byte of its block set to 33. A width is at most 32.

list_to_text writes the line refused=2.

For the technician: 2 comes of a width byte, of lanes, of bytes erased, or of bytes lost, added or cut before the header was made. No page
of this file can be used.
""",
     [("list", with_body(bytes([33]) + BODY[1:]))]),
    ("refused_05_cut_short",
     f"""refused_05_cut_short.list is sound.list without its last byte, and its header says bytes={len(BODY) - 1}, which agrees.

list_to_text writes the line refused=5: the body ends before its last block does.

For the technician: the header agrees with the body, so nothing was lost on the way. 5 comes of a count too large, of a width byte, of
lanes, or of bytes lost, added or cut before the header was made. A file that lost a byte on the way is refused_12_lost_byte.list.
""",
     [("list", with_body(BODY[:-1]))]),
    ("refused_07_too_many",
     """refused_07_too_many.list is sound.list with count=4097. refused_07_too_many.text is a plain list of 4,097 values, all 0. A list has
at most 4,096 values.

list_to_text writes the line refused=7 for the first, and text_to_list writes it for the second.

For the technician: 7 comes of a count too large, which our writer does not write: the header was changed. A text of so many values has to
be cut into two.
""",
     [("list", with_body(BODY, count=4097)), ("text", text_of(LANES, PLAIN, [0] * 4097))]),
    ("refused_08_out_of_order",
     f"""refused_08_out_of_order.list and refused_08_out_of_order.text have the pages of sound.list, but page {SWAPPED[15]} stands
before page {SWAPPED[16]}. In strict mode each page is greater than the one before.

list_to_text writes the line refused=8 for the first, and text_to_list writes it for the second.

For the technician: our writer does not write such a file. 8 comes of first, of mode, of lanes, of a count too large, of a width byte, of
a bit of a page, of bytes erased, or of bytes lost, added or cut before the header was made. In a text, look for the first page that is not
greater than the one before.
""",
     [("list", with_body(body_of(LANES, MODE, SWAPPED))), ("text", text_of(LANES, MODE, SWAPPED))]),
    ("refused_09_not_least",
     f"""refused_09_not_least.list has the pages of sound.list, stored with width {BODY[0] + 1} where {BODY[0]} is enough.

list_to_text writes the line refused=9.

For the technician: our writer stores each block with its least width. 9 comes of another packer, of a width byte, of a bit of a page, of
lanes, of bytes erased, or of bytes lost, added or cut before the header was made. The pages may be right, but nothing says so.
""",
     [("list", with_body(wider_body()))]),
    ("refused_10_bad_fill",
     f"""refused_10_bad_fill.list is sound.list with a 1 in its first filling entry. A block of 4 lanes has 128 entries; the list has
{len(PAGES)} values, and the other entries are 0 in a sound file.

list_to_text writes the line refused=10.

For the technician: 10 comes of a bit of the filling, of a count too small, of a width byte, of lanes, of bytes erased, or of bytes lost,
added or cut before the header was made.
""",
     [("list", with_body(filled_body()))]),
    ("refused_11_left_over",
     f"""refused_11_left_over.list is sound.list with one byte 0 behind it, and its header says bytes={len(BODY) + 1}, which agrees.

list_to_text writes the line refused=11.

For the technician: there is more in the body than the count asks for. 11 comes of a count too small, of a width byte, of lanes, of bytes
erased, or of bytes lost, added or cut before the header was made.
""",
     [("list", with_body(BODY + b"\0"))]),
    ("refused_12_bad_header",
     """refused_12_bad_header.list is sound.list after an editor or a mail program put byte 13 before each byte 10 of the header.

list_to_text writes the line refused=12.

For the technician: 12 comes of a byte of the header, of bytes= that does not agree, or of bytes lost, added or cut on the way. Fetch the
file again, and move it as bytes and not as text.
""",
     [("list", crlf(SOUND[:-len(BODY)]) + BODY)]),
    ("refused_12_lost_byte",
     f"""refused_12_lost_byte.list is sound.list without its last byte. The header still says bytes={len(BODY)}, and
{len(BODY) - 1} are there.

list_to_text writes the line refused=12, since bytes is not the body's length. That comes before 5.

For the technician: 12 comes of a byte of the header, of bytes= that does not agree, or of bytes lost, added or cut on the way. Here the
header looks right, so the file was cut on the way. Fetch it again.
""",
     [("list", SOUND[:-1])]),
    ("refused_12_leading_zero",
     f"""refused_12_leading_zero.text is sound.text with page {PAGES[1]} written as 0{PAGES[1]}.

text_to_list writes the line refused=12. Numbers have no leading zeros.

For the technician: look for a line that is not one plain number. An empty line, a blank or a sign gives the same line.
""",
     [("text", SOUND_TEXT.replace(b"\n%d\n" % PAGES[1], b"\n0%d\n" % PAGES[1]))]),
    ("refused_12_no_last_newline",
     """refused_12_no_last_newline.text is sound.text without its last byte, the byte 10 that ends the last line.

text_to_list writes the line refused=12. Without that byte nobody can tell whether the last number is whole.

For the technician: look whether the last page is whole, and end the line.
""",
     [("text", SOUND_TEXT[:-1])]),
]

LETTER = {"list": "r", "text": "w"}


def example_files():
    """The stem, the ending and the bytes of each file."""
    for stem, _, files in EXAMPLES:
        for ending, data in files:
            yield stem, ending, data


def outcome(ending, data):
    """What comes out, in a few words."""
    output = PROGRAMS[LETTER[ending]](data)
    if output.startswith(b"refused="):
        return f"`{output.decode().strip()}`"
    if ending == "text":
        return f"a file of {len(output)} bytes"
    values = output.split()
    return f"{len(values)} lines, `{values[0].decode()}` to `{values[-1].decode()}`"


README = """# Examples

Each `.list` file is for list_to_text, and each `.text` file for text_to_list. The `.txt` file of the same name says what they are.

    tools/build list_to_text text_to_list
    target/bin/list_to_text < examples/sound.list
    target/bin/text_to_list < examples/sound.text

| File | Bytes | Program | What comes out |
|---|---|---|---|
{rows}

text_to_list gives 12, 7 and 8, and list_to_text gives 12, 7, 5, 2, 10, 9, 8 and 11. The numbers 1, 3, 4 and 6 cannot come out of the
programs. Lanes other than 1, 4 and 8 break the form of their line, so they are 12 and not 1. 3 and 6 are for single blocks. 4 is for
output that is too short, and the programs have room for every list.

`python3 checks/programs.py examples` writes this folder. Each file is also a case of `crates/programs_check`.
"""


def examples_readme():
    program = {"list": "list_to_text", "text": "text_to_list"}
    rows = [f"| `{stem}.{ending}` | {len(data)} | {program[ending]} | {outcome(ending, data)} |" for stem, ending, data in example_files()]
    return README.format(rows="\n".join(rows))


def filled(about):
    """Its paragraphs, in lines of at most 100 letters."""
    return "\n\n".join(textwrap.fill(" ".join(part.split()), 100) for part in about.split("\n\n")) + "\n"


def write_examples():
    folder = pathlib.Path(__file__).resolve().parent.parent / "examples"
    folder.mkdir(exist_ok=True)
    for stem, about, _ in EXAMPLES:
        (folder / f"{stem}.txt").write_text(filled(about))
    for stem, ending, data in example_files():
        (folder / f"{stem}.{ending}").write_bytes(data)
    (folder / "README.md").write_text(examples_readme())


# ---- The table ----


def number_in_name(stem):
    """`refused_05_cut_short` says 5."""
    found = re.match("refused_([0-9][0-9])_", stem)
    return found and int(found[1])


def examples():
    """The files of examples/. What comes out is what their names say."""
    for stem, ending, data in example_files():
        refusal, output = number_in_name(stem), PROGRAMS[LETTER[ending]](data)
        assert output == refused_line(refusal) if refusal else not output.startswith(b"refused=")
        yield f"example_{stem}_{ending}", LETTER[ending], data


CASE_13_TEXT = b"lanes=1\nmode=plain\nfirst=none\n1\n2\n3\n"
(_, CASE_13_FILE), = file_edge()


def edge():
    """Case 13, both ways."""
    assert list_to_text(CASE_13_FILE) == b"1\n2\n3\n" and text_to_list(CASE_13_TEXT) == CASE_13_FILE
    yield "case13-read", "r", CASE_13_FILE
    yield "case13-written", "w", CASE_13_TEXT


def both_ways(name, lanes, mode, values):
    """The text of a list is written, and the file that is written is read."""
    text = text_of(lanes, mode, values)
    yield f"{name}-written", "w", text
    yield f"{name}-read", "r", text_to_list(text)


# A mode, its first value and the step to the next.
RULES = ((PLAIN, 5, 0), (sorted_from(0), 5, 0), (sorted_from(1000), 1003, 0), (sorted_from(LARGEST), LARGEST, 0), (NONE, 0, 1),
         (strict_from(0), 1, 1), (strict_from(7), 10, 2), (strict_from(LARGEST - 1), LARGEST, 1))


def sound():
    """Each lanes with each mode and each count at which something changes. Texts of strict lists are long: of those of 4,096 values, and
    of some others, only the file is read."""
    for lanes in (1, 4, 8):
        size = block_size(lanes)
        for mode, start, step in RULES:
            for count in (0, 1, size - 1, size, size + 1, 4096):
                values = [start + k * step for k in range(count)]
                name = f"sound-{lanes}-{mode[0]}-{first_text(mode)}-{count}"
                if mode == strict_from(LARGEST - 1) and count > 1:
                    continue
                if step == 0 or count < 4096 and (mode != strict_from(0) or lanes == 1 or count < 2):
                    yield from both_ways(name, lanes, mode, values)
                else:
                    yield f"{name}-read", "r", file_of(lanes, mode, values)


def largest():
    """Values of ten digits, as many as a list has; and the values at both ends."""
    for lanes in (1, 4, 8):
        yield from both_ways(f"largest-{lanes}", lanes, PLAIN, [LARGEST] * 4096)
        yield from both_ways(f"ends-{lanes}", lanes, PLAIN, [0, LARGEST, 1, LARGEST - 1, 999999999, 1000000000])
    yield from both_ways("top-strict", 1, strict_from(LARGEST - 33), range(LARGEST - 32, BOUND))
    yield from both_ways("top-none", 1, NONE, [LARGEST])
    yield from both_ways("bottom-sorted", 1, sorted_from(0), [0, 0, 9, 10, 99, 100, LARGEST, LARGEST])
    assert len(list_to_text(file_of(1, PLAIN, [LARGEST] * 4096))) == 45056


def counts():
    """4,095 to 4,098 values, and the most lines that a text can have."""
    for count in (4095, 4096, 4097, 4098):
        yield f"count-{count}-written", "w", text_of(8, sorted_from(3), [3] * count)
        yield f"count-{count}-read", "r", file_of(8, sorted_from(3), [3] * count)
    for count in (8192, 32753, 32754):
        yield f"count-{count}-written", "w", text_of(1, sorted_from(0), [0] * count)


LINES = [b"lanes=4\n", b"mode=sorted\n", b"first=5\n", b"6\n", b"12\n"]
LINE_NAMES = ("lanes", "mode", "first", "value", "last")


def with_line(place, line):
    return b"".join(LINES[:place] + [line] + LINES[place + 1:])


def lines():
    """Lines that are missing, doubled, out of order, or another. (Of value lines some of these are sound, and some are 8.)"""
    for i, name in enumerate(LINE_NAMES):
        line = LINES[i][:-1]
        yield f"missing-{name}", "w", with_line(i, b"")
        yield f"doubled-{name}", "w", with_line(i, LINES[i] * 2)
        yield f"empty-before-{name}", "w", with_line(i, b"\n" + LINES[i])
        yield f"emptied-{name}", "w", with_line(i, b"\n")
        for what, end in (("crlf", b"\r\n"), ("cr", b"\r"), ("nul", b"\0\n"), ("tab-behind", b"\t\n"), ("blank-behind", b" \n"), ("open", b"")):
            yield f"{what}-{name}", "w", with_line(i, line + end)
        for what, front in (("tab-first", b"\t"), ("blank-first", b" "), ("mark-first", b"\xef\xbb\xbf")):
            yield f"{what}-{name}", "w", with_line(i, front + LINES[i])
        for j in range(i + 1, 5):
            swapped = LINES[:]
            swapped[i], swapped[j] = swapped[j], swapped[i]
            yield f"swapped-{name}-{LINE_NAMES[j]}", "w", b"".join(swapped)
    yield "empty-at-the-end", "w", b"".join(LINES) + b"\n"
    yield "nul-at-the-end", "w", b"".join(LINES) + b"\0"
    yield "crlf-all", "w", crlf(b"".join(LINES))


def labels():
    """The labels of the three lines, and lines of a file that the text does not have."""
    for i, name in enumerate(LINE_NAMES[:3]):
        label, value = LINES[i][:-1].split(b"=")
        for what, line in (("capital", label.capitalize() + b"=" + value), ("capitals", (label + b"=" + value).upper()), ("colon", label + b":" + value),
                           ("no-value", label + b"="), ("no-label", value), ("label", label), ("blank-inside", label + b"= " + value),
                           ("equals", label + b"==" + value), ("value-twice", label + b"=" + value + value)):
            yield f"{what}-{name}", "w", with_line(i, line + b"\n")
    front, values = b"".join(LINES[:3]), b"".join(LINES[3:])
    yield "count-line", "w", front + b"count=2\n" + values
    yield "count-and-bytes-lines", "w", front + b"count=2\nbytes=49\n" + values
    yield "bytes-line-at-the-end", "w", front + values + b"bytes=49\n"
    yield "header-then-values", "w", front + b"count=2\nbytes=49\n\n" + values
    yield "label-at-value", "w", front + b"value=5\n"
    yield "two-values-on-a-line", "w", front + b"5 7\n12\n"
    yield "comma", "w", front + b"5,7,12\n"


SPELLINGS = (
    "0", "00", "01", "007", "0000000000000005", "+1", "-0", "-1", "--1", "1-", "1.0", "1.", "1e3", "1_000", "1,000", "0x1", "a", "1a", "a1", "none",
    "4294967294", "4294967295", "4294967296", "4294967297", "4294967300", "4294967301", "9999999999", "10000000000", "42949672950",
    "18446744073709551615", "18446744073709551616", "18446744073709551617", "18446744073709551621",
    "340282366920938463463374607431768211457", "9" * 30, "/", ":", "\u0663", "\uff11")


def spellings():
    """Value lines that are numbers, and that are not."""
    for number, spelling in enumerate(SPELLINGS):
        name = spelling if spelling.isascii() and len(spelling) < 24 else f"other{number}"
        yield f"value-{name}", "w", b"lanes=1\nmode=plain\nfirst=none\n3\n" + spelling.encode() + b"\n9\n"
    for digits in (11, 20, 5000, 65505):
        for digit in b"019":
            yield f"value-{digit - 48}-of-{digits}-digits", "w", b"lanes=1\nmode=plain\nfirst=none\n" + bytes([digit]) * digits + b"\n"


LANES_TEXTS = ("0", "1", "2", "3", "4", "5", "7", "8", "9", "16", "32", "01", "04", "08", "+4", "-4", "4.0", "14", "4294967297", "4294967300",
               "18446744073709551617", "9" * 30, "4" * 4000, "none")
MODE_TEXTS = ("plain", "sorted", "strict", "Plain", "SORTED", "sort", "strictly", "plainn", "2")
FIRST_TEXTS = ("0", "00", "05", "+5", "4294967294", "4294967295", "4294967296", "4294967301", "18446744073709551621", "5" * 4000, "None", "nonee")


def settings():
    """What `lanes=`, `mode=` and `first=` may say."""
    for lanes in LANES_TEXTS:
        name = lanes if len(lanes) < 24 else f"long{len(lanes)}"
        yield f"lanes-is-{name}", "w", b"lanes=" + lanes.encode() + b"\nmode=plain\nfirst=none\n1\n"
    for mode in MODE_TEXTS:
        for first in ("none", "5"):
            yield f"mode-is-{mode}-{first}", "w", f"lanes=1\nmode={mode}\nfirst={first}\n6\n".encode()
    for mode in ("plain", "sorted", "strict"):
        for first in FIRST_TEXTS:
            name = first if len(first) < 24 else f"long{len(first)}"
            yield f"first-is-{mode}-{name}", "w", f"lanes=1\nmode={mode}\nfirst={first}\n".encode()
            if first.startswith("42949672"):
                yield f"first-is-{mode}-{name}-value", "w", f"lanes=1\nmode={mode}\nfirst={first}\n4294967295\n".encode()


SHORT_LISTS = (
    (sorted_from(7), [6]), (sorted_from(7), [7]), (sorted_from(7), [7, 7, 6]), (sorted_from(0), [1, 0]), (sorted_from(LARGEST), [LARGEST - 1]),
    (sorted_from(LARGEST), [LARGEST, 0]), (strict_from(7), [6]), (strict_from(7), [7]), (strict_from(7), [8]), (strict_from(7), [8, 8]),
    (strict_from(7), [9, 8]), (strict_from(0), [0]), (strict_from(LARGEST - 1), [LARGEST - 1]), (strict_from(LARGEST - 1), [LARGEST, LARGEST]),
    (NONE, [LARGEST, 0]), (NONE, [LARGEST, LARGEST]), (NONE, [5, 5]), (NONE, [5, 4]), (PLAIN, [9, 1, LARGEST, 0]))


def orders():
    """The mode's order, the first value measured against the first number: 8."""
    for mode, values in SHORT_LISTS:
        yield f"order-{mode[0]}-{first_text(mode)}-{'-'.join(map(str, values))}", "w", text_of(1, mode, values)
    for lanes in (1, 4, 8):
        size = block_size(lanes)
        for place in (size - 1, size, size + 1, 4095):
            yield f"order-{lanes}-{place}", "w", text_of(lanes, sorted_from(6), [8] * place + [7])
        yield f"order-{lanes}-strict", "w", text_of(lanes, NONE, [*range(size), size - 1])


def which_first():
    """12 before 7 and 8, also for a fault in the last line; and 7 before 8."""
    front = text_of(1, sorted_from(3), [])
    for name, rest in (("7", b"3\n" * 4097), ("7-8-in-front", b"2\n" + b"3\n" * 4096),
                       ("7-8-in-the-middle", b"3\n" * 2000 + b"2\n" + b"3\n" * 2096), ("7-8-behind", b"3\n" * 4096 + b"2\n"),
                       ("8-at-4096", b"3\n" * 4095 + b"2\n"), ("8", b"4\n3\n")):
        yield f"first-{name}", "w", front + rest
        for what, last in (("zero", b"03\n"), ("open", b"3"), ("empty", b"\n"), ("large", b"4294967296\n")):
            yield f"first-{name}-12-{what}", "w", front + rest + last
    yield "first-12-after-32752", "w", front + b"3\n" * 32752 + b"03\n"
    yield "first-12-at-4097", "w", front + b"3\n" * 4096 + b"03\n" + b"3\n" * 4000
    yield "first-12-in-settings", "w", b"lanes=2\nmode=sorted\nfirst=3\n" + b"3\n" * 4096 + b"2\n"


def prefixes():
    """Each prefix of case 13's text. Those that end in byte 10 are sound from the `first=` line on, and all others are 12."""
    for end in range(len(CASE_13_TEXT) + 1):
        prefix = CASE_13_TEXT[:end]
        assert (text_to_list(prefix) != refused_line(12)) == (end >= 30 and prefix.endswith(b"\n"))
        yield f"prefix-{end}", "w", prefix


def file_of_size(size, lanes, mode, count, front):
    """A file of so many bytes, with `bytes` agreeing: this at the front of the body, and then zeros."""
    length = size - len(header_text(lanes, mode, count, size))
    file = header_text(lanes, mode, count, length) + front + bytes(length - len(front))
    assert len(file) == size
    return file


def file_limits():
    """Files of more bytes than any sound one has, up to 65,536, have their proper number, and a byte more is 12. (The largest body has
    16,512 bytes, so 5 does not arise in them.)"""
    sound_body = body_of(1, PLAIN, [LARGEST] * 4096)
    for size in (16574, 65536, 65537):
        for name, lanes, mode, count, front in (
                ("none", 1, PLAIN, 0, b""), ("many", 1, PLAIN, 4097, b""), ("sound", 1, PLAIN, 4096, sound_body), ("zeros", 8, NONE, 4096, b""),
                ("width", 4, PLAIN, 1, b"\x21"), ("least", 1, PLAIN, 32, b"\x20"), ("fill", 1, PLAIN, 1, b"\x01\x03"),
                ("order", 1, sorted_from(LARGEST), 1, b"\x01\x01")):
            yield f"size-{size}-{name}", "r", file_of_size(size, lanes, mode, count, front)
    full = file_of_size(65536, 1, PLAIN, 0, b"")
    yield "size-65537-of-65536", "r", full + b"\0"
    yield "size-65535-of-65536", "r", full[:-1]
    for byte in (0, 10, 48, 255):
        yield f"size-65536-byte-{byte}", "r", bytes([byte]) * 65536
        yield f"size-65537-byte-{byte}", "r", bytes([byte]) * 65537


def text_limits():
    """Texts of the bytes in their name: 65,536 are read, and a byte more is 12."""
    rising, plain = text_of(1, sorted_from(0), []), text_of(1, PLAIN, [])
    yield "text-65536-sorted", "w", rising + b"0\n" * 32754
    yield "text-65536-plain", "w", plain + b"0\n" * 32753
    yield "text-65536-order", "w", rising + b"1\n" + b"0\n" * 32753
    yield "text-65536-last", "w", rising + b"0\n" * 32752 + b"007\n"
    yield "text-65536-open", "w", rising + b"0\n" * 32753 + b"00"
    yield "text-65536-ten-digits", "w", plain + b"4294967295\n" * 5954 + b"0\n" * 6
    yield "text-65535", "w", plain + b"0\n" * 32751 + b"10\n"
    yield "text-65537", "w", rising + b"0\n" * 32753 + b"10\n"
    yield "text-65537-cut", "w", rising + b"0\n" * 32754 + b"0"
    yield "text-65538", "w", rising + b"0\n" * 32755
    yield "text-65538-plain", "w", plain + b"0\n" * 32754
    for byte in (0, 10, 48, 255):
        yield f"text-65536-byte-{byte}", "w", bytes([byte]) * 65536
        yield f"text-65537-byte-{byte}", "w", bytes([byte]) * 65537
    yield "text-65536-lanes", "w", b"lanes=1\n" * 8192


def read_line(name, lanes, mode, count, body):
    return name, "r", header_text(lanes, mode, count, len(body)) + body


def refusals():
    """Each number that reading a file can give, with `bytes` agreeing, in each lanes."""
    for lanes in (1, 4, 8):
        size = block_size(lanes)
        ones = [1] * size
        block, single = block_of(lanes, ones), block_of(lanes, [1] + [0] * (size - 1))
        yield read_line(f"read-7-{lanes}", lanes, PLAIN, 4097, block)
        yield read_line(f"read-7-empty-{lanes}", lanes, NONE, LARGEST, b"")
        yield read_line(f"read-5-no-width-{lanes}", lanes, PLAIN, size, b"")
        yield read_line(f"read-5-no-second-width-{lanes}", lanes, PLAIN, size + 1, block)
        yield read_line(f"read-2-{lanes}", lanes, PLAIN, size, b"\x21" + block[1:])
        yield read_line(f"read-2-alone-{lanes}", lanes, PLAIN, size, b"\xff")
        yield read_line(f"read-2-second-{lanes}", lanes, PLAIN, size + 1, block + b"\x21")
        yield read_line(f"read-5-payload-{lanes}", lanes, PLAIN, size, block[:-1])
        yield read_line(f"read-5-only-width-{lanes}", lanes, PLAIN, size, block[:1])
        yield read_line(f"read-5-second-payload-{lanes}", lanes, PLAIN, 2 * size, block + block[:-1])
        yield read_line(f"read-10-{lanes}", lanes, PLAIN, size - 1, block)
        yield read_line(f"read-10-second-{lanes}", lanes, PLAIN, size + 1, block + block)
        yield read_line(f"read-9-{lanes}", lanes, PLAIN, size, bytes([2]) + payload_of(lanes, 2, ones))
        yield read_line(f"read-9-zeros-{lanes}", lanes, NONE, 1, bytes([1]) + bytes(4 * lanes))
        yield read_line(f"read-8-{lanes}", lanes, sorted_from(LARGEST), size, block)
        yield read_line(f"read-8-second-{lanes}", lanes, sorted_from(LARGEST - size), size + 1, block + single)
        yield read_line(f"read-8-wraps-{lanes}", lanes, NONE, 2, body_of(lanes, NONE, [LARGEST, 0]))
        yield read_line(f"read-11-{lanes}", lanes, PLAIN, size, block + b"\0")
        yield read_line(f"read-11-count-0-{lanes}", lanes, PLAIN, 0, b"\0")


def which_first_reading():
    """ "then block by block 5 (no width byte), 2, 5, 10, 9, 8; at the end 11" """
    ones, wrong = block_of(1, [1] * 32), bytes([2]) + payload_of(1, 2, [1] * 32)
    high = sorted_from(LARGEST)
    yield read_line("read-7-before-5", 1, PLAIN, 4097, b"")
    yield read_line("read-7-before-2", 1, PLAIN, 4097, b"\x21")
    yield read_line("read-2-before-5", 1, PLAIN, 1, b"\x21")
    yield read_line("read-5-before-10", 1, PLAIN, 31, ones[:-1])
    yield read_line("read-10-before-9", 1, PLAIN, 31, wrong)
    yield read_line("read-10-before-8", 1, high, 31, ones)
    yield read_line("read-9-before-8", 1, high, 32, wrong)
    yield read_line("read-9-before-11", 1, PLAIN, 32, wrong + b"\0")
    yield read_line("read-8-before-11", 1, high, 32, ones + b"\0")
    yield read_line("read-8-before-no-block", 1, high, 33, ones)
    yield read_line("read-8-before-width", 1, high, 33, ones + b"\x21")
    yield read_line("read-9-before-width", 1, PLAIN, 33, wrong + b"\x21")
    yield read_line("read-9-before-fill", 1, PLAIN, 33, wrong + ones)
    for name, count, body in (("7", 4097, b""), ("5", 33, ones), ("2", 1, b"\x21"), ("10", 31, ones), ("9", 32, wrong), ("8", 32, ones),
                              ("11", 0, b"\0")):
        file = header_text(1, high, count, len(body)) + body
        yield f"read-12-before-{name}-more", "r", file + b"\0"
        yield f"read-12-before-{name}-header", "r", file.replace(b"lanes=1", b"lanes=2")


HEADER_CHANGES = (
    ("lanes-2", b"lanes=1", b"lanes=2"), ("lanes-01", b"lanes=1", b"lanes=01"), ("capital", b"mode", b"Mode"), ("sorted-none", b"plain", b"sorted"),
    ("plain-0", b"none", b"0"), ("strict-4294967295", b"plain\nfirst=none", b"strict\nfirst=4294967295"), ("count-03", b"count=3", b"count=03"),
    ("count-4294967295", b"count=3", b"count=4294967295"), ("count-4294967296", b"count=3", b"count=4294967296"),
    ("count-4294967299", b"count=3", b"count=4294967299"), ("bytes-8", b"bytes=9", b"bytes=8"), ("bytes-10", b"bytes=9", b"bytes=10"),
    ("bytes-long", b"bytes=9", b"bytes=18446744073709551625"), ("no-empty-line", b"\n\n", b"\n"), ("two-empty-lines", b"\n\n", b"\n\n\n"),
    ("crlf", b"\n", b"\r\n"), ("order", b"count=3\nbytes=9", b"bytes=9\ncount=3"), ("mark", b"lanes", b"\xef\xbb\xbflanes"))


def headers():
    """Some headers that are 12, empty inputs, and headers with no body. (files_check has the other headers.)"""
    yield "empty-read", "r", b""
    yield "empty-written", "w", b""
    yield "no-body", "r", header_text(1, PLAIN, 0, 0)
    yield "no-body-5", "r", header_text(1, PLAIN, 3, 0)
    yield "no-body-12", "r", header_text(1, PLAIN, 3, 9)
    for name, old, new in HEADER_CHANGES:
        yield f"header-{name}", "r", CASE_13_FILE.replace(old, new)
    yield "cut", "r", CASE_13_FILE[:-1]
    yield "cut-header", "r", CASE_13_FILE[:46]
    yield "longer", "r", CASE_13_FILE + b"\n"


def other_inputs():
    """What the programs write, given to the wrong one; and the line `refused=`."""
    yield "text-read", "r", CASE_13_TEXT
    yield "file-written", "w", CASE_13_FILE
    yield "empty-file-written", "w", header_text(1, PLAIN, 0, 0)
    yield "values-read", "r", b"1\n2\n3\n"
    yield "values-written", "w", b"1\n2\n3\n"
    for number in (7, 12):
        yield f"refused-{number}-read", "r", refused_line(number)
        yield f"refused-{number}-written", "w", refused_line(number)


TABLE = (edge, examples, sound, largest, counts, lines, labels, spellings, settings, orders, which_first, prefixes, text_limits, file_limits,
         refusals, which_first_reading, headers, other_inputs)


def cases():
    names = set()
    for section in TABLE:
        for name, letter, data in section():
            assert name not in names and " " not in name, name
            size = re.match("(?:text|size)-([0-9]{5})", name)
            assert size is None or len(data) == int(size[1]), name
            names.add(name)
            yield name, letter, data


def main():
    if sys.argv[1:] == ["examples"]:
        write_examples()
        return
    for name, letter, data in cases():
        if sys.argv[1:] == ["cases"]:
            words = pieces(data)
            assert input_of(words) == data
            print(" ".join([name, letter] + words))
        else:
            print(name, " ".join(answers(letter, data)))


if __name__ == "__main__":
    main()
