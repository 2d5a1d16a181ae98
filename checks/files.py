#!/usr/bin/env python3
"""The files that the program files_check is given, and what it must write, worked out from document 01.

    python3 checks/files.py cases > crates/files_check/stdin
    python3 checks/files.py > crates/files_check/stdout

The first part is "List file" of document 01, with the list calls of checks/lists.py. The second does with a file what the program does
with it. The third is the table of files.
"""
import re
import sys

from lists import BOUND, LARGEST, NONE, PLAIN, body_of, checksum, read, sorted_from, strict_from, write

# ---- "List file" of document 01 ----


def first_text(mode):
    """ "`first` is `none` for plain, a number for sorted, and `none` or a number up to 4,294,967,294 for strict; strict with
    4,294,967,295 is written `none`." """
    if mode[0] == "plain" or mode[1] is None or (mode[0] == "strict" and mode[1] == LARGEST):
        return "none"
    return str(mode[1])


def header_text(lanes, mode, count, size):
    """ "Five lines, then an empty line, then the body. Each line ends in byte 10." """
    return f"lanes={lanes}\nmode={mode[0]}\nfirst={first_text(mode)}\ncount={count}\nbytes={size}\n\n".encode()


def file_of(lanes, mode, values):
    body = body_of(lanes, mode, values)
    return header_text(lanes, mode, len(values), len(body)) + body


# a number of more than ten digits is over 4,294,967,295
NUMBER = "(0|[1-9][0-9]{0,9})"
HEADER = re.compile(f"lanes=([148])\nmode=(plain|sorted|strict)\nfirst=(none|0|[1-9][0-9]{{0,9}})\ncount={NUMBER}\nbytes={NUMBER}\n\n".encode())


def header_of(file):
    """Lanes, mode, count, bytes and the body; None where it is 12."""
    found = HEADER.match(file)
    if not found:
        return None
    lanes, name, first, count, size = found.groups()
    name, body = name.decode(), file[found.end():]
    number = None if first == b"none" else int(first)
    if (name == "plain" and number is not None) or (name == "sorted" and number is None):
        return None
    if number is not None and number > (LARGEST if name == "sorted" else LARGEST - 1):
        return None
    if int(count) > LARGEST or int(size) != len(body):
        return None
    return int(lanes), (name, number), int(count), int(size), body


def read_file(file, room):
    """ "Read a file: 12, then as a list." """
    header = header_of(file)
    if header is None:
        return 12, 0, []
    lanes, mode, count, _, body = header
    return read(lanes, mode, count, body, room)


def write_file(lanes, mode, values, room):
    """ "Write a file: 1, 7, 8, 4, with room for header and body." """
    refusal, _, _ = write(lanes, mode, values, BOUND)
    if refusal != 0:
        return refusal, 0, b""
    file = file_of(lanes, mode, values)
    return (4, 0, b"") if room < len(file) else (0, len(file), file)


# ---- What the program does with a file ----
#
# It writes the name of the case, and what the calls answer: the number of the refusal, the length, and the checksum of the output, which
# was full of marks before.

BYTES, BYTE_MARK = 20000, 165
VALUES, VALUE_MARK = 4104, 2863311530


def marked(front, mark, size):
    return checksum(list(front) + [mark] * (size - len(front)))


def answered(answer, mark, size):
    return f"{answer[0]},{answer[1]},{marked(answer[2], mark, size)}"


def mode_numbers(mode):
    kind = {"plain": 0, "sorted": 1, "strict": 2}[mode[0]] + (mode[0] == "strict" and mode[1] is not None)
    return f"{kind},{mode[1] or 0}"


def answers(file):
    header = header_of(file)
    if header is None:
        yield "header=12,0,0,0,0,0"
        yield "body=0,0"
    else:
        lanes, mode, count, size, body = header
        yield f"header=0,{lanes},{mode_numbers(mode)},{count},{size}"
        yield f"body={len(body)},{checksum(body)}"
    was_read = read_file(file, VALUES)
    yield "read=" + answered(was_read, VALUE_MARK, VALUES)
    if was_read[1] > 0:
        room = was_read[1] - 1
        yield "narrow=" + answered(read_file(file, room), VALUE_MARK, room)
    if header is not None:
        values = was_read[2]
        for word, room in (("again", BYTES), ("exact", len(file)), ("short", len(file) - 1)):
            yield f"{word}=" + answered(write_file(lanes, mode, values, room), BYTE_MARK, room)
        yield "two=" + answered(write_file(2, mode, values, BYTES), BYTE_MARK, BYTES)
        yield "many=" + answered(write_file(lanes, PLAIN, [VALUE_MARK] * VALUES, BYTES), BYTE_MARK, BYTES)
        yield "last=" + answered(write_file(lanes, strict_from(LARGEST), values, BYTES), BYTE_MARK, BYTES)


# ---- The table ----


def edge():
    """Case 13, and it is 56 bytes."""
    file = b"lanes=1\nmode=plain\nfirst=none\ncount=3\nbytes=9\n\n" + bytes([2, 0x39, 0, 0, 0, 0, 0, 0, 0])
    assert len(file) == 56 and file == file_of(1, PLAIN, [1, 2, 3])
    yield "case13", file


def sound():
    """Files as our writer makes them: each lanes and mode, no values, one, and some."""
    for lanes in (1, 4, 8):
        for mode in (PLAIN, sorted_from(0), sorted_from(LARGEST - 5), NONE, strict_from(0), strict_from(4294967290), strict_from(LARGEST)):
            start = 0 if mode[1] is None or mode[1] == LARGEST else min(mode[1] + 1, LARGEST)
            for count in (0, 1, 3, 33):
                values = [min(start + 3 * k, LARGEST) for k in range(count)]
                if mode[0] == "strict":
                    values = [v for k, v in enumerate(values) if k == 0 or v > values[k - 1]]
                yield f"sound-{lanes}-{mode[0]}-{mode[1]}-{count}", file_of(lanes, mode, values)
    yield "sound-4096", file_of(8, sorted_from(7), [7 + (k * k) % 5 + 9 * k for k in range(4096)])


BODY = bytes([2, 0x39, 0, 0, 0, 0, 0, 0, 0])
LINES = [b"lanes=1\n", b"mode=plain\n", b"first=none\n", b"count=3\n", b"bytes=9\n", b"\n"]


def with_line(place, line):
    return b"".join(LINES[:place] + [line] + LINES[place + 1:]) + BODY


def lines():
    """Lines that are missing, doubled, out of order, or another."""
    names = ("lanes", "mode", "first", "count", "bytes", "empty")
    for i, name in enumerate(names):
        yield f"missing-{name}", with_line(i, b"")
        yield f"doubled-{name}", with_line(i, LINES[i] * 2)
        yield f"crlf-{name}", with_line(i, LINES[i][:-1] + b"\r\n")
        yield f"nul-{name}", with_line(i, LINES[i][:-1] + b"\0\n")
        yield f"open-{name}", with_line(i, LINES[i][:-1])
        if i < 5:
            label, value = LINES[i][:-1].split(b"=")
            yield f"capital-{name}", with_line(i, LINES[i].capitalize())
            yield f"blank-before-{name}", with_line(i, label + b"= " + value + b"\n")
            yield f"blank-behind-{name}", with_line(i, label + b"=" + value + b" \n")
            yield f"blank-first-{name}", with_line(i, b" " + LINES[i])
            yield f"no-value-{name}", with_line(i, label + b"=\n")
            yield f"colon-{name}", with_line(i, label + b":" + value + b"\n")
        for j in range(i + 1, 6):
            swapped = LINES[:]
            swapped[i], swapped[j] = swapped[j], swapped[i]
            yield f"swapped-{name}-{names[j]}", b"".join(swapped) + BODY


def numbers():
    """Numbers with a leading zero or a sign, at and past 4,294,967,295, and very long ones."""
    for name, place in (("lanes", 0), ("count", 3), ("bytes", 4)):
        for text in ("0", "00", "01", "03", "09", "+1", "+3", "+9", "-3", "3.0", "0x3", "3", "4", "8", "9", "10", "2", "16", "4294967295", "4294967296",
                     "4294967297", "4294967299", "4294967305", "9999999999", "18446744073709551616", "18446744073709551617",
                     "18446744073709551619", "18446744073709551625", "9" * 20):
            yield f"{name}-is-{text}", with_line(place, f"{name}={text}\n".encode())
    for name, place in (("lanes", 0), ("count", 3), ("bytes", 4)):
        yield f"{name}-is-long", with_line(place, f"{name}={'9' * 3000}\n".encode())
        yield f"{name}-is-zeros", with_line(place, f"{name}={'0' * 300}{LINES[place][6:7].decode()}\n".encode())
    yield "count-4097", with_line(3, b"count=4097\n")
    yield "count-4097-bytes-wrong", with_line(3, b"count=4097\n").replace(b"bytes=9", b"bytes=8")


def firsts():
    """Each `first` with each mode."""
    for mode in ("plain", "sorted", "strict", "Plain", "Sorted", "Strict", "sort", "strictly", ""):
        for first in ("none", "0", "5", "05", "+5", " 5", "5 ", "4294967293", "4294967294", "4294967295", "4294967296", "4294967301", "9" * 20,
                      "18446744073709551621", "None", "NONE", "non", "nonee", "-1", ""):
            yield f"first-{mode}-{first.replace(' ', '_')}", f"lanes=4\nmode={mode}\nfirst={first}\ncount=0\nbytes=0\n\n".encode()


def long_firsts():
    """A first number of 3,000 digits."""
    for mode in ("sorted", "strict"):
        for first in ("9" * 3000, "0" * 300 + "5"):
            yield f"first-{mode}-long-{first[0]}", f"lanes=4\nmode={mode}\nfirst={first}\ncount=0\nbytes=0\n\n".encode()


def bodies():
    """`bytes` off by one, a body cut or longer, and bodies that a list refuses."""
    case = b"".join(LINES)
    for name, change in (("less", b"bytes=8"), ("more", b"bytes=10"), ("none", b"bytes=0")):
        yield f"bytes-{name}", case.replace(b"bytes=9", change) + BODY
    for end in range(len(BODY)):
        yield f"cut-{end}", case + BODY[:end]
    yield "longer", case + BODY + b"\0"
    for name, body in (("width-33", b"\x21" + BODY[1:]), ("not-least", b"\x03" + bytes(12)), ("fill", b"\x02\x39\xff" + bytes(6)), ("left", BODY + b"\0"), ("short", BODY[:8])):
        yield f"body-{name}", header_text(1, PLAIN, 3, len(body)) + body
    yield "body-order", header_text(1, strict_from(5), 1, 129) + bytes([32]) + b"\xff" * 4 + bytes(124)


def prefixes():
    """Each prefix of the header, and an empty file."""
    for name, file in (("some", b"".join(LINES)), ("none", header_text(8, sorted_from(10), 0, 0))):
        for end in range(len(file) + 1):
            yield f"prefix-{name}-{end}", file[:end]
    yield "blank-empty", with_line(5, b" \n")
    yield "crlf-all", b"".join(LINES).replace(b"\n", b"\r\n") + BODY


TABLE = (edge, sound, lines, numbers, firsts, long_firsts, bodies, prefixes)


def main():
    for section in TABLE:
        for name, file in section():
            if sys.argv[1:] == ["cases"]:
                print(name, file.hex())
            else:
                print(name, " ".join(answers(file)))


if __name__ == "__main__":
    main()
