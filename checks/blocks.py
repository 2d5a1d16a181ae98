#!/usr/bin/env python3
"""The cases that the program blocks_check is given, and what it must write, worked out from document 01 bit by bit.

    python3 checks/blocks.py cases > crates/blocks_check/stdin
    python3 checks/blocks.py > crates/blocks_check/stdout

The first part is the block calls as document 01 has them. The second builds the inputs that the program builds. The third does with a
case what the program does with it. The fourth is the table of cases.
"""
import sys

# ---- "Words", "Entries", "Bit layout", "Block calls" and "Numbers of refusal" of document 01 ----

BOUND = 4294967296  # "All differences and sums are taken modulo 4,294,967,296."
LARGEST = BOUND - 1

# A mode is its name and its first number; None is strict's none.
PLAIN = ("plain", 0)
NONE = ("strict", None)


def sorted_from(first):
    return ("sorted", first)


def strict_from(first):
    return ("strict", first)


def first_number(mode):
    """ "None stands for 4,294,967,295." """
    return LARGEST if mode == NONE else mode[1]


def entry_of(mode, previous, value):
    if mode[0] == "plain":
        return value
    if mode[0] == "sorted":
        return (value - previous) % BOUND
    return (value - previous - 1) % BOUND


def value_of(mode, previous, entry):
    """ "Unpacking runs the same steps backward." """
    if mode[0] == "plain":
        return entry
    if mode[0] == "sorted":
        return (previous + entry) % BOUND
    return (previous + entry + 1) % BOUND


def entries_of(mode, values):
    previous = [first_number(mode)] + values[:-1]
    return [entry_of(mode, p, v) for p, v in zip(previous, values)]


def values_of(mode, entries):
    values, previous = [], first_number(mode)
    for entry in entries:
        previous = value_of(mode, previous, entry)
        values.append(previous)
    return values


def fits(entries, n):
    """ "A block fits n when every entry is below 2 to the power n." """
    return all(entry < 2**n for entry in entries)


def least_width(entries):
    """ "Least width is the least n that the block fits." """
    return next(n for n in range(33) if fits(entries, n))


def place_of(lanes, n, k, j):
    """Where bit j of entry k stands: the byte, and the bit of that byte."""
    lane, row = k % lanes, k // lanes
    p = row * n + j
    word, bit = p // 32, p % 32
    return 4 * (word * lanes + lane) + bit // 8, bit % 8


def payload_of(lanes, n, entries):
    payload = [0] * (4 * lanes * n)
    for k, entry in enumerate(entries):
        for j in range(n):
            byte, bit = place_of(lanes, n, k, j)
            payload[byte] |= (entry >> j & 1) << bit
    return payload


def entries_in(lanes, n, payload):
    entries = [0] * (32 * lanes)
    for k in range(32 * lanes):
        for j in range(n):
            byte, bit = place_of(lanes, n, k, j)
            entries[k] |= (payload[byte] >> bit & 1) << j
    return entries


def size(lanes, n):
    """The refusal and the length. "Payload size: 1, 2." """
    if lanes not in (1, 4, 8):
        return 1, 0
    if n > 32:
        return 2, 0
    return 0, 4 * lanes * n


def pack(lanes, mode, values, room, n):
    """The refusal, the length, and the bytes that are written. "Pack: 1, 2, 3, 4, 6." """
    if lanes not in (1, 4, 8):
        return 1, 0, []
    if n > 32:
        return 2, 0, []
    if len(values) != 32 * lanes:
        return 3, 0, []
    if room < 4 * lanes * n:
        return 4, 0, []
    if not fits(entries_of(mode, values), n):
        return 6, 0, []
    return 0, 4 * lanes * n, payload_of(lanes, n, entries_of(mode, values))


def unpack(lanes, mode, data, room, n):
    """The refusal, the length, and the values that are written. "Unpack: 1, 2, 4, 5." """
    if lanes not in (1, 4, 8):
        return 1, 0, []
    if n > 32:
        return 2, 0, []
    if room < 32 * lanes:
        return 4, 0, []
    if len(data) < 4 * lanes * n:
        return 5, 0, []
    return 0, 4 * lanes * n, values_of(mode, entries_in(lanes, n, data))


def least(lanes, mode, values):
    """The refusal and the width. "Width: 1, 3." """
    if lanes not in (1, 4, 8):
        return 1, 0
    if len(values) != 32 * lanes:
        return 3, 0
    return 0, least_width(entries_of(mode, values))


# ---- The inputs, and what a buffer holds after a call ----

BYTES, BYTE_MARK = 1040, 165
VALUES, VALUE_MARK = 264, 2863311530


def noise(seed):
    """Bytes of a small generator."""
    data, x = [], seed
    for _ in range(BYTES):
        x = (x * 1103515245 + 12345) % BOUND
        data.append(x // 65536 % 256)
    return data


def one_entry(mode, place, entry):
    """Values whose entries are all 0, but for the one at a place."""
    return values_of(mode, [entry if k == place else 0 for k in range(VALUES)])


def checksum(buffer):
    total = 0
    for x in buffer:
        total = (total * 31 + x) % BOUND
    return total


def kept(buffer, mark):
    """How many marks there are at the end."""
    end = len(buffer)
    while end > 0 and buffer[end - 1] == mark:
        end -= 1
    return len(buffer) - end


def bytes_words(written):
    """A buffer full of marks, over whose front the bytes were written."""
    buffer = written + [BYTE_MARK] * (BYTES - len(written))
    return [("bytes_kept", kept(buffer, BYTE_MARK)), ("bytes_sum", checksum(buffer))]


def values_words(written):
    """A buffer full of marks, over whose front the values were written."""
    buffer = written + [VALUE_MARK] * (VALUES - len(written))
    return [("values_kept", kept(buffer, VALUE_MARK)), ("values_sum", checksum(buffer))]


def same(given, back):
    return sum(a == b for a, b in zip(given, back))


# ---- What the program does with a case ----
#
# A case is a line with a label and words. Behind them comes what was answered.


def answer(name, refusal, answered, *_):
    return (name, f"{refusal},{answered}")


def all_calls(lanes, mode, place, entry, values, bytes, width):
    """All four calls, between so many values and so many bytes."""
    given = one_entry(mode, place, entry)[:values]
    packed = pack(lanes, mode, given, bytes, width)
    unpacked = unpack(lanes, mode, noise(7)[:bytes], values, width)
    return [answer("size", *size(lanes, width)), answer("pack", *packed), *bytes_words(packed[2]),
            answer("unpack", *unpacked), *values_words(unpacked[2]), answer("least", *least(lanes, mode, given))]


def given_values(values, given, step):
    """So many values: those that are given, and then values that go on by a step."""
    given = given[:values]
    return given + [(given[-1] + k * step) % BOUND for k in range(1, values - len(given) + 1)]


def there_and_back(lanes, mode, width, values, given, step):
    """A block's payload, and how many of its values come back."""
    block = given_values(values, given, step)
    packed = pack(lanes, mode, block, BYTES, width)
    unpacked = unpack(lanes, mode, packed[2], VALUES, width)
    words = [answer("least", *least(lanes, mode, block)), ("width", width), answer("pack", *packed), answer("unpack", *unpacked),
             ("back", same(block, unpacked[2]))]
    return words, packed[2]


def back_payload(**words):
    """With the payload in hex."""
    words, payload = there_and_back(**words)
    return words + [("payload", bytes(payload).hex())]


def back_bytes(**words):
    """With the payload's bytes that are not 0."""
    words, payload = there_and_back(**words)
    return words + [(f"byte{i}", f"{byte:02x}") for i, byte in enumerate(payload) if byte != 0]


def back_kept(given, step, **words):
    """With what the whole output holds, and how the values go on."""
    words, payload = there_and_back(given=given, step=step, **words)
    return words + bytes_words(payload) + [("start", given[0]), ("step", step)]


def width_zero(lanes, mode, width, values):
    """No bytes at width 0 are a block, and that block packs to no bytes."""
    unpacked = unpack(lanes, mode, [], VALUES, width)
    block = unpacked[2]
    assert len(block) == values
    packed = pack(lanes, mode, block, 0, width)
    return [answer("unpack", *unpacked), *values_words(block), ("value0", block[0]), ("value1", block[1]), ("value2", block[2]),
            ("last", block[-1]), answer("pack", *packed), *bytes_words(packed[2])]


def trip(lanes, mode, width, values):
    """Any bytes unpack to a block, and that block packs to the same bytes."""
    data = noise(width)[:4 * lanes * width]
    unpacked = unpack(lanes, mode, data, VALUES, width)
    block = unpacked[2]
    assert len(block) == values
    packed = pack(lanes, mode, block, BYTES, width)
    return [answer("size", *size(lanes, width)), answer("unpack", *unpacked), *values_words(block),
            answer("least", *least(lanes, mode, block)), answer("pack", *packed), ("back", same(data, packed[2]))]


# The kinds of cases, and the words behind the mode that are not shown.
KINDS = {
    "calls": (all_calls, ()),
    "payload": (back_payload, ("width", "values", "given", "step")),
    "bytes": (back_bytes, ("width", "values", "given", "step")),
    "kept": (back_kept, ("width", "values", "given", "step")),
    "zero": (width_zero, ("width", "values")),
    "trip": (trip, ("values",)),
}


def text_of(label, words):
    """A label and words. The first letters of the words tell them apart."""
    given = dict(words)
    if "mode" in given:
        mode = given.pop("mode")
        given = {"lanes": given.pop("lanes"), "mode": mode[0], **({} if mode == PLAIN else {"first": "none" if mode == NONE else mode[1]}), **given}
    if "given" in given:
        given["given"] = ",".join(str(value) for value in given["given"])
    return " ".join([label] + [f"{name}={value}" for name, value in given.items()])


def line_of(kind, label, words):
    """The line that the program writes."""
    call, hidden = KINDS[kind]
    shown = text_of(label, {name: value for name, value in words.items() if name not in hidden})
    return " ".join([shown] + [f"{name}={value}" for name, value in call(**words)])


def case_of(kind, label, words):
    """The line that it is given."""
    hidden = KINDS[kind][1]
    shown = text_of(label, {name: value for name, value in words.items() if name not in hidden})
    return shown + ": " + text_of(kind, {name: words[name] for name in hidden})


# ---- The table of cases: a kind, a label, and words ----

# The long examples in the comments of the Rust's src/lib.rs.
EXAMPLE_1 = """
  7   7   7   7  11  10  15  13   6   5   3  14   5   7  15  12
  1  10   8  10  12  14  13   1  10   1   1  10   4  15  12   1
  2   0   8   5  14   5   2   4   1   6  14  13   5  10  10   1
  6   4   1  12   1   1   5  15  15   2   8   6   4   3  10   8
  8   9   2   6  10   5   7   9   0  13  15   5  13  10   0   2
 10  14   5   9  12   8   5  10   8   8  10   5  13   8  11  14
  7  14   4   2   9  12  14   5  15  12   0  12  13   3  13   5
  4  15   9   8   9   3   3   3   1  12   0   6  11  11  12   4
"""

EXAMPLE_2 = """
  0   5   6   8  12  21  30  38  46  52  59  61  62  62  71  71
 73  74  76  77  80  87  96  99 105 114 119 121 128 133 138 145
152 161 161 166 175 176 180 186 189 193 202 211 220 224 229 238
247 255 261 267 267 268 269 269 270 271 279 283 285 291 297 303
305 309 310 315 316 316 321 324 329 337 339 342 350 355 364 373
382 386 392 400 408 414 423 431 433 436 441 444 445 454 463 463
465 472 474 477 480 488 493 496 501 503 509 515 519 526 526 532
539 542 542 542 549 557 565 566 573 578 580 581 585 588 588 591
"""


def calls(label, lanes, mode, place, entry, values, bytes, width):
    return "calls", label, dict(lanes=lanes, mode=mode, place=place, entry=entry, values=values, bytes=bytes, width=width)


def back(kind, label, lanes, mode, width, given, step=0):
    return kind, label, dict(lanes=lanes, mode=mode, width=width, values=32 * lanes, given=given, step=step)


def zero(label, lanes, mode):
    return "zero", label, dict(lanes=lanes, mode=mode, width=0, values=32 * lanes)


def examples():
    for label, mode, text in (("example1", PLAIN, EXAMPLE_1), ("example2", sorted_from(0), EXAMPLE_2)):
        yield back("payload", label, 4, mode, 4, [int(number) for number in text.split()])


def starred():
    """The starred cases 1 to 5."""
    yield back("bytes", "case1", 1, PLAIN, 2, [1, 2, 3, 0])
    yield back("bytes", "case2", 4, PLAIN, 1, [0, 1, 0])
    yield back("bytes", "case2", 4, PLAIN, 1, [0, 0, 0, 0, 1, 0])
    yield back("bytes", "case3", 1, PLAIN, 31, [0, 3, 0])
    yield back("bytes", "case4", 8, PLAIN, 32, [0] * 9 + [0x01020304, 0])
    for lanes in (1, 4, 8):
        yield back("bytes", "case5", lanes, NONE, 0, [0], 1)
        yield back("bytes", "case5", lanes, sorted_from(5), 32, [3])


def other_lanes(mode, n):
    """Lanes that are not 1, 4 or 8."""
    for lanes, values in ((0, 0), (2, 64), (3, 96), (5, 160), (16, VALUES), (2**64 - 1, VALUES)):
        yield calls("lanes", lanes, mode, 9, 3, values, BYTES, n)


def faults(lanes, mode):
    """Every set of faults: 16 for the lanes, 8 for the width, 4 for the values, 2 for the bytes, 1 for an entry."""
    for s in range(32):
        yield calls("fault", lanes + s // 16, mode, 9, 3 + s % 2, 32 * lanes - s // 4 % 2, 8 * lanes - s // 2 % 2, 2 + 31 * (s // 8 % 2))


def limits(lanes, mode):
    block, exact = 32 * lanes, 8 * lanes
    for n in (0, 1, 31, 32, 33, LARGEST):
        yield calls("width", lanes, mode, 9, 3, block, BYTES, n)
    for values in (0, block - 1, block, block + 1):
        for data in (0, exact - 1, exact, exact + 1):
            yield calls("length", lanes, mode, 9, 3, values, data, 2)
    for values in (0, block - 1, block, block + 1):
        yield calls("length", lanes, mode, 9, 0, values, 0, 0)
    for entry, n in ((3, 2), (4, 2), (0, 0), (1, 0), (LARGEST, 32), (LARGEST, 33)):
        yield calls("edge7", lanes, mode, 9, entry, block, BYTES, n)
    for n in (1, 17, 32):
        for place in (0, block // 2, block - 1):
            yield calls("wide", lanes, mode, place, 2 ** (n - 1), block, BYTES, n)
            yield calls("wide", lanes, mode, place, 2 ** (n - 1), block, BYTES, n - 1)


def wraps(lanes, mode):
    """Values that rise past the largest, that fall, and that stay, at their least width."""
    for start, step in ((BOUND - 16, 3), (10, BOUND - 7), (5, 0)):
        n = least_width(entries_of(mode, given_values(32 * lanes, [start], step)))
        yield back("kept", "wrap", lanes, mode, n, [start], step)


def all_cases(lanes):
    yield zero("case6", lanes, strict_from(LARGEST - 1))
    for mode in (PLAIN, sorted_from(5), NONE):
        yield from limits(lanes, mode)
    for mode in (PLAIN, sorted_from(5), sorted_from(LARGEST), NONE, strict_from(LARGEST), strict_from(7)):
        yield zero("zero", lanes, mode)
    for mode in (sorted_from(5), sorted_from(LARGEST - 5), NONE, strict_from(LARGEST), strict_from(LARGEST - 1)):
        yield from wraps(lanes, mode)
    for mode in (PLAIN, sorted_from(5), sorted_from(LARGEST), NONE, strict_from(7)):
        for n in range(33):
            yield "trip", "trip", dict(lanes=lanes, mode=mode, width=n, values=32 * lanes)


def table():
    yield from examples()
    yield from starred()
    yield from other_lanes(PLAIN, 2)
    yield from other_lanes(PLAIN, LARGEST)
    yield from other_lanes(sorted_from(5), 2)
    yield from other_lanes(NONE, 2)
    yield from faults(1, PLAIN)
    yield from faults(4, sorted_from(5))
    yield from faults(8, NONE)
    for lanes in (1, 4, 8):
        yield from all_cases(lanes)


def main():
    shown = case_of if sys.argv[1:] == ["cases"] else line_of
    for case in table():
        print(shown(*case))


if __name__ == "__main__":
    main()
