#!/usr/bin/env python3
"""The cases that the program lists_check is given, and what it must write, worked out from document 01.

    python3 checks/lists.py cases > crates/lists_check/stdin
    python3 checks/lists.py > crates/lists_check/stdout

The first part is the list calls as document 01 has them, and those on a part of a body. The second does with a case what the program does with it. The third is
the table of cases.
"""
import functools
import itertools
import sys

# ---- "Entries", "Bit layout", "Lists" and "Numbers of refusal" of document 01 ----

BOUND = 4294967296  # "All differences and sums are taken modulo 4,294,967,296."
LARGEST = BOUND - 1

# A mode is its name and its first number; None is strict's none.
PLAIN = ("plain", None)
NONE = ("strict", None)


def sorted_from(first):
    return ("sorted", first)


def strict_from(first):
    return ("strict", first)


def first_number(mode):
    """ "None stands for 4,294,967,295." """
    return LARGEST if mode[1] is None else mode[1]


def entry_of(mode, previous, value):
    if mode[0] == "plain":
        return value
    if mode[0] == "sorted":
        return (value - previous) % BOUND
    return (value - previous - 1) % BOUND


def value_of(mode, previous, entry):
    """ "Unpacking runs the same steps backward." """
    if mode[0] == "plain":
        return entry
    if mode[0] == "sorted":
        return (previous + entry) % BOUND
    return (previous + entry + 1) % BOUND


def entries_of(mode, values):
    """ "The previous value of the first is the first number." """
    return [entry_of(mode, previous, value) for previous, value in zip([first_number(mode)] + values, values)]


def least_width(entries):
    """ "Least width is the least n that the block fits", and it "fits n when every entry is below 2 to the power n". """
    greatest = max(entries)
    return next(n for n in range(33) if greatest < 2**n)


# "Entry k is in lane k mod L and row k div L." "Each lane is a string of 32n bits in n words. Bit j of row r is bit p = rn + j of its
# lane: word p div 32, bit p mod 32 of that word, bit 0 lowest." So a lane is one number: its digits in base 2 to the power n are the
# lane's entries, and those in base 2 to the power 32 its words.


def word_at(lanes, word, lane):
    """ "Word w of lane l starts at byte 4(wL + l), lowest byte first." """
    return slice(4 * (word * lanes + lane), 4 * (word * lanes + lane) + 4)


def payload_of(lanes, n, entries):
    payload = bytearray(4 * lanes * n)
    for lane in range(lanes):
        bits = sum(entry << n * row for row, entry in enumerate(entries[lane::lanes]))
        for word in range(n):
            payload[word_at(lanes, word, lane)] = (bits >> 32 * word & LARGEST).to_bytes(4, "little")
    return bytes(payload)


@functools.lru_cache(maxsize=4096)
def entries_in(lanes, n, payload):
    entries = [0] * (32 * lanes)
    for lane in range(lanes):
        words = [int.from_bytes(payload[word_at(lanes, word, lane)], "little") for word in range(n)]
        bits = sum(number << 32 * word for word, number in enumerate(words))
        entries[lane::lanes] = [bits >> n * row & 2**n - 1 for row in range(32)]
    return entries


def bound_on_first(mode):
    """ "Strict with none, and strict with 4,294,967,295, put no bound on the first." None is no bound. """
    return None if mode in (NONE, strict_from(LARGEST)) else mode[1]


def may_follow(mode, before, value):
    """ "In sorted mode each is at least the one before, in strict mode greater." "Plain has no order." """
    if mode[0] == "plain" or before is None:
        return True
    return before <= value if mode[0] == "sorted" else before < value


def in_order(mode, values):
    """ "The first is measured against the first number." """
    return all(may_follow(mode, before, value) for before, value in zip([bound_on_first(mode)] + values, values))


def block_of(lanes, entries):
    """ "Each is one byte, the least width of that block, then its payload." """
    n = least_width(entries)
    return bytes([n]) + payload_of(lanes, n, entries)


def body_of(lanes, mode, values):
    """ "A body holds ceil(count / B) blocks one after another." "The previous value of a block's first is the last value of the block
    before. The last block is filled up with entries of 0." """
    size = 32 * lanes
    entries = entries_of(mode, values)
    entries += [0] * (-len(entries) % size)
    return b"".join(block_of(lanes, entries[start:start + size]) for start in range(0, len(entries), size))


def write(lanes, mode, values, room):
    """The refusal, the length, and the bytes that are written. "Write a list: 1, 7, 8, 4." """
    if lanes not in (1, 4, 8):
        return 1, 0, b""
    if len(values) > 4096:
        return 7, 0, b""
    if not in_order(mode, values):
        return 8, 0, b""
    body = body_of(lanes, mode, values)
    if room < len(body):
        return 4, 0, b""
    return 0, len(body), body


def starting(mode):
    """The mode with which the first block is read: the list's, but for its bound."""
    return mode[0], bound_on_first(mode)


def past(mode, values):
    """The mode past some values: "the previous value of a block's first is the last value of the block before." """
    return mode if mode[0] == "plain" or not values else (mode[0], values[-1])


def frame(lanes, body):
    """The refusal, and how many bytes a block has. "5 (no width byte), 2, 5." """
    if lanes not in (1, 4, 8):
        return 1, 0
    if len(body) < 1:
        return 5, 0
    if body[0] > 32:
        return 2, 0
    if len(body) < 1 + 4 * lanes * body[0]:
        return 5, 0
    return 0, 1 + 4 * lanes * body[0]


def block_read(lanes, mode, left, body):
    """The refusal, the bytes of the block, and the values that it has of those that are left. "5 (no width byte), 2, 5, 10, 9, 8." """
    refusal, length = frame(lanes, body)
    if refusal != 0:
        return refusal, 0, []
    entries = entries_in(lanes, body[0], body[1:length])
    if any(entries[left:]):
        return 10, 0, []
    if body[0] != least_width(entries):
        return 9, 0, []
    values, previous, before = [], first_number(mode), mode[1]
    for entry in entries[:left]:
        previous = value_of(mode, previous, entry)
        if not may_follow(mode, before, previous):
            return 8, 0, []
        values.append(previous)
        before = previous
    return 0, length, values


def check_block(lanes, mode, left, body):
    """Where reading of one block stops: the refusal, the blocks taken, the place where they end, the values left, and the mode past them."""
    if lanes not in (1, 4, 8):
        return 1, 0, 0, 0, mode
    refusal, length, values = block_read(lanes, mode, left, body)
    return refusal, int(refusal == 0), length, left - len(values), past(mode, values)


def read_block(lanes, mode, left, body, room):
    """The refusal, how many values, and these. 1, 4; then 5, 2, 5, 10, 9, 8. """
    if lanes not in (1, 4, 8):
        return 1, 0, []
    if room < min(left, 32 * lanes):
        return 4, 0, []
    refusal, _, values = block_read(lanes, mode, left, body)
    return refusal, len(values), values


def check(lanes, mode, count, body):
    """Where reading stops. "1, 7, ..; then block by block 5 (no width byte), 2, 5, 10, 9, 8; at the end 11." """
    if lanes not in (1, 4, 8):
        return 1, 0, 0, 0, mode
    if count > 4096:
        return 7, 0, 0, 0, mode
    blocks, place, left, mode = 0, 0, count, starting(mode)
    while left > 0:
        refusal, _, length, left, mode = check_block(lanes, mode, left, body[place:])
        if refusal != 0:
            return refusal, blocks, place, left, mode
        blocks, place = blocks + 1, place + length
    return 11 if place < len(body) else 0, blocks, place, left, mode


def read(lanes, mode, count, body, room):
    """The refusal, the count, and the values that are written. "Read a list: 1, 7, 4; then block by block 5 (no width byte), 2, 5,
    10, 9, 8; at the end 11." """
    if lanes not in (1, 4, 8):
        return 1, 0, []
    if count > 4096:
        return 7, 0, []
    if room < count:
        return 4, 0, []
    values, mode = [], starting(mode)
    while len(values) < count:
        refusal, length, more = block_read(lanes, mode, count - len(values), body)
        if refusal != 0:
            return refusal, 0, []
        body, values, mode = body[length:], values + more, past(mode, more)
    if len(body) > 0:
        return 11, 0, []
    return 0, count, values


# ---- What the program does with a case ----
#
# A case is a line with its kind, a name and words. Behind it comes what the calls answer: the number of the refusal, the length, and the
# checksum of the output, which was full of marks before.

BYTES, BYTE_MARK = 16520, 165
VALUES, VALUE_MARK = 4104, 2863311530


def block_size(lanes):
    return {1: 32, 4: 128}.get(lanes, 256)


def noise(lanes, count):
    """Numbers of a small generator. Block b has the width (32 + 17b) mod 33, since its first number is the greatest of that width."""
    numbers, x = [], 1
    for k in range(count):
        x = (x * 1103515245 + 12345) % BOUND
        b, place = divmod(k, block_size(lanes))
        numbers.append((LARGEST if place == 0 else x) >> 32 - (32 + 17 * b) % 33)
    return numbers


def values_of(lanes, count, values):
    """`values=noise`, `values=rising`, or `values=5:2`, which begins with 5 and goes on by 2 and wraps."""
    if values == "noise":
        return noise(lanes, count)
    if values == "rising":
        return list(itertools.accumulate(number // 4096 + 1 for number in noise(lanes, count)))
    start, step = values
    return [(start + k * step) % BOUND for k in range(count)]


def put(items, *pairs):
    """`odd=7:0` and `next=7:0` put the value 0 at place 7, and `byte=7:0` and `then=7:0` the byte 0."""
    for place, item in filter(None, pairs):
        items[place] = item


def packed_body(lanes, packed, values, odd=None, next=None):
    """`packed=20:32` is the body of 32 entries, 20 by the rule of `values` and then zeros."""
    entries = values_of(lanes, packed[0], values) + [0] * (packed[1] - packed[0])
    put(entries, odd, next)
    return body_of(lanes, PLAIN, entries)


def checksum(items, total=0):
    """Each time 31 times the sum and the item, modulo 4294967296."""
    for item in items:
        total = (total * 31 + item) % BOUND
    return total


@functools.lru_cache
def sums_of_marks(mark, most):
    """The checksums of no mark, of one, and so on."""
    return list(itertools.accumulate([mark] * most, lambda total, item: checksum([item], total), initial=0))


def buffer_sum(front, mark, size):
    """The checksum of a buffer of so many marks, over whose front something was written."""
    marks = size - len(front)
    return (checksum(front) * pow(31, marks, BOUND) + sums_of_marks(mark, BYTES)[marks]) % BOUND


def shown(items, most=4):
    """A checksum, and the first items."""
    return ":".join([str(checksum(items))] + [",".join(str(item) for item in items[:most])] * bool(items))


def written(lanes, mode, values, room):
    """What writing answers, and the checksum of its whole output."""
    refusal, length, body = write(lanes, mode, values, room)
    return f"{refusal},{length},{buffer_sum(body, BYTE_MARK, room)}"


def was_read(lanes, mode, count, body, room):
    """What reading answers, the checksum of its whole output, and the values that were read."""
    refusal, length, values = read(lanes, mode, count, body, room)
    return f"{refusal},{length},{buffer_sum(values, VALUE_MARK, room)}:{shown(values)}"


def list_case(lanes, mode, count, values, odd=None, next=None):
    """A list is written and read back, each with room to spare, with just enough and with one too little."""
    values = values_of(lanes, count, values)
    put(values, odd, next)
    _, length, body = write(lanes, mode, values, BYTES)
    writes = [written(lanes, mode, values, room) for room in (BYTES, length, max(length - 1, 0))]
    reads = [was_read(lanes, mode, count, body, room) for room in (VALUES, count, max(count - 1, 0))]
    return [f"list={shown(values)}", f"write={';'.join(writes)}", f"body={body[:12].hex()}", f"read={';'.join(reads)}"]


def damaged_body(lanes, packed, values, end, odd=None, next=None, byte=None, then=None):
    """A body that may be wrong, up to its end."""
    bytes_there = bytearray(packed_body(lanes, packed, values, odd, next)) + bytes([BYTE_MARK])
    put(bytes_there, byte, then)
    return bytes(bytes_there[:end])


def body_case(lanes, mode, count, room=VALUES, **others):
    """A body that may be wrong is read with the lanes `as`."""
    lanes_given = others.pop("as")
    body = damaged_body(lanes, **others)
    return [f"body={checksum(body)}:{body[:12].hex()}", f"read={was_read(lanes_given, mode, count, body, room)}"]


def stop_of(refusal, blocks, place, left, mode):
    """Where reading stops, with the mode as `plain`, `sorted:5` or `strict:none`."""
    first = [] if mode[0] == "plain" else ["none" if mode[1] is None else str(mode[1])]
    return ",".join(str(number) for number in (refusal, blocks, place, left)) + "," + ":".join([mode[0]] + first)


def stop_case(lanes, mode, count, **others):
    """Such a body is checked with the lanes `as`."""
    lanes_given = others.pop("as")
    body = damaged_body(lanes, **others)
    return [f"body={checksum(body)}:{body[:12].hex()}", f"stop={stop_of(*check(lanes_given, mode, count, body))}"]


def part_case(lanes, mode, count, start, room=VALUES, **others):
    """Of such a body the block at `start` is framed, checked and read by itself, where so many values are left."""
    lanes_given = others.pop("as")
    body = damaged_body(lanes, **others)[start:]
    refusal, length, values = read_block(lanes_given, mode, count, body, room)
    return [
        f"body={checksum(body)}:{body[:12].hex()}",
        "frame={},{}".format(*frame(lanes_given, body)),
        f"stop={stop_of(*check_block(lanes_given, mode, count, body))}",
        f"read={refusal},{length},{buffer_sum(values, VALUE_MARK, room)}:{shown(values)}",
    ]


def change_case(lanes, mode, count, values):
    """One byte of a list's body is changed, in each bit and in all bits. How many are accepted, and are then the body of the list that is
    read, how many are refused with 1, and so on. (12 is for an accepted one that is not, and 13 for a refusal that changed the output.)"""
    body = body_of(lanes, mode, values_of(lanes, count, values))
    outcomes = [0] * 14
    for place in range(len(body)):
        for change in (1, 2, 4, 8, 16, 32, 64, 128, 255):
            changed = body[:place] + bytes([body[place] ^ change]) + body[place + 1:]
            refusal, _, back = read(lanes, mode, count, changed, VALUES)
            if refusal == 0 and body_of(lanes, mode, back) != changed:
                refusal = 12
            outcomes[refusal] += 1
    return [f"outcomes={shown(outcomes, 14)}"]


CASES = {"list": list_case, "body": body_case, "change": change_case, "stop": stop_case, "part": part_case}


# ---- The table of cases ----

LANES = (1, 4, 8)
MODES = (PLAIN, sorted_from(5), NONE, strict_from(7), strict_from(LARGEST))


def list_line(name, lanes, mode, count, values, **words):
    return "list", name, lanes, mode, dict(count=count, values=values, **words)


def body_line(name, lanes, mode, count, packed, values, **words):
    """A body of so many entries, filled up, is read with its own lanes and to its own end, unless the words say otherwise."""
    size = block_size(lanes)
    packed = (packed, -(-packed // size) * size)
    whole = len(packed_body(lanes, packed, values, words.get("odd"), words.get("next")))
    return "body", name, lanes, mode, {"as": lanes, "count": count, "packed": packed, "values": values, "end": whole, **words}


def edges():
    """ "Numbers at the edges", 8 to 12. """
    yield list_line("case8", 4, NONE, 3, (0, 1))
    for lanes in LANES:
        yield list_line("case8", lanes, NONE, 0, (0, 0))
        yield body_line("case8", lanes, NONE, 0, 1, (0, 0))
    for count, step in ((1, 0), (2, LARGEST)):
        yield list_line("case9", 1, PLAIN, count, (1, step))
        yield body_line("case9", 1, PLAIN, count, 1, (1, 0))
    yield body_line("case10", 1, PLAIN, 1, 2, (1, 0))
    yield body_line("case10", 1, PLAIN, 1, 1, (3, 0), byte=(1, 1))
    for lanes in LANES:
        yield list_line("case11", lanes, NONE, 2, (LARGEST, 1))
        yield body_line("case11", lanes, NONE, 2, 2, (LARGEST, 1))
        yield list_line("case12", lanes, strict_from(LARGEST - 1), 1, (LARGEST, 0))


def noise_for(mode):
    return "noise" if mode == PLAIN else "rising"


def counts():
    """Every count at which something changes, in every mode."""
    for lanes in LANES:
        size = block_size(lanes)
        for mode in MODES:
            for count in (0, 1, size - 1, size, size + 1, 4095, 4096, 4097):
                yield list_line("count", lanes, mode, count, noise_for(mode))


def zero_widths():
    """Blocks of width 0 over old values, filling, and equal values over the border of two blocks."""
    for lanes in LANES:
        size = block_size(lanes)
        for count in (size - 1, size + 1, 2 * size - 1):
            yield list_line("zero", lanes, PLAIN, count, (0, 0))
            yield list_line("zero", lanes, sorted_from(5), count, (5, 0))
            yield list_line("zero", lanes, NONE, count, (0, 1))
            yield list_line("fill", lanes, NONE, count, (1000, 1))


def order_lines(name, lanes, mode, count, start, step):
    """Values that go on by a step. Where they are not in order the body of their entries is read as well."""
    yield list_line(name, lanes, mode, count, (start, step))
    if not in_order(mode, values_of(lanes, count, (start, step))):
        first, others = entries_of(mode, [start, (start + step) % BOUND])
        yield body_line(name, lanes, mode, count, count, (others, 0), odd=(0, first))


def orders():
    """The order in whole numbers, of lists of one to three values."""
    ends = [(1, LARGEST, 0), (1, 0, 0), (2, 0, 0), (2, LARGEST, 1), (2, LARGEST, 0), (2, LARGEST - 1, 1), (2, LARGEST, LARGEST)]
    around = [(1, 6, 0), (1, 7, 0), (1, 8, 0), (3, 8, 0), (3, 8, 1), (2, 9, LARGEST)]
    for mode in (PLAIN, sorted_from(0), sorted_from(LARGEST), strict_from(0), strict_from(LARGEST - 1), strict_from(LARGEST)):
        for count, start, step in ends:
            yield from order_lines("order", 1, mode, count, start, step)
    for mode in (sorted_from(7), NONE, strict_from(7)):
        for count, start, step in ends + around:
            yield from order_lines("order", 1, mode, count, start, step)


def borders():
    """The value after a block is measured against the block's last, even where that is 4,294,967,295."""
    for lanes in LANES:
        size = block_size(lanes)
        for mode in (NONE, strict_from(LARGEST), strict_from(LARGEST - size)):
            for count in (size, size + 1, size + 2):
                yield from order_lines("border", lanes, mode, count, LARGEST - size + 1, 1)
        for mode in (sorted_from(5), sorted_from(LARGEST)):
            yield from order_lines("border", lanes, mode, size + 1, LARGEST, 0)
        for mode, step in ((sorted_from(5), 0), (NONE, 1), (strict_from(7), 1)):
            last = 100 + (size - 1) * step
            for value in (50, last - 1, last, last + 1):
                yield list_line("border", lanes, mode, size + 1, (100, step), odd=(size, value))


# Entry k of the bodies that follow is k. The last block has 20 values or what is said.
RISING = (0, 1)
PART = 20


def damaged(lanes, mode, entries, faults, breaking=LARGEST, **words):
    """The line of a body of so many entries with some faults, each at a block:

    none   the bytes end before the block's width     behind  they end behind its width     cut  they end one byte before its end
    33     the block's width byte is 33               wider   it is stored one bit wider than its least width
    first  its first entry breaks the order           last    the last of its entries that are the list's does
    fill   its first filling entry is 1               fills   its last filling entry is 1
    more   a byte follows the last block
    """
    size = block_size(lanes)
    packed = (entries, -(-entries // size) * size)
    odds, edits, end = [], [], None

    def body():
        return packed_body(lanes, packed, RISING, *odds)

    def start(block):
        """Where a block starts; the last one ends where another would start."""
        at = 0
        for _ in range(block):
            at += 1 + 4 * lanes * body()[at]
        return at

    for fault, block in faults:
        if fault == "first":
            odds.append((block * size, breaking))
        if fault == "last":
            odds.append((min((block + 1) * size, entries) - 1, breaking))
        if fault == "fill":
            odds.append((entries, 1))
        if fault == "fills":
            odds.append((packed[1] - 1, 1))
    # A wider block: its entry 1 has a bit more than all others, and then the payload loses that bit.
    for fault, block in faults:
        if fault == "wider":
            width = body()[start(block)]
            odds.append((block * size + 1, block * size + 1 + 2**width))
            lane, row = 1 % lanes, 1 // lanes
            word, bit = divmod((width + 1) * row + width, 32)
            place = start(block) + 1 + 4 * (word * lanes + lane) + bit // 8
            edits.append((place, body()[place] - 2**(bit % 8)))
    for fault, block in faults:
        if fault == "33":
            edits.append((start(block), 33))
        if fault == "none":
            end = start(block)
        if fault == "behind":
            end = start(block) + 1
        if fault == "cut":
            end = start(block + 1) - 1
        if fault == "more":
            end = start(block + 1) + 1
    words.update(zip(("odd", "next"), odds))
    words.update(zip(("byte", "then"), edits))
    if end is not None:
        words["end"] = end
    name = "-".join(f"{fault}@{block}" for fault, block in faults) or "sound"
    return body_line(name, lanes, mode, words.pop("count", entries), entries, RISING, **words)


def faults_at(block, mode, part):
    """Every fault that can stand in a block."""
    faults = ["none", "33", "cut", "wider"]
    faults += [] if mode == PLAIN else ["first", "last"]
    faults += ["fill", "fills"] if part else []
    return [[(fault, block)] for fault in faults] + [[("33", block), ("behind", block)]]


def single_faults():
    """Each refusal of reading in the first block, a middle one, the last full one and one that is not full."""
    for lanes in LANES:
        count = 3 * block_size(lanes) + PART
        for mode in (PLAIN, sorted_from(5), NONE):
            yield damaged(lanes, mode, count, [])
            for block in range(4):
                for faults in faults_at(block, mode, block == 3):
                    yield damaged(lanes, mode, count, faults)
            yield damaged(lanes, mode, count, [("more", 3)])


def other_ends():
    """Bodies that end in a full block, and in one with a single value and with a single filling entry."""
    for lanes in LANES:
        size = block_size(lanes)
        for faults in faults_at(2, NONE, False) + [[("more", 2)]]:
            yield damaged(lanes, strict_from(7), 3 * size, faults)
        for count, fault in ((2 * size + 1, "fill"), (2 * size + 1, "fills"), (3 * size - 1, "fill")):
            yield damaged(lanes, strict_from(7), count, [(fault, 2)])


def other_counts():
    """A body read as a list of more or fewer values than it has."""
    for lanes in LANES:
        size = block_size(lanes)
        full = 3 * size
        for mode in (sorted_from(5), NONE):
            for count in (0, 1, size, full, full + PART - 1, full + PART + 1, full + size, full + size + 1, 4096):
                yield damaged(lanes, mode, full + PART, [], count=count)


def pairs():
    """Two faults: the first that applies is given, block by block."""
    # With this first number an entry of 21 bits breaks the order, and a block that has it can still be wider.
    high, breaking = LARGEST - 400000, 2**20
    for lanes, mode in zip(LANES, (sorted_from(high), strict_from(high), strict_from(high))):
        count = 3 * block_size(lanes) + PART
        together = []
        inside = ("33", "cut", "fill", "wider", "last", "more")
        for k, one in enumerate(inside):
            together += [((one, 3), (other, 3)) for other in inside[k + 1:] if (one, other) != ("cut", "more")]
        for one, other in (("33", "cut"), ("33", "wider"), ("33", "last"), ("cut", "wider"), ("cut", "last"), ("wider", "last")):
            together.append(((one, 1), (other, 1)))
        for block in (0, 2):
            for one in ("33", "wider", "last"):
                others = ["none", "33", "cut", "wider", "first"] + ["fill"] * (block == 2)
                together += [((one, block), (other, block + 1)) for other in others] + [((one, block), ("more", 3))]
        for faults in together:
            yield damaged(lanes, mode, count, faults, breaking)


def whole_calls():
    """Lanes, count, room and order: which number comes first. A list that is refused is also written into no room."""
    for lanes, mode in zip(LANES, (PLAIN, sorted_from(5), NONE)):
        count = block_size(lanes) + PART
        for wrong in range(16):
            words = {"as": lanes + wrong // 8, "count": 4097 if wrong // 4 % 2 else count}
            if wrong // 2 % 2:
                words["room"] = count - 1
            yield damaged(lanes, mode, count, [("33", 0)] if wrong % 2 else [], **words)
    for lanes in LANES:
        for mode in (sorted_from(5), NONE):
            for wrong in range(8):
                count = 4097 if wrong // 2 % 2 else block_size(lanes) + PART
                words = {"odd": (count - 1, 0)} if wrong % 2 else {}
                yield list_line("wrong", lanes + wrong // 4, mode, count, "rising", **words)
    for lanes in (0, 2, 3, 5, 16, 2**64 - 1):
        yield list_line("lanes", lanes, sorted_from(5), 3, (5, 1))
        yield body_line("lanes", 4, sorted_from(5), 3, 3, (5, 1), **{"as": lanes})


def changes():
    """A body changed in one byte: blocks of several widths, and small steps that end at the largest number."""
    for lanes in LANES:
        count = block_size(lanes) * (3 if lanes == 1 else 1) + PART
        for mode in MODES:
            yield "change", "widths", lanes, mode, dict(count=count, values=noise_for(mode) if lanes < 8 else (100, 3))
        for mode in (sorted_from(LARGEST - 2 * count), NONE, strict_from(LARGEST - 2 * count)):
            yield "change", "steps", lanes, mode, dict(count=count, values=(LARGEST - 2 * (count - 1), 2))


def stop_line(line):
    """The body of a line, checked."""
    _, name, lanes, mode, words = line
    return "stop", name, lanes, mode, words


def stops():
    """Where reading stops: in the first block and in one that is not full, at the end, and with other counts and lanes."""
    for lanes, mode in zip(LANES, (sorted_from(5), NONE, strict_from(LARGEST))):
        size = block_size(lanes)
        full = 3 * size
        for faults in [[], [("more", 3)]] + [faults for block in (0, 3) for faults in faults_at(block, mode, block == 3)]:
            yield stop_line(damaged(lanes, mode, full + PART, faults))
        for count in (0, size, full, full + size + 1, 4096, 4097):
            yield stop_line(damaged(lanes, mode, full + PART, [], count=count))
        yield stop_line(damaged(lanes, mode, full + PART, [], **{"as": lanes + 1}))
        yield stop_line(damaged(lanes, mode, full + PART, [], count=4097, **{"as": lanes + 1}))
    yield stop_line(damaged(4, PLAIN, 3 * 128 + PART, [("cut", 2)]))


def part_line(line, block, **words):
    """A block of the body of a line, by itself."""
    _, name, lanes, mode, given = line
    body = packed_body(lanes, given["packed"], given["values"], given.get("odd"), given.get("next"))
    start = 0
    for _ in range(block):
        start += 1 + 4 * lanes * body[start]
    return "part", name, lanes, mode, {**given, "start": start, **words}


def parts():
    """A block by itself: every refusal of a full one and of one that is not full, other counts, and the value before it."""
    for lanes, mode in zip(LANES, (sorted_from(5), NONE, strict_from(7))):
        size = block_size(lanes)
        count = 3 * size + PART
        for faults in [[]] + faults_at(1, mode, False):
            yield part_line(damaged(lanes, mode, count, faults), 1, count=2 * size + PART)
        for faults in [[]] + faults_at(3, mode, True):
            yield part_line(damaged(lanes, mode, count, faults), 3, count=PART)
        for left in (0, 1, size - 1, size, 4097):
            yield part_line(damaged(lanes, mode, count, []), 1, count=left)
        for left in (0, PART - 1, PART + 1):
            yield part_line(damaged(lanes, mode, count, []), 3, count=left)
        for left, room in ((4097, size), (4097, size - 1), (PART, PART), (PART, PART - 1)):
            yield part_line(damaged(lanes, mode, count, []), 1 if left > size else 3, count=left, room=room)
        yield part_line(damaged(lanes, mode, count, [("33", 1)]), 1, room=size - 1)
        yield part_line(damaged(lanes, mode, count, [("33", 1)], **{"as": lanes + 1}), 1, room=size - 1)
        # A block of width 0, of which no value is left, or one.
        for left in (0, 1):
            yield part_line(body_line("zero", lanes, mode, left, 1, (0, 0)), 0)
        # 4,294,967,295 before a block is a bound like any other, and none is not.
        for before in (PLAIN, sorted_from(LARGEST), strict_from(LARGEST), NONE):
            yield part_line(damaged(lanes, before, count, []), 1, count=2 * size)


TABLE = (edges, counts, zero_widths, orders, borders, single_faults, other_ends, other_counts, pairs, whole_calls, changes, stops, parts)


def text_of(kind, name, lanes, mode, words):
    """The line of a case. The first letters of its words tell them apart."""
    given = {"lanes": lanes, "mode": mode[0]}
    if mode != PLAIN:
        given["first"] = "none" if mode == NONE else mode[1]
    for word, value in words.items():
        given[word] = f"{value[0]}:{value[1]}" if isinstance(value, tuple) else value
    return " ".join([kind, name] + [f"{word}={value}" for word, value in given.items()])


def main():
    for section in TABLE:
        print("#", section.__doc__.strip())
        for kind, name, lanes, mode, words in section():
            line = text_of(kind, name, lanes, mode, words)
            if sys.argv[1:] != ["cases"]:
                line = " ".join([line] + CASES[kind](lanes, mode, **words))
            print(line)


if __name__ == "__main__":
    main()
