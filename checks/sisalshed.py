#!/usr/bin/env python3
"""The cases that the program sisalshed_check is given, and what it must write, worked out from document 01.

    python3 checks/sisalshed.py cases > crates/sisalshed_check/stdin
    python3 checks/sisalshed.py > crates/sisalshed_check/stdout

The first part is the calls for C: those of checks/blocks.py, checks/lists.py and checks/files.py, with the mode as two numbers. The second
writes a case as the program is given it. The third is the table of cases.
"""
import itertools
import sys

import blocks
import files
import lists
from files import BYTE_MARK, BYTES, VALUE_MARK, VALUES, file_of, header_of, header_text
from lists import BOUND, LANES, LARGEST, NONE, PLAIN, body_of, payload_of, sorted_from, strict_from

# ---- The calls, as include/sisalshed.h has them ----
#
# Each gives the word that the program writes: all that is answered, and the checksum of the memory that was lent, full of marks before.


def mode_of(kind, first):
    """Kind 0 is plain, 1 sorted, 2 strict with none, 3 strict with a number; for 0 and 2 the first number is ignored. There is no other."""
    return (PLAIN, sorted_from(first), NONE, strict_from(first))[kind] if kind < 4 else None


def in_mode(kind, first, call):
    """A kind that there is not is 12, before every other number. "Each returns its number, length 0 .. and leaves lent memory unchanged." """
    mode = mode_of(kind, first)
    return (12, 0, []) if mode is None else call(mode)


def answer(answered):
    return f"answer={answered[0]},{answered[1]}"


def answer_with(answered, mark, room):
    return "answer=" + files.answered(answered, mark, room)


def compressed_block_size(lanes, width):
    return answer(blocks.size(lanes, width))


def compress(lanes, kind, first, width, room, values):
    return answer_with(in_mode(kind, first, lambda mode: blocks.pack(lanes, mode, values, room, width)), BYTE_MARK, room)


def decompress(lanes, kind, first, width, room, data):
    return answer_with(in_mode(kind, first, lambda mode: blocks.unpack(lanes, mode, data, room, width)), VALUE_MARK, room)


def num_bits(lanes, kind, first, values):
    return answer(in_mode(kind, first, lambda mode: blocks.least(lanes, mode, values)))


def measure_list(lanes, kind, first, values):
    """What writing answers with enough room."""
    return answer(in_mode(kind, first, lambda mode: lists.write(lanes, mode, values, BOUND)))


def write_list(lanes, kind, first, room, values):
    return answer_with(in_mode(kind, first, lambda mode: lists.write(lanes, mode, values, room)), BYTE_MARK, room)


def read_list(lanes, kind, first, count, room, data):
    return answer_with(in_mode(kind, first, lambda mode: lists.read(lanes, mode, count, data, room)), VALUE_MARK, room)


def header(data):
    found = header_of(data)
    if found is None:
        return "header=12,0,0,0,0,0"
    lanes, mode, count, size, _ = found
    return f"header=0,{lanes},{files.mode_numbers(mode)},{count},{size}"


def body(data):
    """ "From after the empty line to the end." """
    found = header_of(data)
    return "body=12,0,0" if found is None else f"body=0,{len(data) - len(found[4])},{len(found[4])}"


def read_file(room, data):
    return answer_with(files.read_file(data, room), VALUE_MARK, room)


def write_file(lanes, kind, first, room, values):
    return answer_with(in_mode(kind, first, lambda mode: files.write_file(lanes, mode, values, room)), BYTE_MARK, room)


# ---- A case as a line ----
#
# The call, a name, and the arguments as words, whose first letters tell them apart. Behind a `:` is the input.


def head_of(call, name, given):
    words = [f"{word}={given[word]}" for word in ("lanes", "kind", "first", "width", "count", "room") if word in given]
    return " ".join([call.__name__, name] + words)


def input_of(given):
    """Bytes in hex; or how many values, and the first of them up to the last that is not the one before, which the others are too."""
    if "data" in given:
        return f" data={bytes(given['data']).hex()}"
    values = given.get("values", [])
    shown = 1 + max((k for k in range(1, len(values)) if values[k] != values[k - 1]), default=0)
    return f" values={len(values)} given={','.join(str(value) for value in values[:shown])} step=0"


# ---- The table of cases: a call, a name, and what it is given ----

BLOCK_CALLS = (compress, decompress, num_bits)
LIST_CALLS = (measure_list, write_list, read_list, write_file)
MODE_CALLS = BLOCK_CALLS + LIST_CALLS
FILE_CALLS = (header, body, read_file)
FIRSTS = (0, 1, LARGEST - 1, LARGEST)
NO_KINDS = (4, 5, 255, LARGEST)


def sound(call, lanes=1, kind=1, first=5, entries=(0, 1, 3), n=2):
    """What a call is given for these entries and then zeros, a list's being three, with just enough room."""
    mode = mode_of(kind, first) or PLAIN
    block_entries = list(entries) + [0] * (32 * lanes - len(entries))
    block = blocks.values_of(mode, block_entries)
    values = block[:len(entries)]
    file = file_of(lanes, mode, values)
    given = {
        compressed_block_size: dict(width=n),
        compress: dict(width=n, room=4 * lanes * n, values=block),
        decompress: dict(width=n, room=32 * lanes, data=payload_of(lanes, n, block_entries)),
        num_bits: dict(values=block),
        measure_list: dict(values=values),
        write_list: dict(room=len(body_of(lanes, mode, values)), values=values),
        read_list: dict(count=len(values), room=len(values), data=body_of(lanes, mode, values)),
        read_file: dict(room=len(values), data=file),
        write_file: dict(room=len(file), values=values),
        header: dict(data=file),
        body: dict(data=file),
    }[call]
    if call in MODE_CALLS:
        given.update(lanes=lanes, kind=kind, first=first)
    if call == compressed_block_size:
        given.update(lanes=lanes)
    return given


def edges():
    """ "Numbers at the edges". """
    for name, lanes, kind, first, entries, n in (
            ("case1", 1, 0, 0, (1, 2, 3), 2), ("case2", 4, 0, 0, (0, 1), 1), ("case2-row", 4, 0, 0, (0, 0, 0, 0, 1), 1),
            ("case3", 1, 0, 0, (0, 3), 31), ("case4", 8, 0, 0, (0,) * 9 + (0x01020304,), 32), ("case5-strict", 1, 2, 0, (), 0),
            ("case5-sorted", 1, 1, 5, (LARGEST - 1,), 32), ("case6", 1, 3, LARGEST - 1, (), 0), ("case7-3", 1, 0, 0, (3,), 2),
            ("case7-4", 1, 0, 0, (4,), 2), ("case7-0", 1, 0, 0, (0,), 0), ("case7-1", 1, 0, 0, (1,), 0),
            ("case7-32", 1, 0, 0, (LARGEST,), 32), ("case7-33", 1, 0, 0, (LARGEST,), 33)):
        for call in BLOCK_CALLS:
            yield call, name, sound(call, lanes, kind, first, entries, n)
    for name, lanes, kind, first, entries in (
            ("case8", 4, 2, 0, (0, 0, 0)), ("case8-empty", 4, 2, 0, ()), ("case9-1", 1, 0, 0, (1,)), ("case9-2", 1, 0, 0, (1, 0)),
            ("case12", 1, 3, LARGEST - 1, (0,)), ("case13", 1, 0, 0, (1, 2, 3))):
        for call in LIST_CALLS + FILE_CALLS:
            yield call, name, sound(call, lanes, kind, first, entries)
    yield read_list, "case8-left", dict(lanes=4, kind=2, first=0, count=0, room=0, data=bytes(1))
    yield read_list, "case10-fill", dict(lanes=1, kind=0, first=0, count=1, room=1, data=bytes([1, 3, 0, 0, 0]))
    yield read_list, "case10-wide", dict(lanes=1, kind=0, first=0, count=1, room=1, data=bytes([2, 1] + [0] * 7))
    yield write_list, "case11", dict(lanes=1, kind=2, first=0, room=BYTES, values=[LARGEST, 0])


def spread():
    """Each lanes and kind, with entries of four bits"""
    for lanes in LANES:
        noise = [number >> 28 for number in lists.noise(lanes, 32 * lanes)]
        for kind in range(4):
            for call in (compress, decompress):
                yield call, "spread", sound(call, lanes, kind, 1000, noise, 4)
            for call in (write_list, read_list, write_file, read_file):
                yield call, "spread", sound(call, lanes, kind, 1000, noise[:30] + [8, 1, 9])


def kinds():
    """Each kind with first numbers at their limits, which are ignored beside 0 and 2"""
    for kind in range(4):
        for first in FIRSTS:
            for call in MODE_CALLS:
                yield call, "entries", sound(call, 1, kind, first)
            for call in (compress, num_bits, measure_list, write_list, write_file):
                yield call, "values", {**sound(call, 1, 0, 0, (3, 9, 20), 32), "kind": kind, "first": first}


def other_lanes():
    """Lanes that are not 1, 4 or 8, with those that fewer bits would take for one of them"""
    for lanes in (0, 2, 3, 9, 16, 2**8 + 1, 2**32 + 1, 2**32 + 4, 2**32 + 8, 2**64 - 1):
        low = lanes % 2**8 if lanes % 2**8 in LANES else 1
        for call in (compressed_block_size,) + MODE_CALLS:
            yield call, "lanes", {**sound(call, low), "lanes": lanes}


def widths():
    """Widths at their limits, with those that fewer bits would take for 2"""
    for n in (0, 1, 2, 31, 32, 33, 255, 2**8 + 2, 2**16 + 2, LARGEST):
        for lanes in LANES:
            yield compressed_block_size, "width", dict(lanes=lanes, width=n)
        yield compress, "width", {**sound(compress), "width": n, "room": BYTES}
        yield decompress, "width", {**sound(decompress, n=32), "width": n}


def other_blocks():
    """Values that are not exactly a block"""
    for lanes in LANES:
        for count in (0, 1, 32 * lanes - 1, 32 * lanes + 1, 64 * lanes):
            for call in (compress, num_bits):
                yield call, "block", {**sound(call, lanes), "values": [5] * count}


def rooms():
    """No room, one too little, just enough, one more, and all that there is"""
    for call, most in ((compress, BYTES), (decompress, VALUES), (write_list, BYTES), (read_list, VALUES), (read_file, VALUES), (write_file, BYTES)):
        for lanes in (1, 8):
            given = sound(call, lanes)
            for room in (0, given["room"] - 1, given["room"], given["room"] + 1, most):
                yield call, "room", {**given, "room": room}
    for call, size in ((write_list, 16512), (write_file, 16566)):
        for room in (size - 1, size, BYTES):
            yield call, "largest", dict(lanes=1, kind=0, first=0, room=room, values=[LARGEST] * 4096)


def counts():
    """Counts at and past 4,096, with those that 32 bits would take for 0 and for 3"""
    for count, size in ((0, 0), (1, 1), (256, 1), (257, 2), (4095, 16), (4096, 16), (4097, 17), (2**32, 0), (2**32 + 3, 1), (2**64 - 1, 1)):
        for room in (3, VALUES):
            yield read_list, "count", dict(lanes=8, kind=0, first=0, count=count, room=room, data=bytes(size))
    for count in (0, 1, 4095, 4096, 4097, VALUES):
        for kind in (0, 1):
            for call in (measure_list, write_list, write_file):
                yield call, "count", {**sound(call, 8), "kind": kind, "values": [5] * count, **({} if call == measure_list else {"room": BYTES})}


FAULTS = {
    compress: ("lanes", "width", "block", "room", "wide"),
    decompress: ("lanes", "width", "room", "short"),
    num_bits: ("lanes", "block"),
    measure_list: ("lanes", "many", "order"),
    write_list: ("lanes", "many", "order", "room"),
    write_file: ("lanes", "many", "order", "room"),
    read_list: ("lanes", "many", "room", "none", "33", "cut", "fill", "wider", "order", "more"),
    read_file: ("header", "many", "room", "none", "33", "cut", "fill", "wider", "order", "more"),
}


def faulty(call, faults):
    """What a call on values, or unpacking, is given with these faults and no other, sorted from 5."""
    given = sound(call)
    if "lanes" in faults:
        given["lanes"] = 2
    if "width" in faults:
        given["width"] = 33
    if "wide" in faults:
        given["values"][1] = 9
    if "order" in faults:
        given["values"][:2] = [6, 5]
    if "block" in faults:
        given["values"].pop()
    if "many" in faults:
        given["values"] += [9] * 4094
    if "short" in faults:
        given["data"] = given["data"][:7]
    elif "data" in given:
        given["data"] += bytes(124 * ("width" in faults))
    if "room" in given:
        given["room"] = given["room"] - 1 if "room" in faults else VALUES
    return given


def faulty_body(faults):
    """The body of 5, 6, 9 sorted from 5, or of more than 4,096 values, with these faults."""
    entries = [0, 1, 3, 1 if "fill" in faults else 0] + [0] * 28
    n = 3 if "wider" in faults else 2
    data = bytes([33 if "33" in faults else n]) + payload_of(1, n, entries)
    data = data[:1] if "cut" in faults else data + bytes(128 * ("many" in faults)) + bytes("more" in faults)
    return b"" if "none" in faults else data


def faulty_read(call, faults):
    """What reading is given with these faults. From 4,294,967,294 the same entries break the order."""
    first = LARGEST - 1 if "order" in faults else 5
    count = 4097 if "many" in faults else 3
    room = count - 1 if "room" in faults else VALUES
    data = faulty_body(faults)
    if call == read_list:
        return dict(lanes=2 if "lanes" in faults else 1, kind=1, first=first, count=count, room=room, data=data)
    return dict(room=room, data=header_text(2 if "header" in faults else 1, sorted_from(first), count, len(data)) + data)


def sets_of(names, most):
    return itertools.chain.from_iterable(itertools.combinations(names, size) for size in range(most + 1))


def fault_sets():
    """Every set of faults of a call, and of reading each fault and each two"""
    for call, names in FAULTS.items():
        reads = call in (read_list, read_file)
        for some in sets_of(names, 2 if reads else len(names)):
            if call != read_file or len(some) < 2 or "header" in some:
                yield call, "-".join(some) or "sound", (faulty_read if reads else faulty)(call, some)


def no_kinds():
    """Kinds that there are not, beside no fault, each fault and all"""
    for call in MODE_CALLS:
        for some in itertools.chain(sets_of(FAULTS[call], 1), [FAULTS[call]]):
            for kind in NO_KINDS:
                given = (faulty_read if call == read_list else faulty)(call, some)
                yield call, "-".join(("kind",) + some), {**given, "kind": kind}


def headers():
    """Files in each mode with each `first`, and files that are not as document 01 has them"""
    for mode in ("plain", "sorted", "strict"):
        for first in ("none", "0", "5", "4294967294", "4294967295", "4294967296", ""):
            file = f"lanes=4\nmode={mode}\nfirst={first}\ncount=3\nbytes=1\n\n".encode() + bytes(1)
            yield f"{mode}-{first}", file
    for lanes, mode, count, size in ((8, sorted_from(7), 4097, 17), (8, strict_from(9), 4294967295, 2), (8, PLAIN, 5000, 0)):
        yield f"count-{count}", header_text(lanes, mode, count, size) + bytes(size)
    yield "empty", b""
    yield from (case for case in files.bodies() if not case[0].startswith("cut-"))
    yield from (case for case in files.lines() if case[0].startswith("missing-"))


def opened():
    """What is handed out of a file, and zeros beside 12"""
    for name, file in headers():
        yield header, name, dict(data=file)
        yield body, name, dict(data=file)
        yield read_file, name, dict(room=VALUES, data=file)


TABLE = (edges, spread, kinds, other_lanes, widths, other_blocks, rooms, counts, fault_sets, no_kinds, opened)


def main():
    for section in TABLE:
        print("#", section.__doc__.strip())
        for call, name, given in section():
            line = head_of(call, name, given)
            if sys.argv[1:] == ["cases"]:
                print(line + ":" + input_of(given))
            else:
                print(line, call(**given))


if __name__ == "__main__":
    main()
