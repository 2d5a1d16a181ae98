#!/usr/bin/env python3
"""What the program oracle_replay must write, from the list of the Rust's answers alone.

    python3 checks/replay.py > crates/oracle_replay/stdout

Every answer of the list is the Rust's, so each is to be ours: 33 records for each lane count and kind of mode.
"""
import pathlib
import sys

LIST = pathlib.Path(__file__).parent.parent / "crates" / "oracle_replay" / "stdin"
KINDS = ["mode=plain", "mode=sorted", "mode=strict first=none", "mode=strict first=number"]


def sizes():
    """The lanes, kind and width of each record, in the order of the list."""
    for lanes in (1, 4, 8):
        for kind in range(4):
            for width in range(33):
                yield lanes, kind, width


def main():
    rest = LIST.read_bytes()
    total = 0
    records = {}
    for lanes, kind, width in sizes():
        length = 8 + 4 * lanes * width + 128 * lanes
        record, rest = rest[:length], rest[length:]
        if list(record[:3]) != [lanes, kind, width]:
            sys.exit(f"the list has no record for {lanes} lanes, kind {kind}, width {width}")
        for byte in record:
            total = (total * 31 + byte) % 2**32
        records[lanes, kind] = records.get((lanes, kind), 0) + 1
    for (lanes, kind), n in records.items():
        print(f"lanes={lanes} {KINDS[kind]} records={n} unpacked={n} packed={n} least={n}")
    print(f"sum={total} left={len(rest)}")


main()
