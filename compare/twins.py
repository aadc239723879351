#!/usr/bin/env python3
"""Compares what the port answered for sets with a hidden twin (the search), where the Rust is no oracle, with the rules in Python.

usage: compare/twins.py FILE. The driver wrote FILE: of each set the frame, as sets.py has it, and the port's answers (driver/src/main.rs,
`answered`). All of it is compared: refusal, report, arena after bind and after a query, and each query. Exit status 0: nothing differs.
"""
import collections
import os
import struct
import sys

sys.path.insert(0, os.path.join(os.path.dirname(os.path.abspath(__file__)), "..", "tests"))
import bind_expected as rules  # noqa: E402


def read(file):
    """(label, set in the input format of the program `bind`, options, refusal, report, arena, placed, queries with their answers)"""

    def words(form):
        return struct.unpack(form, file.read(struct.calcsize(form)))

    while head := file.read(4):
        label = file.read(*struct.unpack("<I", head)).decode()
        address, arena, length, strict, count, size = words("<QQIIII")
        data = struct.pack("<I", count) + file.read(4 * count) + file.read(size)
        refusal, report, bound, placed = words("<II"), words(f"<{length}I"), file.read(arena), file.read(arena)
        queries = []
        for _ in range(*words("<I")):
            requester, n = words("<II")
            queries.append((requester, file.read(n), words("<4Q")))
        yield label, data, (address, arena, length, strict), refusal, report, bound, placed, queries


def difference(data, options, refusal, report, bound, placed, queries):
    expected = rules.Expected(data, *options, limit=1 << 40)
    if not expected.loaded or not rules.hidden_twins(expected.loaded):
        return None, "no hidden twin by the rules"
    if refusal != (expected.refusal or (0, 0)):
        return expected, f"refusal {refusal}, by the rules {expected.refusal}"
    words = [] if expected.refusal else expected.loaded.report
    if list(report) != words + [0] * (len(report) - len(words)):
        return expected, f"report {[hex(w) for w in report if w]}, by the rules {[hex(w) for w in words]}"
    if bound != (bytes(len(bound)) if expected.refusal else expected.relocated):
        return expected, "the arena after bind"
    if placed != expected.placed:
        return expected, "the arena after a query"
    for requester, name, answer in queries:
        kind, *numbers = expected.ask(requester, name)
        if answer != ((1, *numbers) if kind == "found" else (0, 0, 0, 0)):
            return expected, f"requester {requester}, name {name}: {answer}, by the rules {kind} {numbers}"
    return expected, None


def main():
    if len(sys.argv) != 2:
        sys.exit(__doc__)
    seen, asked, differ = collections.Counter(), 0, 0
    with open(sys.argv[1], "rb") as file:
        for label, *given in read(file):
            expected, bad = difference(*given)
            seen["bound" if given[2] == (0, 0) else f"refused {given[2][0]}"] += 1
            asked += len(given[-1])
            if bad:
                differ += 1
                if differ <= 10:
                    print(f"{label}: {bad}")
    for outcome, count in sorted(seen.items()):
        print(f"{count:8} with a hidden twin, {outcome}")
    print(f"{sum(seen.values())} sets with a hidden twin and {asked} queries compared with the rules in Python, {differ} differ")
    sys.exit(differ != 0)


if __name__ == "__main__":
    main()
