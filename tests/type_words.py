#!/usr/bin/env python3
"""The words of the types: sets bound under edited words, each answer compared with the rules in Python.

usage: tests/type_words.py ARCHIVE [--sets N] [--seed S] (from the repository's top)

ARCHIVE is a folder with a libexport.a. First come the inputs of docs/DECISIONS.md, D80 to D89, with the answers that stand there, worked out by
hand: a team that refuses type 1, one that passes 37, one that passes 6, one that refuses 0, words that 24 refuses. Then N sets made at random,
each under the supplied words, under edited ones (some damaged), strict and lenient: number, object, arena and report are compared with
tests/bind_expected.py. Exit status 0: nothing differs. It needs gcc.
"""
import argparse
import ctypes
import os
import random
import subprocess
import sys
import tempfile

here = os.path.dirname(os.path.abspath(__file__))
sys.path[:0] = [here]
from bind_expected import APPLY, MAY_APPLY, PASS, REFUSE, SUPPLIED, Expected  # noqa: E402
from bind_sets import pack_set, random_set  # noqa: E402
from decision_sets import HOST, form  # noqa: E402

ADDRESS, ARENA = 0x10000000, 32768
UND = (1, 1, 0x10, 0, 0, 0, 0)  # `v`, undefined


def edited(**words):
    """The supplied words with others: t6=PASS, or a whole word."""
    types = list(SUPPLIED)
    for name, mark in words.items():
        t = int(name[1:])
        types[t] = mark << 28 | t if mark < 16 else mark
    return types


def wide(*rela, **change):
    return pack_set(HOST, form(True, rela=rela, **change))


ASKING = dict(symbols=[UND], texts=[(0x401, b"v\0")])
# name: set, words, strict, address; the report or the refusal
W = 0x50000001
CASES = {
    "D80 supplied": (wide((0, 3, 99, 0)), edited(), 0, 0, [W, 0x70000000]),
    "D81 63 words, after 2": (wide(), edited()[:63], 0, 1, (2, 0)),
    "D81 63 words, before 3": (pack_set(HOST, form(), [(form(), b"a"), (form(), b"a")]), edited()[:63], 0, 0, (24, 0)),
    "D81 two equal names": (pack_set(HOST, form(), [(form(), b"a"), (form(), b"a")]), edited(), 0, 0, (3, 3)),
    "D81 63 words, a program of 9 bytes": (pack_set(HOST, bytes(9)), edited()[:63], 0, 0, (24, 0)),
    "D81 63 words, an empty sheet": (bytes(4), edited()[:63], 0, 0, (1, 0)),
    "D82 no words": (wide(), [], 0, 0, (24, 0)),
    "D82 65 words": (wide(), edited() + [0xA0000040], 0, 0, (24, 0)),
    **{f"D82 word {t} {w:x}": (wide(), edited(**{f"t{t}": w}), 0, 0, (24, 0))
       for t, w in ((5, 0x90000006), (3, 0xA0000103), (3, 0x80000003), (3, 0xC0000003), (3, 0x90000003), (0, 0x90000000), (37, 0x90000025))},
    "D82 word 0 is 0": (wide(), [0] + edited()[1:], 0, 0, (24, 0)),
    "D83 type 0 passed": (wide((0, 0, 99, 0)), edited(), 0, 0, [W]),
    "D83 type 0 refused": (wide((0, 0, 99, 0)), edited(t0=REFUSE), 0, 0, (25, 1)),
    "D84 type 0x80000008, 8 refused": (wide((0, 0x80000008, 0, 0)), edited(t8=REFUSE), 0, 0, [W, 0x70000000]),
    "D84 type 64, 0 refused": (wide((0, 64, 0, 0)), edited(t0=REFUSE), 0, 0, [W, 0x70000000]),
    "D85 37 refused": (wide((0, 37, 99, 0)), edited(), 0, 0, (16, 1)),
    "D85 37 passed": (wide((0, 37, 99, 0)), edited(t37=PASS), 0, 0, [W, 0x70000000]),
    "D86 6 passed": (wide((0, 6, 99, 0)), edited(t6=PASS), 0, 0, [W, 0x70000000]),
    "D86 6 refused": (wide((0, 6, 99, 0)), edited(t6=REFUSE), 0, 0, (25, 1)),
    "D86 8 applied, its symbol unread": (wide((0x1000, 8, 99, 0)), edited(), 0, 0, [W]),
    "D86 1 refused": (wide((0x1000, 1, 0, 0)), edited(t1=REFUSE), 0, 0, (25, 1)),
    "D87 8 passed, RELR": (wide(relr=[0]), edited(t8=PASS), 0, 0, (17, 1)),
    "D87 8 refused, RELR": (wide(relr=[0x1000]), edited(t8=REFUSE), 0, 0, [W]),
    "D88 strict, 6 passed": (wide((0x1000, 6, 1, 0), **ASKING), edited(t6=PASS), 1, 0, [W, 0x70000000]),
    "D88 strict, 6 applied": (wide((0x1000, 6, 1, 0), **ASKING), edited(), 1, 0, (19, 1)),
}


def random_words(rng):
    """The supplied words, edited, and some of them damaged."""
    types = list(SUPPLIED)
    for t in rng.sample(range(64), rng.choice((0, 1, 2, 6))) + rng.sample((0, 1, 5, 6, 7, 8, 37), rng.choice((0, 1, 2))):
        types[t] = rng.choice((PASS, REFUSE) + (APPLY,) * (t in MAY_APPLY)) << 28 | t
    if rng.random() < 0.05:
        t = rng.randrange(64)
        types[t] = rng.choice((types[t] ^ 1 << rng.randrange(32), APPLY << 28 | t, 0))
    if rng.random() < 0.02:
        types = types[: rng.randrange(64)]
    return types


def slice_of(kind, values):
    return (kind * max(1, len(values)))(*values), len(values)


def main():
    parser = argparse.ArgumentParser(description=__doc__, formatter_class=argparse.RawDescriptionHelpFormatter)
    parser.add_argument("archive")
    parser.add_argument("--sets", type=int, default=600)
    parser.add_argument("--seed", type=int, default=1)
    options = parser.parse_args()
    folder = tempfile.mkdtemp()
    library = os.path.join(folder, "lib.so")
    subprocess.run(["gcc", "-shared", "-o", library, "-Wl,--whole-archive", os.path.join(options.archive, "libexport.a"),
                    "-Wl,--no-whole-archive"], check=True)
    port = ctypes.CDLL(library)
    port.lugwormpin_bind.restype = ctypes.c_uint64
    counts = {}

    def bind(data, types, strict, address, room):
        """(refusal or None, arena, report)"""
        count = int.from_bytes(data[:4], "little")
        sheet = slice_of(ctypes.c_uint32, [int.from_bytes(data[4 + 4 * k : 8 + 4 * k], "little") for k in range(count)])
        handed = slice_of(ctypes.c_uint8, data[4 + 4 * count :])
        arena, report = (ctypes.c_uint8 * ARENA)(*[0xA5] * ARENA), (ctypes.c_uint32 * (room + 1))(*[7] * (room + 1))
        words = slice_of(ctypes.c_uint32, types)
        size = ctypes.c_size_t
        answer = port.lugwormpin_bind(sheet[0], size(sheet[1]), handed[0], size(handed[1]), arena, size(ARENA), ctypes.c_uint64(address),
                                      ctypes.c_uint32(strict), words[0], size(words[1]), report, size(room))
        return ((answer & 0xFFFFFFFF, answer >> 32) if answer else None), bytes(arena), list(report[:room])

    def said(data, types, strict, address, room):
        expected = Expected(data, address, ARENA, room, strict, types=types)
        if expected.refusal:
            return expected.refusal, bytes(ARENA), [0] * room
        report = expected.loaded.report
        return None, expected.relocated, report + [0] * (room - len(report))

    differ = 0

    def compare(name, data, types, strict, address, room, expected):
        nonlocal differ
        found = bind(data, types, strict, address, room)
        counts[found[0] and found[0][0]] = counts.get(found[0] and found[0][0], 0) + 1
        if found != expected:
            differ += 1
            print(f"{name}: {found[0]} {[hex(w) for w in found[2] if w][:8]}, not {expected[0]} {[hex(w) for w in expected[2] if w][:8]}")

    for words in (0, 7, 64, 66):
        types = (ctypes.c_uint32 * 67)(*[5] * 67)
        port.lugwormpin_types(types, ctypes.c_size_t(words))
        if list(types) != (list(SUPPLIED) + [0, 0])[:words] + [5] * (67 - words):
            differ += 1
            print(f"lugwormpin_types of {words} words differs")
    for name, (data, types, strict, past, answer) in CASES.items():
        by_rules = said(data, types, strict, ADDRESS + past, 64)
        if isinstance(answer, tuple) and by_rules[0] != answer or isinstance(answer, list) and (by_rules[0] or [w for w in by_rules[2] if w] != answer):
            differ += 1
            print(f"{name}: the rules in Python say {by_rules[0]} {by_rules[2][:4]}")
        compare(name, data, types, strict, ADDRESS + past, 64, by_rules)
    rng = random.Random(options.seed)
    for k in range(options.sets):
        data = random_set(rng, data=0.3)
        types = random_words(rng)
        room, strict = rng.choice((1024, 64, 3)), rng.random() < 0.3
        compare(f"set {k}", data, types, strict, ADDRESS, room, said(data, types, strict, ADDRESS, room))
    print("answers: " + ", ".join(f"{'bound' if n is None else n} {c}" for n, c in sorted(counts.items(), key=lambda x: x[0] or 0)))
    print(f"{len(CASES)} cases, {options.sets} sets, {differ} differ")
    return 1 if differ else 0


if __name__ == "__main__":
    sys.exit(main())
