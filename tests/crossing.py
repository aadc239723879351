#!/usr/bin/env python3
"""COPY places that cross: answer, arena and report of sets that copy much, against the rules in Python.

usage: tests/crossing.py ARCHIVE [--sets N] [--seed S] (from the repository's top)

ARCHIVE is a folder with a libexport.a. N sets, 1,000 by default, are made. In two of five only the program copies, and its places are apart by its
symbols' sizes but for one or two; in the others libraries copy too, sizes on the two sides differ, and places are near each other or far
apart (32 KiB and more). Entries of types 6 and 8 stand between, some entries are of PLT, some copies are refused by 17 or 18, some symbols are found
nowhere, some sets are bound with type 5 passed over. A few sets have over 1,024 and over 2,048 copies, of which two cross, early or late, or none.
The plain rule, every two copies compared, is in tests/bind_expected.py. Exit status 0: nothing differs. It needs gcc.
"""
import argparse
import collections
import os
import random
import sys
import tempfile

here = os.path.dirname(os.path.abspath(__file__))
sys.path[:0] = [here]
from bind_expected import SUPPLIED, Expected  # noqa: E402
from bind_sets import HOST, make, pack_set, symbol, undefined  # noqa: E402
from own_order import ADDRESS, Library  # noqa: E402

PASSED = [*SUPPLIED[:5], 0xA0000005, *SUPPLIED[6:]]


def places(rng, sizes, far):
    """Places that are apart, in any order."""
    order, at, found = rng.sample(range(len(sizes)), len(sizes)), rng.choice((0, 3)), [0] * len(sizes)
    for i in order:
        found[i] = at
        at += sizes[i] + rng.choice((0, 0, 1, 8) if not far else (0, 5, 40000))
    return found, at


def copier(rng, names, count, far, crossing, exports=(), apart=False):
    """A file that copies: each entry has a symbol of its own, with one of the names; `crossing` of them are moved onto others."""
    sizes = [rng.choice((1, 2, 4, 8, 8, 16) + (() if apart else (0, 40))) for _ in range(count)]
    at, end = places(rng, [max(s, 8) for s in sizes] if not apart else sizes, far)
    for _ in range(crossing):
        i, j = rng.randrange(count), rng.randrange(count)
        at[i] = max(at[j] + rng.choice((-1, 0, 1, sizes[j] - 1, sizes[j])), 0)
    if rng.random() < 0.03:
        at[rng.randrange(count)] = 1 << 20
    own = [undefined(rng.choice(names), binding=rng.choice((1, 2)), size=s) for s in sizes]
    rela = [(p, 5, i + 1, 0) for i, p in enumerate(at)]
    more = [(8 * rng.randrange(0, max(end // 8, 1)), rng.choice((6, 8)), 1, 0) for _ in range(rng.choice((0, 0, 3)))]
    for e in more:
        rela.insert(rng.randrange(len(rela) + 1), e)
    split = len(rela) if rng.random() < 0.5 else rng.randrange(len(rela) + 1)
    room = end + 64 if rng.random() < 0.9 else max(end - 8, 8)
    defined = [symbol(n, value=v, size=s, section=0xFFF1 if rng.random() < 0.01 else 1) for n, v, s in exports]
    return make(own + defined, [], rela[:split], rela[split:], data=bytes(rng.randrange(256) for _ in range(64)), zeros=room)


def exported(rng, names, low=0, high=400):
    return [(n, rng.randrange(low, high), rng.choice((0, 1, 4, 8, 8, 16, 64))) for n in names]


def one_set(rng):
    names = [b"d%d" % i for i in range(rng.choice((2, 6, 20)))]
    mine = [names[k::3] for k in range(3)]
    far = rng.random() < 0.3
    only = rng.random() < 0.4
    libraries = []
    for k in range(3):
        exports = exported(rng, mine[k])
        if only or rng.random() < 0.4:
            file = make([symbol(n, value=v, size=s) for n, v, s in exports], data=bytes(rng.randrange(256) for _ in range(480)))
        else:
            # its own copies may lie on what it exports
            file = copier(rng, [n for j in range(3) if j != k for n in mine[j]] or [b"x"], rng.choice((1, 2, 5)), far, rng.choice((0, 0, 1)), exports)
        libraries.append((file, b"l%d" % k))
    wanted = names + [b"nowhere"] * rng.choice((0, 0, 1))
    program = copier(rng, wanted, rng.choice((1, 2, 4, 12)), far, rng.choice((0, 0, 1, 2)), apart=only)
    return HOST, program, libraries


def many(rng, count, crossing, far):
    """Over a thousand copies of one byte, in a program or in a library; two cross, or none."""
    names = [b"d%d" % i for i in range(8)]
    step = 40 if far else 2
    at = rng.sample(range(0, count * step, step), count)
    if crossing:
        i, j = sorted(rng.sample(range(count), 2))
        at[j] = at[i]
    own = [undefined(n, size=1) for n in names]
    file = make(own, [], [(p, 5, 1 + rng.randrange(8), 0) for p in at], zeros=count * step)
    source = make([symbol(n, value=i, size=1) for i, n in enumerate(names)], data=bytes(range(16)))
    if rng.random() < 0.5:
        return HOST, file, [(source, b"s")]
    return HOST, make(), [(source, b"s"), (file, b"c")]


def main():
    parser = argparse.ArgumentParser()
    parser.add_argument("archive")
    parser.add_argument("--sets", type=int, default=1000)
    parser.add_argument("--seed", type=int, default=1)
    options = parser.parse_args()
    rng, counts, differ = random.Random(options.seed), collections.Counter(), 0
    with tempfile.TemporaryDirectory() as folder:
        library = Library(options.archive, folder)
        for n in range(options.sets):
            big = n % 50 == 49
            parts = many(rng, rng.choice((1023, 1024, 1025, 1500, 2049, 2600)), rng.random() < 0.7, rng.random() < 0.5) if big else one_set(rng)
            data = pack_set(*parts)
            strict, words = rng.random() < 0.2, rng.choice((0, 40, 4096, 4096))
            types = PASSED if rng.random() < 0.05 else SUPPLIED
            arena = sum((len(f) + 0x5000) for f in [parts[0], parts[1]] + [f for f, _ in parts[2]]) + (600000 if not big else 1 << 18)
            arena = (arena | 4095) + 1
            expected = Expected(data, ADDRESS, arena, words, strict, limit=1 << 28, types=types)
            found, image, report = library.bind(data, arena, words, strict, types=types)
            if expected.refusal:
                counts[f"refused {expected.refusal[0]}" + (", many copies" if big else "")] += 1
                same = found == expected.refusal and not any(image) and not any(report)
            else:
                counts["bound" + (", many copies" if big else "")] += 1
                want = expected.loaded.report
                same = found == (0, 0) and image == expected.relocated and report == want + [0] * (words - len(want))
            if not same:
                differ += 1
                print(f"set {n}: expected {expected.refusal or 'bound'}, found {found}")
    for what, count in sorted(counts.items()):
        print(f"{count:6} {what}")
    print(f"{options.sets} sets, {differ} differ")
    return 1 if differ else 0


if __name__ == "__main__":
    sys.exit(main())
