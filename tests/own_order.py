#!/usr/bin/env python3
"""A builder's own order: which orders are taken, refusals and report in the order used, and the same arena for all.

usage: tests/own_order.py ARCHIVE [--sets N] [--seed S] (from the repository's top)

ARCHIVE is a folder with a libexport.a. The inputs of docs/DECISIONS.md, D110 to D117, come first, each with the answer that stands there. Then
come N made sets, a thousand by default, whose only COPY entries are the program's, each bound in up to eight orders, strict or lenient, with
reports of several lengths: every order must be bound where that of `bind` is, leave its arena, and report the same words of each object; and a
fifth as many sets with a library's COPY, of which every order but that of `bind` is 35. Orders that list an object twice, leave one out or name
another number are mixed in. Every call is compared with the rules in Python (tests/bind_expected.py), answer, arena and report; under
the order of `bind` it is compared with lugwormpin_bind too. Arena and report hold other bytes before a call. Exit status 0: nothing differs.
It needs gcc.
"""
import argparse
import ctypes
import os
import random
import subprocess
import sys
import tempfile

here = os.path.dirname(os.path.abspath(__file__))
sys.path[:0] = [here]
from bind_expected import SUPPLIED, Expected  # noqa: E402
from bind_sets import pack_set, random_parts  # noqa: E402
from decision_sets import HOST, ONE, UND, V, form  # noqa: E402
from object_cases import le  # noqa: E402

ADDRESS, ARENA = 0x10000000, 32768


class Library:
    """The functions of an archive, with slices as Python has them."""

    def __init__(self, archive, folder):
        shared = os.path.join(folder, "lugwormpin.so")
        subprocess.run(["gcc", "-shared", "-o", shared, "-Wl,--whole-archive", os.path.join(archive, "libexport.a"), "-Wl,--no-whole-archive"],
                       check=True)
        self.calls = ctypes.CDLL(shared)

    def bind(self, data, arena, words, strict, address=ADDRESS, order=None, types=SUPPLIED):
        """(number, object), arena, report"""
        count = le(data, 0, 4)
        sheet, data = data[4 : 4 + 4 * count], data[4 + 4 * count :]
        image, report = ctypes.create_string_buffer(b"\xa5" * arena, arena or 1), (ctypes.c_uint32 * (words or 1))(*[7] * words)
        size, long, word = ctypes.c_size_t, ctypes.c_uint64, ctypes.c_uint32
        arguments = [(word * (count or 1)).from_buffer_copy(sheet.ljust(4, b"\0")), size(count), ctypes.create_string_buffer(data, len(data) or 1),
                     size(len(data)), image, size(arena), long(address), word(strict), (word * (len(types) or 1))(*types), size(len(types)), report, size(words)]
        call = self.calls.lugwormpin_bind
        if order is not None:
            call = self.calls.lugwormpin_bind_ordered
            arguments += [(word * (len(order) or 1))(*order), size(len(order))]
        call.restype = long
        answer = call(*arguments)
        return (answer & 0xFFFFFFFF, answer >> 32), image.raw[:arena], list(report)[:words]


def objects(report):
    """The words of each object."""
    found, here = {}, None
    for w in report:
        if w >> 28 == 5:
            here = w
        if w:
            found.setdefault(here, []).append(w)
    return found


# ---- the inputs of docs/DECISIONS.md

COPY = (0x1000, 5, 0, 0)
# library 2 needs 3; L has a writable segment
NEEDS = dict(tags=[(1, 3)], texts=[(0x401, b"v\0b\0")])
PRO, L = form(), form(True)


def pair(program=PRO, two=(), three=(), **more):
    """A program, library 2 that needs library 3, and that one; entries go to PLT."""
    tags = dict(NEEDS)
    tags.update(more)
    return pack_set(HOST, program, [(form(True, plt=two, **tags), b"a"), (form(True, plt=three), b"b")])


FREE = pair()
BAD_NEED = form(tags=[(1, 1 << 31)])
TWO_COPIES = pair(two=[COPY])
# library 2 copies `v` of library 3, a word of which gains base
COPIED = pack_set(HOST, PRO, [(form(True, rela=[(0x1008, 5, 1, 0)], symbols=[(1, 1, 0x11, 0, 0, 0, 8)], tags=[(1, 3)], texts=[(0x401, b"v\0b\0")]), b"a"),
                              (form(True, rela=[(0x1000, 8, 0, 0)], symbols=[(1, 1, 0x11, 0, 1, 0x1000, 8)], hashes=ONE, **V), b"b")])
UNDEFINED = pack_set(HOST, PRO, [(form(True, rela=[(0x1000, 6, 1, 0)], tags=[(1, 3)], **{**UND, "texts": [(0x401, b"v\0b\0")]}), b"a"),
                                 (form(True, rela=[(0x1000, 6, 1, 0)], **UND), b"b")])

# name: set, strict, report words, order, answer; where it is bound, the report
CASES = {
    "D110 2, 3, 1": (FREE, 0, 8, [2, 3, 1], (0, 0), [0x50000002, 0x50000003, 0x50000001]),
    "D110 3, 2, 1": (FREE, 0, 8, [3, 2, 1], (0, 0), [0x50000003, 0x50000002, 0x50000001]),
    **{f"D110 {order}": (FREE, 0, 8, order, (35, 0), None)
       for order in ([], [1], [1, 2, 3], [2, 1, 3], [2, 3], [2, 1], [2, 2, 1], [2, 3, 3, 1], [2, 3, 1, 1], [1, 2, 3, 1], [2, 3, 1, 0], [0, 2, 3, 1],
                     [2, 3, 1, 0, 0], [2, 4, 1], [2, 3, 4, 1], [2, 3, 0xFFFFFFFF], [2, 0x80000003, 1], [2, 3, 2, 3, 1], [2, 0, 1], [2, 1, 1],
                     [3, 2] * 40 + [1], [1] * 64)},
    "D110 no libraries": (pack_set(HOST, PRO), 0, 8, [1], (0, 0), [0x50000001]),
    "D110 no libraries, an empty order": (pack_set(HOST, PRO), 0, 8, [], (35, 0), None),
    "D110 no libraries, the host": (pack_set(HOST, PRO), 0, 8, [0], (35, 0), None),
    "D111 a library's COPY, the order of `bind`": (TWO_COPIES, 0, 8, [3, 2, 1], (0, 0), [0x50000003, 0x50000002, 0x60000000, 0x50000001]),
    "D111 a library's COPY, another order": (TWO_COPIES, 0, 8, [2, 3, 1], (35, 0), None),
    "D111 in RELA": (COPIED, 0, 8, [2, 3, 1], (35, 0), None),
    "D111 in library 3": (pair(three=[COPY]), 0, 8, [2, 3, 1], (35, 0), None),
    "D111 the second entry": (pair(three=[(0x1000, 8, 0, 0), COPY]), 0, 8, [2, 3, 1], (35, 0), None),
    "D111 type 0x80000005": (pair(two=[(0x1000, 0x80000005, 0, 0)]), 0, 8, [2, 3, 1], (0, 0), [0x50000002, 0x70000000, 0x50000003, 0x50000001]),
    "D111 type 0x80000005, the order of `bind`":
        (pair(two=[(0x1000, 0x80000005, 0, 0)]), 0, 8, [3, 2, 1], (0, 0), [0x50000003, 0x50000002, 0x70000000, 0x50000001]),
    "D111 the program's COPY":
        (pair(program=form(True, rela=[COPY])), 0, 8, [2, 3, 1], (0, 0), [0x50000002, 0x50000003, 0x50000001, 0x60000000]),
    "D111 the host's COPY": (pack_set(form(rela=[COPY]), PRO, [(L, b"a"), (L, b"b")]), 0, 8, [3, 2, 1], (0, 0), [0x50000003, 0x50000002, 0x50000001]),
    "D111 a COPY of no bytes": (pack_set(HOST, PRO, [(form(True, rela=[(0, 5, 1, 0)], symbols=[(1, 1, 0x10, 0, 0, 0, 0)], **V), b"a"),
                                                     (form(True, symbols=[(1, 1, 0x11, 0, 1, 0x1000, 0)], hashes=ONE, **V), b"b")]),
                                0, 8, [3, 2, 1], (35, 0), None),
    "D111 a COPY without a place": (pair(two=[(0, 5, 0, 0)]), 0, 8, [2, 3, 1], (35, 0), None),
    "D112 before 16": (pack_set(HOST, form(True, rela=[(0, 37, 0, 0)])), 0, 8, [], (35, 0), None),
    "D112 16": (pack_set(HOST, form(True, rela=[(0, 37, 0, 0)])), 0, 8, [1], (16, 1), None),
    "D112 12 of the last library": (pack_set(HOST, PRO, [(L, b"a"), (BAD_NEED, b"b")]), 0, 8, [], (12, 3), None),
    "D112 before 14": (pair(two=[(0x1000, 5, 99, 0)], pointers=((5, 0x400), (6, 0x300))), 0, 8, [2, 3, 1], (35, 0), None),
    "D112 14": (pair(two=[(0x1000, 5, 99, 0)], pointers=((5, 0x400), (6, 0x300))), 0, 8, [3, 2, 1], (14, 2), None),
    "D112 before 20": (FREE, 0, 0, [2, 2, 1], (35, 0), None),
    "D112 20": (FREE, 0, 2, [2, 3, 1], (20, 0), None),
    "D112 1 before it": (pack_set(HOST, PRO)[:-1], 0, 8, [], (1, 0), None),
    "D112 4 of the program": (pack_set(HOST, b"", [(L, b"a")]), 0, 8, [], (4, 1), None),
    "D112 3": (pack_set(HOST, PRO, [(L, b"a"), (L, b"a")]), 0, 8, [], (3, 3), None),
    "D113 16 of library 2 first": (pair(two=[(0, 37, 0, 0)], three=[(0, 8, 0, 0)]), 0, 8, [2, 3, 1], (16, 2), None),
    "D113 17 of library 3 first": (pair(two=[(0, 37, 0, 0)], three=[(0, 8, 0, 0)]), 0, 8, [3, 2, 1], (17, 3), None),
    "D113 19 of library 2": (UNDEFINED, 1, 8, [2, 3, 1], (19, 2), None),
    "D113 19 of library 3": (UNDEFINED, 1, 8, [3, 2, 1], (19, 3), None),
    "D113 the report": (UNDEFINED, 0, 8, [2, 3, 1], (0, 0), [0x50000002, 0x60000000, 0x50000003, 0x60000000, 0x50000001]),
    "D114 library 2 copies what 3 relocates": (COPIED, 0, 8, [3, 2, 1], (0, 0), [0x50000003, 0x50000002, 0x50000001]),
}

# under edited words of the types: a COPY entry has type 5, whatever its mark
PASSED = [w + (1 << 28 if t == 5 else 0) for t, w in enumerate(SUPPLIED)]
TYPED = {
    "D115 type 5 passed, another order": (TWO_COPIES, PASSED, [2, 3, 1], (35, 0)),
    "D115 type 5 passed, the order of `bind`": (TWO_COPIES, PASSED, [3, 2, 1], (0, 0)),
    "D115 63 words": (FREE, SUPPLIED[:63], [], (24, 0)),
}


def orders(rng, count, first, many):
    """Orders of that many objects, the one given first; now and then words that are none."""
    libraries = list(range(2, count))
    made = [first]
    for _ in range(many - 1):
        rng.shuffle(libraries)
        made.append([*libraries, 1])
    if rng.random() < 0.3:
        wrong = rng.choice(made)[:]
        at = rng.randrange(len(wrong))
        kind = rng.randrange(5)
        if kind == 0:
            wrong[at] = rng.choice((0, 1, 2, count, 64, 1 << 31))
        elif kind == 1:
            wrong.insert(at, rng.choice(wrong))
        elif kind == 2:
            del wrong[at]
        elif kind == 3:
            wrong.append(0)
        else:
            rng.shuffle(wrong)
        made.append(wrong)
    return made


def main():
    parser = argparse.ArgumentParser(usage=__doc__)
    parser.add_argument("archive")
    parser.add_argument("--sets", type=int, default=1000)
    parser.add_argument("--seed", type=int, default=1)
    options = parser.parse_args()
    rng, calls, differ, counts = random.Random(options.seed), 0, 0, {}

    def see(name, fine):
        nonlocal calls, differ
        calls += 1
        if not fine:
            differ += 1
            print("differs:", name)

    with tempfile.TemporaryDirectory() as folder:
        library = Library(options.archive, folder)

        def compare(name, data, arena, words, strict, order):
            """The call against the rules; what it answers and leaves."""
            wanted = Expected(data, ADDRESS, arena, words, strict, order=order)
            got = library.bind(data, arena, words, strict, order=order)
            if wanted.refusal:
                see(name, got == (wanted.refusal, bytes(arena), [0] * words))
            else:
                report = wanted.loaded.report
                see(name, got == ((0, 0), wanted.relocated, report + [0] * (words - len(report))))
            return got

        for name, (data, strict, words, order, answer, report) in CASES.items():
            got = compare(name, data, ARENA, words, strict, order)
            see(name, got[0] == answer and (report is None or got[2] == report + [0] * (words - len(report))))
        for name, (data, types, order, answer) in TYPED.items():
            got = library.bind(data, ARENA, 8, 0, order=order, types=types)
            wanted = Expected(data, ADDRESS, ARENA, 8, 0, types=types, order=order)
            see(name, got[0] == answer and answer == (wanted.refusal or (0, 0)))
        if library.bind(COPIED, ARENA, 8, 0)[1] == Expected(COPIED, ADDRESS, ARENA, 8, 0).placed:
            sys.exit("D114: nothing was copied")

        free, held, bound = 0, 0, 0
        while free < options.sets or held < options.sets // 5:
            host, program, others = random_parts(rng, data=rng.choice((0, 0.3)))
            if len(others) < 2 and rng.random() < 0.9:
                continue
            data = pack_set(host, program, others)
            words, strict = rng.choice((1024, 1024, 1024, 3, 8)), rng.random() < 0.3
            ours = Expected(data, ADDRESS, ARENA, words, strict)
            if not ours.loaded:
                compare("refused before 35", data, ARENA, words, strict, rng.choice(([], [1], [2, 1])))
                continue
            if ours.refusal and rng.random() < 0.7:
                continue
            own = ours.loaded.order()
            copies = any(not ours.loaded.may_take(order) for order in ([*reversed(own[:-1]), 1], [*own[1:-1], *own[: len(own) > 1], 1]))
            if (held if copies else free) >= (options.sets // 5 if copies else options.sets):
                continue
            held, free = held + copies, free + (not copies)
            bind = library.bind(data, ARENA, words, strict)
            for order in orders(rng, len(own) + 1, own, rng.choice((3, 4, 6, 8))):
                got = compare("a made set", data, ARENA, words, strict, order)
                counts[got[0][0]] = counts.get(got[0][0], 0) + 1
                if order == own:
                    see("as bind", got == bind)
                elif not copies and got[0][0] != 35:
                    bound += got[0][0] == 0
                    see("the same arena", (got[0][0] == 0) == (bind[0][0] == 0) and got[1] == bind[1] and objects(got[2]) == objects(bind[2]))
    print(f"{len(CASES) + len(TYPED)} inputs; {free} sets without a library's COPY, {held} with one; answers", *(f"{n}: {m}" for n, m in sorted(counts.items())))
    print(f"{bound} other orders bound; {calls} comparisons, {differ} differ")
    sys.exit(differ > 0)


if __name__ == "__main__":
    main()
