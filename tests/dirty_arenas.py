#!/usr/bin/env python3
"""Places objects into arenas of any content: answer, arena and report must not hang on what stood there.

usage: tests/dirty_arenas.py ARCHIVE [--made N] [--sets N] [--seed S] (from the repository's top)

ARCHIVE is a folder with a libexport.a. First come objects with nothing but segments: the fixed ones, with the runs that docs/DECISIONS.md's
rule gives, and N made ones with gaps, part pages, zero fill, files that end inside a page and headers in any order. Their arenas are
compared with the bytes that the rule gives, which is followed here anew. Then come N sets of compare/sets.py. Each set is bound
(and asked) in arenas full of zeros, of 0xFF and of other bytes. Exit status 0: nothing differs. It needs gcc.
"""
import argparse
import os
import random
import struct
import subprocess
import sys
import tempfile

here = os.path.dirname(os.path.abspath(__file__))
sys.path[:0] = [here, os.path.join(here, "..", "compare")]
from bind_sets import HOST, PAGE, pack_set, up  # noqa: E402
from compare_archives import label_of, others  # noqa: E402
from sets import frame  # noqa: E402

M64, ARRAY = (1 << 64) - 1, 0x400


def file_of(loads, size, rng):
    """A file of `size` bytes, few of them 0, with these PT_LOADs, (flags, offset, vaddr, filesz, memsz), and the least dynamic array."""
    file = bytearray(rng.randrange(1, 256) for _ in range(size))
    struct.pack_into("<16sHHIQQQIHHHHHH", file, 0, b"\x7fELF\2\1\1", 3, 62, 1, 0, 64, 0, 0, 64, 56, len(loads) + 1, 0, 0, 0)
    for i, (flags, offset, vaddr, filesz, memsz) in enumerate(loads):
        struct.pack_into("<IIQQQQQQ", file, 64 + 56 * i, 1, flags, offset, vaddr, vaddr, filesz, memsz, PAGE)
    struct.pack_into("<IIQQQQQQ", file, 64 + 56 * len(loads), 2, 4, ARRAY, ARRAY, ARRAY, 48, 48, 8)
    struct.pack_into("<6Q", file, ARRAY, 5, 0, 6, 0, 0, 0)
    return bytes(file)


def placed(file, loads):
    """The rules: pages of the file, zeros past its end, then zeros from p_filesz to p_memsz."""
    image = bytearray(up(max(load[2] + load[4] for load in loads), PAGE))
    for _, offset, vaddr, filesz, memsz in loads:
        start, end, to = offset // PAGE * PAGE, up(offset + filesz, PAGE), vaddr // PAGE * PAGE
        image[to : to + end - start] = file[start:end].ljust(end - start, b"\0")
        image[vaddr + filesz : vaddr + memsz] = bytes(memsz - filesz)
    return bytes(image)


# ---- fixed ones: loads, length of the file, runs (offset of the span, size, offset of the file or None for zeros)

FIRST = (4, 0, 0, 0x1000, 0x1000)
FIXED = {
    "part page": ([FIRST, (6, 0x1010, 0x1010, 0x20, 0x30)], 0x2000,
                  [(0, 0x1000, 0), (0x1000, 0x30, 0x1000), (0x1030, 0x10, None), (0x1040, 0xFC0, 0x1040)]),
    "headers exchanged": ([(6, 0x1010, 0x1010, 0x20, 0x30), FIRST], 0x2000,
                          [(0, 0x1000, 0), (0x1000, 0x30, 0x1000), (0x1030, 0x10, None), (0x1040, 0xFC0, 0x1040)]),
    "file ends in a page": ([FIRST, (6, 0x1000, 0x1000, 0x20, 0x20)], 0x1040,
                            [(0, 0x1000, 0), (0x1000, 0x20, 0x1000), (0x1020, 0x20, 0x1020), (0x1040, 0xFC0, None)]),
    "no file bytes, not at a page": ([FIRST, (6, 0x18, 0x1018, 0, 40)], 0x1000,
                                     [(0, 0x1000, 0), (0x1000, 24, 0), (0x1018, 40, None), (0x1040, 0xFC0, 0x40)]),
    "no file bytes, at a page": ([FIRST, (6, 0, 0x1000, 0, 40)], 0x1000, [(0, 0x1000, 0), (0x1000, 0x1000, None)]),
    "pages between": ([FIRST, (6, 0x1000, 0x4000, 0x1000, 0x2008)], 0x2000,
                      [(0, 0x1000, 0), (0x1000, 0x3000, None), (0x4000, 0x1000, 0x1000), (0x5000, 0x1008, None), (0x6008, 0xFF8, None)]),
}


def said(file, runs):
    image, at = b"", 0
    for place, size, source in runs:
        if place != at or size == 0 or source is not None and source + size > len(file):
            sys.exit("runs with a gap, an empty run, or one past the file")
        image += bytes(size) if source is None else file[source : source + size]
        at += size
    return image


def made(rng):
    """Segments in pages of their own, from page 0 on, then in any order."""
    loads, page, size = [], 0, 0
    for k in range(rng.choice((1, 2, 2, 3, 3, 4, 6, 16))):
        skip = 0 if k == 0 else rng.choice((0, 0, 5, 24, 0x800, 0xFF8, 0xFFF))
        filesz = rng.choice((0, 1, 8, 0x30, 0x7F0, 0x1000, 0x1001, 0x2345)) if k else rng.choice((0x430, 0x460, 0xFFF, 0x1000, 0x1800))
        memsz = filesz + rng.choice((0, 0, 1, 8, 0x40, 0x1000, 0x1234)) or 1
        offset = 0 if k == 0 else PAGE * rng.randrange(4) + skip
        vaddr = 0 if k == 0 else PAGE * (page + rng.choice((0, 0, 1, 3))) + skip
        loads.append((6 if memsz > filesz or rng.random() < 0.5 else 4, offset, vaddr, filesz, memsz))
        page, size = up(vaddr + memsz, PAGE) // PAGE, max(size, offset + filesz)
    rng.shuffle(loads)
    return loads, size + rng.choice((0, 0, 1, 100, 0x1000, 0x3000))


def hashed(data):
    """As tests/archive_answers.c has it."""
    h, whole = len(data) + 1, len(data) // 8 * 8
    for (word,) in struct.iter_unpack("<Q", data[:whole]):
        h = (h ^ word) * 0x9E3779B97F4A7C15 & M64
        h ^= h >> 29
    for byte in data[whole:]:
        h = (h ^ byte) * 0x100000001B3 & M64
    return h


def placings(rng, count):
    """Frames, each with the hash of the arena that must be left."""
    objects = [(name, *case) for name, case in FIXED.items()] + [(f"made {k}", *made(rng), None) for k in range(count)]
    for name, loads, size, runs in objects:
        file = file_of(loads, size, rng)
        image = placed(file, loads)
        if runs is not None and said(file, runs) != image:
            sys.exit(f"{name}: the runs do not say the rule's bytes")
        arena = bytes(HOST) + image + bytes(rng.choice((0, 8, PAGE, 3 * PAGE)))
        yield frame(f"{name} |0:61", pack_set(HOST, file), arena=len(arena), report=4), hashed(arena)


def main():
    parser = argparse.ArgumentParser()
    parser.add_argument("archive")
    parser.add_argument("--made", type=int, default=400)
    parser.add_argument("--sets", type=int, default=600)
    parser.add_argument("--seed", type=int, default=1)
    arguments = parser.parse_args()
    rng = random.Random(arguments.seed)
    compared, differ = 0, 0
    with tempfile.TemporaryDirectory() as folder:
        program = os.path.join(folder, "answers")
        subprocess.run(["gcc", "-std=c11", "-O2", "-Wall", "-I" + os.path.join(here, "..", "include"), os.path.join(here, "archive_answers.c"),
                        os.path.join(arguments.archive, "libexport.a"), "-o", program], check=True)
        runs = [subprocess.Popen([program, *fill], stdin=subprocess.PIPE, stdout=subprocess.PIPE) for fill in (["0"], ["255"], [])]

        def answers(data):
            for run in runs:
                run.stdin.write(data)
                run.stdin.flush()
            return [run.stdout.readline().split() for run in runs]

        def see(data, fine):
            nonlocal compared, differ
            compared += 1
            if not fine:
                differ += 1
                print("differs:", label_of(data))

        for data, arena in placings(rng, arguments.made):
            lines = answers(data)
            see(data, all(line and line == lines[0] for line in lines) and int(lines[0][0], 16) == 0
                and int(lines[0][1], 16) == arena and int(lines[0][4], 16) == arena)
        for data in others(rng, arguments.sets, arguments.seed, os.path.join(folder, "linked")):
            lines = answers(data)
            see(data, all(line and line == lines[0] for line in lines))
        for run in runs:
            run.stdin.close()
            run.wait()
    print(f"{compared} sets, each in arenas of three contents, {differ} differ")
    sys.exit(differ > 0)


if __name__ == "__main__":
    main()
