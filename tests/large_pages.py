#!/usr/bin/env python3
"""Modules built for large pages: offsets, gaps and refusal 21, in arenas at any address.

usage: tests/large_pages.py ARCHIVE (from the repository's top)

ARCHIVE is a folder with a libexport.a. The inputs of docs/DECISIONS.md, D60 to D69, come first, each with the offsets or the refusal that stand
there; then sets that gcc and GNU ld make with -z max-page-size of 2 MiB and of 64 KiB, and these with the system's page size, bound in arenas
at multiples of 2 MiB and at other addresses. A set is bound and asked for a name; the arena of the query must hold the placed bytes at the
offsets that the rule gives, and zeros elsewhere, and each PT_LOAD of a real module stands at a multiple of its p_align, p_vaddr counted from
one too. Exit status 0: nothing differs. It needs gcc.
"""
import os
import struct
import subprocess
import sys
import tempfile

here = os.path.dirname(os.path.abspath(__file__))
sys.path[:0] = [here, os.path.join(here, "..", "compare")]
from decision_sets import ARRAY, DYNAMIC, FIRST, HOST, LOAD, SECOND, form  # noqa: E402
from dirty_arenas import hashed  # noqa: E402
from linked import Linker, basic, visibility  # noqa: E402
from object_cases import PAGE, ceil, headers, place  # noqa: E402
from bind_sets import pack_set  # noqa: E402
from sets import frame, passed_set  # noqa: E402

ADDRESS, LARGE = 0x10000000, 1 << 21
ZEROS = bytes(PAGE)


def small(align, flags=4):
    """Form R with that p_align."""
    return form(heads=[(LOAD, flags, *FIRST[2:], align), ARRAY])


def wide(first, second, load=SECOND):
    """Form RW with these."""
    return form(True, heads=[(*FIRST, first), ARRAY, (*load, second)])


def libraries(*files):
    return [(file, b"%c" % (97 + k)) for k, file in enumerate(files)]


# name: arena's address and length, host, program, libraries; the offsets of program and libraries, or the refusal
PROGRAM, R = small(PAGE), small(PAGE)
CASES = {
    **{f"D60 p_align {n}": (ADDRESS, 0x2000, HOST, small(n), (), [0x1000]) for n in (0, 1, 2, 8, 2048, PAGE)},
    "D60 the largest": (ADDRESS, 0x4000, HOST, wide(2, 0x2000), (), [0x2000]),
    "D60 the largest comes first": (ADDRESS, 0x4000, HOST, wide(0x2000, 2), (), [0x2000]),
    "D61 no first fit": (ADDRESS, 0x4000, HOST, small(0x2000), libraries(R), [0x2000, 0x3000]),
    "D61 each its own": (ADDRESS, 0x7000, HOST, small(0x2000), libraries(small(0x4000), R, small(0x2000)), [0x2000, 0x4000, 0x5000, 0x6000]),
    "D62 the address": (ADDRESS + PAGE, 0x2000, HOST, small(0x2000), (), [0x1000]),
    "D62 not the offset": (ADDRESS + PAGE, 0x5000, HOST, small(0x4000), libraries(small(0x2000)), [0x3000, (8, 2)]),
    "D62 2 MiB, from below": (LARGE - PAGE, 0x3000, HOST, small(LARGE), libraries(R), [0x1000, 0x2000]),
    "D62 2 MiB, far up": ((1 << 62) + LARGE - 3 * PAGE, 0x5000, HOST, small(LARGE), libraries(R), [0x3000, 0x4000]),
    "D63 the host's p_align": (ADDRESS, 0x2000, small(3), PROGRAM, (), [0x1000]),
    "D63 the host stays at 0": (ADDRESS + PAGE, 0x2000, small(LARGE), PROGRAM, (), [0x1000]),
    "D64 8 at the end": (ADDRESS, 0x3000, HOST, small(0x2000), (), [0x2000]),
    "D64 8 past the end": (ADDRESS, 0x2FFF, HOST, small(0x2000), (), (8, 1)),
    "D64 8, the offset past the end": (ADDRESS, 0x1000, HOST, small(0x2000), (), (8, 1)),
    "D64 21 before 8": (ADDRESS, 0x1000, HOST, small(3), (), (21, 1)),
    "D64 7 before 21": (ADDRESS, 0x2000, HOST, small(3, 1), (), (7, 1)),
    "D64 21 of the program, a library of zeros": (ADDRESS, 0x3000, HOST, small(3), libraries(ZEROS), (21, 1)),
    "D64 a library": (ADDRESS, 0x3000, HOST, PROGRAM, libraries(small(3)), (21, 2)),
    "D64 8 of the host": (ADDRESS, 0xFFF, HOST, small(3), (), (8, 0)),
    "D65 PT_DYNAMIC": (ADDRESS, 0x2000, HOST, form(heads=[FIRST, (*ARRAY, 3)]), (), [0x1000]),
    "D65 the second PT_LOAD": (ADDRESS, 0x4000, HOST, wide(PAGE, 3), (), (21, 1)),
    "D66 2 MiB": (ADDRESS, 0x201000, HOST, small(LARGE), (), [LARGE]),
    "D66 no room": (ADDRESS, 0x8000, HOST, small(LARGE), (), (8, 1)),
    "D66 over 2 MiB": (ADDRESS, 0x201000, HOST, small(2 * LARGE), (), (21, 1)),
    "D66 no power of two": (ADDRESS, 0x201000, HOST, small(3 << 19), (), (21, 1)),
    "D67 equal modulo 4,096 only": (ADDRESS, 0x8000, HOST, wide(PAGE, 0x4000, (LOAD, 6, 0x1000, 0x3000, 0x1000, 0x1000)), (), [0x4000]),
    "D69 2^64 - 1": (ADDRESS, 0x2000, HOST, small((1 << 64) - 1), (), (21, 1)),
    "D69 2^63": (ADDRESS, 0x2000, HOST, small(1 << 63), (), (21, 1)),
    "D69 at 2^63": ((1 << 63) - 0x2000, 0x2000, HOST, PROGRAM, (), [0x1000]),
    "D69 past 2^63": ((1 << 63) - 0x2000, 0x2000, HOST, small(LARGE), (), (8, 1)),
}


def loads_of(file):
    return [s for s in headers(file)[1] if s.type == 1]


def laid(address, host, files):
    """Large pages: the offsets of the objects after the host, and the end of the last."""
    end, offsets = len(host), []
    for file in files:
        loads = loads_of(file)
        align = max([PAGE] + [s.align for s in loads])
        offsets.append(-(-(address + end) // align) * align - address)
        end = offsets[-1] + ceil(max(s.vaddr + s.memsz for s in loads))
    return offsets, end


def placed(arena, host, files, offsets):
    image = bytearray(arena)
    image[: len(host)] = host
    for file, offset in zip(files, offsets):
        loads = loads_of(file)
        part = place(file, loads, ceil(max(s.vaddr + s.memsz for s in loads)))
        image[offset : offset + len(part)] = part
    return bytes(image)


def real(folder):
    """(name, host, program, libraries): what gcc and ld make for larger pages, alone and among others."""
    made = {}
    for size in (PAGE, 0x10000, LARGE):
        for name, source, compact in (("basic", basic, True), ("basic separate", basic, False), ("visibility", visibility, True)):
            # with unwind tables, since a PT_LOAD without memory is refused (7)
            extra = [f"-Wl,-z,max-page-size={size}"] + ([] if compact else ["-fasynchronous-unwind-tables"])
            linker = Linker(os.path.join(folder, f"{name} {size}"), compact=compact, extra=extra)
            made[name, size] = passed_set(*source(linker))  # one has an entry of type 2 in its code, which refusal 17 meets
            if size == LARGE and not all(s.align == LARGE for file, _ in [(made[name, size][1], b"")] + made[name, size][2] for s in loads_of(file)):
                sys.exit("the linker does not make modules for large pages")
            yield f"{name}, pages of {size}", *made[name, size]
    (host, program, _), (_, _, (a, b)) = made["basic", PAGE], made["basic", LARGE]
    yield "libraries of 2 MiB", host, program, [a, b]
    yield "one library of 2 MiB", host, program, [made["basic", PAGE][2][0], b]


def main():
    if len(sys.argv) != 2:
        sys.exit(__doc__)
    compared, differ = 0, 0
    with tempfile.TemporaryDirectory() as folder:
        program = os.path.join(folder, "answers")
        subprocess.run(["gcc", "-std=c11", "-O2", "-Wall", "-I" + os.path.join(here, "..", "include"), os.path.join(here, "archive_answers.c"),
                        os.path.join(sys.argv[1], "libexport.a"), "-o", program], check=True)

        def answers(name, address, arena, host, files, names):
            data = pack_set(host, files[0], list(zip(files[1:], names)))
            line = frame(f"{name} |0:61 9:61", data, address=address, arena=arena, report=4096)
            words = subprocess.run([program, "255"], input=line, capture_output=True, check=True).stdout.split()
            return [int(word, 16) for word in words]

        def see(name, fine):
            nonlocal compared, differ
            compared += 1
            if not fine:
                differ += 1
                print("differs:", name)

        for name, (address, arena, host, file, others, wanted) in CASES.items():
            files = [file] + [other for other, _ in others]
            bind, bound, _, query, asked, _, wild, left, _ = answers(name, address, arena, host, files, [n for _, n in others])
            last = wanted[-1] if isinstance(wanted, list) and isinstance(wanted[-1], tuple) else wanted
            if isinstance(last, tuple):
                number, k = last
                zeros = hashed(bytes(arena))
                see(name, bind == query == wild == k << 32 | number and bound == asked == left == zeros)
            else:
                see(name, laid(address, host, files)[0] == wanted and bind == query == 0 and wild == 13
                    and asked == hashed(placed(arena, host, files, wanted)))

        for name, host, file, others in real(folder):
            files = [file] + [other for other, _ in others]
            for address in (ADDRESS, ADDRESS + PAGE, LARGE - 2 * PAGE, 0x123456789000):
                offsets, end = laid(address, host, files)
                bind, _, _, query, asked, _, _, _, _ = answers(name, address, end, host, files, [n for _, n in others])
                at = all((address + offset + s.vaddr - s.vaddr % s.align) % s.align == 0
                         for one, offset in zip(files, offsets) for s in loads_of(one))
                see(f"{name} at {address:#x}", at and bind == query == 0 and asked == hashed(placed(end, host, files, offsets)))
                bind, _, _, query, _, _, _, _, _ = answers(name, address, end - 1, host, files, [n for _, n in others])
                see(f"{name} at {address:#x}, a byte less", bind == query == len(files) << 32 | 8)
    print(f"{compared} sets, {differ} differ")
    sys.exit(differ > 0)


if __name__ == "__main__":
    main()
