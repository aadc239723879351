#!/usr/bin/env python3
"""Compares the fields of data tables with what GNU ld writes. usage: compare/ld.py --archive FOLDER --work FOLDER [--entries N] [--seed S]

An entry is a type of 1, 24, 2, 10 and 11, and S, A and P. For ld it is a `.reloc` of an object file, S an absolute symbol (--defsym), P an
address in a section whose start is given (--section-start); ld writes the field, or says "relocation truncated to fit". For the port it is
the only entry of a program, S the value of an absolute symbol that a library exports, and the arena's address is chosen by P; the port
writes the field, or refuses by 22. The bytes beside the field must stay. N entries (default 1500) are made; the sums lie at and beside
each limit, 0, 2^31, 2^32, 2^64 - 2^31 and 2^63, and far from them, with addends below 0 and sums that wrap.
"""
import argparse
import collections
import os
import random
import re
import struct
import subprocess
import sys

from fields import M64, TYPES, bound, built, width
from bind_sets import ABSOLUTE, HOST, PAGE, make, pack_set, symbol, undefined
from sets import frame

LIMITS = [0, 1 << 31, 1 << 32, M64 - (1 << 31), 1 << 63, M64 - (1 << 32)]
# where sections start; P of every entry stays in the first 4,096 bytes
STARTS = [0x11000, 0x10002000, 0x7FFFF000, 0x80000000, 0xFFFFE000, 0x100001000, 0x7F1234567000, 0x3FFFFFFFF000]
FILL = 0x77


def entries(count, seed):
    """(type, S, A, section, offset in the section)"""
    rng = random.Random(seed)
    used = collections.Counter()
    out = []
    while len(out) < count:
        kind = rng.choice(list(TYPES))
        section = rng.randrange(len(STARTS))
        at = 16 * used[section] + rng.randrange(9)
        if at + 8 > PAGE:
            continue
        used[section] += 1
        value = (rng.choice(LIMITS) + rng.choice((0, 0, -1, -1, 1, -2, 2, 7, -9, rng.randrange(-5000, 5000)))) % M64
        if rng.random() < 0.1:
            value = rng.randrange(M64)
        place = STARTS[section] + at if kind in (2, 24) else 0
        if rng.random() < 0.5:  # the address of an ordinary object
            s = rng.choice((0, 8, 0x10003010, 0x7FFFFFF8, 0x80000000, 0xFFFFFFFF, 0x7F1234568010))
        elif rng.random() < 0.6:
            s = rng.choice((M64 - 8, M64 - 1, 1 << 63, (1 << 63) - 1, M64 - (1 << 31)))
        else:
            s = rng.randrange(M64)
        out.append((kind, s, (value - s + place) % M64, section, at))
    return out


def by_ld(made, work):
    """The eight bytes at each field after linking, or None where ld says that it does not fit."""
    text = []
    for section in range(len(STARTS)):
        text += [f'.section .f{section},"aw",@progbits', *[".byte " + ",".join([str(FILL)] * 64)] * (PAGE // 64)]
        text += [f".reloc {at}, {TYPES[kind]}, s{k} + {a if a < M64 // 2 else a - M64}"
                 for k, (kind, _, a, where, at) in enumerate(made) if where == section]
    source, middle, linked = (os.path.join(work, name) for name in ("fields.s", "fields.o", "fields.out"))
    with open(source, "w") as out:
        out.write("\n".join(text) + "\n")
    subprocess.run(["as", "--64", source, "-o", middle], check=True)
    options = os.path.join(work, "fields.options")
    with open(options, "w") as out:
        out.writelines(f"--defsym=s{k}={s:#x}\n" for k, (_, s, _, _, _) in enumerate(made))
        out.writelines(f"--section-start=.f{k}={start:#x}\n" for k, start in enumerate(STARTS))
    # --verbose: all fields that do not fit are named, not the first ten
    done = subprocess.run(["ld", "--verbose", "--noinhibit-exec", "-e", "0", "@" + options, middle, "-o", linked], capture_output=True)
    said = done.stderr.decode()
    cut = {(int(a), int(b, 16)) for a, b in re.findall(r"\(\.f(\d+)\+(0x[0-9a-f]+)\): relocation truncated to fit", said)}
    rest = [line for line in said.splitlines() if line and "relocation truncated to fit" not in line and "cannot find entry symbol" not in line]
    if rest or len(cut) != said.count("truncated to fit"):
        sys.exit("compare: ld says: " + "\n".join(rest[:5] or said.splitlines()[:5]))
    with open(linked, "rb") as file:
        image = file.read()
    start, size, number, names = struct.unpack_from("<Q", image, 40)[0], *struct.unpack_from("<3H", image, 58)
    headers = [struct.unpack_from("<IIQQQQ", image, start + size * k) for k in range(number)]
    places = {}
    for name, _, _, address, offset, _ in headers:
        at = headers[names][4] + name
        places[image[at : image.index(b"\0", at)].decode()] = address, offset
    if any(places[f".f{k}"][0] != start for k, start in enumerate(STARTS)):
        sys.exit("compare: ld did not put a section where it was told")
    out = []
    for kind, _, _, section, at in made:
        offset = places[f".f{section}"][1] + at
        out.append(None if (section, at) in cut else image[offset : offset + width(kind)])
    return out


def by_port(made, program):
    """The same by the port."""
    frames, sizes, places = [], [], []
    for kind, s, a, section, at in made:
        data = bytes([FILL]) * (PAGE + 16)
        library = make([symbol(b"v", section=ABSOLUTE, value=s)])
        file = make([undefined(b"v")], rela=[(0, kind, 1, a)], data=data)
        # where the data is in memory, by the program's own entry: the first eight bytes of its RELA table
        table = file.index(struct.pack("<IIQ", kind, 1, a)) - 8
        to = struct.unpack_from("<Q", file, table)[0]
        # the place of the data, not its first byte, whose address is P
        shift = 1 + (STARTS[section] + at - to - 1) % PAGE
        changed = bytearray(file)
        struct.pack_into("<Q", changed, table, to + shift)
        offset = len(HOST) + to + shift
        sizes.append(8 * PAGE)
        places.append((offset, width(kind)))
        frames.append(frame("ld", pack_set(HOST, bytes(changed), [(library, b"l")]), STARTS[section] + at - offset, 8 * PAGE, 16))
    out = []
    for answer, (offset, wide) in zip(bound(program, frames, sizes), places):
        if isinstance(answer, tuple):
            out.append(None if answer == (22, 1) else answer)
        elif answer[offset - 1] != FILL or answer[offset + wide] != FILL:
            out.append("a byte beside the field was written")
        else:
            out.append(answer[offset : offset + wide])
    return out


def main():
    parser = argparse.ArgumentParser()
    parser.add_argument("--archive", required=True)
    parser.add_argument("--work", default="target/compare/ld")
    parser.add_argument("--entries", type=int, default=1500)
    parser.add_argument("--seed", type=int, default=1)
    arguments = parser.parse_args()
    program = built(arguments.archive, arguments.work)
    seen, differ, left = collections.Counter(), 0, arguments.entries
    for run in range(-(-arguments.entries // 1000)):
        made = entries(min(left, 1000), arguments.seed + 1000 * run)
        left -= len(made)
        for entry, theirs, ours in zip(made, by_ld(made, arguments.work), by_port(made, program)):
            kind, s, a, section, at = entry
            seen[kind, "does not fit" if theirs is None else "written"] += 1
            if ours != theirs:
                differ += 1
                if differ <= 10:
                    print(f"{TYPES[kind]} S {s:#x} A {a:#x} P {STARTS[section] + at:#x}: {show(ours)}, ld {show(theirs)}")
    for (kind, what), number in sorted(seen.items()):
        print(f"{number:8} {TYPES[kind]}, {what}")
    print(f"{sum(seen.values())} entries, {sum(n for (_, what), n in seen.items() if what != 'written')} of them do not fit, {differ} differ")
    sys.exit(1 if differ else 0)


def show(answer):
    return answer[::-1].hex() if isinstance(answer, bytes) else "does not fit" if answer is None else answer


if __name__ == "__main__":
    main()
