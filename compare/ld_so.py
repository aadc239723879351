#!/usr/bin/env python3
"""Compares tables of function addresses with what Linux's dynamic linker leaves in a process. usage: compare/ld_so.py --archive FOLDER
--work FOLDER

gcc makes a program without libc, libraries that it needs, and a last one that is the host. ld.so starts the program, which writes the
addresses of the objects and the bytes of their writable segments; the port binds the same files, libraries in ld.so's order. Each
entry of the program and of the libraries is compared: of types 1, 2, 10 what is left of the field without A and P, that is S; of types 6,
7 and 8 the word. What is an address in an object is compared as that object and an offset, any other number as it is. gcc makes no
entry of types 2 and 10 for such files, so some entries of type 1 get them in the file. Left out are entries whose symbol is 0, or local,
hidden or internal in their own object: there ld.so takes another S (docs/DIFFERENCES.md), which is counted, not compared.
A set with a field that does not fit must be refused by 22, and ld.so must say "overflow".
"""
import argparse
import collections
import os
import struct
import subprocess
import sys

from fields import M64, TYPES, bound, built, width
from bind_sets import pack_set
from linked import Linker, flatten, heads
from sets import dynamic, frame, room, span

ADDRESS = 0x10000000

# Writes, for each object of the process: base, length of the name, the name, count of writable segments, and for each its address less base,
# its length and its bytes. DT_DEBUG leads to the list of objects.
DUMP = r"""
    struct map { unsigned long addr; char *name; unsigned long *dynamic; struct map *next; };
    extern unsigned long _DYNAMIC[] __attribute__((visibility("hidden")));
    static long call(long n, long a, long b, long c)
    {
        long r;
        __asm__ volatile("syscall" : "=a"(r) : "a"(n), "D"(a), "S"(b), "d"(c) : "rcx", "r11", "memory");
        return r;
    }
    static void put(const void *from, unsigned long size)
    {
        for (const char *at = from; size > 0;) {
            long n = call(1, 1, (long)at, (long)size);
            if (n <= 0)
                call(60, 2, 0, 0);
            at += n, size -= (unsigned long)n;
        }
    }
    static void put_word(unsigned long word) { put(&word, 8); }
    void entry(void)
    {
        unsigned long *d = _DYNAMIC;
        while (*d != 21)
            d += 2;
        for (struct map *m = *(struct map **)(d[1] + 8); m != 0; m = m->next) {
            unsigned long size = 0, count = 0;
            while (m->name[size] != 0)
                size++;
            unsigned char *head = (unsigned char *)m->addr;
            if (head == 0 || head[0] != 0x7f)
                continue;
            unsigned long *at = (unsigned long *)(head + *(unsigned long *)(head + 32));
            unsigned short number = *(unsigned short *)(head + 56);
            for (int i = 0; i < number; i++)
                count += (at[7 * i] & 0x2ffffffffUL) == 0x200000001UL;
            put_word(m->addr), put_word(size), put(m->name, size), put_word(count);
            for (int i = 0; i < number; i++)
                if ((at[7 * i] & 0x2ffffffffUL) == 0x200000001UL)
                    put_word(at[7 * i + 2]), put_word(at[7 * i + 5]), put(head + at[7 * i + 2], at[7 * i + 5]);
        }
        call(60, 0, 0, 0);
    }
"""


def functions(prefix, count):
    return "".join(f"int {prefix}{k}(void) {{ return {k}; }} " for k in range(count))


def declared(prefix, count):
    return "".join(f"int {prefix}{k}(void); " for k in range(count))


def table(name, entries):
    return f"void *{name}[{len(entries)}] = {{ {', '.join('(char *)' + e if '+' in e or '-' in e else e for e in entries)} }}; "


def rules(linker, count):
    """Tables of rule functions: of the own object, of other libraries and of the host, with addends, of weak and protected symbols, of a
    name that several have, and of a weak one that nobody has."""
    host = linker.link("host.so", functions("h", count) + "int twice(void) { return 0; } int data_h[9] = {1};")
    c = linker.link("libc_rules.so", functions("c", count) + "int twice(void) { return 1; } long big[40] = {5}; "
                    + declared("h", count) + table("table_c", [f"h{k}" for k in range(count)] + ["twice", "big + 17", "big - 3"]))
    b = linker.link("libb.so", functions("b", count) + declared("c", count) + """
        __attribute__((visibility("protected"))) int guarded(void) { return 2; } __attribute__((weak)) int faint(void) { return 3; }
        __attribute__((weak)) int absent(void); extern long big[40]; extern int data_h[9]; int twice(void); """
                    + table("table_b", [f"c{k}" for k in range(count)] + [f"b{k}" for k in range(count)] + ["guarded", "faint", "absent", "twice"])
                    + table("data_b", ["big + 8", "data_h + 4", "data_h - 100"]), ["libc_rules.so", "host.so"])
    a = linker.link("liba.so", functions("a", count) + declared("b", count) + """
        extern char fixed[]; extern char fixed_low[]; int faint(void) { return 4; } int guarded(void) { return 5; } int twice(void); """
                    + table("table_a", [f"b{k}" for k in range(count)] + [f"a{k}" for k in range(count)] + ["faint", "guarded", "twice"])
                    + table("fixed_a", ["fixed", "fixed + 9", "fixed_low", "fixed_low - 5", "fixed_low + 70000"]), ["libb.so", "libc_rules.so", "host.so"],
                    flags=["-Wl,--defsym=fixed=0xfffffffffffffff8", "-Wl,--defsym=fixed_low=0x12345"])
    program = linker.link("prog", DUMP + declared("a", count) + declared("b", count) + declared("c", count) + declared("h", count) + """
        int own(void) { return 1; } extern long big_p[3]; long big_p[3] = {1}; __attribute__((weak)) int absent(void); """
                          + table("rules", [f"{x}{k}" for k in range(count) for x in "abch"] + ["own", "absent"])
                          + table("data_p", ["big_p + 1", "big_p - 77"]),
                          ["liba.so", "libb.so", "libc_rules.so", "host.so"], True, flags=["-Wl,-E", "-Wl,--dynamic-linker=/lib64/ld-linux-x86-64.so.2"])
    return host, program, [(a, b"liba.so"), (b, b"libb.so"), (c, b"libc_rules.so")]


def places(file):
    """(place in the file, entry) of RELA and PLT."""
    loads = [p for _, p in heads(file) if p[0] == 1]
    tags = dict(dynamic(file)[0])
    out = []
    for start, size in ((7, 8), (23, 2)):
        if start in tags and size in tags:
            at = next(tags[start] - p[3] + p[2] for p in loads if p[3] <= tags[start] < p[3] + p[5])
            out += [(at + 24 * i, struct.unpack_from("<QIIQ", file, at + 24 * i)) for i in range(tags[size] // 24)]
    return out


def symbol_of(file, index):
    """st_info, st_other, st_shndx"""
    loads = [p for _, p in heads(file) if p[0] == 1]
    tags = dict(dynamic(file)[0])
    at = next(tags[6] - p[3] + p[2] for p in loads if p[3] <= tags[6] < p[3] + p[5])
    return struct.unpack_from("<BBH", file, at + 24 * index + 4)


def retyped(file, chosen):
    """The file with another type at the entries of type 1 that `chosen` names: {number of the entry among those of type 1: (type, addend)}."""
    changed, k = bytearray(file), 0
    for at, (place, kind, index, addend) in places(file):
        if kind == 1:
            if k in chosen:
                kind, more = chosen[k]
                struct.pack_into("<QIIQ", changed, at, place, kind, index, (addend + more) % M64)
            k += 1
    return bytes(changed)


def run(folder, files):
    """The process: {name of the file: (base, {address less base: bytes of the segment})}, and what ld.so said."""
    for name, file in files.items():
        path = os.path.join(folder, name)
        with open(path, "wb") as out:
            out.write(file)
        os.chmod(path, 0o755)
    done = subprocess.run(["/lib64/ld-linux-x86-64.so.2", "--library-path", folder, os.path.join(folder, "prog")], capture_output=True,
                          env={"LD_BIND_NOW": "1"}, timeout=60)
    if done.returncode:
        sys.exit(f"compare: the process ended with {done.returncode}: {done.stderr.decode()}")
    out, at, objects = done.stdout, 0, {}

    def word():
        nonlocal at
        at += 8
        return struct.unpack_from("<Q", out, at - 8)[0]

    while at < len(out):
        base, size = word(), word()
        name = os.path.basename(out[at : at + size].decode()) or "prog"
        at += size
        segments = {}
        for _ in range(word()):
            vaddr, size = word(), word()
            segments[vaddr] = out[at : at + size]
            at += size
        objects[name] = base, segments
    return objects, done.stderr.decode()


def read(segments, place, size):
    for vaddr, content in segments.items():
        if vaddr <= place and place + size <= vaddr + len(content):
            return int.from_bytes(content[place - vaddr : place - vaddr + size], "little")
    sys.exit(f"compare: no bytes at {place:#x}")


def told(value, bases):
    """The object in which an address lies, and the offset there; or the number."""
    for name, (base, size) in bases.items():
        if base <= value < base + size:
            return f"{name} + {value - base:#x}"
    return f"{value:#x}"


def left_out(file, index):
    info, other, section = symbol_of(file, index)
    return index == 0 or info >> 4 == 0 or other & 3 in (1, 2)


def compare(name, parts, folder, program, seen, refused=None):
    """How many entries differ."""
    host, main, libraries = parts
    files = {"host.so": host, "prog": main, **{n.decode(): f for f, n in libraries}}
    objects, said = run(folder, files)
    image = flatten(host)
    size = room(image, main, libraries)
    answer = bound(program, [frame(name, pack_set(image, main, libraries), ADDRESS, size, 4096)], [size])[0]
    if refused:
        seen["sets with a field that does not fit"] += 1
        if answer != refused or "overflow" not in said:
            print(f"{name}: {answer if isinstance(answer, tuple) else 'bound'}, ld.so says {said!r}")
            return 1
        return 0
    if isinstance(answer, tuple) or said:
        print(f"{name}: {answer if isinstance(answer, tuple) else 'bound'}, ld.so says {said!r}")
        return 1
    ours, theirs, at = {}, {}, 0
    for part, file in [("host.so", image), ("prog", main), *((n.decode(), f) for f, n in libraries)]:
        length = len(file) if part == "host.so" else span(file)
        ours[part], theirs[part] = (ADDRESS + at, length), (objects[part][0], length)
        at += length
    differ = 0
    for part, file in files.items():
        if part == "host.so":
            continue
        for number, (_, (place, kind, index, addend)) in enumerate(places(file)):
            if kind not in (1, 2, 6, 7, 8, 10):
                seen[f"entries of type {kind}, not compared"] += 1
                continue
            if kind != 8 and left_out(file, index):
                seen[f"entries of type {kind} whose symbol is 0, local, hidden or internal, not compared"] += 1
                continue
            wide = 8 if kind in (6, 7, 8) else width(kind)
            pair = []
            for bases, value in ((ours, int.from_bytes(answer[ours[part][0] - ADDRESS + place :][:wide], "little")),
                                 (theirs, read(objects[part][1], place, wide))):
                if kind in (1, 2, 10):
                    if kind == 2:  # the field is signed
                        value += bases[part][0] + place - (1 << 32 if value >> 31 else 0)
                    value = (value - addend) % M64
                pair.append(told(value, bases))
            seen[f"entries of type {kind}"] += 1
            if pair[0] != pair[1]:
                differ += 1
                print(f"{name}, {part}, entry {number} of type {kind}: {pair[0]}, ld.so {pair[1]}")
    return differ


def main():
    parser = argparse.ArgumentParser()
    parser.add_argument("--archive", required=True)
    parser.add_argument("--work", default="target/compare/ld_so")
    arguments = parser.parse_args()
    program = built(arguments.archive, arguments.work)
    seen, differ, sets = collections.Counter(), 0, 0
    unwind = ["-fasynchronous-unwind-tables"]
    for style, extra, compact in (("gnu", [], True), ("sysv", [], True), ("both", unwind, False), ("gnu", unwind + ["-Wl,-z,relro,-z,now"], False),
                                  ("gnu", ["-Wl,-Bsymbolic"], True), ("gnu", unwind + ["-Wl,-z,pack-relative-relocs"], False)):
        for count in (1, 7, 40):
            folder = os.path.join(arguments.work, f"{style}{len(extra)}{compact:d}{sets}")
            parts = host, main_file, libraries = rules(Linker(folder, style, compact, extra), count)
            differ += compare(f"rules {sets}", parts, folder, program, seen)
            # Some entries get types 2 and 10: 2 in the libraries, whose objects ld.so puts beside each other, except where the symbol is
            # absent or absolute; 10 where it is absolute and low.
            changed = []
            for file, n in libraries:
                chosen, k = {}, 0
                for _, (place, kind, index, addend) in places(file):
                    if kind == 1:
                        if n == b"libb.so" and k % 2 == 0 and index not in absent_in(file):
                            chosen[k] = 2, 0
                        if n == b"liba.so" and index in absolute_in(file, 0x12345):
                            chosen[k] = 10, 0
                        k += 1
                changed.append((retyped(file, chosen), n))
            differ += compare(f"rules {sets} of types 2 and 10", (host, main_file, changed), folder, program, seen)
            if count == 7:
                for kind, more in ((2, 1 << 33), (2, -(1 << 40)), (10, 1 << 32), (10, -(1 << 33))):
                    files = [(retyped(f, {0: (kind, more)}) if n == b"libb.so" else f, n) for f, n in libraries]
                    differ += compare(f"rules {sets}, type {kind} + {more:#x}", (host, main_file, files), folder, program, seen, (22, 3))
            sets += 1
    for what, number in sorted(seen.items()):
        print(f"{number:8} {what}")
    print(f"{sum(n for what, n in seen.items() if what[-1].isdigit())} entries compared, {differ} differ")
    sys.exit(1 if differ else 0)


def named(file):
    """{index: (name, value, section)} of the symbols that entries of type 1 have"""
    loads = [p for _, p in heads(file) if p[0] == 1]
    tags, strings = dynamic(file)
    tags = dict(tags)
    at = next(tags[6] - p[3] + p[2] for p in loads if p[3] <= tags[6] < p[3] + p[5])
    out = {}
    for _, (_, kind, index, _) in places(file):
        if kind == 1:
            name, _, _, section, value, _ = struct.unpack_from("<IBBHQQ", file, at + 24 * index)
            out[index] = file[strings + name : file.index(b"\0", strings + name)], value, section
    return out


def absent_in(file):
    return {index for index, (name, _, _) in named(file).items() if name == b"absent"}


def absolute_in(file, number):
    return {index for index, (_, value, section) in named(file).items() if section == 0xFFF1 and value == number}


if __name__ == "__main__":
    main()
