#!/usr/bin/env python3
"""All names in one call: `lugwormpin_query_all` against the rules in Python, and against single queries.

usage: tests/query_all.py ARCHIVE [SETS [SEED]] (from the repository's top)

ARCHIVE is a folder with a libexport.a. The inputs of docs/DECISIONS.md, D100 to D108, come first, each with the words or the refusal that stand
there; then SETS sets (default 300) of tests/bind_sets.py, whole and damaged, each asked for all names of its files, names that nobody has and
empty ones, by every requester and by one that is no object, with lists and slices of right and of wrong lengths. Answer, arena and words must
be what the rules say (tests/bind_expected.py), and equal as many single queries. Arena and words are filled with other bytes before each call,
and the memory right behind each slice cannot be touched. Exit status 0: nothing differs. It needs gcc.
"""
import ctypes
import mmap
import os
import random
import struct
import subprocess
import sys
import tempfile

here = os.path.dirname(os.path.abspath(__file__))
sys.path.insert(0, here)
from bind_expected import Expected  # noqa: E402
from bind_sets import pack_set, random_set  # noqa: E402
from decision_sets import FIRST, ARRAY, HOST, LOAD, ONE, V, form  # noqa: E402

ADDRESS, ARENA = 0x10000000, 32768


class Room:
    """Memory behind whose end nothing can be touched: slices are handed out from its end."""

    libc = ctypes.CDLL(None, use_errno=True)

    def __init__(self, size):
        self.map = mmap.mmap(-1, size + mmap.PAGESIZE)
        self.at = ctypes.addressof(ctypes.c_char.from_buffer(self.map))
        self.size = size
        if self.libc.mprotect(ctypes.c_void_p(self.at + size), ctypes.c_size_t(mmap.PAGESIZE), 0) != 0:
            sys.exit("mprotect failed")

    def slice(self, content):
        start = self.size - len(content)
        self.map[start : self.size] = content
        return ctypes.c_void_p(self.at + start)

    def last(self, length):
        return bytes(self.map[self.size - length : self.size])


class Port:
    def __init__(self, archive, folder):
        library = os.path.join(folder, "port.so")
        subprocess.run(["gcc", "-shared", "-o", library, "-Wl,--whole-archive", os.path.join(archive, "libexport.a"), "-Wl,--no-whole-archive"], check=True)
        self.library = ctypes.CDLL(library)
        self.rooms = [Room(1 << 20) for _ in range(5)]

    def call(self, function, data, address, arena, requester, names, out):
        """The answer, the arena, and the 64-bit words of a call."""
        count = struct.unpack_from("<I", data)[0]
        sheet, content = data[4 : 4 + 4 * count], data[4 + 4 * count :]
        slices = []
        for room, content, step in zip(self.rooms, (sheet, content, b"\xa5" * arena, names, b"\x5a" * (8 * out)), (4, 1, 1, 1, 8)):
            slices += [room.slice(content), ctypes.c_size_t(len(content) // step)]
        function = getattr(self.library, function)
        function.restype = ctypes.c_uint64
        answer = function(*slices[:6], ctypes.c_uint64(address), ctypes.c_uint32(requester), *slices[6:])
        return answer, self.rooms[2].last(arena), list(struct.unpack(f"<{out}Q", self.rooms[4].last(8 * out)))


def rules(expected, arena, requester, names, out):
    """What names in one call says of a call."""
    refused = None
    if not expected.loaded:
        refused = expected.refusal
    elif requester >= len(expected.loaded.objects):
        refused = 13, 0
    elif (names and names[-1] != 0) or names.count(0) != out:
        refused = 23, 0
    if refused:
        return refused[1] << 32 | refused[0], bytes(arena), [0] * out
    asked = [expected.ask(requester, name) for name in names.split(b"\0")[:-1]]
    return 0, expected.placed, [reply[3] if reply[0] == "found" else 0 for reply in asked]


# the program exports `a` at 0x10 and, absolute with the value 0, `z`; its GNU table is not needed: a SysV table of one bucket
A = dict(symbols=[(1, 1, 0x11, 0, 1, 0x10, 8), (2, 3, 0x11, 0, 0xFFF1, 0, 8), (3, 0, 0x11, 0, 1, 0x20, 8)],
         hashes=[(4, 0x900, (1, 4, 1, 0, 2, 3, 0))], texts=[(0x401, b"a\0z\0")])
PLAIN = pack_set(HOST, form(**A))
BASE = ADDRESS + 0x1000
# name: set, arena, requester, list, words of the slice; the words, or the refusal
CASES = {
    "D100 the empty list": (PLAIN, 0x2000, 0, b"", 0, []),
    "D100 the empty list and a word": (PLAIN, 0x2000, 0, b"", 1, (23, 0)),
    "D100 one empty name": (PLAIN, 0x2000, 0, b"\0", 1, [BASE + 0x20]),
    "D100 one empty name and no word": (PLAIN, 0x2000, 0, b"\0", 0, (23, 0)),
    "D101 empty names": (PLAIN, 0x2000, 0, b"a\0\0a\0", 3, [BASE + 0x10, BASE + 0x20, BASE + 0x10]),
    "D101 nobody has it": (pack_set(HOST, form()), 0x2000, 0, b"\0a\0", 2, [0, 0]),
    "D102 a found 0": (PLAIN, 0x2000, 0, b"z\0q\0a\0", 3, [0, 0, BASE + 0x10]),
    **{f"D103 no last zero, {n} words": (PLAIN, 0x2000, 0, b"a", n, (23, 0)) for n in (0, 1, 2)},
    "D103 no last zero, the count right": (PLAIN, 0x2000, 0, b"a\0b", 1, (23, 0)),
    "D103 no last zero, a word too many": (PLAIN, 0x2000, 0, b"a\0b", 2, (23, 0)),
    "D103 a word too few": (PLAIN, 0x2000, 0, b"a\0", 0, (23, 0)),
    "D103 a word too many": (PLAIN, 0x2000, 0, b"a\0", 2, (23, 0)),
    "D104 13 before 23": (PLAIN, 0x2000, 2, b"a", 7, (13, 0)),
    "D104 13": (PLAIN, 0x2000, 2, b"a\0", 1, (13, 0)),
    "D104 4 before 13 and 23": (pack_set(HOST, form(patches=[(16, b"\2")])), 0x2000, 2, b"a", 7, (4, 1)),
    "D104 1 before all": (PLAIN + b"\0", 0x2000, 2, b"a", 7, (1, 0)),
    "D104 8": (PLAIN, 0x1FFF, 0, b"a\0", 1, (8, 1)),
    "D105 unrelocated": (pack_set(HOST, form(True, rela=[(0x1000, 8, 0, 0)], texts=[(0x1000, b"\5")])), 0x3000, 0, b"a\0", 1, [0]),
    "D105 unrelocated, the empty list": (pack_set(HOST, form(True, rela=[(0x1000, 8, 0, 0)], texts=[(0x1000, b"\5")])), 0x3000, 0, b"", 0, []),
    "D106 type 37": (pack_set(HOST, form(True, rela=[(0x1000, 37, 0, 0)], symbols=[(1, 1, 0x11, 0, 1, 0x10, 8)], hashes=ONE, **V)), 0x3000, 1, b"v\0", 1, [BASE + 0x10]),
    "D107 a name twice, in another order": (PLAIN, 0x2000, 1, b"q\0a\0a\0\0", 4, [0, BASE + 0x10, BASE + 0x10, BASE + 0x20]),
    "D107 many names": (PLAIN, 0x2000, 1, b"a\0b\0" * 5000, 10000, [BASE + 0x10, 0] * 5000),
    "D107 a long name": (PLAIN, 0x2000, 1, b"a" * 100000 + b"\0a\0", 2, [0, BASE + 0x10]),
    "D108 21": (pack_set(HOST, form(heads=[(LOAD, 4, *FIRST[2:], 3), ARRAY])), 0x2000, 9, b"a", 7, (21, 1)),
}


def names_of(expected, data, rng):
    """Names of the symbols of all objects, and others."""
    names = {b"", b"nobody", b"x" * 300}
    if expected.loaded:
        for o in expected.loaded.objects:
            names |= {o.name(o.symbol(s)[0]) for s in o.walked()}
    names = sorted(names)
    rng.shuffle(names)
    return names


def main():
    if not 2 <= len(sys.argv) <= 4:
        sys.exit(__doc__)
    sets, seed = (int(v) for v in sys.argv[2:] + ["300", "1"][len(sys.argv) - 2 :])
    calls, names_asked, refusals, differ = 0, 0, {}, 0
    with tempfile.TemporaryDirectory() as folder:
        port = Port(sys.argv[1], folder)

        def see(name, fine):
            nonlocal differ
            if not fine:
                differ += 1
                print("differs:", name)

        def ask(name, data, arena, requester, names, out, wanted):
            nonlocal calls, names_asked
            calls += 1
            names_asked += out if wanted[0] == 0 else 0
            refusals[wanted[0] & 0xFFFFFFFF] = refusals.get(wanted[0] & 0xFFFFFFFF, 0) + 1
            see(name, port.call("lugwormpin_query_all", data, ADDRESS, arena, requester, names, out) == wanted)

        for name, (data, arena, requester, names, out, wanted) in CASES.items():
            said = rules(Expected(data, ADDRESS, arena, 1 << 20, False, limit=1 << 20), arena, requester, names, out)
            words = [0] * out if isinstance(wanted, tuple) else wanted
            number = wanted[1] << 32 | wanted[0] if isinstance(wanted, tuple) else 0
            see(name + ", by the rules", said[0] == number and said[2] == words)
            ask(name, data, arena, requester, names, out, said)

        rng = random.Random(seed)
        for k in range(sets):
            data = bytearray(random_set(rng))
            for _ in range(rng.choice((0, 0, 1, 3))):
                data[rng.randrange(len(data))] = rng.randrange(256)
            data = bytes(data)
            expected = Expected(data, ADDRESS, ARENA, 1 << 20, False, limit=1 << 20)
            count = len(expected.loaded.objects) if expected.loaded else 3
            names = names_of(expected, data, rng)
            listed = b"".join(name + b"\0" for name in names)
            for requester in [*range(count), count, 1 << 31]:
                wanted = rules(expected, ARENA, requester, listed, len(names))
                ask(f"set {k} requester {requester}", data, ARENA, requester, listed, len(names), wanted)
                if not wanted[0]:
                    single = [port.call("lugwormpin_query", data, ADDRESS, ARENA, requester, name, 4) for name in names]
                    see(f"set {k} requester {requester}, single queries",
                        all(answer == 0 and arena == wanted[1] for answer, arena, _ in single) and [words[3] for _, _, words in single] == wanted[2])
            for requester, lists, out in ((0, listed[:-1], len(names)), (1, listed, len(names) + 1), (1, listed, len(names) - 1), (1, b"", 0), (count, listed[:-1], 0)):
                ask(f"set {k} odd list", data, ARENA, requester, lists, out, rules(expected, ARENA, requester, lists, out))
    told = ", ".join(f"{n}: {refusals[n]}" for n in sorted(refusals) if n)
    print(f"{calls} calls, {refusals.get(0, 0)} of them answered with {names_asked} words, refused by {told}; {differ} differ")
    sys.exit(differ > 0)


if __name__ == "__main__":
    main()
