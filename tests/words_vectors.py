#!/usr/bin/env python3
"""Makes crates/words_vectors/stdin and, from Python's own arithmetic, the lines that the program must print.

The hashes of the names in PUBLISHED are those of the published tables for the two functions; this script refuses to write
anything if its own hashes differ from them. usage: tests/words_vectors.py (from the repository's top)
"""
import random
import struct

from hashes import elf, gnu

M64 = 1 << 64
PUBLISHED = {  # name: (DT_GNU_HASH, System V)
    b"": (0x00001505, 0x00000000),
    b"printf": (0x156B2BB8, 0x077905A6),
    b"exit": (0x7C967E3F, 0x0006CF04),
    b"syscall": (0xBAC212A0, 0x0B09985C),
    b"flapenguin.me": (0x8AE9F18E, 0x03987915),
    b"a": (177670, 0x61),
    b"ab": (5863208, 0x672),
    b"aaaaaaa": (None, 0x07777711),
}

for published, (g, e) in PUBLISHED.items():
    assert g in (None, gnu(published)) and e == elf(published), published


def number(m, at, width):
    return sum((m[at + k] if at + k < len(m) else 0) << (8 * k) for k in range(width))


def name(m, at):
    if at >= len(m):
        return b""
    end = m.find(0, at)
    return bytes(m[at : end if end >= 0 else len(m)])


def write(m, at, data):
    for k, b in enumerate(data):
        if at + k < len(m):
            m[at + k] = b


def expected(m, src, f, a, b, c):
    if f == 1:
        return number(m, a + b, 1)
    if f in (2, 3, 4):
        return number(m, a, 2 ** (f - 1))
    if f in (5, 6, 7):
        return number(m, a + b, 2 ** (f - 4))
    if f == 8:
        return len(name(m, a))
    if f == 9:
        return len(name(m, a + b))
    if f == 10:
        return gnu(name(m, a))
    if f == 11:
        return elf(name(m, a))
    if f in (0, 12):
        return int(name(m, a) == name(m, b))
    if f == 13:
        return a - a % 4096
    if f == 14:
        return a % 4096
    if f == 15:
        return -(-a // 4096) * 4096 % M64
    if f == 16:
        return (a + b) % M64
    if f == 17:
        return max(a - b, 0)
    if f == 18:
        return min(a, b)
    if f == 20:
        write(m, a, (c % (1 << 32)).to_bytes(4, "little"))
    elif f == 21:
        write(m, a, c.to_bytes(8, "little"))
    elif f == 22:
        write(m, a, bytes(min(b, 600)))
    elif f == 23:
        n = min(c, 600)
        write(m, a, bytes(src[b + k] if b + k < len(src) else 0 for k in range(n)))
    return gnu(m)


def cases(places, rng):
    edge = [0, 1, 2, 3, 7, 8, 255, 256, 503, 504, 505, 508, 509, 510, 511, 512, 513, 4095, 4096, 4097, 8192,
            1 << 32, (1 << 63) - 1, 1 << 63, M64 - 4097, M64 - 4096, M64 - 4095, M64 - 512, M64 - 1]
    for at in places:
        for f in (8, 10, 11):
            yield f, at, 0, 0
        for other in places:
            yield 12, at, other, 0
    for f in range(2, 9):
        for at in edge:
            yield f, at, 0, 0
    for f in (1, 5, 6, 7, 9):
        for at in edge:
            for k in (0, 1, 8, 511, M64 - 1, M64 - 509):
                yield f, at, k, 0
    for f in range(13, 19):
        for a in edge:
            yield f, a, rng.choice(edge), 0
    for f in (20, 21, 22, 23):
        for at in (0, 1, 8, 503, 504, 505, 508, 509, 511, 512, 513, M64 - 1):
            yield f, at, rng.choice((0, 1, 7, 9, 100, 512, 700, M64 - 1)), rng.randrange(M64)
    yield 22, M64 - 1, M64 - 1, 0
    yield 23, 500, 510, M64 - 1
    yield 23, 0, M64 - 1, 64
    for _ in range(60):
        yield rng.choice((20, 21)), rng.randrange(520), 0, rng.randrange(M64)
        yield 23, rng.randrange(520), rng.randrange(600), rng.randrange(80)
    # 0 is 12 again, and leaves the image, as the hash after it shows
    yield 0, places[1], places[1], 8
    yield 0, places[1], places[2], 8
    yield 22, 0, 0, 0


rng = random.Random(1)
image = bytearray()
places = []
for word in list(PUBLISHED) + [b"0f" * 20, bytes([0x0F] * 7 + [0x7F]), bytes([255] * 30)]:
    places.append(len(image))
    image += word + b"\0"
image += bytes(rng.randrange(256) for _ in range(512 - len(image)))
data = bytes(image) + b"".join(struct.pack("<4Q", *case) for case in cases(places, rng))
m = bytearray(image)
lines = [expected(m, data, *struct.unpack_from("<4Q", data, at)) for at in range(512, len(data), 32)]
assert len(data) <= 65536
with open("crates/words_vectors/stdin", "wb") as out:
    out.write(data)
with open("crates/words_vectors/stdout", "w") as out:
    out.writelines(f"{line:016x}\n" for line in lines)
print(len(lines), "cases,", len(data), "bytes")
