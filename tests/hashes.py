"""The two hash functions of a name: the DT_GNU_HASH text's and the gABI's (Hash Table, hashing function)."""


def gnu(name):
    h = 5381
    for b in name:
        h = (h * 33 + b) & 0xFFFFFFFF
    return h


def elf(name):
    h = 0
    for b in name:
        h = ((h << 4) + b) & 0xFFFFFFFF
        g = h & 0xF0000000
        if g:
            h ^= g >> 24
        h &= ~g & 0xFFFFFFFF
    return h
