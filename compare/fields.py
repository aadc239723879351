"""What ld.py and ld_so.py share: sets are bound by the archive, through compare/bound.c."""
import os
import struct
import subprocess
import sys

here = os.path.dirname(os.path.abspath(__file__))
sys.path[:0] = [os.path.join(here, "..", "tests"), here]

TYPES = {1: "R_X86_64_64", 24: "R_X86_64_PC64", 2: "R_X86_64_PC32", 10: "R_X86_64_32", 11: "R_X86_64_32S"}
M64 = 1 << 64


def width(kind):
    return 8 if kind in (1, 24) else 4


def built(archive, work):
    """The program that binds."""
    os.makedirs(work, exist_ok=True)
    program = os.path.join(work, "bound")
    subprocess.run(["gcc", "-std=c11", "-O2", "-Wall", "-I" + os.path.join(here, "..", "include"), os.path.join(here, "bound.c"),
                    os.path.join(archive, "libexport.a"), "-o", program], check=True)
    return program


def bound(program, frames, sizes):
    """For each frame the refusal's number and object, or the arena; `sizes` are the lengths of the arenas."""
    out = subprocess.run([program], input=b"".join(frames), stdout=subprocess.PIPE, check=True).stdout
    at, answers = 0, []
    for size in sizes:
        answer = struct.unpack_from("<Q", out, at)[0]
        at += 8
        if answer:
            answers.append((answer & 0xFFFFFFFF, answer >> 32))
        else:
            answers.append(out[at : at + size])
            at += size
    if at != len(out):
        sys.exit("compare: the program wrote more than the arenas")
    return answers
