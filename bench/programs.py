#!/usr/bin/env python3
"""Programs of the system as sets of the benchmarks (vi-NAME), and ld.so's time for them.

usage: bench/programs.py                  prints the names of the sets, of the programs that are there
       bench/programs.py ld.so vi-NAME N  runs the program N times and prints ld.so's cycles, in a line as the program bench does

A set is the program's file and the libraries that it needs, breadth first as ld.so takes them, ld.so itself among them as the library that
libc needs; a small host that none of them knows comes before. Versions of symbols are not compared, as everywhere in the rules. In
the copy of the files that is handed in, type 37 (refusal 16) is overwritten by 8 and type 1 by 6, as it was before type 1 was applied, so that each entry is
the work that it is for ld.so, but for the call of a resolver. Nothing else is changed; what is refused all the same is not measured, and
a line on standard error says so.

ld.so's figure is the `time needed for relocation` of LD_DEBUG=statistics with LD_BIND_NOW=1: cycles of the TSC. glibc 2.36 leaves out the
last digit of each such number. Whether the one that is here does is seen from a program whose resolver waits for a known number of cycles.
"""
import os
import re
import shutil
import struct
import subprocess
import sys
import tempfile

top = os.path.join(os.path.dirname(os.path.abspath(__file__)), "..")
sys.path[:0] = [os.path.join(top, "compare"), os.path.join(top, "tests")]
from bind_sets import HOST  # noqa: E402
from linked import heads  # noqa: E402
from sets import dynamic  # noqa: E402

PROGRAMS = ["git", "curl", "ssh", "perl", "python3", "cmake", "perf", "gdb", "vim", "gpg", "tmux", "openssl"]
PATHS = "/usr/bin:/bin:/usr/local/bin"
FOLDERS = ["/lib/x86_64-linux-gnu", "/usr/lib/x86_64-linux-gnu", "/usr/local/lib", "/lib64", "/usr/lib64", "/lib", "/usr/lib"]
MOST = 62


def say(name, what):
    print(f"vi-{name}: {what}", file=sys.stderr)


def read(path):
    with open(path, "rb") as file:
        return file.read()


def path_of(name):
    """The program's file; None, with a line on standard error, where it is missing or no dynamic object."""
    path = shutil.which(name, path=PATHS)
    if not path:
        return say(name, "left out, not there")
    with open(path, "rb") as file:
        head = file.read(64)
    if head[:5] != b"\x7fELF\2":
        return say(name, f"left out, {path} is no 64-bit ELF file")
    if head[16:18] != b"\3\0":
        return say(name, f"left out, {path} is not position-independent (refusal 4)")
    return os.path.realpath(path)


def needs(file, path):
    """The libraries that a file needs, and the folders that it names for them."""
    tags, strings = dynamic(file)
    text = {tag: [file[strings + v : file.index(b"\0", strings + v)] for t, v in tags if t == tag] for tag in (1, 15, 29)}
    named = b":".join(text[29] or text[15]).decode()
    origin = os.path.dirname(path)
    return text[1], [f.replace("${ORIGIN}", origin).replace("$ORIGIN", origin) for f in named.split(":") if f]


def libraries_of(program, path):
    """(name, path), breadth first."""
    out, queue = {}, [(program, path)]
    while queue:
        file, path = queue.pop(0)
        wanted, named = needs(file, path)
        for name in wanted:
            if name in out:
                continue
            found = next((p for p in (os.path.join(f, name.decode()) for f in named + FOLDERS) if os.path.isfile(p)), None)
            if not found:
                raise FileNotFoundError(name.decode())
            out[name] = os.path.realpath(found)
            queue.append((read(found), out[name]))
    return out


def comparable(file):
    """The file with types 37 and 1 overwritten."""
    file, tags = bytearray(file), dict(dynamic(file)[0])
    loads = [p for _, p in heads(file) if p[0] == 1]
    for table, size in ((7, 8), (23, 2)):
        if table not in tags or size not in tags:
            continue
        at = next(tags[table] - p[3] + p[2] for p in loads if p[3] <= tags[table] < p[3] + p[5])
        for k in range(at + 8, at + tags[size] // 24 * 24, 24):
            kind = struct.unpack_from("<I", file, k)[0]
            if kind in (37, 1):
                struct.pack_into("<I", file, k, 8 if kind == 37 else 6)
    return bytes(file)


def program_set(name):
    """(host, program, libraries)"""
    path = path_of(name)
    program = read(path)
    libraries = libraries_of(program, path)
    return HOST, comparable(program), [(comparable(read(p)), n) for n, p in libraries.items()]


def names():
    for name in PROGRAMS:
        path = path_of(name)
        if not path:
            continue
        try:
            count = len(libraries_of(read(path), path))
        except (FileNotFoundError, StopIteration, KeyError, struct.error) as error:
            say(name, f"left out, its libraries cannot be followed: {error!r}")
            continue
        if count > MOST:
            say(name, f"left out, {count} libraries (refusal 1)")
        else:
            yield f"vi-{name}"


# ---- ld.so

WAIT = 10**8
WAITING = f"""#include <x86intrin.h>
static int one(void) {{ return 0; }}
static void *pick(void) {{ unsigned long long start = __rdtsc(); while (__rdtsc() - start < {WAIT}ull); return one; }}
int f(void) __attribute__((ifunc("pick")));
int main(void) {{ return f(); }}
"""


def printed(path):
    """The number that ld.so prints for relocation."""
    with tempfile.TemporaryDirectory() as folder:
        environment = dict(os.environ, LD_BIND_NOW="1", LD_DEBUG="statistics", LD_DEBUG_OUTPUT=f"{folder}/out")
        ran = subprocess.Popen([path, "--version"], stdin=subprocess.DEVNULL, stdout=subprocess.DEVNULL, stderr=subprocess.DEVNULL,
                               env=environment)
        ran.wait()
        # Programs that it starts write files of their own.
        text = read(f"{folder}/out.{ran.pid}").decode()
    return int(re.search(r"time needed for relocation: (\d+) cycles", text)[1])


def scale():
    """Cycles for each one that is printed: 1, or 10 where the last digit is left out. Relocation calls the resolver, which waits WAIT."""
    with tempfile.TemporaryDirectory() as folder:
        with open(f"{folder}/wait.c", "w") as out:
            out.write(WAITING)
        subprocess.run(["gcc", "-O1", "-o", f"{folder}/wait", f"{folder}/wait.c"], check=True)
        least = min(printed(f"{folder}/wait") for _ in range(3))
    found = [n for n in (1, 10) if WAIT <= n * least + n < 5 * WAIT]
    if not found:
        sys.exit(f"bench/programs.py: ld.so prints {least} cycles for a wait of {WAIT}")
    return found[0]


def ld_so(name, rounds):
    path, times = path_of(name), scale()
    cycles = sorted(times * printed(path) for _ in range(rounds))
    return cycles[0], cycles[len(cycles) // 2], len(cycles)


if __name__ == "__main__":
    if len(sys.argv) == 4 and sys.argv[1] == "ld.so":
        print(sys.argv[2], "ld.so relocation, cycles", *ld_so(sys.argv[2].removeprefix("vi-"), int(sys.argv[3])), sep="\t")
    elif len(sys.argv) == 1:
        print(*names())
    else:
        sys.exit(__doc__)
