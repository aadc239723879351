#!/usr/bin/env python3
"""Runs examples/start_stop.c on modules that gcc makes: their own code starts, answers and stops. usage: tests/start_example.py ARCHIVE

ARCHIVE is a folder with a libexport.a. Each function of the modules adds a digit to a number that the program exports by `trace`; the digits say in
which order they ran. The program has a preinit array, DT_INIT and DT_FINI, constructors and destructors; it needs liba and libb, liba needs libb, and
libb uses the host. Exit status 0: the example printed what it must. It needs gcc and x86-64 Linux.
"""
import os
import subprocess
import sys
import tempfile

here = os.path.dirname(os.path.abspath(__file__))
sys.path[:0] = [here, os.path.join(here, "..", "compare")]
from bind_sets import pack_set  # noqa: E402
from linked import Linker  # noqa: E402

# digits: 1 preinit; 2, 3 (the host's), 4 libb; 6 liba; 8, 9 the program. Stopped: 9, 8 the program; 7 liba; 4, 5, 2 libb
HOST = "unsigned long host_digit(void) { return 3; }"
B = """extern unsigned long host_digit(void); extern void add(unsigned long);
    void b_init(void) { add(2); }
    __attribute__((constructor(101))) static void b1(void) { add(host_digit()); }
    __attribute__((constructor(102))) void b2(void) { add(4); }
    __attribute__((destructor(101))) static void b3(void) { add(5); }
    __attribute__((destructor(102))) void b4(void) { add(4); }
    void b_fini(void) { add(2); }"""
A = """extern void add(unsigned long); extern void b2(void);
    __attribute__((constructor)) void a1(void) { add(6); }
    __attribute__((destructor)) void a2(void) { add(7); }
    void *a_uses = b2;"""
PROGRAM = """static unsigned long number; extern void a1(void);
    void add(unsigned long digit) { number = 10 * number + digit; }
    unsigned long trace(void) { return number; }
    static void first(void) { add(1); }
    __attribute__((section(".preinit_array"), used)) static void (*pointer)(void) = first;
    void p_init(void) { add(8); }
    __attribute__((constructor)) static void p1(void) { add(9); }
    __attribute__((destructor)) static void p2(void) { add(9); }
    void p_fini(void) { add(8); }
    void *p_uses = a1;
    void entry(void) { for (;;); }"""
EXPECTED = "7 started, trace says 1234689\n6 stopped, trace says 1234689987452\n"


def main():
    if len(sys.argv) != 2:
        sys.exit(__doc__)
    with tempfile.TemporaryDirectory() as folder:
        linker = Linker(os.path.join(folder, "set"))
        b = linker.link("libb.so", B, flags=["-Wl,-init,b_init", "-Wl,-fini,b_fini"])
        a = linker.link("liba.so", A, ["libb.so"])
        program = linker.program(PROGRAM, ["liba.so", "libb.so"], ["-rdynamic", "-Wl,-init,p_init", "-Wl,-fini,p_fini"])
        data = os.path.join(folder, "set", "set")
        with open(data, "wb") as out:
            out.write(pack_set(linker.host(HOST), program, [(a, b"liba.so"), (b, b"libb.so")]))
        example = os.path.join(folder, "start_stop")
        subprocess.run(["gcc", "-std=c99", "-O1", "-Wall", "-Wextra", "-Werror", "-I" + os.path.join(here, "..", "include"), "-o", example,
                        os.path.join(here, "..", "examples", "start_stop.c"), os.path.join(sys.argv[1], "libexport.a")], check=True)
        printed = subprocess.run([example, data, "trace"], capture_output=True, text=True, timeout=60, check=False)
        print(printed.stdout, end="")
        if printed.stdout != EXPECTED or printed.returncode != 0:
            sys.exit(f"the example must print\n{EXPECTED}it ended with {printed.returncode}")


if __name__ == "__main__":
    main()
