"""Sets that gcc and GNU ld make from C, for sets.py."""
import os
import struct
import subprocess

from object_cases import Object

COMMON = ["-O1", "-nostdlib", "-fno-stack-protector", "-fno-asynchronous-unwind-tables", "-fcf-protection=none", "-Wl,-z,max-page-size=4096",
          "-Wl,--build-id=none", "-Wl,-s"]
COMPACT = ["-Wl,-z,noseparate-code", "-Wl,-z,norelro"]


def heads(file):
    start, count = struct.unpack_from("<Q", file, 32)[0], struct.unpack_from("<H", file, 56)[0]
    return [(start + 56 * i, struct.unpack_from("<IIQQQQQQ", file, start + 56 * i)) for i in range(count)]


def flatten(file):
    """A host image: the memory of a shared object, in whole pages, with p_offset equal to p_vaddr."""
    loads = [p for _, p in heads(file) if p[0] == 1]
    image = bytearray(-(-max(p[3] + p[6] for p in loads) // 4096) * 4096)
    for _, _, offset, vaddr, _, filesz, _, _ in loads:
        image[vaddr : vaddr + filesz] = file[offset : offset + filesz]
    for at, p in heads(file):
        if p[0] in (1, 2, 7, 0x6474E552):
            struct.pack_into("<Q", image, at + 8, p[3])
    struct.pack_into("<Q", image, 40, 0)
    struct.pack_into("<HH", image, 60, 0, 0)
    return bytes(image)


class Linker:
    """The objects of one set, linked in a folder of its own."""

    def __init__(self, folder, hash="gnu", compact=True, extra=()):
        self.folder, self.hash, self.compact, self.extra = folder, hash, compact, extra
        os.makedirs(folder, exist_ok=True)

    def link(self, name, source, needs=(), program=False, soname=None, flags=()):
        path = os.path.join(self.folder, name)
        with open(path + ".c", "w") as out:
            out.write(source)
        command = ["gcc", *COMMON, *(COMPACT if self.compact else []), f"-Wl,--hash-style={self.hash}", "-Wl,--no-as-needed"]
        if program:
            command += ["-fPIE", "-pie", "-Wl,-e,entry", "-Wl,--unresolved-symbols=ignore-all"]
        else:
            command += ["-shared", "-fPIC", "-Wl,-soname," + (soname or name)]
        command += [*flags, *self.extra, path + ".c", "-o", path, *(os.path.join(self.folder, n) for n in needs)]
        subprocess.run(command, check=True, capture_output=True)
        with open(path, "rb") as made:
            return made.read()

    def host(self, source):
        return flatten(self.link("host.so", source))

    def program(self, source, needs=(), flags=()):
        return self.link("prog", source, needs, True, flags=flags)


def basic(linker):
    host = linker.host("""
        int host_value = 7; int host_only(void) { return 1; }
        int shared_fn(void) { return 100; }
        __attribute__((weak)) int host_weak(void) { return 3; }
        const char *host_text = "host";""")
    b = linker.link("libb.so", """
        extern int host_value; int host_only(void);
        int shared_var = 0x11223344; int b_table[3] = {1, 2, 3};
        int *b_pointer = &b_table[1]; static int local; int *b_local = &local;
        int shared_fn(void) { return host_only() + host_value + *b_pointer + *b_local; }
        int only_b(void) { return 2; }""")
    a = linker.link("liba.so", """
        int only_b(void); int shared_fn(void); extern int shared_var; int missing_strong(void);
        __attribute__((weak)) int missing_weak(void);
        static char bss[300]; char *a_bss = bss;
        int (*a_fn)(void) = only_b;
        int a_call(void) { return only_b() + shared_fn() + shared_var + missing_strong() + (missing_weak ? missing_weak() : 0); }""",
        ["libb.so"])
    program = linker.program("""
        extern int shared_var; int a_call(void); int shared_fn(void); int host_weak(void);
        int counter = 5; int *pc = &counter;
        void entry(void) { shared_var += a_call() + shared_fn() + host_weak() + *pc; for (;;); }""", ["liba.so", "libb.so"])
    return host, program, [(a, b"liba.so"), (b, b"libb.so")]


def visibility(linker):
    host = linker.host("""
        int twice(void) { return 1; } int hidden_somewhere(void) { return 9; } int prot(void) { return 8; }
        int shared_data[4] = {1,2,3,4};""")
    a = linker.link("liba.so", """
        __attribute__((visibility("protected"))) int prot(void) { return 1; }
        __attribute__((visibility("hidden"))) int hidden_somewhere(void) { return 2; }
        __attribute__((weak)) int weak_first(void) { return 3; }
        extern char absolute_sym[]; int twice(void);
        __attribute__((weak)) extern int weak_undef_data;
        int (*keep[3])(void) = { hidden_somewhere, weak_first, twice };
        long a_all(void) { return prot() + weak_first() + (long)absolute_sym + twice() + hidden_somewhere()
            + (&weak_undef_data ? weak_undef_data : 0); }""", flags=["-Wl,--defsym=absolute_sym=0x1234"])
    b = linker.link("libb.so", """
        int weak_first(void) { return 30; } int prot(void) { return 10; } int twice(void) { return 20; }
        int shared_data[2] = {0x55, 0x66};
        int call(void) { return prot() + twice() + weak_first(); }""")
    program = linker.program("""
        extern int shared_data[2]; long a_all(void); int call(void); int prot(void); int hidden_somewhere(void); int weak_first(void);
        extern char absolute_sym[];
        int twice(void) { return 2; }
        void entry(void) { shared_data[0] = a_all() + call() + prot() + hidden_somewhere() + weak_first() + (long)absolute_sym;
            for (;;); }""", ["liba.so", "libb.so"], ["-Wl,-E"])
    return host, program, [(a, b"liba.so"), (b, b"libb.so")]


def ordered(linker, edges, count, listed=None):
    """Library k needs the libraries edges[k]."""
    host = linker.host("int h = 1;")
    names = [f"l{k}.so" for k in range(2, 2 + count)]
    for name in names:  # so that cycles can be linked
        linker.link(name, f"int x_{name[:-3]} = 1;")
    files = {}
    for k, name in enumerate(names, 2):
        v = name[:-3]
        files[name] = linker.link("new_" + name, f"int v_{v} = {k}; int *p_{v} = &v_{v};", [f"l{n}.so" for n in edges.get(k, [])], soname=name)
    program = linker.program("void entry(void) { for (;;); }", names)
    return host, program, [(files[name], name.encode()) for name in listed or names]


def passed_over(linker):
    """Types that are passed over: 64 in data, and those of thread-local storage."""
    host = linker.host("int h_fn(void) { return 1; } int h_data = 4;")
    a = linker.link("liba.so", """
        __thread int tls_own = 5; extern __thread int tls_other; int h_fn(void); extern int h_data;
        int (*table[2])(void) = { h_fn, h_fn }; int *pd = &h_data;
        int use(void) { return tls_own + tls_other + table[0]() + *pd; }""")
    return host, linker.program("int use(void); void entry(void) { use(); for (;;); }", ["liba.so"]), [(a, b"liba.so")]


def long_relr(linker):
    """Bitmaps over more than 63 words."""
    words = ",".join(f"&t[{i}]" if i % 3 else "0" for i in range(200))
    a = linker.link("liba.so", f"""
        static int t[200]; static int *many[200] = {{ {words} }}; static long gap[90] = {{1}}; int *last = &t[7];
        int *use(int i) {{ gap[i] = 1; return many[i]; }}""", flags=["-fno-toplevel-reorder"])
    program = linker.program("extern int *last; void entry(void) { *last = 1; for (;;); }", ["liba.so"])
    return linker.host("int h = 1;"), program, [(a, b"liba.so")]


def copies(linker):
    """COPY from relocated data, with a source of the same size, a larger and a smaller one."""
    host = linker.host("int host_arr[4] = {9, 8, 7, 6};")
    same = linker.link("liba.so", "int target = 3; int *copied[3] = { &target, 0, &target };")
    program = linker.program("extern int *copied[3]; extern int host_arr[4]; void entry(void) { *copied[0] += host_arr[1]; for (;;); }",
                             ["liba.so", "host.so"], ["-Wl,-E"])
    larger = linker.link("larger.so", "static int target = 3; int *copied[5] = { &target, 0, &target, &target, &target };", soname="liba.so")
    smaller = linker.link("smaller.so", "static int target = 3; int *copied[1] = { &target };", soname="liba.so")
    return [(host, program, [(file, b"liba.so")]) for file in (same, larger, smaller)]


def started(linker):
    """Arrays of functions, DT_INIT and DT_FINI."""
    a = linker.link("liba.so", """
        int s; void my_init(void) { s = 1; } void my_fini(void) { s = 2; }
        __attribute__((constructor(101))) static void c1(void) { s = 3; }
        __attribute__((constructor(102))) static void c2(void) { s = 4; }
        __attribute__((destructor)) static void d1(void) { s = 5; }""", flags=["-Wl,-init,my_init", "-Wl,-fini,my_fini"])
    program = linker.program("""
        extern int s; static void pre(void) { s = 9; }
        __attribute__((section(".preinit_array"), used)) static void (*pp)(void) = pre;
        __attribute__((constructor)) static void pc(void) { s = 8; }
        void entry(void) { for (;;); }""", ["liba.so"])
    return linker.host("int h = 1;"), program, [(a, b"liba.so")]


def hidden_twin(linker):
    """`twin`, and `data`, in two versions, which GNU ld puts into one chain; of each the first in the chain is made local afterwards."""
    versions = os.path.join(linker.folder, "versions")
    with open(versions, "w") as out:
        out.write("V1 { global: twin; data; local: *; }; V2 { global: twin; data; call; } V1;")
    a = bytearray(linker.link("liba.so", """
        __asm__(".symver twin_old, twin@V1\\n.symver twin_new, twin@@V2\\n.symver data_old, data@V1\\n.symver data_new, data@@V2");
        int twin_old(void) { return 1; } int twin_new(void) { return 2; }
        int data_old[2] = {1, 2}; int data_new[2] = {3, 4};
        extern int twin(void); int call(void) { return twin(); }""", flags=["-Wl,--version-script=" + versions]))
    o = Object(bytes(a), lambda align: 1 << 20, False)
    for name in (b"twin", b"data"):
        (first, _), (_, _) = o.hits(name)
        a[o.symbols + 24 * first + 4] &= 0xF
    program = linker.program("extern int data[2]; int call(void); int twin(void); void entry(void) { data[0] = call() + twin(); for (;;); }",
                             ["liba.so"])
    return linker.host("int twin(void) { return 3; } int data[2] = {5, 6};"), program, [(bytes(a), b"liba.so")]


def linked(folder):
    """{name: (host, program, libraries)}"""
    sets = {}

    def linker(name, **options):
        return Linker(os.path.join(folder, name), **options)

    unwind, packed = ["-fasynchronous-unwind-tables"], ["-Wl,-z,pack-relative-relocs"]
    for name, options in {
        "gnu": dict(), "sysv": dict(hash="sysv"), "both": dict(hash="both"), "now": dict(extra=["-Wl,-z,now"]),
        "symbolic": dict(extra=["-Wl,-Bsymbolic"]), "relr": dict(extra=packed), "empty_load": dict(compact=False),
        "separate_code": dict(compact=False, extra=unwind), "separate_code_both": dict(hash="both", compact=False, extra=unwind),
    }.items():
        sets["linked " + name] = basic(linker(name, **options))
    host, program, libraries = visibility(linker("visibility"))
    sets["linked visibility"] = host, program, libraries
    sets["linked visibility reversed"] = host, program, libraries[::-1]
    for name, edges, count, listed in (
        ("2_needs_3_4", {2: [3, 4]}, 3, None), ("cycle", {2: [3], 3: [2]}, 2, None), ("none", {}, 0, None),
        ("diamond", {2: [3, 4], 3: [5], 4: [5]}, 4, None), ("deep", {2: [4, 3], 3: [5], 4: [3], 5: [2]}, 4, None),
        ("unlisted", {2: [3, 5], 3: [5]}, 4, ["l2.so", "l3.so", "l4.so"]),
    ):
        sets["linked order " + name] = ordered(linker("order_" + name), edges, count, listed)
    sets["linked passed over"] = passed_over(linker("passed_over"))
    sets["linked long relr"] = long_relr(linker("long_relr", extra=packed))
    for name, made in zip(("same", "larger", "smaller"), copies(linker("copies"))):
        sets["linked copy " + name] = made
    sets["linked started"] = started(linker("started"))
    for hash in ("gnu", "sysv", "both"):
        sets["linked hidden twin " + hash] = hidden_twin(linker("hidden_twin_" + hash, hash=hash))
    return sets
