"""What the program `bind` must answer: its rules for whole sets, on top of the reader of
object_cases.py. Knows nothing of the crates."""
from object_cases import M64, Object, Refused, headers, le, need

ADDRESS, ARENA, WORDS, INPUT = 0x10000000, 32768, 1024, 65536


# The types of request (b), psABI "Relocation Types": bytes of the field, whether P is subtracted, and which sums it holds.
ANY, UNSIGNED, SIGNED = (lambda v: True), (lambda v: v < 1 << 32), (lambda v: v < 1 << 31 or v >= M64 - (1 << 31))
FIELDS = {1: (8, False, ANY), 24: (8, True, ANY), 2: (4, True, SIGNED), 10: (4, False, UNSIGNED), 11: (4, False, SIGNED)}


# The words of request (f), as they are supplied; TYPES are those in use.
APPLY, PASS, REFUSE = 9, 10, 11
MAY_APPLY = (1, 2, 5, 6, 7, 8, 10, 11, 24)
SUPPLIED = tuple((APPLY if t in MAY_APPLY else REFUSE if t == 37 else PASS) << 28 | t for t in range(64))
TYPES = SUPPLIED


def types_ok(types):
    return len(types) == 64 and all(
        w & 0xFFFFFFF == t and w >> 28 in (APPLY, PASS, REFUSE) and (w >> 28 != APPLY or t in MAY_APPLY) for t, w in enumerate(types)
    )


class Stop(Exception):
    """A refusal: number, object."""


def parts_of(data):
    """Files by object number and the names of libraries, or refusal 1."""
    if not 4 <= len(data) <= INPUT or len(data) < 4 + 4 * le(data, 0, 4):
        raise Stop(1, 0)
    count = le(data, 0, 4)
    words = [le(data, 4 + 4 * k, 4) for k in range(count)]
    kinds = [1, 2] + [3, 4] * ((count - 2) // 2)
    sizes = [w & 0xFFFFFFF for w in words]
    good = count >= 2 and count % 2 == 0 and count <= 126 and [w >> 28 for w in words] == kinds
    if not (good and all(1 <= n <= 255 for n in sizes[3::2]) and 4 + 4 * count + sum(sizes) == len(data)):
        raise Stop(1, 0)
    parts, at = [], 4 + 4 * count
    for n in sizes:
        parts.append(data[at : at + n])
        at += n
    return parts[:2] + parts[2::2], parts[3::2]


class Set:
    """A set that meets no refusal up to 12, nor 21."""

    def __init__(self, data):
        files, self.names = parts_of(data)
        for k, name in enumerate(self.names):
            if name in self.names[:k]:
                raise Stop(3, 2 + k)
        self.objects, self.offsets, self.arena = [], [], bytearray()
        for k, file in enumerate(files):

            def offset(align):
                return len(self.arena) if k == 0 else -(-(ADDRESS + len(self.arena)) // align) * align - ADDRESS

            try:
                o = Object(file, lambda align: ARENA - offset(align), k == 0)
            except Refused as refusal:
                raise Stop(refusal.args[0], k) from None
            self.objects.append(o)
            o.dynamic = [s.vaddr for s in headers(file)[1] if s.type == 2][-1]
            self.arena += bytes(offset(o.align) - len(self.arena))
            self.offsets.append(len(self.arena))
            self.arena += o.image
        self.arena += bytes(ARENA - len(self.arena))
        self.report, self.known = [], {}

    def order(self):
        done, out = set(), []

        def visit(k):
            if k not in done:
                done.add(k)
                for n in reversed([o.name(n) for o in [self.objects[k]] for n in o.needs]):
                    if n in self.names:
                        visit(2 + self.names.index(n))
                out.append(k)

        for k in range(2, len(self.objects)):
            visit(k)
        return out + [1]

    def answer(self, k, name):
        """What object `k` has for the name."""
        if (k, name) not in self.known:
            self.known[k, name] = self.objects[k].answer(name)
        return self.known[k, name]

    def look(self, scope, name):
        """The first answer: object, value, size, absolute, address; or None."""
        for k in scope:
            words = self.answer(k, name)
            if words[0] == "is":
                _, _, value, size, _, absolute, _ = words
                here = value if absolute == "yes" else (ADDRESS + self.offsets[k] + value) % M64
                return k, value, size, absolute == "yes", here
        return None

    def resolve(self, k, name):
        own = self.answer(k, name)
        protected = own[0] == "is" and own[4] == "yes"
        return self.look([k] * protected + [1, *range(2, len(self.objects)), 0], name)

    def writable(self, o, place, n):
        return any(s.flags & 2 and s.vaddr <= place and place + n <= s.vaddr + s.memsz for s in o.loads)

    def write(self, k, place, v, size=8):
        need(self.writable(self.objects[k], place, size), 17)
        at = self.offsets[k] + place
        self.arena[at : at + size] = (v % (1 << 8 * size)).to_bytes(size, "little")

    def relr(self, k, o):
        base, location = ADDRESS + self.offsets[k], None
        for i in range(o.relrs):
            entry = o.u(o.relr + 8 * i, 8)
            if entry % 2 == 0:
                places, location = [entry], entry + 8
            else:
                bits = [b for b in range(63) if entry >> (b + 1) & 1]
                need(not bits or location is not None, 17)
                places = [location + 8 * b for b in bits]
                location = None if location is None else location + 8 * 63
            for place in places:
                self.write(k, place, le(self.arena, self.offsets[k] + place, 8) + base)

    def entry(self, k, o, number, at):
        place, kind, s, addend = (o.u(at + i, w) for i, w in ((0, 8), (8, 4), (12, 4), (16, 8)))
        mark = TYPES[kind] >> 28 if kind < 64 else PASS
        need(mark != REFUSE, 16 if kind == 37 else 25)
        if mark == PASS:
            if kind:
                self.report.append(7 << 28 | number)
            return
        if kind == 8:
            self.write(k, place, ADDRESS + self.offsets[k] + addend)
            return
        need(o.count is None or s < o.count, 14)
        need(o.symbol_ok(s), 15)
        name, info, _, _, _, size = o.symbol(s)
        name = o.name(name)
        if kind in FIELDS:
            size, less, fits = FIELDS[kind]
            need(self.writable(o, place, size), 17)
            found = self.resolve(k, name) if s else None
            v = (found[4] if found else 0) + addend - (ADDRESS + self.offsets[k] + place if less else 0)
            need(fits(v % M64), 22)
            self.write(k, place, v, size)
            if s and not found and info >> 4 != 2:
                self.report.append(6 << 28 | number)
            return
        found = self.look([*range(2, len(self.objects)), 0], name) if kind == 5 else self.resolve(k, name)
        if kind != 5:
            self.write(k, place, found[4] if found else 0)
        elif found:
            self.copy(k, place, found, min(size, found[2]))
        if not found and info >> 4 != 2:
            self.report.append(6 << 28 | number)

    def copy(self, k, place, found, n):
        definer, value, _, absolute, _ = found
        if n:
            need(self.writable(self.objects[k], place, n), 17)
            need(not absolute and value + n <= self.objects[definer].span, 18)
            to, start = self.offsets[k] + place, self.offsets[definer] + value
            need(to + n <= start or start + n <= to, 18)
            apart = lambda a, b: a + n <= b[0] or b[0] + b[1] <= a
            need(all(apart(to, (t, m)) and apart(to, (s, m)) and apart(start, (t, m)) for t, s, m in self.copies), 28)
            self.copies.append((to, start, n))
            self.arena[to : to + n] = self.arena[start : start + n]

    def may_take(self, order):
        """A builder's own order: each library once, then the program; and where a library has an entry of type 5, the order of `bind` only."""
        libraries = range(2, len(self.objects))
        copies = any(o.u(table + 24 * i + 8, 4) == 5 for o in self.objects[2:] for table, n in ((o.rela, o.relas), (o.plt, o.plts)) for i in range(n))
        return sorted(order[:-1]) == [*libraries] and order[-1:] == [1] and (not copies or order == self.order())

    def relocate(self, order=None):
        if order is not None and not self.may_take(order):
            raise Stop(35, 0)
        self.copies = []
        for k in order or self.order():
            o = self.objects[k]
            self.report.append(5 << 28 | k)
            try:
                self.relr(k, o)
                for i in range(o.relas):
                    self.entry(k, o, i, o.rela + 24 * i)
                for i in range(o.plts):
                    self.entry(k, o, o.relas + i, o.plt + 24 * i)
            except Refused as refusal:
                raise Stop(refusal.args[0], k) from None
        if len(self.report) > WORDS:
            raise Stop(20, 0)


class Expected:
    """What the rules say of a call to bind at any address, in any arena, with any report, policy and words of the types, and in an order of the caller's
    where one is given; of a query by ask()."""

    def __init__(self, data, address, arena, words, strict, limit=INPUT, types=SUPPLIED, order=None):
        global ADDRESS, ARENA, WORDS, INPUT, TYPES
        ADDRESS, ARENA, WORDS, INPUT, TYPES = address, arena, 1 << 32, limit, types
        self.address, self.loaded, self.relocated, self.refusal = address, None, None, None
        try:
            parts_of(data)
            if address % 4096 or arena > 1 << 28 or address + arena > 1 << 63:
                raise Stop(2, 0)
            if not types_ok(types):
                raise Stop(24, 0)
            self.loaded = Set(data)
            self.placed = bytes(self.loaded.arena)
            self.loaded.relocate(order)
            report, kinds = self.loaded.report, [w >> 28 for w in self.loaded.report]
            if strict and 6 in kinds:
                last = max(i for i in range(kinds.index(6)) if kinds[i] == 5)
                raise Stop(19, report[last] & 0xFFFFFFF)
            if len(report) > words:
                raise Stop(20, 0)
            self.relocated = bytes(self.loaded.arena)
        except Stop as stop:
            self.refusal = stop.args

    def ask(self, requester, name):
        """("refused", number, object), ("absent",) or ("found", object, symbol, address)"""
        if not self.loaded:
            return "refused", *self.refusal
        count = len(self.loaded.objects)
        if requester >= count:
            return "refused", 13, 0
        own = self.loaded.answer(requester, name)
        protected = own[0] == "is" and own[4] == "yes"
        for k in [requester] * protected + [1, *range(2, count), 0]:
            words = self.loaded.answer(k, name)
            if words[0] == "is":
                _, index, value, _, _, absolute, _ = words
                return "found", k, index, value if absolute == "yes" else (self.address + self.loaded.offsets[k] + value) % M64
        return ("absent",)


def answer(data):
    """(lines of the program, the arena), and the set where it is loaded."""
    loaded = None
    try:
        loaded = Set(data)
        loaded.relocate()
        return [f"{w:08x}" for w in loaded.report], bytes(loaded.arena), loaded
    except Stop as stop:
        return ["refused %d object %d" % stop.args], bytes(ARENA), loaded


def hidden_twins(loaded):
    """The names for which the Rust is no oracle."""
    return {name for o in loaded.objects for name in o.hidden_twins()}


def outside(loaded):
    """Why a bound set is not in the common domain, or None."""
    for o, at in zip(loaded.objects, loaded.offsets):
        base = ADDRESS + at
        tags = []
        at = o.dynamic
        while o.u(at, 8):
            tags.append((o.u(at, 8), o.u(at + 8, 8)))
            at += 16
        tables = [(5, 1), (6, 8), (7, 8), (23, 8), (36, 8), (0x6FFFFEF5, 8), (4, 4)]
        for tag, value in tags:
            if tag in POINTERS and base + value >= M64:
                return "a dynamic pointer past 2^64"
            if any(tag == t and value % step for t, step in tables):
                return "a table that is not aligned"
            if tag in (4, 0x6FFFFEF5) and value + 16 > o.span:
                return "an unread hash header"
            if tag in (15, 29) and not o.name_ok(value):
                return "a path"
        if o.dynamic % 8:
            return "a table that is not aligned"
        if any(o.u(o.relr + 8 * i, 8) % 8 and not o.u(o.relr + 8 * i, 8) % 2 for i in range(o.relrs if o.loads else 0)):
            return "a RELR word that is not aligned"
        if any(o.u(at + 24 * i + 8, 4) in FIELDS for at, n in ((o.rela, o.relas), (o.plt, o.plts)) if o.loads for i in range(n)):
            return "a type that the Rust passes over"
        names = [o.name(n) for n in o.needs]
        for s in symbols_read(o):
            if base + o.symbol(s)[4] >= M64:
                return "a symbol's value past 2^64"
            names.append(o.name(o.symbol(s)[0]))
        if not all(utf8(n) for n in names):
            return "a name that is not UTF-8"
    return None if all(utf8(n) for n in loaded.names) else "a name that is not UTF-8"


POINTERS = (3, 4, 5, 6, 7, 12, 13, 23, 25, 26, 32, 36, 0x6FFFFEF5)


def utf8(name):
    try:
        name.decode()
        return True
    except UnicodeDecodeError:
        return False


def symbols_read(o):
    """Those that walks reach, and those of the entries that search."""
    out = o.walked()
    for at, n in ((o.rela, o.relas), (o.plt, o.plts)) if o.loads else ():
        out |= {o.u(at + 24 * i + 12, 4) for i in range(n) if o.u(at + 24 * i + 8, 4) in (5, 6, 7)}
    return out
