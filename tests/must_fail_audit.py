#!/usr/bin/env python3
"""Of each must-fail edit that `rt ci` or `rt must-fail` tried: the first error, and whether the edit shows anything.

usage: tests/must_fail_audit.py [LOG..]     default: standard input, as in `rt must-fail | tests/must_fail_audit.py`

A LOG is what `rt ci` or `rt must-fail` printed. An edit is to be refused because a fact no longer holds. It shows nothing where it is a bad edit,
which cannot be applied, compiled or read; where the first error says only that code, definition or proof no longer have the shape of each other
(a record or a module that has no such field, a goal or an argument that is not there, a name that is not known); where the prover met a limit
of its own and gave no verdict; and where it was not tried, or not refused. Exit status 0: every edit shows something.
"""
import re
import sys

# What the checker says where a proof file does not fit the code (or the other way round).
SHAPE = [
    r"has no `",
    r"has no field",
    r"has no constructor",
    r"unknown name",
    r"is not in scope",
    r"is no name",
    r"not declared",
    r"no such module",
    r"expects? \d+ arguments?",
    r"too (many|few) arguments",
    r"^\(only ",
]
REFUSED = "refused, as it must be"
LINE = re.compile(r"(?:rt: )?must-fail ([\w-]+)/([\w.-]+)\.edit: (" + REFUSED + r"|BAD EDIT|NOT TRIED|NOT REFUSED)(.*)")
ERROR = re.compile(r"^(?:note: )?\S+:\d+:\d+:")
# A proof file that names what the edit took away, and what cites that proof.
NAMES = re.compile(r"^(?:note: )?(?:\./)?proofs/.*(?:has no field|is not in scope|has no `|was not admitted)")


def first_error(said):
    """Of a check's own lines (for tests/wrong/quick.py) the first error that is of no such proof file, else the first, or ''."""
    lines = said.split("\n")
    found = [i for i, line in enumerate(lines) if ERROR.match(line) and (": error" in line or line.startswith("note: "))]
    if not found:
        return ""
    at = next((i for i in found if not NAMES.match(lines[i])), found[0])
    # The message may go on in the next line, which begins with a space.
    text = lines[at]
    while at + 1 < len(lines) and lines[at + 1].startswith(" "):
        at += 1
        text += " " + lines[at].strip()
    return text


def shows_nothing(kind, text):
    return kind != REFUSED or not text or any(re.search(p, text) for p in SHAPE)


def main():
    said = [open(path, encoding="utf-8", errors="replace").read() for path in sys.argv[1:]] or [sys.stdin.read()]
    tried = {}
    for line in "\n".join(said).split("\n"):
        if match := LINE.match(line):
            crate, name, kind, text = match.groups()
            tried[crate, name] = kind, re.sub(r"^: ", "", text.strip()).strip()
    if not tried:
        sys.exit("tests/must_fail_audit.py: no must-fail edit is told of: give it what `rt ci` or `rt must-fail` printed")
    weak = 0
    for (crate, name), (kind, text) in sorted(tried.items()):
        shape = shows_nothing(kind, text)
        weak += shape
        told = text if kind == REFUSED else f"{kind} {text}"
        print(("SHOWS NOTHING " if shape else "ok            ") + f"{crate}/{name}: {told[:170]}")
    print(f"{len(tried)} edits, {weak} that show nothing")
    return 1 if weak else 0


if __name__ == "__main__":
    sys.exit(main())
