#!/usr/bin/env python3
"""Wrong programs, tried by `rt check`: what an edit does not touch is taken from the crate's last check, so that one takes seconds.

usage: tests/wrong/quick.py [CRATE[/EDIT]..]     default: every crate that has a folder here

Each edit is applied to a copy of the repository below TMPDIR (default /tmp), checked by `rt check` in the crate's folder, and taken back. It must
be refused, and for a fact: the last lines are tests/must_fail_audit.py's. What each check said stays in target/wrong/CRATE/EDIT.log.
`tests/wrong/run` has `rt must-fail` do the same, several at a time; this tries one after the other, and keeps all that was said.
RATTLE_HOME is the toolchain's folder; where it is not set, rt is taken from PATH, else from /opt/rattle/bin.
Exit status 0: every edit was refused and shows something.
"""
import os
import shutil
import subprocess
import sys
import tempfile
import time

top = os.path.dirname(os.path.dirname(os.path.dirname(os.path.abspath(__file__))))
sys.path.insert(0, os.path.join(top, "tests"))
from must_fail_audit import REFUSED, first_error  # noqa: E402

home = os.environ.get("RATTLE_HOME")
rt = os.path.join(home, "bin", "rt") if home else shutil.which("rt") or "/opt/rattle/bin/rt"


def edits_of(path):
    """The file's replacements: (file, old, new), as `rt must-fail` reads them."""
    name = old = None
    for line in open(path, encoding="utf-8").read().split("\n"):
        if line.startswith("file: "):
            name = line[6:].strip()
        elif line.startswith("old: "):
            old = line[5:]
        elif line.startswith("new:"):
            new = line[4:]
            yield name, old, new[1:] if new.startswith(" ") else new


def check(copy, crate, log):
    """The check's exit status: 0 proved, 1 not proved, else nothing is known."""
    with open(log, "w", encoding="utf-8") as out:
        return subprocess.run([rt, "check"], cwd=os.path.join(copy, "crates", crate), stdout=out, stderr=subprocess.STDOUT).returncode


def tried(copy, crate, edit, log):
    """What the try came to, and what to say of it, in the words of `rt must-fail`."""
    base, before = os.path.join(copy, "crates", crate), {}
    for path, old, new in edits_of(edit):
        path = os.path.join(base, path)
        text = open(path, encoding="utf-8").read()
        before.setdefault(path, text)
        if text.count(old) != 1:
            for path, text in before.items():
                open(path, "w", encoding="utf-8").write(text)
            return "BAD EDIT", f"an 'old:' text stands {text.count(old)} times, and not once"
        open(path, "w", encoding="utf-8").write(text.replace(old, new))
    status = check(copy, crate, log)
    for path, text in before.items():
        open(path, "w", encoding="utf-8").write(text)
    if status == 0:
        return "NOT REFUSED", "the crate is still proved with this edit"
    if status != 1:
        return "NOT TRIED", f"the check ended with status {status}: see {log}"
    said = open(log, encoding="utf-8", errors="replace").read()
    if "logic=not-proved" not in said:
        return "BAD EDIT", f"it did not reach the prover: see {log}"
    return REFUSED, first_error(said)


def main():
    if not os.access(rt, os.X_OK):
        sys.exit("tests/wrong/quick.py: no Rattle toolchain: rt is neither in RATTLE_HOME/bin, on PATH, nor in /opt/rattle/bin")
    here = os.path.join(top, "tests", "wrong")
    wanted = sys.argv[1:] or sorted(d for d in os.listdir(here) if os.path.isdir(os.path.join(here, d)) and not d.startswith("_"))
    chosen = {}
    for one in wanted:
        crate, _, name = one.partition("/")
        names = [name + ".edit"] if name else sorted(n for n in os.listdir(os.path.join(here, crate)) if n.endswith(".edit"))
        chosen.setdefault(crate, []).extend(names)
    logs = os.path.join(top, "target", "wrong")
    kept, said = [], []
    with tempfile.TemporaryDirectory() as copy:
        shutil.copytree(os.path.join(top, "crates"), os.path.join(copy, "crates"), ignore=shutil.ignore_patterns("out"))
        for name in ("crates.txt", "HANDLES"):
            if os.path.exists(os.path.join(top, name)):
                shutil.copy(os.path.join(top, name), copy)
        for crate, names in chosen.items():
            os.makedirs(os.path.join(logs, crate), exist_ok=True)
            whole = os.path.join(logs, crate, "as-it-is.log")
            if check(copy, crate, whole) != 0:
                sys.exit(f"{crate} is not proved as it is: see {whole}")
            for name in names:
                label, began = name[: -len(".edit")], time.time()
                kind, text = tried(copy, crate, os.path.join(here, crate, name), os.path.join(logs, crate, label + ".log"))
                if kind == "NOT REFUSED":
                    kept.append(f"{crate}/{label}")
                said.append(f"must-fail {crate}/{name}: {kind}: {text}")
                print(f"{crate}/{label}: {'refused' if kind == REFUSED else kind} ({time.time() - began:.0f} s)", flush=True)
    audit = subprocess.run([sys.executable, os.path.join(top, "tests", "must_fail_audit.py")], input="\n".join(said), text=True).returncode
    print(f"{sum(map(len, chosen.values()))} edits, {len(kept)} not refused {' '.join(kept)}")
    return 1 if kept or audit else 0


if __name__ == "__main__":
    sys.exit(main())
