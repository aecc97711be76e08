#!/usr/bin/env python3
"""Spells the repository's own definitions and lemmas in snake case, where they still have dashes.

usage: python3 tools/snake_names.py [--list]      at the top of the repository, after the kit's port.py

Own are the names that a signature in specs/ or proofs/ gives, but for the answers and invariants whose names the
check makes. They are respelled wherever they stand as a whole word: in specs/, proofs/, in src/ outside of strings,
in the must-fail edits, and between backticks in README.md and docs/. --list only prints what would be respelled, and
which of the new names stand somewhere already.
"""

import os
import re
import sys

SIGNATURE = re.compile(r"^\s*(?:(?:abbrev|unfoldable|pub)\s+)*([^\s:(){}.;,\"]+)((?:\s+\{[^{}]*\})*)\s+:\s+(\S.*)?$")
WORD = re.compile(r"[^\s.,;(){}\[\]\"«»@|]+")
MADE = re.compile(r"^goal\.")
KEYWORDS = {"let", "in", "elim", "record", "data", "use", "mod", "module", "where"}


def files(top, *endings):
    for folder, dirs, names in os.walk(top):
        dirs[:] = sorted(d for d in dirs if d not in ("out", "target", ".git"))
        for name in sorted(names):
            if name.endswith(endings):
                yield os.path.join(folder, name)


def read(path):
    with open(path, encoding="utf-8") as f:
        return f.read()


def own_names():
    names = set()
    for path in files("crates", ".antt"):
        for line in read(path).split("\n"):
            m = SIGNATURE.match(line)
            if not m or m.group(1) in KEYWORDS or MADE.match(m.group(3) or ""):
                continue
            name = m.group(1)
            if "-" in name.strip("-") and re.fullmatch(r"[A-Za-z0-9_'\u2032-]+", name):
                names.add(name)
    return names


def imported():
    """What is imported from the kit's libraries, and so is not ours."""
    own = {d for d in os.listdir("crates")}
    names = set()
    for path in files("crates", ".antt", ".rt"):
        for m in re.finditer(r"(?m)^\s*(?:pub\s+)?(?:ghost\s+)?use\s+([^\s{;]+?)\.\{([^}]*)\}", read(path)):
            parts = m.group(1).split(".")
            if parts[0] == "Rattle" and len(parts) > 1 and parts[1] in own:
                continue
            for item in m.group(2).split(","):
                names.update(item.strip().split(" as "))
    return names


def respelled(text, table):
    return WORD.sub(lambda m: table.get(m.group(0), m.group(0)), text)


def outside_strings(text, table):
    parts = re.split(r'("(?:[^"\\\n]|\\.)*")', text)
    return "".join(p if i % 2 else respelled(p, table) for i, p in enumerate(parts))


def in_backticks(text, table):
    return re.sub(r"`([^`\n]*)`", lambda m: "`" + respelled(m.group(1), table) + "`", text)


def documented(table):
    """What the pages may still name with dashes: also what port.py respelled."""
    names = dict(table)
    for path in files("crates", ".antt"):
        for line in read(path).split("\n"):
            m = SIGNATURE.match(line)
            if m and "_" in m.group(1):
                names.setdefault(m.group(1).replace("_", "-"), m.group(1))
    return names


def main():
    table = {n: n.replace("-", "_") for n in sorted(own_names() - imported())}
    words = set()
    for path in files("crates", ".antt", ".rt"):
        words.update(WORD.findall(read(path)))
    if "--list" in sys.argv[1:]:
        for old, new in table.items():
            print(f"{old} -> {new}" + ("   (stands already)" if new in words else ""))
        return
    changed = 0
    in_pages = documented(table)
    for path in list(files("crates", ".antt", ".rt", ".edit")) + ["README.md"] + list(files("docs", ".md")):
        old = read(path)
        if path.endswith(".md"):
            new = in_backticks(old, in_pages)
        elif path.endswith(".antt"):
            new = respelled(old, table)
        else:
            new = outside_strings(old, table)
        if new != old:
            with open(path, "w", encoding="utf-8") as f:
                f.write(new)
            changed += 1
    print(f"{len(table)} names respelled in {changed} files")


if __name__ == "__main__":
    main()
