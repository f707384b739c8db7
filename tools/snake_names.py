#!/usr/bin/env python3
"""Brings the names that this repository declares in specs/ and proofs/ to snake case: `pageAfter` and `page-after` become `page_after`.

usage: snake_names.py        at the top of the repository, once, after the toolchain's own script

Types, facts and modules keep their capitals, and goals and steps that Rattle names keep their spelling. Where a lemma would get the
name of a definition, it gets `_lem` behind it. A name that a file imports from outside the repository stays in that file.
"""

import collections
import os
import re

TOKEN = r"[^\s(){}.;,@\"«»`]+"
DECLARED = re.compile(
    r"^ *(?:(?:pub|abbrev|unfoldable) +)*([^\s(){}.;,@\"«»:=]+)((?: [^\s(){}.;,@\"«»:=]+)*) :(?: |$)"
)
BOUND = re.compile(
    r"[({]((?:[^\s(){}.;,@\"«»:=]+ )+): |λ ((?:[^\s(){}.;,@\"«»:=]+ ?)+)\.|\blet ([^\s(){}.;,@\"«»:=]+) [:=]"
)
GOAL = re.compile(r"\b(tie|goal)\.|statement M")
USE = re.compile(r"^ *(?:pub |ghost |unfoldable )*use ([^\s{;]+)\.\{([^}]*)\}", re.M)


def files(endings):
    tops = ["crates", "docs", "tests", "examples", "bench", "README.md"]
    for top in tops:
        if os.path.isfile(top):
            yield top
        for folder, below, names in os.walk(top):
            below[:] = sorted(d for d in below if d not in ("out", "target"))
            yield from (os.path.join(folder, n) for n in sorted(names) if n.endswith(endings))


def read(path):
    with open(path, encoding="utf-8") as f:
        return f.read()


def turns(name):
    return re.match("[a-z]", name) and (re.search("[A-Z]", name) or "-" in name)


def snake(name):
    name = re.sub(r"\bgetD\b", "get_or", name).replace("-", "_")
    return re.sub(r"(?<=[a-z0-9'])([A-Z])", r"_\1", name).lower()


def declared():
    """Each name of the repository's own, by its new spelling, and the names that stand on a line's left in that spelling already."""
    found, taken = collections.defaultdict(set), set()
    for path in files(".antt"):
        if "/specs/" not in path and "/proofs/" not in path:
            continue
        for line in read(path).split("\n"):
            m = None if line.lstrip().startswith("--") or GOAL.search(line) else DECLARED.match(line)
            names = [m[1], *m[2].split()] if m else []
            taken.update(n for n in names if "_" in n and not turns(n))
            if not line.lstrip().startswith("--"):
                names += [n for b in BOUND.finditer(line) for part in b.groups() if part for n in part.split()]
            for name in names:
                if turns(name):
                    found[snake(name)].add(name)
    return found, taken


def table():
    rows = {}
    found, taken = declared()
    for new, olds in found.items():
        # the definition comes first: it has capitals and no dash, or the new spelling already
        olds = sorted(olds, key=lambda n: ("-" in n, n.count("-"), n))
        first = new in taken and "-" in olds[0]
        if first:
            print(f"{new}_lem: {olds}")
        for at, old in enumerate(olds):
            rows[old] = new + "_lem" * (at + first)
    return rows


def of_others(text, crates):
    """The names that a file imports from outside the repository."""
    names = set()
    for m in USE.finditer(text):
        parts = m[1].split(".")
        if not (parts[0] == "Rattle" and len(parts) > 1 and parts[1] in crates):
            names.update(n.strip() for n in m[2].split(","))
    return names


def turn(text, rows, stays, may=lambda t: True):
    return re.sub(TOKEN, lambda m: rows[m[0]] if m[0] in rows and m[0] not in stays and may(m[0]) else m[0], text)


def prose(text, rows, stays):
    """A comment: names in backticks, and bare names with capitals inside."""
    text = re.sub(r"`[^`\n]*`", lambda m: turn(m[0], rows, stays), text)
    return turn(text, rows, stays, lambda t: "-" not in t)


def line_of_code(line, rows, stays, mark):
    at = re.search(rf"(^|\s){mark}", line)
    code, comment = (line[: at.start()], line[at.start() :]) if at else (line, "")
    if mark == "//" and '"' in code:
        return code + prose(comment, rows, stays)
    return turn(code, rows, stays) + prose(comment, rows, stays)


def page(text, rows):
    """A page: code spans and fenced blocks."""
    return re.sub(r"```.*?```|`[^`\n]*`|(?m:^    .*$)", lambda m: turn(m[0], rows, set()), text, flags=re.S)


def main():
    crates = {d for d in os.listdir("crates") if os.path.isdir(os.path.join("crates", d))}
    rows = table()
    changed = 0
    for path in list(files((".antt", ".rt", ".md", ".edit"))):
        old = read(path)
        if path.endswith(".md"):
            new = page(old, rows)
        else:
            stays = of_others(old, crates)
            mark = "//" if path.endswith(".rt") else "--"
            new = "\n".join(line_of_code(line, rows, stays, mark) for line in old.split("\n"))
        if new != old:
            changed += 1
            with open(path, "w", encoding="utf-8") as f:
                f.write(new)
    print(f"{len(rows)} names, {changed} files")


main()
