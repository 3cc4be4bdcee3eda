#!/usr/bin/env python3
"""Turns the dashes in the repository's own names of definitions and lemmas to underscores, once, after the kit's port.py.

usage: respell.py [FOLDER]

A name is the repository's own where a file of specs/ or proofs/ states or binds it (`name : ..`), but for the answers in a function's own folder, whose names
are the kit's. A name that begins with a capital loses its dashes and gains a capital instead. It turns these names in every .antt file, in the clauses
and imports of every .rt file, in the edits, and in back quotes on the pages. Names that an import brings from the kit stay. A name that would fall
together with another of the repository's own is told and stays. A second run changes nothing.
"""

import os
import re
import sys

WORD = r"[^\s(){}\[\];,.:«»`]+"
STATED = re.compile(r"(?:^[ \t]*(?:(?:abbrev|unfoldable|pub) )*|[({]|\blet )((?:" + WORD + r" )+)[:=](?= |$)", re.M)
IMPORT = re.compile(r"^(?:(?:unfoldable|pub|ghost) )*use ([^\s{;]+?)(?:\.\{([^{}]*)\})?(?: as (\S+))?;?$", re.M)
DASHED = re.compile(r"^[A-Za-z][\w?'₀-₉]*(?:-[\w?'₀-₉]+)+$")
IDENTIFIER = re.compile(r"^[A-Za-z_][A-Za-z0-9_]*$")
KEYWORDS = {"record", "data", "open", "ruleset", "term", "terms", "result", "where", "let", "in"}


def read(path):
    with open(path, encoding="utf8") as f:
        return f.read()


def below(folder, *endings):
    for top, folders, files in os.walk(folder):
        folders[:] = sorted(d for d in folders if d not in ("out", "target", ".git", "bin"))
        for f in sorted(files):
            if f.endswith(endings):
                yield os.path.join(top, f)


def turned(name):
    parts = name.split("-")
    if name[0].isupper() and len(parts[0]) > 1:
        return "".join(p[0].upper() + p[1:] for p in parts)
    return "_".join(parts)


def own_crates(root):
    return {l.split(":")[0].split()[0] for l in read(os.path.join(root, "crates.txt")).splitlines() if l.strip() and not l.startswith("#")}


def of_the_kit(path, crates):
    parts = path.split(".")
    return parts[0] != "Rattle" or len(parts) < 2 or parts[1] not in crates or "declared" in parts or parts[-1] in ("Tie", "Statement")


def names(root, crates):
    own, kits, plain = {}, set(), {}
    for path in below(os.path.join(root, "crates"), ".antt"):
        text = read(path)
        for m in IMPORT.finditer(text):
            brought = re.split(r"[\s,]+|\bas\b", m.group(2) or m.group(1).split(".")[-1])
            if of_the_kit(m.group(1), crates):
                kits.update(n for n in brought if n)
        if path.endswith("/Proof.antt"):
            continue
        for m in STATED.finditer(text):
            for n in m.group(1).split():
                (own if DASHED.match(n) else plain).setdefault(n, set()).add(path)
    return own, kits, plain


def turn(text, table):
    def one(m):
        return table.get(m.group(0), m.group(0))

    return re.sub(WORD, one, text)


def turn_ghost(text, table):
    def one(m):
        n = table.get(m.group(1), m.group(1))
        return n if IDENTIFIER.match(n) and n not in KEYWORDS else "«" + n + "»"

    return re.sub(r"«([^«»]+)»", one, text)


def turn_page(text, table):
    return re.sub(r"`[^`\n]+`", lambda m: turn(m.group(0), table), text)


def main():
    root = sys.argv[1] if len(sys.argv) > 1 else "."
    crates = own_crates(root)
    own, kits, plain = names(root, crates)
    table = {}
    for n in sorted(own):
        to = turned(n)
        if n in kits:
            print(f"stays, the kit has it too: {n}")
        elif to in plain:
            print(f"stays, {to} is there already: {n} in {sorted(own[n])}, {sorted(plain[to])}")
        else:
            table[n] = to
    for path in below(root, ".antt", ".rt", ".edit", ".md"):
        text = read(path)
        if path.endswith(".antt"):
            new = turn(text, table)
        elif path.endswith(".md"):
            new = turn_page(text, table)
        elif path.endswith(".rt"):
            new = turn_ghost(text, table)
        else:
            new = turn_ghost(turn(text, table), table) if "file: specs/" in text else turn_ghost(text, table)
        if new != text:
            with open(path, "w", encoding="utf8") as f:
                f.write(new)


main()
