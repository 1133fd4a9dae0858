#!/usr/bin/env python3
"""Brings the names of this repository's own definitions, lemmas, fields and constructors to the spelling of today's Rattle:
words in snake case (`flagOf` and `flag-of` are `flag_of`), types and facts as they are. Run once, at the top, right after port.py.

usage: python3 tools/rename.py [--list]     --list prints the table and the names that fall together, and writes nothing
"""
import os
import re
import sys

NAME = r"[a-z][\w'\u2115\u2124-]*"
TOKEN = re.compile(r"(?<![\w'\u2115\u2124-])" + NAME)
# A law that would have the name of the definition that it is about ends in `_lem`; a helper of one file likewise.
APART = {
    n: n.replace("-", "_") + "_lem"
    for n in """branch-of branch-values form-bit form-of group-bytes head-good injection-at injection-of islands-word meters-size moved-bytes
    number-of record-bytes set-low short-over short-word write-good row-at is-listed both_ways numbers_of too_far""".split()
}


def files():
    for folder, dirs, names in os.walk("crates"):
        dirs[:] = sorted(d for d in dirs if d != "out")
        for n in sorted(names):
            if n.endswith((".antt", ".rt", ".edit")):
                yield os.path.join(folder, n)


def snake(name):
    return re.sub(r"([a-z0-9])([A-Z\u2115\u2124])", lambda m: m.group(1) + "_" + m.group(2).lower(), name.replace("-", "_"))


def declared(path, text):
    """The names that a file of specs/ or proofs/ declares: of definitions, laws, fields, constructors and local helpers."""
    out = set()
    for line in text.split("\n"):
        m = re.match(r"\s*(?:abbrev pub |unfoldable pub |abbrev |unfoldable |pub )?(" + NAME + "(?: " + NAME + r")*) :(?: |$)", line)
        # What a proof file answers has the name that Rattle gives it.
        if m and not (path.endswith("/Proof.antt") and "tie." in line):
            out.update(m.group(1).split(" "))
    return out


def turned(path, text, table):
    """The text with its names turned; of a comment only what stands in backticks."""
    turn = lambda s: TOKEN.sub(lambda m: table.get(m.group(0), m.group(0)), s)
    ticks = lambda s: re.sub(r"`[^`]*`", lambda m: turn(m.group(0)), s)
    if path.endswith(".edit"):
        # An edit's text is of its own two lines; the other lines say what would go wrong.
        return "\n".join(turn(l) if l.startswith(("old:", "new:")) else l for l in text.split("\n"))
    mark = "//" if path.endswith(".rt") else "--"
    lines = []
    for line in text.split("\n"):
        at = re.search(r"(^|\s)" + mark + r"(\s|$)", line)
        if at:
            lines.append(turn(line[: at.start()]) + ticks(line[at.start() :]))
        elif path.endswith(".rt") and '"' in line:
            lines.append(line)
        else:
            lines.append(turn(line))
    return "\n".join(lines)


def main():
    texts = {p: open(p, encoding="utf-8").read() for p in files()}
    own, tokens, library = set(APART), {}, set()
    for p, t in texts.items():
        if p.endswith(".antt"):
            own |= declared(p, t)
        for m in re.finditer(r"use (Rattle\.(?:std|core)\.|(?!Rattle\.))[\w.\u00b7]+\.\{([^}]*)\}", t):
            library |= {x.strip().split(" as ")[0] for x in m.group(2).split(",")}
        for m in TOKEN.finditer(t):
            tokens.setdefault(m.group(0), set()).add(p)
    table = {}
    for n in sorted(own - library):
        to = APART.get(n, snake(n))
        if to != n:
            table[n] = to
    back, clash = {}, []
    for n, to in table.items():
        back.setdefault(to, []).append(n)
    for to, ns in sorted(back.items()):
        if len(ns) > 1:
            clash.append(f"{' and '.join(ns)} are both {to}")
        # A function of src/ may have the name of the definition that its contract cites, in code and in its own proof.
        held = {p for p in tokens.get(to, ()) if not p.endswith((".rt", ".edit", f"/{to}/Proof.antt"))}
        if (held or to in library) and to not in table:
            clash.append(f"{ns[0]} is {to}, which stands already in {sorted(held)[:3] or 'a library'}")
    if "--list" in sys.argv:
        print("\n".join(f"{n} {to}" for n, to in sorted(table.items())))
    if clash:
        sys.exit("rename: names fall together:\n" + "\n".join(clash))
    if "--list" in sys.argv:
        return
    for p, t in texts.items():
        new = turned(p, t, table)
        if new != t:
            open(p, "w", encoding="utf-8").write(new)


main()
