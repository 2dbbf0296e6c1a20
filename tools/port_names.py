#!/usr/bin/env python3
"""Spells the definitions and lemmas of this repository in snake case, after /opt/rattle/port/port.py, which turns only some.

usage: tools/port_names.py [FOLDER]      the repository, or another checkout of it

In crates/*/specs, crates/*/proofs and the clauses of crates/*/src, a name that the repository's own antt files declare, or a
variable, changes: a capital within a word becomes an underscore and a small letter, a dash between words an underscore. Types
and modules begin with a capital and stay. A name that a file imports from a library stays in that file, and so do the labels
that the toolchain gives the goals and the steps of a function's proof. A lemma that would get the name of something else gets
`_lem` at its end; RESPELLED lists the lemmas with underscores already that stand beside a definition of that name, and the
variables that would hide one. The script stops where two names of one file would still fall together.
"""

import os
import re
import sys

# (file, name): its new name there, and in the files that import it from there
RESPELLED = {
    ("laws/proofs/Offsets.antt", "edges_fit"): "edges_hold",
    ("laws/proofs/Theorems.antt", "edges_fit"): "edges_hold",
    ("succession/proofs/Backs.antt", "so-far"): "so_far_lem",
    ("geometry/proofs/Patterns.antt", "is-nan"): "is_nan_lem",
    ("repair/proofs/Piles.antt", "pair_row"): "row_laid",
}
# names that keep their plain spelling though something else, elsewhere, has it too
PLAIN = {"so-far", "two-way"}
# names that are fields as well as lemmas
FIXED = {"pair-words": "words_of_pairs", "junction-words": "words_of_junctions"}

NAME = r'[^\s(){}.;,@"«»\[\]]+'
TOKEN = re.compile(NAME)
TICKED = re.compile(r"[^\s(){}.;:,@\"«»\[\]`]+")
DECLARED = re.compile(r"(?m)^ *(?:(?:abbrev|unfoldable|pub|record|data|ruleset) )*(" + NAME + r")(?: \{[^{}\n]*\})* : ?(.*)$")
STRING = re.compile(r'("(?:[^"\\]|\\.)*")')
CAMEL = re.compile(r"[a-z][a-z0-9]*(?:_[a-z0-9]+)*(?:[A-Z][a-z0-9]*)+(?:_[A-Za-z0-9]+)*'*$")
USE = re.compile(r"(?m)^(?:ghost )?use ([^\s;{]+)\.\{([^}]*)\}")


def snake(name):
    words = re.sub(r"(?<=[a-z0-9])[A-Z]", lambda m: "_" + m[0].lower(), name)
    return words.replace("-", "_")


def files(root):
    for folder, dirs, names in os.walk(os.path.join(root, "crates")):
        dirs[:] = sorted(d for d in dirs if d not in ("out", "must-fail"))
        for n in sorted(names):
            if n.endswith((".antt", ".rt")):
                yield os.path.join(folder, n)


def comment_from(line, mark):
    at = line.find(mark)
    return len(line) if at < 0 else at


def own(name):
    return name.startswith("Rattle.") and name.split(".")[1] in OWN


def plain(name):
    """Does a name want another spelling?"""
    if CAMEL.match(name):
        return True
    return "-" in name and re.match(r"[a-z][A-Za-z0-9_'?]*(-[A-Za-z0-9_'?]+)+$", name) is not None


def code_of(path, text):
    mark = "//" if path.endswith(".rt") else "--"
    return "\n".join(l[: comment_from(l, mark)] for l in text.split("\n"))


def module_of(path):
    crate, rest = path.split("/", 1)
    return "Rattle." + crate + "." + rest[: -len(".antt")].replace("/", ".")


def main(root):
    global OWN
    OWN = set(os.listdir(os.path.join(root, "crates")))
    base = os.path.join(root, "crates", "")
    texts = {p[len(base) :]: open(p, encoding="utf-8").read() for p in files(root)}
    declared, bare, lent, fields = {}, {}, {}, set()
    for p, t in texts.items():
        code = code_of(p, t)
        lent[p] = set()
        for m in USE.finditer(t):
            if not own(m[1]):
                lent[p] |= {w.split(" as ")[0].strip() for w in m[2].replace("\n", " ").split(",")}
        bare[p] = set(re.findall(r"(?<![.\w'-])" + NAME, code))
        if p.endswith(".antt"):
            for m in DECLARED.finditer(code):
                if not m[2].startswith(("tie.", "goal.")):
                    declared.setdefault(m[1], set()).add(p)
            for m in re.finditer(r"(?m)^  (?:  )*(?:pub )?(" + NAME + ") : ", code):
                fields.add(m[1])
    functions = set(re.findall(r"\bfn (\w+)", "\n".join(t for p, t in texts.items() if p.endswith(".rt"))))
    everywhere = set().union(*bare.values())
    wanted = {n for n in declared if plain(n)} | {n for n in everywhere if CAMEL.match(n)}
    groups = {}
    for n in wanted:
        groups.setdefault(snake(n), set()).add(n)
    new = {}
    respelled = dict(RESPELLED)
    for s, ns in groups.items():
        camel = {n for n in ns if "-" not in n}
        for n in ns:
            lemma = n not in camel and n not in PLAIN and (camel or s in declared)
            new[n] = FIXED.get(n) or (s + "_lem" if lemma else s)
        if camel and s in declared:
            for p in declared[s]:
                if p not in declared.get(next(iter(camel)), ()):
                    respelled.setdefault((p, s), s + "_lem")
    at = {}
    for (p, n), to in respelled.items():
        at.setdefault(p, {})[n] = to
        for q, t in texts.items():
            for m in USE.finditer(t):
                if m[1] == module_of(p) and n in re.split(r"[,\s]+", m[2]):
                    at.setdefault(q, {})[n] = to
    bad = 0
    for p in texts:
        back = {}
        for n in bare[p]:
            to = n if n in lent[p] else at.get(p, {}).get(n) or new.get(n, n)
            back.setdefault(to, set()).add(n)
        for to, ns in sorted(back.items()):
            if len(ns) > 1 and not (p.endswith(".rt") and to in ns and to in functions):
                print("falls together:", p, to, sorted(ns))
                bad += 1
    if bad:
        return 1
    changed = 0
    for p, t in texts.items():
        stay, here = lent[p], at.get(p, {})
        walk = p.endswith("/Proof.antt")
        mark = "//" if p.endswith(".rt") else "--"

        def turn(m):
            w = m[0]
            if w in stay:
                return w
            if m.start() and m.string[m.start() - 1] == ".":
                if walk and w not in fields and snake(re.sub(r"\d+$", "", w)) in functions:
                    return w
                return new.get(w, w)
            return here.get(w) or new.get(w, w)

        def said(m):
            ticks = m.string[m.start() - 1 : m.start()] + m.string[m.end() : m.end() + 1]
            return turn(m) if CAMEL.match(m[0]) or ticks == "``" else m[0]

        lines = []
        for line in t.split("\n"):
            end = comment_from(line, mark)
            code, comment = line[:end], line[end:]
            parts = STRING.split(code) if p.endswith(".rt") else [code]
            code = "".join(x if i % 2 else TOKEN.sub(turn, x) for i, x in enumerate(parts))
            lines.append(code + TICKED.sub(said, comment))
        to = "\n".join(lines)
        if to != t:
            changed += 1
            with open(base + p, "w", encoding="utf-8") as f:
                f.write(to)
    print(f"names: {len(new)} names, {changed} files")
    return 0


if __name__ == "__main__":
    sys.exit(main(sys.argv[1] if len(sys.argv) > 1 else os.path.dirname(os.path.dirname(os.path.realpath(__file__)))))
