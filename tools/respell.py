#!/usr/bin/env python3
"""Brings the definitions and lemmas of this repository to today's spelling, after port.py: a name that one of its .antt files declares with a small
letter first is written in snake case, where it is declared and where it is cited.

usage: python3 tools/respell.py [ROOT]     once, at the top of a tree that port.py turned

Kept as they are: what port.py or a library spells (a name that a file imports from a library), types and modules, the names of src/, the labels that
Rattle makes. Where a definition and a lemma come to one spelling in one file, the lemma gets `_lem`. What was renamed is written to tools/respelled.tsv.
"""
import collections
import os
import re
import sys

NAME = r'[^\s(){}.;,@"«»`]+'
TOKEN = re.compile(NAME)
WORDS = r"(?:pub|abbrev|unfoldable|data|record|opaque|ruleset)"
HEAD = re.compile(rf"^( *)((?:{WORDS}\s+)*)({NAME})((?:\s+[({{][^\n]*?[)}}])*)\s+:(?=\s|$)(.*)$", re.M)
USE = re.compile(r"^(?:ghost )?use ([^\s;{]+?)(?:\.\{([^}]*)\})?(?: as ([^\s;]+))?;?$", re.M)
LIBRARY = ("Rattle.std.", "Rattle.core.", "Rattle.io.", "Rattle.libc.", "borrow.", "mathlib.", "native.", "Prim.", "lib.", "logic.", "denote.", "link.")

# Two definitions of specs/ that would fall together.
CHOSEN = {"copySession": "copied_session", "copyToken": "copied_token", "onWords": "over_words", "onContents": "over_contents"}


def snake(name):
    words = re.sub(r"(?<=[a-z0-9])[A-Z]", lambda m: "_" + m[0].lower(), name)
    return re.sub(r"(?<=[^\W_])-(?=[^\W_])", "_", words)


def read(path):
    with open(path, encoding="utf-8") as f:
        return f.read()


def texts(root):
    for folder, dirs, files in os.walk(os.path.join(root, "crates")):
        dirs[:] = sorted(d for d in dirs if d != "out")
        for name in sorted(files):
            if name.endswith((".antt", ".rt")):
                yield os.path.join(folder, name)


def of_library(path):
    return path.startswith(LIBRARY)


class File:
    def __init__(self, path):
        self.path, self.text = path, read(path)
        self.walk = path.endswith("/Proof.antt")
        self.spec = "/specs/" in path
        self.taken, self.alias, self.modules = set(), set(), set()
        for m in USE.finditer(self.text):
            names = [n.strip() for n in (m[2] or "").split(",") if n.strip()]
            if of_library(m[1] + "."):
                self.taken |= {n.split(" as ")[-1] for n in names}
            if m[3]:
                self.modules.add(m[3])
        self.heads, self.fields = set(), set()
        if path.endswith(".antt"):
            for m in HEAD.finditer(self.text):
                if self.walk and (m[5].lstrip().startswith("tie.") or m[3].endswith("-spec")):
                    continue
                self.heads.add(m[3])
                if m[1] and "pub" in m[2]:
                    self.fields.add(m[3])
        plain = re.sub(r"(?m)(^|\s)(--|//).*$", "", self.text)
        # the names that stand behind no dot, and those of another module
        self.bare = {m[0] for m in re.finditer(rf"(?<![.\w'-]){NAME}", plain)} | {m[1] for m in re.finditer(rf"(?<![\w'.-])[A-Z]\w*\.({NAME})", plain)}


def own(name):
    return re.match(r"[a-z]", name)


def table(files):
    """Each own name with its new one, where that differs."""
    declared = collections.defaultdict(list)
    for f in files:
        for n in f.heads:
            if own(n):
                declared[n].append(f)
    to = {n: snake(n) for n in declared}
    to.update({n: t for n, t in CHOSEN.items() if n in to})
    groups = collections.defaultdict(set)
    for n in to:
        groups[to[n]].add(n)

    def rank(n):
        stated = any(f.spec and n in f.heads for f in declared[n])
        return (not stated, not re.search(r"[A-Z]", n), "-" in n)

    met = []
    for n in sorted(to):
        together = {m for m in groups[to[n]] if m != n and rank(m) <= rank(n)}
        for f in files:
            if f.path.endswith(".rt") or n not in f.bare or n in f.taken:
                continue
            of_others = to[n] != n and (to[n] in f.taken or to[n] in f.bare and to[n] not in to)
            if of_others or together & f.bare - f.taken:
                if any(rank(m) == rank(n) for m in together):
                    raise SystemExit(f"{n}, {together}: two names of one rank meet in {f.path}")
                to[n] += "_lem"
                met.append(f"{n} -> {to[n]}: {f.path}{' (a name of another)' if of_others else ''}")
                break
    return {n: t for n, t in to.items() if n != t}, met, declared


def turn(f, to, fields):
    def line_of(line):
        code, dash, said = line, "", ""
        cut = line.find("//") if f.path.endswith(".rt") else (0 if line.startswith("--") else line.find(" -- "))
        if f.path.endswith(".antt") and line.lstrip().startswith("--"):
            cut = len(line) - len(line.lstrip())
        if cut >= 0:
            code, said = line[:cut], line[cut:]
        return turn_code(code) + turn_said(said)

    def turn_said(said):
        return re.sub(rf"`({NAME})`", lambda m: "`" + to.get(m[1], m[1]) + "`", said)

    def turn_code(code):
        out, at = [], 0
        for m in TOKEN.finditer(code):
            n = m[0]
            new = to.get(n)
            if not new or n in f.taken or f.path.endswith(".rt") and re.fullmatch(r"[a-z0-9_]+", n):
                continue
            before = code[: m.start()]
            if before.endswith("."):
                # `λ x. name` has a space; `M.name` names a module, and `s.name` a field
                owner = re.search(rf"({NAME})\.$", before)
                if not (owner and (owner[1][:1].isupper() or owner[1] in f.modules) or n in fields):
                    continue
                if f.walk and n not in fields and not (owner and (owner[1][:1].isupper() or owner[1] in f.modules)):
                    continue
            out.append(code[at : m.start()] + new)
            at = m.end()
        return "".join(out) + code[at:]

    return "\n".join(line_of(l) for l in f.text.split("\n"))


def main(root):
    files = [File(p) for p in texts(root)]
    to, met, declared = table(files)
    fields = set().union(*(f.fields for f in files if not f.walk))
    for f in files:
        new = turn(f, to, fields)
        if new != f.text:
            with open(f.path, "w", encoding="utf-8") as out:
                out.write(new)
    with open(os.path.join(os.path.dirname(os.path.realpath(__file__)), "respelled.tsv"), "w", encoding="utf-8") as out:
        for n in sorted(to):
            out.write(f"{n}\t{to[n]}\n")
    print(f"{len(to)} names")
    print("\n".join(met))


if __name__ == "__main__":
    main(os.path.abspath(sys.argv[1] if len(sys.argv) > 1 else "."))
