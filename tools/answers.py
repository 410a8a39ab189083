#!/usr/bin/env python3
"""Turns a crate's Proof.antt files, which walk the code by hand, into Invariants.antt and Answers.antt.

usage: python3 tools/answers.py CRATE NAMES.json [FUNCTION..]

NAMES.json is what `rt check --generated DIR --old-names` writes for the crate: of each function the goals, the places and the steps, each with its old
and its new name. An answer that is only `search rules` is left out, since the check finds it. A line that begins `look:` names what was not understood.
"""
import json
import os
import re
import sys

NAME = r'[^\s(){}.;,@"«»]+'
PATH = re.compile(rf"(?<![.\w'-])({NAME})((?:\.{NAME})+)")
DECL = re.compile(rf"^((?:(?:pub|abbrev|unfoldable) )*)({NAME})((?: [({{][^\n]*?[)}}])*) : ")


def norm(name):
    # port.py gave some labels a capital
    return name.replace("_", "-").lower()


def goal_of(name):
    """The middle spelling of a goal: Need-overflow-mul-w and mul-w are one."""
    return norm(re.sub(r"^overflow-", "", name[5:]))


class Function:
    def __init__(self, key, data):
        self.key, self.data = key, data
        self.places = {p[0]: p for p in data["places"]}
        self.by_name = dict(zip((p[0] for p in data["places"]), data["places_by_name"]))
        self.args = {}
        for a, b in data["args"]:
            self.args[norm(a.replace(" ", ""))] = b.replace(" ", "")
        self.goals = {}
        for i, (a, b) in enumerate(data["needs"]):
            self.goals[norm(a)] = (b, data["asked_at"][i][0] if i < len(data["asked_at"]) else None)
        self.loops = {}
        for group, flags in zip(data["loops"], data["changed"]):
            (a, b), names = group
            self.loops[norm(a)] = (b, names, flags)


    def place_of(self, name):
        """The place that a type of the walk names."""
        return next((p for p in self.places if norm(p) == norm(name)), None)

    def new_place(self, place):
        return self.by_name[place]


class Said(Exception):
    pass


class Turn:
    """A text, turned as it reads from the place where its goal is asked, or that a helper takes."""

    def __init__(self, f, place, looks, goal=None, helpers=None, names="c"):
        self.f, self.looks, self.goal, self.helpers = f, looks, goal, helpers or {}
        self.place = place
        self.names = names
        self.used = []
        self.env = {names: ("state", place)}

    def ancestors(self):
        at = self.place
        while at:
            yield self.f.places[at]
            at = self.f.places[at][1]

    def field(self, kind, at, name):
        f = self.f
        if kind == "state":
            # Each step of an answer's c has a name of its own, so it doesn't matter how far back one is.
            if name == "before":
                back = f.places[at][1] if at in f.places else None
                return ("state", back or "Start"), None
            if name in ("args", "ranges"):
                return (name, None), [self.names, name]
            for word in (name, re.sub(r"_lem$", "", name)):
                for place in self.ancestors():
                    if norm(place[2][0]) == norm(word):
                        return ("step", place[0]), [self.names, place[2][1]]
            mapped = f.args.get("." + norm(name))
            if mapped:
                return ("plain", None), [self.names, mapped[1:]]
            return ("plain", None), [self.names, name.replace("well-formed", "well_formed")]
        if kind in ("args", "ranges"):
            mapped = f.args.get(f".{kind}.{norm(name)}")
            return ("plain", None), [mapped.split(".")[2] if mapped else name]
        if kind == "step":
            for a, b in f.places[at][4]:
                if a == name:
                    return ("plain", None), [b]
            return ("plain", None), [name]
        return ("plain", None), [name]

    def whole(self, at, before):
        """A whole state, as the argument of a helper, which becomes a `let` of the answer: '' stands for it."""
        m = re.search(rf"(?<![.\w'-])({NAME}) \(?$", before)
        if not m or m[1] not in self.helpers:
            self.looks.append(f"a whole state, at {at}: ..{before[-40:]}")
            return self.names
        self.used.append(m[1])
        return "\0"

    def path(self, root, fields):
        kind, at = self.env[root]
        out = None if kind == "state" else [root]
        fields = list(fields)
        while fields:
            name = fields.pop(0)
            if kind == "step" and name in ("new", "auto"):
                names = self.f.data["params"].get(self.f.places[at][3])
                n = 0
                while fields and fields[0] == "1":
                    fields.pop(0)
                    n += 1
                if names and fields and fields[0] == "0":
                    fields.pop(0)
                if names and n < len(names):
                    out += [name, names[n]]
                    kind, at = "plain", None
                    continue
                out += [name] + ["1"] * n
                kind, at = "plain", None
                continue
            if kind == "step" and name == "ensures" and re.search(r"::wrapping_\w+$", self.f.places[at][3] or ""):
                out += ["ensures", "value"]
                kind, at = "plain", None
                continue
            (kind, at), said = self.field(kind, at, name)
            if said:
                out = said if out is None else out + said
        return (kind, at), ".".join(out) if out else self.names

    def text(self, body):
        out, i = [], 0
        let = re.compile(rf"let ({NAME})( : [^=]*?)? = ({NAME}(?:\.{NAME})*) in\s*")
        while i < len(body):
            m = let.match(body, i)
            if m and not (i and body[i - 1].isalnum()):
                name, typed, value = m[1], m[2] or "", m[3].split(".")
                if value[0] in self.env:
                    (kind, at), said = self.path(value[0], value[1:])
                    if kind == "state":
                        self.env[name] = (kind, at)
                        i = m.end()
                        continue
                    typed = self.text(typed) if typed else ""
                    out.append(f"let {name}{typed} = {said} in" + body[m.end(3) + 3 : m.end()])
                    self.env[name] = (kind, at)
                    if kind == "plain":
                        del self.env[name]
                    i = m.end()
                    continue
                self.env.pop(name, None)
            m = PATH.match(body, i)
            if m:
                if m[1] in self.env:
                    (kind, at), said = self.path(m[1], m[2][1:].split("."))
                    out.append(self.whole(at, "".join(out)) if kind == "state" else said)
                else:
                    out.append(m[0])
                i = m.end()
                continue
            m = re.compile(NAME).match(body, i)
            if m:
                if m[0] in self.env and self.env[m[0]][0] == "state":
                    out.append(self.whole(self.env[m[0]][1], "".join(out)))
                else:
                    out.append(m[0])
                i = m.end()
                continue
            out.append(body[i])
            i += 1
        said = "".join(out)
        # `helper c` and `helper (c)` are the name alone
        return re.sub(r" \(\0\)| \0", "", said)


class Helper:
    """A lemma over a place of the walk: `name : (c : tie.PLACE) → TYPE` and `name c = BODY`. Each answer that cites it gets it as a `let`."""

    def __init__(self, f, code, found):
        self.name, self.given, place = found[1], found[2], f.place_of(found[3])
        self.place = place
        rest = code[found.end() :]
        head, body = re.split(rf"^{re.escape(self.name)} {re.escape(self.given)} =", rest, maxsplit=1, flags=re.M)
        lines = head.split("\n")
        self.opened = [w for l in lines if l.startswith("unfolding ") for w in l.split()[1:]]
        self.typed = " ".join(l.strip() for l in lines if not l.startswith("unfolding ") and l.strip())
        self.body = body.strip()
        self.f = f

    def let(self, helpers, looks):
        a = Turn(self.f, self.place, looks, None, helpers, self.given)
        typed = a.text(self.typed)
        b = Turn(self.f, self.place, looks, None, helpers, self.given)
        body = b.text(self.body)
        to = lambda t: re.sub(rf"(?<![.\w'-]){re.escape(self.given)}(?=\.)", "c", t)
        return f"let {self.name} : {to(typed)} = {to(body)} in", a.used + b.used


def with_lets(helpers, used, text, looks):
    """The lets that a text needs, each after those that it cites, and what they unfold."""
    order, opened = [], []

    def add(name):
        if name in order:
            return
        said, more = helpers[name].let(helpers, looks)
        for m in more:
            if m != name:
                add(m)
        order.append(name)
        lets.append(said)
        opened.extend(helpers[name].opened)

    lets = []
    for name in used:
        add(name)
    return ("\n    " + "\n    ".join(lets) + "\n    " + text if lets else text), opened


def blocks(text):
    """The file as its use lines and its declarations, each with the comment above it."""
    uses, decls, now = [], [], []
    for line in text.split("\n"):
        if line.startswith("use "):
            uses.append(line)
            continue
        now.append(line)
    parts = re.split(r"\n\s*\n", "\n".join(now).strip("\n"))
    merged = []
    for p in parts:
        # a part that begins indented goes on with the one before
        if merged and p[:1] in (" ", "\t"):
            merged[-1] += "\n\n" + p
        else:
            merged.append(p)
    return uses, merged


def turn_file(crate, folder, f, kinds):
    path = os.path.join(folder, "Proof.antt")
    with open(path, encoding="utf-8") as it:
        uses, decls = blocks(it.read())
    looks, invariants, answers, helpers = [], [], [], []
    dotted = os.path.relpath(folder, os.path.join(crate, "proofs")).replace("/", ".")
    crate_name = os.path.basename(crate)
    keep = [u for u in uses if not re.search(rf"\.proofs\.{re.escape(dotted)}\.(Statement|Tie)\b", u)]
    HELPER = re.compile(rf"^({NAME}) : \(({NAME}) : tie\.({NAME})(?: invariant-{NAME}| decreases-{NAME})*\)\s+→ ", re.M)
    places = {}
    for d in decls:
        m = HELPER.search(d)
        if m and f.place_of(m[3]) and re.search(rf"^{re.escape(m[1])} {re.escape(m[2])} =", d, re.M):
            places[m[1]] = Helper(f, d, m)
    last = None
    for d in decls:
        comment = "".join(l + "\n" for l in d.split("\n") if l.startswith("--"))
        code = "\n".join(l for l in d.split("\n") if not l.startswith("--")).strip("\n")
        if not code.strip():
            helpers.append(("", comment))
            continue
        head, _, rest = code.partition("\n")
        m = re.match(rf"((?:(?:pub|abbrev) )*)({NAME}) : (.*)$", head)
        typed = m and re.match(rf"tie\.({NAME})", m[3])
        if m and m[2].replace("_", "-").endswith("-spec") and "statement" in m[3]:
            continue
        if typed and re.match(r"(invariant|decreases)-", typed[1]):
            what, _, loop = typed[1].partition("-")
            got = f.loops.get(norm(loop))
            body = re.match(rf"({NAME})((?: {NAME})*)\s*=\s*(.*)$", rest, re.S)
            if not got or not body:
                looks.append(f"no loop {typed[1]}")
                continue
            new, names, flags = got
            to = [("l.initial." if c else "l.") + n for n, c in zip(names, flags)] + ["l." + n for n, c in zip(names, flags) if c]
            given = body[2].split()
            if len(given) != len(to):
                looks.append(f"{typed[1]}: {given} for {to}")
            table = dict(zip(given, to))
            text = re.sub(rf"(?<![.\w'-]){NAME}", lambda n: table.get(n[0], n[0]), body[3])
            if what == "decreases" and kinds.get(new, "while") == "for":
                continue
            invariants.append(f"{comment}abbrev pub {what}-{new} : goal.{what}-{new}\n{what}-{new} l = {text}")
            continue
        if typed and typed[1].startswith("Need-"):
            got = f.goals.get(goal_of(typed[1]))
            part = re.match(r"Need-slice-bounds-(.*)-(start|end)$", typed[1])
            if got is None and part and last:
                # the bounds of a part that is lent on, which the walk asked beside the goal before
                callee = next((k.split("::")[-1] for k in f.data["params"] if norm(k.split("::")[-1]) == part[1]), None)
                got = (f"slice_bounds-{callee}-{part[2]}", last) if callee else None
            last = got[1] if got else None
            lines = rest.split("\n")
            opened = [l for l in lines if l.startswith("unfolding ")]
            eq = "\n".join(l for l in lines if not l.startswith("unfolding "))
            # where-bound helpers stay with the answer
            body = re.match(rf"({NAME}) (\w)(?: κs)? =\s*(.*)$", eq, re.S)
            if got is None:
                if body and body[3].strip() in ("search rules", "search needs") or goal_of(typed[1]) in map(norm, f.data["settled"]):
                    continue
                looks.append(f"no goal {typed[1]}: {eq[:100]}")
                continue
            new, place = got
            if not body:
                looks.append(f"unread answer {typed[1]}: {eq[:100]}")
                continue
            if body[3].strip() in ("search rules", "search needs") and not opened:
                continue
            try:
                turn = Turn(f, place, looks, new, places, body[2])
                text = turn.text(body[3])
                text, more = with_lets(places, turn.used, text, looks)
                if more:
                    had = [w for o in opened for w in o.split()[1:]]
                    opened = ["unfolding " + " ".join(had + [w for w in dict.fromkeys(more) if w not in had])]
            except (Said, KeyError) as e:
                looks.append(f"{typed[1]}: {e}")
                text = "? -- " + body[3].replace("\n", "\n-- ")
            answers.append(f"{comment}pub {new} : goal.{new}\n" + "".join(o + "\n" for o in opened) + f"{new} {body[2]} = {text}")
            continue
        m = HELPER.match(code)
        if m and m[1] in places:
            continue
        helpers.append((code, comment))
        if "tie." in code:
            looks.append(f"a helper that names tie: {head[:80]}")
    for w in looks:
        print(f"look: {path}: {w}")
    done = []
    if invariants:
        lines = keep + [f"use Rattle.{crate_name}.proofs.{dotted}.Given as goal"]
        done.append("Invariants.antt")
        with open(os.path.join(folder, done[-1]), "w", encoding="utf-8") as out:
            out.write("\n".join(lines) + "\n\n" + "\n\n".join(invariants) + "\n")
    said = [c + h for h, c in helpers if h or answers]
    if answers or any(h for h, c in helpers):
        lines = keep + [f"use Rattle.{crate_name}.proofs.{dotted}.Goals as goal"]
        done.append("Answers.antt")
        with open(os.path.join(folder, done[-1]), "w", encoding="utf-8") as out:
            out.write("\n".join(lines) + "\n\n" + "\n\n".join([s.rstrip("\n") for s in said] + answers) + "\n")
    os.remove(path)
    return done


def loop_kinds(crate, module, function):
    """Which loops of a function are `for` loops: by the variable that names them."""
    path = os.path.join(crate, "src", module + ".rt")
    kinds = {}
    if os.path.exists(path):
        with open(path, encoding="utf-8") as it:
            text = it.read()
        m = re.search(rf"fn {re.escape(function)}\b.*?(?=\n(?:pub |unsafe |extern |#\[|//|fn |impl )|\Z)", text, re.S)
        body = m[0] if m else ""
        for v in re.findall(r"\bwhile ([^{]*)\{", body):
            for w in re.findall(r"\w+", v):
                kinds["loop-" + w] = "while"
        for v in re.findall(r"\bfor \(?(\w+)", body):
            kinds["loop-" + v] = "for"
        if "while" in body and not re.search(r"\bfor ", body):
            kinds = {k: "while" for k in kinds} | {"*": "while"}
    return kinds


class Kinds(dict):
    def get(self, key, default=None):
        return dict.get(self, key, dict.get(self, "*", default))


def main(argv):
    crate, names = os.path.abspath(argv[0]), argv[1]
    wanted = argv[2:]
    with open(names, encoding="utf-8") as it:
        data = json.load(it)
    prefix = f"Rattle-{os.path.basename(crate)}-proofs."
    for folder, dirs, files in sorted(os.walk(os.path.join(crate, "proofs"))):
        if "Proof.antt" not in files:
            continue
        path = os.path.relpath(folder, os.path.join(crate, "proofs")).split("/")
        if wanted and path[-1] not in wanted:
            continue
        key = prefix + ".".join(path) + ".Lts"
        if key not in data:
            print(f"look: {folder}: no names: the borrow checker may not cover it; Proof.antt stays")
            continue
        turn_file(crate, folder, Function(key, data[key]), Kinds(loop_kinds(crate, "/".join(path[:-1]), path[-1])))


if __name__ == "__main__":
    main(sys.argv[1:])
