#!/usr/bin/env python3
"""Holds the source to the list of public calls in docs/ARCHITECTURE.md, section "Public calls".

Contract.antt in the proofs of a crate ties each call to its promise and refuses a `requires`, but only of the calls that
stand there. So here: each listed call is a public function, has no `requires`, has an `ensures` and is tied; each tied
call and each export is listed. Crate host_c exports the calls of host: each export calls host's function of its module and
name with its own arguments, has the same clauses and is tied to it, and no listed call of host is without one.
"""

import pathlib
import re
import sys

sys.dont_write_bytecode = True

import rattle
from crates import Crates
from rattle import Applied, Array, Named, Opaque, Ref, Slice, Tuple

LIST = "docs/ARCHITECTURE.md"
SECTION = "## Public calls"
ROW = re.compile(r"\|\s*`([a-z0-9_]+(?:::[a-z0-9_]+)+)`\s*\|")
EXPORTER, EXPORTED = "host_c", "host"
TIE = re.compile(r"^use Rattle\.(\w+)\.proofs\.(\w+)\.(\w+) as (\w+)$", re.MULTILINE)

PUBLIC = "a listed call is a public function"
ASKS = "a listed call requires nothing"
SAYS = "a listed call ensures something"
TIED = "a listed call is tied to its promise"
LISTED = "an export and a tied call are listed"
FORWARDS = "an export calls the function of its name, with its clauses"
READ = "every file is read"


def ties_of(source):
    """The calls whose proof and whose clauses are named, the clauses as the proof with `Contract`."""
    found = [m.groups() for m in TIE.finditer(source)]
    lines = set(source.split("\n"))
    return ["::".join(path) for *path, name in found if "use Rattle.{}.specs.contracts.{}.{} as {}Contract".format(*path, name) in lines]


def ties_of_exports(source):
    """The exports whose proof and clauses are named, beside the clauses of the function that they stand for."""
    found = [m.groups() for m in TIE.finditer(source) if m.group(1) == EXPORTER and m.group(4).endswith("Export")]
    lines = set(source.split("\n"))
    for crate, module, name, export in found:
        wanted = {(crate, f"{export}ed"), (EXPORTED, export.removesuffix("Export"))}
        if all(f"use Rattle.{of}.specs.contracts.{module}.{name} as {known}" in lines for of, known in wanted):
            yield f"{crate}::{module}::{name}"


def functions_in(tree):
    """The public functions of a tree, by their paths: crate::module::function; and where a file could not be read."""
    functions, unread = {}, []
    for path, source in tree.items():
        if path.endswith(".rt"):
            try:
                found = rattle.File(path, source).functions.values()
            except rattle.Unread as fault:
                unread.append(f"{path}:{fault.line}: {fault.what} is not read")
                continue
            functions.update(("::".join(f.path), f) for f in found if f.public)
    return functions, unread


def at(function, clause=None):
    """File and line of a function, or of its first clause of a kind."""
    return f"{function.file}:{clauses(function, clause)[0].line if clause else function.line}"


def clauses(function, kind):
    return [clause for clause in function.clauses if clause.kind == kind]


# ---- what an export is, beside the function that it exports


def exported(path):
    """The name of the function that an export stands for."""
    crate, _, rest = path.partition("::")
    return f"{EXPORTED}::{rest}" if crate == EXPORTER else path


def brought(file):
    """What a clause can name of the proofs: each word, of an operator too, with the whole of what it is."""
    words = {}
    for tokens in file.ghosts:
        text = "".join(token.text if token.text != "as" else " as " for token in tokens)
        path, group, inner = text.partition(".{")
        items = inner.rstrip("}").split(",") if group else [path.rpartition(".")[2]]
        path = path if group else path.rpartition(".")[0]
        words.update((word, f"{path}.{item}") for item in items for word in item.replace("◌", " ").split())
    return words


class Meanings:
    """What names stand for in the file of a function."""

    def __init__(self, crates, function):
        self.crates, self.file = crates, crates.files[function.file]
        self.ghosts = brought(self.file)

    def type_of(self, kind):
        """A type with full paths."""
        if isinstance(kind, Ref):
            return Ref(kind.mutable, self.type_of(kind.to))
        if isinstance(kind, Slice):
            return Slice(self.type_of(kind.of))
        if isinstance(kind, Array):
            return Array(self.type_of(kind.of), rattle.written(kind.length))
        if isinstance(kind, Named):
            return Named(kind.path if kind.path[-1] in rattle.WIDTHS else self.full(kind.path))
        if isinstance(kind, Tuple):
            return Tuple(tuple(map(self.type_of, kind.parts)))
        if isinstance(kind, Opaque):
            return kind
        return Applied(self.full(kind.path), tuple(map(self.type_of, rattle.arguments_of(kind)))) if kind else None

    def full(self, path):
        """The full path of a type; one of std that is no name of ours, as Option, stays as it is."""
        known = self.crates.resolved(path, self.file)
        return path if len(path) == 1 and path[0] not in self.file.imports and known not in self.crates.declared else known

    def takes_and_gives(self, function):
        return [(f.name, self.type_of(f.type)) for f in function.fields], self.type_of(function.result)

    def word(self, text):
        """A word of a clause, with what it stands for where the file brings it in."""
        known = self.crates.resolved((text,), self.file) if text in self.file.imports else None
        return text, self.ghosts.get(text), known

    def clauses(self, function):
        return [(c.kind, c.name, [self.word(token.text) for token in c.tokens]) for c in function.clauses]


def forwards(function, to, file, crates):
    """Is the body one call of `to`, with the function's arguments in their order?"""
    body = function.body
    if not body or not rattle.is_name(body[0]):
        return False
    path, end = rattle.path_at(body, 0)
    if crates.resolved(path, file) != to.path or rattle.behind(body, end).text != "(" or rattle.end_of(body, end) != len(body):
        return False
    return [rattle.written(a) for a in rattle.split(body[end + 1 : -1])] == [field.name for field in function.fields]


def unlike(function, functions, tied, crates):
    """Why an export is not the function that it stands for, or not tied to it."""
    own = "::".join(function.path)
    name = exported(own)
    if function.path[0] != EXPORTER:
        return f"is an export, and not in {EXPORTER}"
    if name not in functions:
        return f"exports {name}, which is not there"
    ours, theirs, to = Meanings(crates, function), Meanings(crates, functions[name]), functions[name]
    if not forwards(function, to, ours.file, crates):
        return f"is not one call of {name} with its arguments"
    if ours.takes_and_gives(function) != theirs.takes_and_gives(to):
        return f"takes or gives other than {name}"
    if ours.clauses(function) != theirs.clauses(to):
        return f"has other clauses than {name}"
    return None if own in tied else f"is not in the Contract.antt of {EXPORTER}"


def faults_of_exports(exports, functions, calls, tied, crates):
    wrong = [(f, why) for f in exports.values() if (why := unlike(f, functions, tied, crates))]
    faults = [f"{at(f)}: {'::'.join(f.path)} {why}" for f, why in wrong]
    there = {exported(name) for name in exports}
    lacking = [n for n in calls if n.startswith(f"{EXPORTED}::") and n in functions and n not in there]
    return faults + [f"{at(functions[n])}: {n} is exported by nothing" for n in lacking]


def listed_in(text):
    """The calls of the list, each with its line."""
    calls, inside = {}, False
    for number, line in enumerate(text.split("\n"), 1):
        if line.startswith("## "):
            inside = line.rstrip() == SECTION
        row = ROW.match(line) if inside else None
        if row:
            calls[row.group(1)] = number
    return calls


def check(tree):
    """What is asked, and where it does not hold: (behaviour, how many were looked at, faults)."""
    calls = listed_in(tree.get(LIST, ""))
    functions, unread = functions_in(tree)
    there = {name: functions[name] for name in calls if name in functions}
    exports = {n: f for n, f in functions.items() if f.export}
    tied = {n: path for path, source in tree.items() if path.endswith(".antt") for n in ties_of(source)}
    sent = {n for path, source in tree.items() if path.endswith(".antt") for n in ties_of_exports(source)}
    missing = [f"{LIST}:{line}: there is no `pub fn` {name}" for name, line in calls.items() if name not in there]
    if not calls:
        missing = [f"{LIST}:1: there is no table of calls in a section '{SECTION}'"]
    asking = [f"{at(f, 'requires')}: {n} has a `requires`" for n, f in there.items() if clauses(f, "requires")]
    silent = [f"{at(f)}: {n} has no `ensures`" for n, f in there.items() if not clauses(f, "ensures")]
    loose = [f"{at(f)}: {n} is not in the Contract.antt of its crate" for n, f in there.items() if n not in tied]
    unlisted = [f"{at(f)}: {exported(n)} is not in {LIST}" for n, f in exports.items() if exported(n) not in calls]
    known = {*calls, *map(exported, exports)}
    unlisted += [f"{path}:1: {n} is not in {LIST}" for n, path in tied.items() if n not in known]
    return [
        (PUBLIC, len(calls), missing),
        (ASKS, len(there), asking),
        (SAYS, len(there), silent),
        (TIED, len(there), loose),
        (LISTED, len(exports) + len(tied), unlisted),
        (FORWARDS, len(exports), faults_of_exports(exports, functions, calls, sent, Crates(tree))),
        (READ, len(functions), unread),
    ]


def read_tree(root):
    paths = [root / LIST, *sorted(root.glob("crates/*/src/**/*.rt")), *sorted(root.glob("crates/*/proofs/Contract.antt"))]
    return {p.relative_to(root).as_posix(): p.read_text(encoding="utf8") for p in paths if p.is_file()}


# ---- the check itself is tried on small trees

ENSURES = "    ensures { result ≡ record { a = 1; b = n } }\n"
REQUIRES = "    requires { n ≤ 3 }\n"
NAMED = "    ensures low { result ≤ n }\n    ensures high { n ≤ result }\n"
GHOST = "ghost use Rattle.std.specs.Prelude.{◌≡◌, ◌≤◌};\n"
GOOD = f"#[inline(always)]\npub fn burial_a(n: u32) -> u32\n{ENSURES}{{\n    n\n}}\n"
MARK = '#[unsafe(no_mangle)]\npub extern "C" '
EXPORT = f"{MARK}fn burial_a(n: u32) -> u32\n{ENSURES}{{\n    host::x::burial_a(n)\n}}\n"
OTHER = f"\nfn b(n: u32) -> u32\n{REQUIRES}{{\n    n\n}}\n"
SOURCE = "crates/host/src/x.rt"
SENT = "crates/host_c/src/x.rt"
CONTRACT = "crates/host/proofs/Contract.antt"
PROOF = "use Rattle.host.proofs.x.burial_a as A\n"
TIES = PROOF + "use Rattle.host.specs.contracts.x.burial_a as AContract\n"
SENT_CONTRACT = "crates/host_c/proofs/Contract.antt"
SENT_PROOF = "use Rattle.host_c.proofs.x.burial_a as AExport\nuse Rattle.host_c.specs.contracts.x.burial_a as AExported\n"
SENT_TIES = "use Rattle.host.specs.contracts.x.burial_a as A\n" + SENT_PROOF
ROWS = """# A

## Public calls

| call | what |
|---|---|
| `host::x::burial_a` | one |

## More

| `host::x::other` | two |
"""
OPTION = "-> Result<Option<(u32, [u32; 8])>, ()>"
TODAY = """#[derive(Clone, Copy)]
pub enum A {
    Low = 1,
    High = 2,
}

pub struct B<'a>(pub &'a [A]);

impl From<Option<A>> for u32 {
    ghost from_gives = { λ a n. n ≡ 1 };

    #[tactic(auto)]
    fn from(a: Option<A>) -> u32 {
        1
    }
}

impl B<'_> {
    pub fn more(&mut self, n: u32) -> Option<A>
        requires few { n ≤ 3 }
    {
        Some(Self::low()?)
    }
}

"""
SAME = [(FORWARDS, f"{SENT}:2:")]


def small(source=GOOD, rows=ROWS, ties=TIES, sent=EXPORT, sent_ties=SENT_TIES):
    return {LIST: rows, SOURCE: source, CONTRACT: ties, SENT: sent, SENT_CONTRACT: sent_ties}


def contract(clauses):
    return small(GOOD.replace(ENSURES, clauses), sent=EXPORT.replace(ENSURES, clauses))


def sent(old, new, there=GOOD):
    """With another export."""
    return small(there, sent=EXPORT.replace(old, new))


# Where a file is not read, its functions are missing.
UNREAD = [(PUBLIC, f"{LIST}:7:")]
NO_EXPORT = [(FORWARDS, f"{SOURCE}:2:")]
TRIALS = [
    ("nothing is wrong", contract(ENSURES), []),
    ("a `requires`", contract(REQUIRES + ENSURES), [(ASKS, f"{SOURCE}:3:")]),
    ("a `requires` behind the `ensures`", contract(ENSURES + REQUIRES), [(ASKS, f"{SOURCE}:4:")]),
    ("a `requires` in a comment", contract("    // requires { nothing }\n" + ENSURES), []),
    (
        "an array among the parameters",
        small(GOOD.replace("n: u32", "n: [u32; 8]"), sent=EXPORT.replace("n: u32", "n: [u32; 8]")),
        [],
    ),
    ("a `requires` of another function", small(GOOD + OTHER), []),
    ("no `ensures`", contract(""), [(SAYS, f"{SOURCE}:2:")]),
    ("a private function", small(GOOD.replace("pub ", "")), [*UNREAD, *SAME]),
    (
        "an export that is not listed",
        small(GOOD + GOOD.replace("_a", "_b"), sent=EXPORT + EXPORT.replace("_a", "_b"), sent_ties=SENT_TIES + SENT_TIES.replace("_a", "_b")),
        [(LISTED, f"{SENT}:8:")],
    ),
    ("an export in another form", small(sent=EXPORT + EXPORT.replace("pub ", "pub unsafe ")), [*NO_EXPORT, (READ, f"{SENT}:7:")]),
    ("two functions of a name", small(GOOD + GOOD), [*UNREAD, *SAME, (READ, f"{SOURCE}:8:")]),
    ("a call that is not tied", small(ties=""), [(TIED, f"{SOURCE}:2:")]),
    ("a tied call that is not listed", small(ties=TIES + TIES.replace("_a", "_b")), [(LISTED, f"{CONTRACT}:1:")]),
    ("no list", small(rows="# A\n"), [(PUBLIC, f"{LIST}:1:"), (LISTED, f"{SENT}:2:")]),
    # clauses with names, and ties
    ("clauses with names", contract(NAMED), []),
    ("a named `requires`", contract(REQUIRES.replace("{", "low {", 1) + ENSURES), [(ASKS, f"{SOURCE}:3:")]),
    ("a call whose clauses are not tied", small(ties=PROOF), [(TIED, f"{SOURCE}:2:")]),
    ("clauses that are tied under another name", small(ties=TIES.replace("AContract", "BContract")), [(TIED, f"{SOURCE}:2:")]),
    # today's forms
    ("numbered variants, an `impl` and a method", small(TODAY + GOOD), []),
    ("a function of any type that is listed", small(GOOD.replace("_a(", "_a<T>(")), []),
    ("a method of a listed name", small(GOOD.replace("pub fn", "impl A {\n pub fn") + "}\n"), [*UNREAD, *SAME]),
    ("a `requires` that stands behind a `where`", contract(f"    where u32: Copy\n{REQUIRES}{ENSURES}"), [(ASKS, f"{SOURCE}:4:")]),
    ("an `impl` that is not read", small("impl<T> A for T where T: Copy {}\n" + GOOD), [*UNREAD, *SAME, (READ, f"{SOURCE}:1:")]),
    ("an export of an Option", small(GOOD.replace("-> u32", OPTION), sent=EXPORT.replace("-> u32", OPTION)), []),
    ("an export of another Option", small(GOOD.replace("-> u32", OPTION), sent=EXPORT.replace("-> u32", OPTION.replace("32", "64"))), SAME),
    # exports
    ("a function that is not exported", sent(EXPORT, ""), NO_EXPORT),
    ("an export without its name in C", sent("#[unsafe(no_mangle)]\n", ""), [*NO_EXPORT, (READ, f"{SENT}:1:")]),
    ("an export without its calling convention", sent('extern "C" ', ""), [*NO_EXPORT, (READ, f"{SENT}:1:")]),
    ("an export by an attribute that is not read", sent("no_mangle", 'export_name = "b"'), [*NO_EXPORT, (READ, f"{SENT}:1:")]),
    ("an export in host", small(GOOD.replace("#[inline(always)]\npub ", MARK)), [(FORWARDS, f"{SOURCE}:2:")]),
    ("an export of another name", sent("fn burial_a", "fn burial_b"), [(LISTED, f"{SENT}:2:"), *SAME, *NO_EXPORT]),
    (
        "an export that calls its neighbour",
        small(GOOD + GOOD.replace("_a", "_b"), sent=EXPORT.replace("x::burial_a(n)", "x::burial_b(n)")),
        SAME,
    ),
    ("an export that does more", sent("    host::", "    let n = 1;\n    host::"), SAME),
    ("an export that changes what it gives", sent("(n)\n", "(n) + 1\n"), SAME),
    ("an export that changes an argument", sent("(n)\n", "(n + 1)\n"), SAME),
    (
        "an export with its arguments in another order",
        small(GOOD.replace("n: u32", "n: u32, m: u32"), sent=EXPORT.replace("n: u32", "n: u32, m: u32").replace("(n)\n", "(m, n)\n")),
        SAME,
    ),
    ("an export with another type", sent("n: u32", "n: u64"), SAME),
    ("an export that gives another type", sent("-> u32", "-> u64"), SAME),
    ("an export with no clause", sent(ENSURES, ""), SAME),
    ("an export with another clause", sent("a = 1", "a = 2"), SAME),
    ("an export with a clause more", sent(ENSURES, ENSURES + REQUIRES), SAME),
    ("an export with a clause less", small(GOOD.replace(ENSURES, NAMED), sent=EXPORT.replace(ENSURES, NAMED.split("\n")[0] + "\n")), SAME),
    (
        "an export with a clause of another name",
        small(GOOD.replace(ENSURES, NAMED), sent=EXPORT.replace(ENSURES, NAMED.replace("low", "lows"))),
        SAME,
    ),
    ("an export that is not tied", small(sent_ties=""), SAME),
    ("an export that is tied to no other function", small(sent_ties=SENT_PROOF), SAME),
    ("an export that is tied to another function", small(sent_ties=SENT_TIES.replace("x.burial_a as A\n", "x.burial_b as A\n")), SAME),
    ("a clause with an operator brought in", small(GHOST + GOOD, sent=GHOST + EXPORT), []),
    (
        "a clause with an operator of another name",
        small(GHOST + GOOD, sent=GHOST.replace("std.specs.Prelude", "host.specs.Other") + EXPORT),
        [(FORWARDS, f"{SENT}:3:")],
    ),
]


def told(results, expected):
    """Are the faults those expected, each at its file and line?"""
    faults = [(name, fault) for name, _, wrong in results for fault in wrong]
    pairs = zip(faults, expected)
    return len(faults) == len(expected) and all(n == m and f.startswith(at) for (n, f), (m, at) in pairs)


def main():
    root = pathlib.Path(__file__).resolve().parents[2]
    failed = 0
    wrong = [name for name, tree, expected in TRIALS if not told(check(tree), expected)]
    for name, count, faults in [*check(read_tree(root)), ("what is wrong in a small tree is told", len(TRIALS), wrong)]:
        if count and not faults:
            print(f"ok surface: {name} ({count})")
            continue
        failed += 1
        print(f"FAILED surface: {name} ({len(faults)} of {count})")
        for fault in faults:
            print(f"  {fault}")
    return 1 if failed else 0


if __name__ == "__main__":
    sys.exit(main())
