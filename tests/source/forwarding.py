#!/usr/bin/env python3
"""Holds a hearing to paper 02, (ii): a frame that goes on has its words written straight to the out row, and no other array or row
puts them together.

A walk begins with a call and follows by name, through the crates, the functions that it can reach: all of them, or, of the program,
those that are lent its rows. What is asked of each is in follower.py, RULES. The arrays that are there are printed. The test tries
itself on edited copies of the source in which a row is hidden (forwarding_trials.py): one that it does not find, with its file and
line, is a failure.
"""

import pathlib
import sys

sys.dont_write_bytecode = True

import rattle
from crates import Crates
from follower import RULES, Follower, Walk
from forwarding_trials import MADE, NEWER, TRIALS
from rows import is_row

HEARING = "hearing::receive::receive"

# The calls that may tell a function of a frame's words though it has other rows to write to. What each answers is its promise: the fields of
# a frame, what was said of it, how many frames wait, the entry that was written, the replies.
TAKEN = {"frame::reader::frame_from", "hearing::receive::taken", HEARING, "host::offices::burial_receive"}
PLAYED = {HEARING, "player::ahead::receive_ahead", "player::play::deliver", "player::play::receive_at", "player::play::try_receive"}
PLAYED |= {"player::play::play_other", "player::play::receive_line", "player::play::write_at", "player::play::write_line"}
PLAYED |= {"player::play::try_write"}
FED = {"ring_program::run", "ring_program::read_on", "ring_program::ending::close", "ring_program::feed::feed_all"}
FED |= {"ring_program::feed::feed_some", "ring_program::feed::finish", "ring_program::feed::play", "writing::write::make"}
# The length of a waiting frame stands in front of it.
LENGTHS = {"player::play::receive_at": "lines [ slot ] as usize"}
HEARD = {"store": "stores", "frame": "lines", "out": "out"}

CALL = Walk(
    "a hearing",
    "host_c::offices::burial_receive",
    rows={"store", "frame", "out"},
    words={"frame", "out"},
    into={"out"},
    tellers=TAKEN,
    ends={},
    lengths={},
    narrow=False,
)
PLAYER = Walk(
    "the player's hearing",
    "player::play::receive_line",
    rows={"stores", "lines", "out"},
    words={"lines", "out"},
    into={"lines"},
    tellers=PLAYED,
    ends={HEARING: HEARD},
    lengths=LENGTHS,
    narrow=False,
)
MADE_OR_READ = {"writing::write::make": {"store": "stores", "out": "out"}, "reading::read::see_plot": {"store": "stores"}}
PROGRAM = PLAYER._replace(
    name="the program", first="ring_program::main", tellers=PLAYED | FED, ends=PLAYER.ends | MADE_OR_READ, narrow=True
)
WALKS = [CALL, PLAYER, PROGRAM]


def dependents(tree):
    """The crates that stand on hearing, and itself, by crates.txt."""
    lines = [line.split(":") for line in tree.get("crates.txt", "").split("\n") if ":" in line and not line.startswith("#")]
    return {"hearing"} | {name.split()[0] for name, needs in lines if "hearing" in needs.split()}


class Findings:
    """The walks over a tree, who else makes a hearing, and what is wrong by rule."""

    def __init__(self, tree):
        self.crates = Crates(tree)
        self.walks = [Follower(self.crates, walk) for walk in WALKS]
        self.reached = set().union(*(walk.reached for walk in self.walks))
        self.hearings, self.makers = 0, []
        above = dependents(tree)
        for path, line, what in (unread for module, unread in self.crates.unread.items() if module[0] in above):
            self.makers.append(f"{path}:{line}: {what}, so that it could make a hearing")
        for function in self.crates.functions.values():
            self.look_for_hearings(function, above)

    def look_for_hearings(self, function, above):
        """A function that no walk reaches does not call, or name, one that has a frame's words and a row to write to."""
        for callee, line in self.named_in(function):
            if callee.path[0] not in above or "::".join(callee.path) not in self.reached:
                continue
            self.hearings += "::".join(callee.path) == HEARING
            if "::".join(function.path) not in self.reached and any(is_row(f.type) and f.type.mutable for f in callee.fields):
                what = f"{'::'.join(function.path)} is in no walk and calls {'::'.join(callee.path)}"
                self.makers.append(f"{function.file}:{line}: {what}")

    def named_in(self, function):
        """The functions that a body names, by a path or as a method, each with the line."""
        file = self.crates.files[function.file]
        for path, at, _ in rattle.paths_of(function.body):
            for callee in self.crates.functions_of(path, file):
                yield callee, function.body[at].line
        for method in rattle.methods_of(function.body):
            for callee in self.crates.methods.get(method.name, ()):
                yield callee, method.line

    def faults_of(self, rule):
        return self.makers if rule == MADE else [fault for walk in self.walks for fault in walk.faults[rule]]

    def all(self):
        return [fault for rule in (*RULES, MADE) for fault in self.faults_of(rule)]


def read_tree(root):
    paths = [root / "crates.txt", *sorted(root.glob("crates/*/src/**/*.rt"))]
    return {p.relative_to(root).as_posix(): p.read_text(encoding="utf8") for p in paths}


# ---- the test tries itself on edited copies


def edited(tree, edits):
    """A copy of the tree with edits: (file, old text, new text). The old text has to stand there once; without one the file is new."""
    tree = dict(tree)
    for path, old, new in edits:
        if old and tree.get(path, "").count(old) != 1:
            raise ValueError(f"{path} has not `{old.strip()}` once")
        tree[path] = tree[path].replace(old, new) if old else new
    return tree


def place_of(tree, path, text):
    """File and line of a text, as a fault says them."""
    return f"{path}:{tree[path].count(chr(10), 0, tree[path].index(text)) + 1}:"


def failed_trials(tree, trials):
    for trial in trials:
        try:
            copy = edited(tree, trial.edits)
        except ValueError as fault:
            yield f"{trial.name}: {fault}"
            continue
        findings = Findings(copy)
        if trial.rule is None:
            yield from (f"{trial.name}: {fault}" for fault in findings.all())
        elif not any(fault.startswith(place_of(copy, *trial.at)) for fault in findings.faults_of(trial.rule)):
            yield f"{trial.name}: not found; told was {findings.all()}"


def say(name, count, faults):
    if count and not faults:
        print(f"ok forwarding: {name} ({count})")
        return 0
    print(f"FAILED forwarding: {name} ({len(faults)} of {count})")
    for fault in faults:
        print(f"  {fault}")
    return 1


def main():
    tree = read_tree(pathlib.Path(__file__).resolve().parents[2])
    findings, failed, printed = Findings(tree), 0, set()
    for walk in findings.walks:
        for rule, faults in walk.faults.items():
            failed += say(f"{walk.walk.name}: {rule}", len(walk.reached), faults)
        new = sorted(item for item in walk.arrays.items() if item not in printed)
        printed.update(new)
        if new:
            print(f"  {walk.walk.name} reaches {len(walk.reached)} functions from {walk.walk.first}; arrays not printed yet: {len(new)}")
        for (path, line, where, name), size in new:
            print(f"    {path}:{line}: {where}: {name}, {size}")
    failed += say(MADE, findings.hearings, findings.makers)
    failed += say("a row that is hidden in an edited copy is found", len(TRIALS), list(failed_trials(tree, TRIALS)))
    failed += say("so is one in a form that the language has of late", len(NEWER), list(failed_trials(tree, NEWER)))
    return 1 if failed else 0


if __name__ == "__main__":
    sys.exit(main())
