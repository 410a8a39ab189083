#!/usr/bin/env python3
"""Brings the must-fail edits to the spelling that port.py, tools/respell.py and rt fmt gave the texts they change.

usage: python3 tools/edits.py [ROOT]     once, at the top of a tree that both have turned; writes each edit anew from LANDED's (LANDED is the commit in the
first line of docs/PORT.md, or HEAD where that page is not there). What was mended by hand since is lost by a second run.

A pair of lines stays as it is where its `old:` text still stands exactly once and neither line has a clause in the old form. Else both are turned alike.
The rest is only looked at: each `old:` text must stand exactly once in its file, after the pairs before it, and each is told that does not, or that stands
at another line of LANDED's file than the one it stood at there.
"""
import difflib
import glob
import os
import re
import subprocess
import sys

from respell import NAME, snake

TOKEN = re.compile(NAME)


def turned(text):
    """The text in today's spelling."""
    text = text.replace("′", "'").replace("List·Memᴰ", "Memᴰ")
    text = re.sub(r"(?<![\w_])_([^\w\s_]+)_(?![\w_])", r"◌\1◌", text)
    # projections are tight, and stand without the brackets where nothing is applied
    text = re.sub(r"(?<=[\w')]) \.(?=[a-z])", ".", text)
    text = re.sub(r"\bnow \((\w+)\.exit\)", r"\1.new", text)
    text = re.sub(r"\bnow \((\w+)\.entry\)", r"\1.old", text)
    text = re.sub(r"\((?:now (\w+)|(\w+\.(?:new|old|now)))\)", lambda m: m[2] or m[1] + ".now", text)
    text = re.sub(r"\bnow (\w+)", r"\1.now", text)
    text = re.sub(r"(?<=[\w'.)] )\(([\w']+(?:\.[\w']+)+)\)", r"\1", text)
    # clauses
    text = re.sub(r"\{ (?:λ (\w+)\. )?⌜ (.*?) ⌝ \}", lambda m: "{ " + (re.sub(rf"\b{m[1]}\b", "result", m[2]) if m[1] and m[1] != "_" else m[2]) + " }", text)
    return TOKEN.sub(lambda m: snake(m[0]) if re.match(r"[a-z]", m[0]) else m[0], text)


def landed(root, commit, path):
    return subprocess.run(["git", "-C", root, "show", f"{commit}:{path}"], check=True, capture_output=True, text=True).stdout


def line_of(text, part):
    return text[:text.index(part)].count("\n")


def same_line(before, after, i, j):
    """Whether line i of the one text and line j of the other are the same line in two spellings."""
    plain = lambda text: [re.sub(r"[\W_]", "", line).lower() for line in text.split("\n")]
    a, b = plain(before), plain(after)
    for kind, a1, a2, b1, b2 in difflib.SequenceMatcher(None, a, b, autojunk=False).get_opcodes():
        if a1 <= i < a2:
            return b1 <= j < b2
    return False


def main(root="."):
    commit = "HEAD"
    if os.path.isfile(f"{root}/docs/PORT.md"):
        with open(f"{root}/docs/PORT.md", encoding="utf-8") as f:
            commit = f.readline().strip()
    told = kept = changed = 0
    for edit in sorted(glob.glob(f"{root}/crates/*/must-fail/*.edit")):
        path = os.path.relpath(edit, root)
        crate = path.split("/")[1]
        now, was, old, old_was, out, whole = None, None, None, None, [], landed(root, commit, path)
        for line in whole.split("\n"):
            if line.startswith("file: "):
                name = line[6:].strip()
                was = landed(root, commit, f"crates/{crate}/{name}")
                with open(f"{root}/crates/{crate}/{name}", encoding="utf-8") as f:
                    now = f.read()
                before, after = was, now
            elif line.startswith("old: "):
                old_was = old = line[5:]
                if now.count(old) != 1 or "⌜" in old:
                    old = turned(old)
                line = "old: " + old
                if now.count(old) != 1:
                    print(f"{path}: stands {now.count(old)} times: {old}")
                    told += 1
                elif not same_line(before, after, line_of(was, old_was), line_of(now, old)):
                    print(f"{path}: at another line than it was: {old}")
                    told += 1
            elif line.startswith("new: "):
                new_was = new = line[5:]
                if old != old_was or "⌜" in new:
                    new = turned(new)
                line = "new: " + new
                was, now = was.replace(old_was, new_was, 1), now.replace(old, new, 1)
            out.append(line)
        text = "\n".join(out)
        kept, changed = kept + (text == whole), changed + (text != whole)
        with open(edit, "w", encoding="utf-8") as f:
            f.write(text)
    print(f"{kept} edits stay, {changed} are turned, {told} lines to be looked at")


if __name__ == "__main__":
    main(*sys.argv[1:])
