#!/usr/bin/env python3
"""Counts the places of docs/DESIGN-PASS.md in crates/*/src: python3 tools/places.py [--list] [TREE].

By the text alone, so that any commit can be counted: git worktree add DIR COMMIT, then this with DIR."""
import collections
import glob
import re
import sys

show = "--list" in sys.argv
trees = [it for it in sys.argv[1:] if not it.startswith("--")]
top = trees[0] if trees else "."
files = {it[len(top) + 1 :]: open(it).read() for it in sorted(glob.glob(f"{top}/crates/*/src/*.rt"))}


def lines(pattern, without=None):
    found = []
    for file, text in files.items():
        for at, line in enumerate(text.split("\n"), 1):
            code = line.split("//")[0]
            if re.search(pattern, code) and not (without and re.search(without, code)):
                found.append(f"{file}:{at}: {line.strip()}")
    return found


def functions():
    form = r"^ *(?:pub )?(?:extern \"C\" )?fn (\w+)(?:<[^>]*>)?\((.*?)\)(?: -> [^\n{]*?)?\n((?: +(?:requires|ensures)[^\n]*\n(?: +[×→(][^\n]*\n)*)*)"
    for file, text in files.items():
        for m in re.finditer(form, text, re.S | re.M):
            yield file, m[1], m[2], m[3]


def conjuncts(text):
    parts, depth = [""], 0
    for sign in text:
        depth += (sign in "({") - (sign in ")}")
        if sign == "×" and depth == 0:
            parts.append("")
        else:
            parts[-1] += sign
    return [re.sub(r"\.(now|old)\b", "", it.strip().removeprefix("(").removesuffix(")")) for it in parts]


def facts():
    where = collections.defaultdict(list)
    for file, name, _, clauses in functions():
        for m in re.finditer(r"requires(?: \w+)? \{ (.*?) \}\n", clauses, re.S):
            for fact in set(conjuncts(m[1])):
                where[fact].append(name)
    return [f"{len(it)} {fact}: {', '.join(it)}" for fact, it in where.items() if len(it) >= 3]


def together():
    where = collections.defaultdict(set)
    for file, name, parameters, _ in functions():
        said = [re.sub(r"\s+", " ", it.strip()) for it in re.split(r",(?![^\[]*\])", parameters) if it.strip()]
        for i in range(len(said)):
            for j in range(i + 3, len(said) + 1):
                where[tuple(said[i:j])].add((file, name))
    many = {it: at for it, at in where.items() if len(at) >= 3}
    # Only the longest of those that stand in the same functions.
    longest = [it for it in many if not any(set(it) < set(other) and many[other] >= many[it] for other in many)]
    return [f"{len(many[it])} {', '.join(it)}: {', '.join(sorted(name for _, name in many[it]))}" for it in longest]


points = {
    "1a own enums": lines(r"^ *(pub )?enum "),
    "1b flags and states beside values": lines(r"^ +(pub )?\w+: (bool|Status|Written),?$"),
    "1c refusals as numbers: functions": lines(r"fn \w*(code|codes|forecast|refusal_of|status_of|number_of|_first|_early|check_words|check_frame)\b.*"),
    "1d refusals as numbers: tests and fields": lines(r"\b(code|start|head|first|second) != 0|^ +(pub )?(code|refusal): u32"),
    "1e numbers for none": lines(r"offices == 0|\bk >= 256\b|[^m]NONE\b|256usize|=> 256"),
    "2 functions named as a variant of another": lines(r"fn \w*(alone|by_value|known|_each)\b"),
    "3 loops with an index": lines(r"^ *(for \w+ in [^{]*\.\.|while |loop )"),
    "4 equality, order, copies, conversions, printing": lines(r"fn (same_\w+|stands_at|has_content|greater|outranks|copy_words|put|put_text|put_decimal|wide|flag|words_answer|number_of|refusal_of|status_of|place_number|is_empty|nothing)\b"),
    "5a facts in three contracts or more": facts(),
    "5b three parameters together in three functions or more": together(),
    "6 buffers with a length beside": lines(r"\[\w+; \d+\], (count|n|m|len): usize|^ +(pub )?(count|len): usize,?$"),
    "7 matches on what to do": lines(r"match (line|ending|kind|step)\b|\bfn\("),
}
for point, places in points.items():
    print(f"{len(places):4} {point}")
    if show:
        for place in places:
            print("       ", place)
