#!/usr/bin/env python3
"""Respells the repository's own definitions, fields and lemmas: words in snake case.

usage: respell.py [--check] [ROOT]

Run once, after the kit's port.py, at the top of the repository. It turns

    leAt, isIn, length-leBytes  ->  le_at, is_in, length-le_bytes   (a word in mixed case that begins small)
    .due-high, due-high =       ->  due_high                        (a field or a definition of specs/ with a dash)

in crates/*/{src,specs,proofs} and crates/*/must-fail. Types, modules, constants, texts in quotes and the functions of src/
keep their names; a lemma of proofs/ keeps its dashes. Names that would fall together are listed, and nothing is written.
"""

import collections
import glob
import os
import re
import sys

WORD = r"[^\W\d_]['\w₀-₉-]*"
MIXED = re.compile(r"[a-z][a-z0-9_'₀-₉-]*[a-z0-9][A-Z]")
# a text in quotes, a comment's text is turned too
TOKEN = re.compile(r'"(?:[^"\\\n]|\\.)*"|' + WORD)
# lemmas of proofs/ that already have the name that a definition gets: `_lem`, as the kit has it
APART = {
    "text/proofs/NumberLaws.antt": ["all_digits"],
    "runs/proofs/PendingCalls.antt": ["alone_at"],
    "runs/proofs/PendingRead.antt": ["read_number"],
    "runs/proofs/FlushFrees.antt": ["read_number"],
    "runs/proofs/ProgressProved.antt": ["read_number"],
    "runs/proofs/PendingAck.antt": ["unit_ok"],
    "checkpoints/proofs/MarkedLaws.antt": ["marked_all"],
    "checkpoints/proofs/StandingTakes.antt": ["read_number"],
    "plates/proofs/AnswerLaws.antt": ["unit_ok"],
    "plates/proofs/answer/put_headed/Proof.antt": ["unit_ok"],
    "records/proofs/reading/read/Proof.antt": ["unit_ok"],
}


def snake(word):
    word = re.sub(r"([a-z0-9])([A-Z])", lambda m: m.group(1) + "_" + m.group(2).lower(), word)
    return re.sub(r"[A-Z]", lambda m: m.group(0).lower(), word)


def read(path):
    with open(path, encoding="utf-8", newline="") as it:
        return it.read()


def paths(root):
    each = []
    for ending in ("src/**/*.rt", "specs/**/*.antt", "proofs/**/*.antt", "must-fail/*.edit"):
        each += glob.glob(os.path.join(root, "crates", "*", ending), recursive=True)
    return sorted(each)


def turned(text, names, apart):
    def of(match):
        it = match.group(0)
        if it.startswith('"'):
            return it
        # a step of the code and a folder below proofs/ are named after a function of src/
        if it in apart and text[: match.start()][-1:] != ".":
            return it + "_lem"
        return names.get(it, it)

    return TOKEN.sub(of, text)


def main():
    check = "--check" in sys.argv
    root = ([a for a in sys.argv[1:] if not a.startswith("-")] or ["."])[0]
    files = {p: read(p) for p in paths(root)}
    words = collections.defaultdict(set)
    dashed = set()
    for p, text in files.items():
        for it in TOKEN.findall(text):
            if not it.startswith('"'):
                words[it].add(p)
        if "/specs/" in p:
            dashed |= set(re.findall(r"^\s*(?:unfoldable |abbrev )?(?:pub )?([a-z][\w'₀-₉]*-[\w'₀-₉-]*) (?:: |=)", text, re.M))
    names = {}
    for it in words:
        if it in dashed:
            names[it] = snake(it).replace("-", "_")
        elif MIXED.match(it):
            names[it] = snake(it)
    bad = 0
    by_new = collections.defaultdict(set)
    for old, new in names.items():
        by_new[new].add(old)
    for new, olds in sorted(by_new.items()):
        if len(olds) > 1:
            print("fall together:", new, sorted(olds))
            bad += 1
        both = [p for p in words.get(new, ()) if p.endswith(".antt") and any(p in words[o] for o in olds)]
        if both:
            print("in one file:", new, sorted(olds), both)
    print(len(names), "names,", bad, "fall together")
    if check or bad:
        return bad
    for p, text in files.items():
        new = turned(text, names, APART.get(os.path.relpath(p, os.path.join(root, "crates")), ()))
        if new != text:
            with open(p, "w", encoding="utf-8", newline="") as it:
                it.write(new)
    return 0


if __name__ == "__main__":
    sys.exit(1 if main() else 0)
