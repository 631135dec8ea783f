#!/usr/bin/env python3
"""Counts the older forms in src/ at a commit, point by point as docs/DESIGN-PASS.md has them.

    tools/forms.py COMMIT        the counts
    tools/forms.py COMMIT -l     each place too

host_c is left out: it is the C interface, one call of `host` for each export. Point 1's results leave `host` out for the
same reason.
"""
import re
import subprocess
import sys

NUMBERED = {"Written", "Place", "Counted", "Fault", "Array", "HeldAnswer", "TwoPlaces", "UnitReply", "ToolStep"}


def git(*args):
    return subprocess.run(["git", *args], capture_output=True, text=True, check=True).stdout


def sources(commit):
    names = git("ls-tree", "-r", "--name-only", commit).split()
    wanted = [n for n in names if re.fullmatch(r"crates/[a-z_]+/src/.*\.rt", n) and not n.startswith("crates/host_c/")]
    return {n: git("show", f"{commit}:{n}") for n in wanted}, names


def lines(texts, pattern):
    found = []
    for name, text in texts.items():
        for at, line in enumerate(text.split("\n"), 1):
            if re.search(pattern, line) and not line.lstrip().startswith("//"):
                found.append(f"{name}:{at}: {line.strip()}")
    return found


def numbered_results(texts):
    found = []
    for name, text in texts.items():
        if name.startswith("crates/host/"):
            continue
        for m in re.finditer(r"\bfn (\w+)[^{;]*?\)\s*->\s*([\w<>(), ]+?)\s*\n((?:[ \t]+(?:requires|ensures)[^\n]*\n"
                             r"(?:\s{8,}[^\n]*\n)*)*)", text):
            fn, result, clauses = m.groups()
            if result in NUMBERED or (result == "u8" and re.search(r"number|judged", clauses)):
                found.append(f"{name}: {fn} -> {result}")
    return found


def names_twice(texts):
    where = {}
    for name, text in texts.items():
        for fn in re.findall(r"\bfn (\w+)", text):
            where.setdefault(fn, []).append(name)
    return [f"{fn}: {' '.join(w)}" for fn, w in sorted(where.items()) if len(w) > 1]


def facts_thrice(texts):
    where = {}
    for name, text in texts.items():
        for fact in re.findall(r"^\s*requires [a-z_]*\s*(\{.*)$", text, re.M):
            where.setdefault(fact, []).append(name)
    return [f"{len(w)} times {fact}" for fact, w in sorted(where.items()) if len(w) > 2]


def main():
    commit = sys.argv[1]
    texts, names = sources(commit)
    counts = [
        ("1 functions that hand back a house number", numbered_results(texts)),
        ("1 structs with a number beside values", lines(texts, r"^\s+pub number: u8")),
        ("1 constants for house numbers", lines(
            {n: t for n, t in texts.items() if n.endswith("octets/src/numbers.rt")}, r"^pub const \w+: u8 = \d+;")),
        ("1 tests of a number", lines(texts, r"\b(number|refused|broken|unlisted)\b (!=|==) 0|\.number (!=|==) 0")),
        ("1 kinds, rates and marks as numbers", lines(
            texts, r"\b(kind|rate|pending): u8|const (GENERATION_|KINDS|ABSENT|NO_ANSWER|NO_STATE)")),
        ("2 names of functions in more than one place", names_twice(texts)),
        ("3 loops by hand", lines(texts, r"^\s*(while|loop)\b")),
        ("4 bytes of numbers by arithmetic", lines(texts, r"/ 256|% 256|\* 256\b")),
        ("4 arms that are true or false", lines(texts, r"=> (true|false),")),
        ("4 derives of Clone and Copy alone", lines(texts, r"derive\(Clone, Copy\)")),
        ("4 calls of printing helpers", lines(texts, r"\bprint::(text|number|bytes|same)\(")),
        ("5 facts asked by three functions or more", facts_thrice(texts)),
        ("6 tables as one byte string", lines(texts, r'const \w+: \[u8; \d\d\d\] = \*b"')),
        ("7 switches on a step's number", lines(texts, r"match k \{")),
        ("8 files of answers", [n for n in names if re.search(r"proofs/.*Answers\.antt$", n)]),
    ]
    for what, places in counts:
        print(f"{len(places):5} {what}")
        if "-l" in sys.argv:
            print("\n".join("        " + p for p in places))


main()
