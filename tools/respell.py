#!/usr/bin/env python3
"""Brings the repository's own definitions and lemmas to today's spelling: words in snake case.

usage: tools/respell.py [--look]    at the top of the repository; --look changes nothing and prints what falls together

A name in lower camel case gets underscores; a fact, which is a definition that gives a type, gets a capital instead. Dashes
stay: they join the parts of a lemma's name. What a file imports from the kit's libraries keeps its spelling there, and so do
names that Rattle makes. Functions of src/ and strings keep theirs.
"""

import os
import re
import sys

# lemmas whose names would fall together with what they are about
OTHER = {n: n + "_lem" for n in (
    "as_before call_back count_most is_among last_frame length_last none_above none_left one_more sub_out unit_kept whole_out"
).split()}
# what stays: words of the library in mixed case, and names that Rattle makes
KEEP = re.compile(r"^(uint_\w+|shr_\w+|mut_\w+|to_z.*|loop.*|invariant-.*|decreases-.*|returns.*)$")
LIBRARIES = r"(?:Rattle\.std|lib|borrow|native|mathlib|denote|Prim|specs|logic)\b"
WORD = r"[A-Za-z0-9_'\u2080-\u2089\u03b1-\u03c9-]"
CAMEL = re.compile(r"^(?:[a-z0-9_]+-)*[a-z][a-z0-9]*(?:_[a-z0-9]+)*(?:[A-Z][a-z0-9]*)+(?:[-_'\u2080-\u2089].*)?$")
TOKEN = re.compile(r"(?<![0-9A-Za-z_])[A-Za-z_\u03b1-\u03c9]" + WORD + r"*")


FACT = re.compile(r"^[ \t]*(?:pub[ \t]+|abbrev[ \t]+|unfoldable[ \t]+)*([a-z]" + WORD + r"*)[ \t]*:((?:[^\n]*\n)(?:[ \t]+[^\n=]*\n)*)", re.M)


def snake(name):
    return re.sub(r"(?<=[a-z0-9])([A-Z])", lambda m: "_" + m.group(1).lower(), name)


def new_name(name, facts):
    if name in OTHER:
        return OTHER[name]
    return name[0].upper() + name[1:] if name in facts else snake(name)


def files(top):
    for folder, dirs, names in os.walk(os.path.join(top, "crates")):
        dirs[:] = sorted(d for d in dirs if d != "out")
        for n in sorted(names):
            if n.endswith((".antt", ".rt", ".edit")):
                yield os.path.join(folder, n)


def read(path):
    with open(path, encoding="utf-8") as f:
        return f.read()


def library_words(text):
    """What the file takes from the kit's libraries: these keep their spelling in it."""
    words = set()
    for m in re.finditer(r"^(?:pub )?(?:ghost )?use " + LIBRARIES + r"[^{;\n]*(?:\{([^}]*)\})?", text, re.M):
        words |= {w.strip().split(" as ")[-1] for w in (m.group(1) or "").split(",")}
    return words


def facts_of(top):
    """The definitions in lower case whose type ends in a universe."""
    facts, others = set(), set()
    for path in files(top):
        if path.endswith(".antt"):
            for m in FACT.finditer(read(path)):
                into = facts if re.search(r"Type \S+\s*$", m.group(2)) else others
                into.add(m.group(1))
    for name in sorted(facts & others):
        print(f"look: {name} is declared as a fact and as something else")
    return {f for f in facts if CAMEL.match(f)}


def turned(word, kit):
    return word not in kit and not KEEP.match(word) and (word in OTHER or CAMEL.match(word))


def lemmas_only(path):
    return path.endswith(".antt") and "/proofs/" in path


def respelled(text, facts, path):
    kit = library_words(text)

    def one(m):
        w = m.group(0)
        if w in OTHER and not lemmas_only(path):
            return w
        return new_name(w, facts) if turned(w, kit) else w

    if path.endswith(".rt"):
        parts = re.split(r'("(?:[^"\\\n]|\\.)*")', text)
        return "".join(p if i % 2 else TOKEN.sub(one, p) for i, p in enumerate(parts))
    return TOKEN.sub(one, text)


def together(top, facts):
    names = set()
    for path in files(top):
        text = read(path)
        words = set(TOKEN.findall(text))
        kit = library_words(text)
        for w in sorted(words):
            if turned(w, kit):
                names.add(w)
                if new_name(w, facts) in words:
                    print(f"{os.path.relpath(path, top)}: {w} falls together with {new_name(w, facts)}")
    new = {}
    for w in sorted(names):
        new.setdefault(new_name(w, facts), []).append(w)
    for s, ws in new.items():
        if len(ws) > 1:
            print("one name of", ws)


def main():
    top = os.getcwd()
    facts = facts_of(top)
    if "--look" in sys.argv:
        together(top, facts)
        return
    changed = 0
    docs = os.path.join(top, "docs")
    todo = list(files(top)) + [os.path.join(d, f) for d, _, fs in sorted(os.walk(docs)) for f in sorted(fs) if f.endswith(".md")]
    todo.append(os.path.join(top, "README.md"))
    for path in todo:
        text = read(path)
        new = respelled(text, facts, path)
        if new != text:
            changed += 1
            with open(path, "w", encoding="utf-8") as f:
                f.write(new)
    print(f"{changed} files respelled")


main()
