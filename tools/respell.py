#!/usr/bin/env python3
"""Brings the repository's own definitions, lemmas, fields and constructors to today's spelling.

usage: python3 tools/respell.py          rewrites the files under crates/ in place
       python3 tools/respell.py --map    prints what it would rename, and what falls together

A dash between words becomes an underscore, and a fact or type is in upper camel case. A dash that joins the names
of two functions (`length-put`) stays. Names that the toolchain makes, functions of src/, strings and comments stay; pages of docs/ are turned between
backticks.
It was run once, right after the toolchain's own script, and goes by text.
"""
import collections
import os
import re
import sys

# Names that the toolchain makes for goals and steps begin like this.
MADE = re.compile(r"^(returns|loop|invariant-loop|invariant-of|invariant_of|decreases|overflow|bounds|slice_bounds|nonzero|ghost)-|-(requires|ensures)(-|$)|·")
# Names that the library has too, so that a file may mean that one: they stay.
LIBRARY = {"length-append", "and-true", "get_or-map"}
# A lemma on one function under another: the outer one, a dash, the inner one.
JOINED = {
    "length-keys": "length-keys", "length-line": "length-line", "length-names": "length-names",
    "length-put": "length-put", "length-put-all": "length-put_all", "length-table": "length-table",
    "take-add": "take-add", "take-dots": "take-dots", "take-length": "take-length", "take-set": "take-set",
    "take-signs": "take-signs", "get_or-append": "get_or-append", "table-replicate": "table-replicate",
    "put-all-append": "put_all-append", "every-record-append": "every_record-append",
    "cond-drop": "cond-drop", "cond-swap": "cond-swap", "lines-append": "lines-append",
}
DECLARED = re.compile(r"^\s*(?:(?:abbrev|unfoldable|pub|data|record|opaque) )*((?:[^\s:(){}.;,λ]+ )*[^\s:(){}.;,λ]+)(?: [({].*)? ?:(?!:)")
ALIAS = re.compile(r"(?<=\s)as ([^\s(){}.;,]+)(?=[,}])")
# A fact of one lemma file that was not spelled as one.
ONE_FILE = {"crates/outbox/proofs/Turns.antt": {"lacks": "Lacks"}}
NAME = r"[\w'\u00b7\-\u2264\u2115\u2219\u25cc/+*\u2237\u2261<>=]"


def files(ends):
    for folder, dirs, names in os.walk("crates"):
        dirs[:] = sorted(d for d in dirs if d != "out")
        for name in sorted(names):
            if name.endswith(ends):
                yield os.path.join(folder, name)


def new_name(old):
    if old in JOINED:
        return JOINED[old]
    if old[0].isupper():
        return "".join(w[0].upper() + w[1:] for w in old.split("-"))
    return old.replace("-", "_")


def declared():
    found = collections.defaultdict(set)
    for path in files((".antt", ".rt")):
        for line in open(path, encoding="utf-8"):
            if line.lstrip().startswith(("use ", "ghost use ")):
                for name in ALIAS.findall(line):
                    if "-" in name:
                        found[name].add(path)
    for path in files(".antt"):
        for line in open(path, encoding="utf-8"):
            if line.lstrip().startswith(("--", "use ", "mod ", "pub mod ", "let ", "infix")):
                continue
            m = DECLARED.match(line)
            if not m:
                continue
            for name in m.group(1).split():
                if "-" in name and re.match(r"^\w", name) and name not in LIBRARY and not MADE.search(name):
                    found[name].add(path)
    return found


def respell(text, table, comment):
    """Renames whole names, outside strings and comment lines."""
    pattern = re.compile(rf"(?<!{NAME})({'|'.join(sorted(map(re.escape, table), key=len, reverse=True))})(?!{NAME})")
    out = []
    for line in text.split("\n"):
        if line.lstrip().startswith(comment):
            out.append(line)
            continue
        parts = re.split(r'("(?:[^"\\]|\\.)*")', line)
        out.append("".join(p if p.startswith('"') else pattern.sub(lambda m: table[m.group(1)], p) for p in parts))
    return "\n".join(out)


def main():
    names = declared()
    table = {n: new_name(n) for n in names if new_name(n) != n}
    if sys.argv[1:] == ["--map"]:
        back = collections.defaultdict(list)
        for old, new in table.items():
            back[new].append(old)
        words = collections.defaultdict(set)
        for path in files((".antt", ".rt")):
            for word in re.findall(rf"{NAME}+", open(path, encoding="utf-8").read()):
                words[word].add(path)
        for old in sorted(table):
            print(old, table[old])
        for new in sorted(back):
            if len(back[new]) > 1:
                print("falls together:", new, back[new])
            there = words.get(new)
            if there:
                uses = words[back[new][0]]
                both = sorted(there & uses)
                if both:
                    print("stands already:", new, both)
        return
    for path in files((".antt", ".rt", ".edit")):
        old = open(path, encoding="utf-8").read()
        comment = "//" if path.endswith(".rt") else "--"
        new = respell(old, table | ONE_FILE.get(path, {}), comment)
        if new != old:
            open(path, "w", encoding="utf-8").write(new)
    pages = ["README.md"] + [os.path.join(d, f) for d, _, fs in os.walk("docs") for f in fs if f.endswith(".md")]
    for path in sorted(pages):
        old = open(path, encoding="utf-8").read()
        new = re.sub(r"`[^`\n]+`", lambda m: respell(m.group(0), table, "\0"), old)
        if new != old:
            open(path, "w", encoding="utf-8").write(new)


main()
