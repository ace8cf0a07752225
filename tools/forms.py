#!/usr/bin/env python3
"""Counts, in crates/*/src of a checkout, the lines that may stand for an older form, by the points of docs/DESIGN-PASS.md.

    tools/forms.py [FOLDER] [--lines]

A line that it counts is a place to look, not a verdict: the page says which of them are places. Comments and contracts are left
out, so that a word in them does not count. With --lines the lines are printed too.
"""
import collections
import glob
import itertools
import os
import re
import sys

args = [a for a in sys.argv[1:] if not a.startswith("--")]
root = args[0] if args else "."
show = "--lines" in sys.argv


def sources():
    for path in sorted(glob.glob(os.path.join(root, "crates/*/src/**/*.rt"), recursive=True)):
        yield os.path.relpath(path, os.path.join(root, "crates")), open(path).read()


def code_lines():
    for path, text in sources():
        for n, line in enumerate(text.split("\n"), 1):
            bare = line.strip()
            if bare.startswith(("//", "requires", "ensures", "ghost", "(λ")):
                continue
            yield path, n, line


def count(label, pattern):
    found = [(p, n, l.strip()) for p, n, l in code_lines() if re.search(pattern, l)]
    print(f"{len(found):5}  {label}")
    if show:
        for p, n, l in found:
            print(f"         {p}:{n}: {l}")


def listed(label, rows):
    rows = list(rows)
    print(f"{len(rows):5}  {label}")
    if show:
        for r in rows:
            print(f"         {r}")


print("1. kinds, refusals, flags")
count("enums", r"\benum \w+")
count("numbers for a kind or a refusal", r"\b(kind|refusal|stated|unit): (u8|u64)\b|fn \w*(number|refusal)\w*\([^)]*\) -> (Result<)?u8|\bOk\(\d+\)|^\s*\d+ => |== 10 \{")
count("answers of yes or no by a call that changes something", r"fn [^;]*&mut [^;]*-> .*bool")

print("2. twins")
names = collections.defaultdict(set)
for path, text in sources():
    for m in re.finditer(r"^\s*(?:pub(?:\(crate\))? )?(?:const )?(fn|struct|enum|const|trait) (\w+)", text, re.M):
        names[(m.group(1), m.group(2))].add(path)
listed("names of functions, types and constants that stand in two files or more",
       (f"{k[0]} {k[1]}: {', '.join(sorted(v))}" for k, v in sorted(names.items()) if len(v) > 1))

print("3. loops")
count("while, and for over a range of numbers", r"^\s*while |\bfor _?\w+ in [^{]*\.\.")
count("a number raised by one", r"\+= 1;$")

print("4. equality, conversion, printing")
count("numbers taken out of newtypes to be compared", r"\.0 (==|!=|<|>|<=|>=) |(==|!=) \w+(\.\w+)*\.0\b")
count("casts of a newtype's number", r"\.0 as usize")
count("functions named for a comparison, a text, a name or a number",
      r"fn (same|same_\w+|\w+_text|\w+_name|\w+_numbered|unit_number|refusal_number|two_bytes|four_bytes|digit|from_word|text|print)\b")
count("errors made from a fault's text", r'anyhow!\("\{')
count("structs of zeros", r"^\s*(cold|strings|hits): 0,")

print("5. facts and parameters that travel together")
clauses = collections.Counter()
for path, text in sources():
    crate = path.split("/")[0]
    for m in re.finditer(r"^\s*(?:requires|ensures)\*? ?\w* \{(.*)\}$", text, re.M):
        clauses[(crate, re.sub(r"\.(old|now|new|entry)\b", "", m.group(1)).strip())] += 1
listed("clauses that stand in three contracts of a crate or more",
       (f"{n} {k[0]}: {k[1]}" for k, n in sorted(clauses.items(), key=lambda x: -x[1]) if n >= 3))
groups = collections.Counter()
for path, text in sources():
    crate = path.split("/")[0]
    for m in re.finditer(r"fn \w+(?:<[^(]*>)?\(([^)]*)\)", text):
        ps = sorted({p.split(":")[0].strip() for p in m.group(1).split(",") if ":" in p})
        for some in itertools.combinations(ps, 3):
            groups[(crate, some)] += 1
listed("three parameters that stand together in three functions of a crate or more",
       (f"{n} {k[0]}: {', '.join(k[1])}" for k, n in sorted(groups.items(), key=lambda x: -x[1]) if n >= 3))

print("6. lengths beside buffers, arenas")
count("lengths and counts as fields or arguments", r"\b(len|row_count|count): (usize|u16|u32)\b")
count("cell and frame numbers as links", r"\b(prev|next|slot|tail|head): CellNo\b")

print("7. switches on a step")
count("an enum or a number that says which question or step", r"\bQuestion::\w+|kind: u8|match kind\b")

print("8. proofs")
files = sorted(glob.glob(os.path.join(root, "crates/*/proofs/**/*.antt"), recursive=True))
print(f"{len(files):5}  proof files")
print(f"{sum(open(f).read().count(chr(10)) for f in files):5}  lines of them")
