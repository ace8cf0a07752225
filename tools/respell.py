#!/usr/bin/env python3
"""Respells the names that our specs/ and proofs/ declare, as the toolchain's library spells its own.

usage: tools/respell.py [--dry] [ROOT]      once, right after the toolchain's own port script

- functions, lemmas, fields and constructors are in snake case; types and facts keep upper camel case;
- a dash stays where it joins two names (of definitions here or of the library), and is `_` elsewhere;
- what Rattle makes (the names of goals and of steps), names of src/ and strings stay as they are.
It stops if two names would fall together. It turns .antt files, the clauses and comments of .rt files, must-fail edits, README.md
and docs/.
"""
import os
import re
import sys

NAME = r"[^\s(){}.;,@\"«»]+"
DECLARED = re.compile(
    r"(?m)^( *)((?:(?:abbrev|pub|unfoldable|record|data|ruleset) +)*)(" + NAME + r")((?: *[({][^\n]*?[)}])*) +:(?=[ \n] *(\S.*))"
)
# Names whose plain spelling is taken or reads badly.
BY_HAND = {
    # a name as an abbreviation of two words
    "prevOf": "prev_of",
    "noEnds": "no_ends",
    # two names that would fall together: the lemma takes another
    "test-done": "test_loop_done",
    "sent-after": "after_sent",
    "turned-cold": "turned_cold_is",
    "cold-at": "turned_cold_at",
    "hot-at": "hot_placed_at",
    "sameBit": "equal_bits",
    "part-laid-same": "part-laid_same",
    "aHit": "bare_hit",
    "hot-step": "at_hot_step",
    "test-step": "at_test_step",
    "is-hot": "hot_letter",
    "is-cold": "cold_letter",
    "is-away": "away_letter",
    # the sample table's marks of an entry: each is what it shows
    "H": "shows_hot",
    "C": "shows_cold",
    "Ct": "shows_tested",
    "Ct*": "shows_tested_set",
    "N": "shows_remembered",
}
MARKS = ("H", "C", "Ct", "Ct*", "N")


def files(root, *ends):
    for top in ("crates", "docs", "README.md"):
        p = os.path.join(root, top)
        if os.path.isfile(p):
            yield p
        for d, dirs, fs in os.walk(p):
            dirs[:] = sorted(x for x in dirs if x not in ("out", ".git"))
            for f in sorted(fs):
                if f.endswith(ends):
                    yield os.path.join(d, f)


def read(p):
    with open(p, encoding="utf-8") as f:
        return f.read()


def is_of_function(p):
    return re.search(r"/(Answers|Invariants|Choices|Proof)\.antt$", p) is not None


def snake(part):
    part = re.sub(r"(?<=[a-z0-9])([A-Z])", lambda m: "_" + m[1].lower(), part)
    return part


def main(argv):
    dry = "--dry" in argv
    argv = [a for a in argv if a != "--dry"]
    root = argv[0] if argv else "."
    declared, spec_names, labels, fields = {}, set(), set(), set()
    library = set()
    for p in files(root, ".antt"):
        text = re.sub(r"--.*", "", read(p))
        for m in re.finditer(r"(?s)\buse Rattle\.std[^{;\n]*\{([^}]*)\}", text):
            library |= {n.split(" as ")[-1].strip() for n in m[1].split(",")}
        for m in DECLARED.finditer(text):
            name, kind, ty = m[3], m[2], m[5]
            if is_of_function(p) and re.match(r"goal\.", ty):
                labels.add(name)
                continue
            declared.setdefault(name, []).append((p, len(m[1])))
            if "/specs/" in p and not m[1]:
                spec_names.add(name)
            if m[1]:
                fields.add(name)
    names = spec_names | {n for n in library if n}

    def spelled(name):
        if name in BY_HAND:
            return BY_HAND[name]
        if name[:1].isupper() and "-" not in name:
            return name
        parts = name.split("-")
        out = snake(parts[0]) if parts[0][:1].islower() else parts[0]
        for a, b in zip(parts, parts[1:]):
            joins = name not in fields and (a in names or not re.match(r"\w", a)) and (b in names or not re.match(r"\w", b))
            b2 = snake(b) if b[:1].islower() else b
            out += ("-" if joins else "_") + b2
        return out

    table = {n: spelled(n) for n in declared}
    table = {a: b for a, b in table.items() if a != b}
    for n in list(BY_HAND):
        if n in declared:
            table[n] = BY_HAND[n]
    # no two names may fall together
    bad = []
    back = {}
    for a, b in table.items():
        if b in back or b in library:
            bad.append((a, b, back.get(b, "the library")))
        elif b in declared and b not in table:
            bad.append((a, b, "declared already in " + declared[b][0][0] + " / " + declared[a][0][0]))
        back.setdefault(b, a)
    for a, b, c in bad:
        print("falls together:", a, "->", b, "and", c)
    if bad:
        return 2

    looked = []

    def turn_antt(p, text):
        out, at_function = [], is_of_function(p)
        marks = "specs/Rows" in p or "specs.Rows.{" in text and "/machine/" in p
        here = {m[3] for m in DECLARED.finditer(re.sub(r"--.*", "", text)) if at_function and re.match(r"goal\.", m[5])}
        for line in text.split("\n"):
            code, dash, comment = line, "", ""
            m = re.search(r"(^|\s)--(\s|$)", line)
            if m:
                code, comment = line[: m.start(0)], line[m.start(0) :]

            def one(m):
                n = m[0]
                if n not in table or n in here or n in MARKS and not marks:
                    return n
                before = code[: m.start()]
                if before.endswith("."):
                    head = re.search(r"([^\s(){};,]*)$", before)[1]
                    if not head.startswith("Rattle."):
                        if n not in fields and "-" in n:
                            return n
                        # a step of Rattle's own, as c.next-at: what `next` gave under `let at`
                        if at_function and "-" in n and re.match(r"c\.$", head):
                            looked.append(f"{p}: {head}{n}")
                            return n
                return table[n]

            code = re.sub(r"(?<![^\s(){}.;,@\"«»])" + NAME, one, code)
            out.append(code + turn_prose(comment, antt=True))
        return "\n".join(out)

    def turn_prose(text, antt=False):
        def one(m):
            n = m[0]
            return n if n in MARKS else table.get(n, n)

        # camel case anywhere; a dashed name only in backticks or in the list at the head of a file
        text = re.sub(r"(?<![\w'-])[a-z]+[A-Za-z0-9]*[A-Z][\w]*(?:-[\w]+)*(?![\w'-])", one, text)

        def ticks(m):
            return "`" + re.sub(r"(?<![^\s(){}.;,\[\]])" + NAME, one, m[1]) + "`"

        text = re.sub(r"`([^`\n]+)`", ticks, text)
        m = re.match(r"^(--   )((?:[^\s,]+, )*[^\s,]+)(\s.*)?$", text) if antt else None
        if m:
            text = m[1] + re.sub(NAME, one, m[2]) + (m[3] or "")
        return text

    def turn_rt(text):
        out = []
        for piece in re.split(r'("(?:[^"\\\n]|\\.)*")', text):
            if piece.startswith('"') and len(piece) > 1 and not re.search(r"codes $", "".join(out[-1:])):
                out.append(piece)
                continue
            out.append(
                re.sub(r"(?<![\w'`\"-])(?:[A-Za-z][\w]*(?:-[\w+]+)*)(?![\w'\"-])", lambda m: table.get(m[0], m[0]) if ("-" in m[0] or re.search(r"[a-z0-9][A-Z]", m[0]) and m[0][0].islower()) else m[0], piece)
            )
        return "".join(out)

    changed = 0
    for p in files(root, ".antt", ".rt", ".edit", ".md"):
        old = read(p)
        if p.endswith(".antt"):
            new = turn_antt(p, old)
        elif p.endswith(".md"):
            new = turn_prose(old)
        else:
            new = turn_rt(old)
        if new != old:
            changed += 1
            if not dry:
                with open(p, "w", encoding="utf-8") as f:
                    f.write(new)
    for a in sorted(table):
        print(f"{a} -> {table[a]}")
    for l in looked:
        print("look:", l)
    print(f"{len(table)} names, {changed} files")
    return 0


if __name__ == "__main__":
    raise SystemExit(main(sys.argv[1:]))
