#!/usr/bin/env python3
"""Respells the repository's own definitions and lemmas: words in snake case, types and facts in camel case.

usage: python3 tools/respell.py [--dry]      at the top, right after the kit's port.py

It takes the names that specs/ and proofs/ declare. What Rattle makes (goals, steps) and what the library declares keeps
its spelling, and so do the code's own names, comments and texts. Names that may fall together are printed, to be looked
at: most are a definition that now has the name of the function whose result it is.
"""
import glob
import os
import re
import sys

NAME = r"[^\s(){}\[\];,.\"@:]+"
DECLARED = re.compile(r"\s*(?:abbrev |unfoldable |pub |data |record |ruleset )*(" + NAME + r")\s*(?:\(|\{|:)")
ALIAS = re.compile(r" as ([a-z][\w'-]*)(?=[,}])")
# a lemma whose name a definition takes
FIRST = {"crates/set_file/proofs/Fitting.antt": ("from_zero", "good_from_zero")}
KEYWORDS = {"let", "in", "elim", "λ", "mod", "module", "where", "record", "_"}
TOKEN = re.compile(r"(--.*|//.*)|(\"(?:\\.|[^\"\\])*\")|(" + NAME + r")")


def declared(files):
    """Each declared name, with the files that declare it; the names of goals are Rattle's."""
    names = {}
    for path in files:
        for line in open(path, encoding="utf-8").read().split("\n"):
            if line.lstrip().startswith(("--", "use ")):
                continue
            m = DECLARED.match(line)
            if not m or m.group(1) in KEYWORDS or not (" : " in line or line.rstrip().endswith(":")):
                continue
            if re.search(r":\s*goal\." + re.escape(m.group(1)) + r"(?![\w-])", line):
                continue
            names.setdefault(m.group(1), set()).add(path)
    return names


def respelt(name):
    if re.search(r"[^\w'-]", name):
        return name  # an operator
    if name[0].isupper():
        return "".join(p[:1].upper() + p[1:] for p in name.split("-"))
    return re.sub(r"(?<=[a-z0-9])([A-Z])", lambda m: "_" + m.group(1).lower(), name).replace("-", "_")


def turned(text, table, made):
    """The text with the table's names respelt, outside comments and texts; `made` says that steps and goals stand in it."""

    def one(m):
        comment, quoted, name = m.groups()
        if comment:
            return re.sub(r"`(" + NAME + r")`", lambda b: "`" + table.get(b.group(1), b.group(1)) + "`", comment)
        if quoted or name not in table:
            return m.group(0)
        before = text[: m.start()]
        if made and re.search(r"(?<![\w-])(c|w|l|goal)\.$", before):
            return name  # a step, a variable or a goal
        return table[name]

    return TOKEN.sub(one, text)


def main():
    for path, (old, new) in FIRST.items():
        if os.path.exists(path) and "--dry" not in sys.argv:
            text = open(path, encoding="utf-8").read()
            open(path, "w", encoding="utf-8").write(turned(text, {old: new}, False))
    specs = sorted(glob.glob("crates/*/specs/*.antt"))
    proofs = sorted(glob.glob("crates/*/proofs/**/*.antt", recursive=True))
    sources = sorted(glob.glob("crates/*/src/**/*.rt", recursive=True))
    names = declared(specs + proofs)
    for path in specs + proofs + sources:
        for n in ALIAS.findall(open(path, encoding="utf-8").read()):
            names.setdefault(n, set()).add(path)
    table = {n: respelt(n) for n in names if respelt(n) != n}
    clash = []
    for n, new in table.items():
        if new in names:
            clash.append(f"{n} -> {new}: declared in {sorted(names[n])} and {sorted(names[new])}")
    by_new = {}
    for n, new in table.items():
        by_new.setdefault(new, []).append(n)
    clash += [f"{olds} -> {new}" for new, olds in by_new.items() if len(olds) > 1]
    new_names = set(table.values())
    for path in specs + proofs + sources:
        text = open(path, encoding="utf-8").read()
        tokens = {m.group(3) for m in TOKEN.finditer(text) if m.group(3)}
        for n in sorted(tokens & set(table)):
            if table[n] in tokens:
                clash.append(f"{path}: {n} -> {table[n]}, and {table[n]} stands there")
    for c in clash:
        print("respell: look: " + c)
    if "--dry" in sys.argv:
        return
    for path in specs + proofs + sources:
        text = open(path, encoding="utf-8").read()
        new = turned(text, table, "/proofs/" in path and path.count("/") > 3)
        if path.endswith(".rt"):
            # code keeps its names: only clauses and ghost items are turned
            new = rust(text, table)
        if new != text:
            open(path, "w", encoding="utf-8").write(new)
    print(f"respell: {len(table)} names")


def rust(text, table):
    """A source file with the table's names respelt in ghost items and clauses."""
    out, at = [], 0
    for m in re.finditer(r"ghost use [^;]*;|\bghost\s+\w+\s*[:=]\s*\{|\b(?:requires|ensures)\*?(?:\s+\w+)?\s*\{|\binvariant\s*\{", text):
        if m.start() < at:
            continue
        end = m.end()
        if text[end - 1] == "{":
            depth = 1
            while depth:
                depth += {"{": 1, "}": -1}.get(text[end], 0)
                end += 1
        out += [text[at : m.start()], turned(text[m.start() : end], table, False)]
        at = end
    return "".join(out) + text[at:]


if __name__ == "__main__":
    main()
