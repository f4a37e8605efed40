#!/usr/bin/env python3
"""Brings the names of the definitions and lemmas of crates/ to snake case: kindNumber is kind_number, one-fails is one_fails.

usage: python3 tools/snake_names.py           at the top of the repository: rewrites specs/, proofs/, clauses of src/ and must-fail edits in place
       python3 tools/snake_names.py --pages   names in backticks in the pages

tools/snake_names.txt has each old name with its new one. Names of types, modules and facts, which begin with a capital, stay. So do functions
of src/, strings, and names that the check makes. Where a function and a lemma would fall together, the lemma has `_lem`, and a field or a case
of a type has a name of its own. It runs once, behind the kit's port.py; where no old name
is left in specs/ it changes nothing.
"""
import glob
import re
import sys

TABLE = "tools/snake_names.txt"
TOKEN = re.compile(r"[\w'?₀-₉-]+")
# A name that the check makes of a function's: what a call promised, or the module of its proof.
MADE = re.compile(r"\.(?:ensures|result|new|last|Statement|Tie)\b")


def read(p):
    with open(p, encoding="utf-8") as f:
        return f.read()


def write(p, text, before):
    if text != before:
        with open(p, "w", encoding="utf-8") as f:
            f.write(text)


def turn(text, names):
    """Each name by the table. A name that had snake case before the port is a lemma's, and stays where it is a function's."""

    def one(m):
        a = m.group(0)
        b = names.get(a, a)
        plain = "-" not in a and a == a.lower()
        if plain and (MADE.match(text, m.end()) or text[max(0, m.start() - 2) : m.start()] == "::"):
            return a
        return b

    return TOKEN.sub(one, text)


def turn_comment(text, names):
    camel = {a: b for a, b in names.items() if a != a.lower()}
    text = re.sub(r"`([^`\n]*)`", lambda m: "`" + turn(m.group(1), names) + "`", text)
    return turn(text, camel)


def turn_lines(text, names, mark):
    """Code by its names, comments by names in backticks and in camel case; a string stays."""
    out = []
    for line in text.split("\n"):
        if line.lstrip().startswith(mark):
            out.append(turn_comment(line, names))
            continue
        parts = re.split(r'("(?:[^"\\]|\\.)*")', line)
        out.append("".join(q if q.startswith('"') else turn(q, names) for q in parts))
    return "\n".join(out)


def main():
    names = dict(line.split() for line in read(TABLE).split("\n") if line)
    if "--pages" in sys.argv:
        for p in ["README.md", "CONTRIBUTING.md"] + sorted(glob.glob("docs/*.md")):
            t = read(p)
            write(p, re.sub(r"`([^`\n]*)`", lambda m: "`" + turn(m.group(1), names) + "`", t), t)
        return
    specs = "\n".join(read(p) for p in glob.glob("crates/*/specs/**/*.antt", recursive=True))
    if not any(a != a.lower() and a in names for a in TOKEN.findall(specs)):
        print("no old name is left")
        return
    # Rust has no capitals and no dashes in such names, so these alone are a clause's.
    clauses = {a: b for a, b in names.items() if "-" in a or a != a.lower()}
    for p in sorted(glob.glob("crates/**/*.antt", recursive=True)):
        t = read(p)
        write(p, turn_lines(t, names, "--"), t)
    for p in sorted(glob.glob("crates/*/src/**/*.rt", recursive=True)):
        t = read(p)
        write(p, turn_lines(t, clauses, "//"), t)
    for p in sorted(glob.glob("crates/*/must-fail/*.edit")):
        t = read(p)
        lines = [turn(line, clauses) if line.startswith(("old: ", "new: ")) else line for line in t.split("\n")]
        write(p, "\n".join(lines), t)


main()
