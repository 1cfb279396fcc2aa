#!/usr/bin/env python3
"""Brings the names of this repository's definitions and lemmas to today's spelling.

A definition's name, a field's and a constructor's are in snake case. A lemma keeps a dash where it joins the names of two
definitions, as in `lookup-put`; a plain word is added with an underscore. Names that Rattle makes (goals, steps) and names of
src/ stay. Run once, after the toolchain's own port.py, at the top of the repository:

    python3 tools/respell.py
"""
import glob
import re
import sys

NAME = r"[^\s(){}\[\],;.:λ→×⊎≡∷«»\"`]+"
DECLARED = re.compile(r"^\s*(?:(abbrev|unfoldable)\s+)?(?:pub\s+)?(?:(record|data)\s+)?(" + NAME + r")(?:\s*[({].*)?\s+:\s*(.*)$")
SPECS = sorted(glob.glob("crates/*/specs/*.antt"))
PROOFS = sorted(f for f in glob.glob("crates/*/proofs/**/*.antt", recursive=True))
SOURCES = sorted(glob.glob("crates/*/src/*.rt"))
PAGES = ["README.md"] + sorted(glob.glob("docs/*.md"))

# Words of std that our lemmas speak of, as ours are.
STD_WORDS = {"length", "take", "drop", "set", "cond", "min", "map", "filter", "decimal"}


def declared():
    """The declared names: (definitions, lemmas), without the names of goals."""
    definitions, lemmas = set(STD_WORDS), set()
    for file in SPECS + PROOFS:
        record = False
        for line in open(file):
            found = DECLARED.match(line)
            if not found:
                continue
            mark, kind, name, rest = found.groups()
            if rest.startswith("goal.") or name in ("--", "use", "let"):
                continue
            if kind:
                record = True
                continue
            indented = line.startswith(" ")
            if mark or (indented and record) or file in SPECS:
                definitions.add(name)
            else:
                lemmas.add(name)
            if not indented:
                record = False
    return definitions, lemmas - definitions


def snake(name):
    return name.replace("-", "_")


def lemma_name(name, definitions):
    parts, out = name.split("-"), []
    while parts:
        size = next((n for n in range(len(parts), 0, -1) if "-".join(parts[:n]) in definitions), 0)
        out.append((snake("-".join(parts[: size or 1])), size > 0))
        parts = parts[size or 1 :]
    text = out[0][0]
    for (_, left), (word, right) in zip(out, out[1:]):
        text += ("-" if left and right else "_") + word
    return text


def turn(text, table):
    if not table:
        return text
    words = "|".join(sorted(map(re.escape, table), key=len, reverse=True))
    pattern = re.compile(r"(?<![\w'\-◌+])(" + words + r")(?![\w'\-◌])")
    return pattern.sub(lambda m: table[m.group(1)], text)


def turn_code(text, table, comment):
    lines = []
    for line in text.split("\n"):
        at = line.find(comment)
        code, rest = (line, "") if at < 0 else (line[:at], line[at:])
        pieces = re.split(r"(\"[^\"]*\")", code)
        code = "".join(p if p.startswith('"') else turn(p, table) for p in pieces)
        rest = re.sub(r"`[^`]*`", lambda m: turn(m.group(0), table), rest)
        lines.append(code + rest)
    return "\n".join(lines)


def main():
    definitions, lemmas = declared()
    table = {n: snake(n) for n in definitions if "-" in n}
    table.update({n: lemma_name(n, definitions) for n in lemmas if "-" in n})
    table = {old: new for old, new in table.items() if old != new}
    kept = (definitions | lemmas) - set(table)
    fall = [(o, n) for o, n in table.items() if n in kept or list(table.values()).count(n) > 1]
    for old, new in sorted(fall):
        print("falls together:", old, new)
    if fall or "--list" in sys.argv:
        for old, new in sorted(table.items()):
            print(old, new)
        return
    for file in SPECS + PROOFS:
        text = open(file).read()
        open(file, "w").write(turn_code(text, table, "--"))
    for file in SOURCES:
        text = open(file).read()
        open(file, "w").write(turn_code(text, table, "//"))
    for file in PAGES:
        text = open(file).read()
        open(file, "w").write(re.sub(r"`[^`\n]*`", lambda m: turn(m.group(0), table), text))


main()
