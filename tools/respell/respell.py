#!/usr/bin/env python3
"""Spells the repository's own definitions as today's Rattle does, after its port.py has run: once, at the top of the repository.

lemmas.tsv has the lemmas that port.py spelled as a definition is spelled now, with the crates where they stand: they get back
the dash that joins two names. names.tsv has the definitions, fields and lemmas in camel case: they get snake case. Whole words alone are turned,
in .rt, .antt and must-fail files, and in the code spans of pages. Texts in quotes stay, and so do the names of Rust functions.
"""

import os
import re

HERE = os.path.dirname(os.path.realpath(__file__))
QUOTED = re.compile(r'"(?:[^"\\\n]|\\.)*"')
LETTER = r"[\w'₀-₉-]"


def rows(name):
    with open(os.path.join(HERE, name), encoding="utf-8") as f:
        return [line.rstrip("\n").split("\t") for line in f]


def words(names, behind_dot):
    before = rf"(?<!{LETTER})" if behind_dot else rf"(?<!{LETTER})(?<!\.)"
    listed = "|".join(re.escape(n) for n in sorted(names, key=len, reverse=True))
    return re.compile(rf"{before}(?:{listed})(?!{LETTER})")


def outside_quotes(text, turn):
    parts, at = [], 0
    for m in QUOTED.finditer(text):
        parts += [turn(text[at : m.start()]), m[0]]
        at = m.end()
    return "".join(parts) + turn(text[at:])


def texts(folder, endings):
    for path, dirs, files in os.walk(folder):
        dirs[:] = [d for d in dirs if d not in ("out", "target", ".git")]
        for name in files:
            if name.endswith(endings):
                yield os.path.join(path, name)


def rewrite(path, turn):
    with open(path, encoding="utf-8") as f:
        old = f.read()
    new = turn(old)
    if new != old:
        with open(path, "w", encoding="utf-8") as f:
            f.write(new)


def main():
    for old, new, crates in rows("lemmas.tsv"):
        found = words([old], False)
        for crate in crates.split():
            for path in texts(os.path.join("crates", crate), (".antt",)):
                rewrite(path, lambda t: outside_quotes(t, lambda s: found.sub(new, s)))
    table = dict(rows("names.tsv"))
    found = words(table, True)
    turn = lambda s: found.sub(lambda m: table[m[0]], s)
    for path in texts("crates", (".antt", ".rt")):
        rewrite(path, lambda t: outside_quotes(t, turn))
    for path in texts("crates", (".edit",)):
        rewrite(path, turn)
    for path in [*texts("docs", (".md",)), "README.md"]:
        rewrite(path, lambda t: re.sub(r"`[^`\n]+`", lambda m: turn(m[0]), t))


if __name__ == "__main__":
    main()
