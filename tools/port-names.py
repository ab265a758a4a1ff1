#!/usr/bin/env python3
"""port-names.py [TOP]: brings the repository's own definitions to the spelling of today's Rattle, once, after the kit's port.py: words of specs/ and proofs/
in snake case, as `shotOf` to `shot_of`. It goes over the proof language, the clauses of the sources, the must-fail edits, README.md and docs/, and leaves
strings of the sources, docs/CHANGES.md (the names of their time) and every name that begins with a capital (types and modules). In comments it gives
minutes and seconds of arc back their signs, which port.py took for primes of names, and products their dots. Run a second time it changes nothing."""
import os
import re
import sys

WORD = re.compile(r"(?<![A-Za-z0-9_'ℕℤ])[a-z][A-Za-z0-9_'ℕℤ]*")
STRING = re.compile(r'"(?:\\.|[^"\\\n])*"')
COMMENT = {".antt": re.compile(r"(?:(?<=\s)|^)--(?:\s.*)?$", re.M), ".rt": re.compile(r"//.*$", re.M)}
HUMP = re.compile(r"(?<=[a-z0-9])(?=[A-Zℕℤ])")
KEPT = {"nS"}  # a variable of a lemma, named after its two terms


def snake(word):
    return re.sub("[A-Z]", lambda m: m.group().lower(), HUMP.sub("_", word))


def files(top):
    for folder, dirs, names in os.walk(os.path.join(top, "crates")):
        dirs[:] = sorted(d for d in dirs if d != "out")
        yield from (os.path.join(folder, n) for n in sorted(names) if n.endswith((".antt", ".rt", ".edit")))
    yield os.path.join(top, "README.md")
    docs = os.path.join(top, "docs")
    yield from (os.path.join(docs, n) for n in sorted(os.listdir(docs)) if n.endswith(".md") and n not in ("CHANGES.md", "PORT.md"))


def declared(paths):
    """The words in camel case that the proof language has."""
    found = set()
    for path in paths:
        if path.endswith(".antt"):
            with open(path, encoding="utf-8") as file:
                found.update(w for w in WORD.findall(file.read()) if HUMP.search(w))
    return found - KEPT


def signs(comment):
    """A comment with its minutes and seconds of arc, and the dots of its products."""
    comment = re.sub(r"typeof\.([xy])\.(Sin|Cos)", r"\1·\2", comment.replace("R-as-P", "R·P"))
    return re.sub(r"(?<=[0-9])'(?!s\b)", "′", re.sub(r"(?<=[0-9])''", "″", comment))


def main(top):
    paths = list(files(top))
    names = {w: snake(w) for w in declared(paths)}
    taken = {}
    for old, new in names.items():
        if taken.setdefault(new, old) != old:
            sys.exit(f"{old} and {taken[new]} fall together as {new}")
    turn = lambda text: WORD.sub(lambda m: names.get(m.group(), m.group()), text)
    changed = 0
    for path in paths:
        with open(path, encoding="utf-8") as file:
            old = file.read()
        if path.endswith(".rt"):
            parts, at = [], 0
            for m in STRING.finditer(old):
                parts += [turn(old[at : m.start()]), m.group()]
                at = m.end()
            new = "".join(parts) + turn(old[at:])
        else:
            new = turn(old)
        if comment := COMMENT.get(os.path.splitext(path)[1]):
            new = comment.sub(lambda m: signs(m.group()), new)
        if new != old:
            changed += 1
            with open(path, "w", encoding="utf-8") as file:
                file.write(new)
    print(f"{len(names)} names, {changed} files changed")


if __name__ == "__main__":
    main(sys.argv[1] if len(sys.argv) > 1 else ".")
