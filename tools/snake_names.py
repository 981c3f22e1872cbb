#!/usr/bin/env python3
"""Spells the repository's own definitions and lemmas in snake case, once, after port.py: `wireName` and `same-front` become `wire_name` and `same_front`.

usage: python3 tools/snake_names.py [--look]      at the top of the repository; --look only says which names would fall together

A name is the repository's own where a file of specs/ or proofs/ declares it: a definition, a lemma, a field, a constructor. It is renamed in every .antt file, in the
clauses and ghost items of every .rt file, and in must-fail edits. Left are: names that a file imports from a library, goals' names that Rattle makes, strings, the code
itself, and in comments plain words with a hyphen. A lemma or a field that would get the name of a definition ends in `_lem`.
"""
import os
import re
import sys
from collections import defaultdict

WORD = r"[A-Za-zα-ωΑ-Ω_κλπσρ][\w'₀-₉ᵇᴺˡʳ]*(?:-[\w'₀-₉ᵇᴺˡʳ]+)*"
TOKEN = re.compile(WORD)
SIGNATURE = re.compile(r"^(?:(?:pub|abbrev|unfoldable|pattern) )*(%s)(?: \{[^{}\n]*\})* :" % WORD, re.M)
INNER = re.compile(r"^ +(?:pub )?(%s) :" % WORD, re.M)
LIBRARY = re.compile(r"^use (?!Rattle\.(?!std\b|core\b))[^\n{]*\{([^}]*)\}", re.M)
MADE = re.compile(r"^(?:(?:pub|abbrev|unfoldable) )*(%s)(?: \{[^{}\n]*\})* : (?:\{M : Type 1\} → )?(?:tie\.|goal\.|statement)" % WORD, re.M)


# Lemmas and fields that have a definition's new name already, since port.py spelled them so; where they stand.
HELD = {
    "but_last": "crates/",
    "by_first": "crates/guarantees/",
    "lines_left": "crates/model/proofs/",
    "new_in": "crates/operator/proofs/",
    "no_room": "crates/model/proofs/Damaged.antt",
    "row_from": "crates/removing/proofs/",
    "row_named": "crates/model/proofs/",
    "with_keys": "crates/guarantees/ crates/entries/proofs/Laws.antt crates/entries/proofs/with_key/",
}


def is_odd(name):
    return name[0].islower() and bool(re.search(r"-|[a-z0-9][A-Z]", name))


def snake(name):
    return re.sub(r"(?<=[a-z0-9])[A-Z]", lambda m: "_" + m[0].lower(), name).replace("-", "_")


def targets_of(names):
    """The new spelling of each name: a name with a hyphen makes way where another name is, or will be, spelled so."""
    known = set()
    for path in texts(".antt"):
        known.update(TOKEN.findall(re.sub(r"--.*", "", read(path))))
    camel = {snake(n) for n in names if "-" not in n}
    to = {}
    for name in names:
        target = snake(name)
        if "-" in name and (target in camel or target in known):
            target += "_lem"
        to[name] = target
    return to


def texts(*endings):
    for folder, dirs, files in os.walk("crates"):
        dirs[:] = sorted(d for d in dirs if d != "out")
        for f in sorted(files):
            if f.endswith(endings):
                yield os.path.join(folder, f)


def read(path):
    with open(path, encoding="utf-8") as f:
        return f.read()


def is_of_function(path):
    return re.search(r"/proofs/.+/(Proof|Answers|Invariants)\.antt$", path)


def declared():
    names = set()
    for path in texts(".antt"):
        text = re.sub(r"--.*", "", read(path))
        made = set(MADE.findall(text)) if is_of_function(path) else set()
        for name in SIGNATURE.findall(text) + INNER.findall(text):
            if is_odd(name) and name not in made:
                names.add(name)
    return names


def imported(text):
    names = set()
    for line in LIBRARY.findall(text):
        names.update(TOKEN.findall(line))
    return names


def turn_words(text, names, comment=False):
    def one(m):
        word = m[0]
        if word not in names:
            return word
        if text[max(0, m.start() - 4) : m.start()] == "tie.":
            return word
        if comment and "-" in word and not (text[m.start() - 1 : m.start()] == "`" and text[m.end() : m.end() + 1] == "`"):
            return word
        return names[word]

    return TOKEN.sub(one, text)


def turn_antt(text, names):
    out = []
    for line in text.split("\n"):
        code, dash, note = re.match(r"^(.*?)(?:(--)(?=\s|$)(.*))?$", line).groups()
        out.append(turn_words(code, names) + (dash or "") + (turn_words(note, names, True) if note else ""))
    return "\n".join(out)


def turn_rt(text, names):
    parts = re.split(r'(//[^\n]*|"(?:\\.|[^"\\\n])*")', text)
    out = []
    for part in parts:
        if part.startswith('"'):
            out.append(part)
        else:
            out.append(turn_words(part, names, part.startswith("//")))
    return "".join(out)


def turn_edit(text, names):
    return "\n".join(line if line.startswith(("file:", "#")) else turn_words(line, names) for line in text.split("\n"))


def held(path):
    """Where a definition's new name is held by a lemma or a field."""
    if not path.endswith(".antt"):
        return {}
    return {name: name + "_lem" for name, places in HELD.items() if path.startswith(tuple(places.split()))}


def main(argv):
    to = targets_of(declared())
    for path in texts(".antt", ".rt"):
        text = read(path)
        out = imported(text)
        mine = {n: t for n, t in to.items() if n not in out} | held(path)
        seen = defaultdict(set)
        for word in set(TOKEN.findall(re.sub(r"--.*|//.*", "", text))):
            seen[mine.get(word, word)].add(word)
        for target, sources in sorted(seen.items()):
            if len(sources) > 1:
                print(f"together: {path}: {' '.join(sorted(sources))}")
    print(f"{len(to)} names")
    if "--look" in argv:
        return
    for path in texts(".antt", ".rt", ".edit"):
        text = read(path)
        out = imported(text)
        mine = {n: t for n, t in to.items() if n not in out} | held(path)
        turn = turn_antt if path.endswith(".antt") else turn_rt if path.endswith(".rt") else turn_edit
        new = turn(text, mine)
        if new != text:
            with open(path, "w", encoding="utf-8") as f:
                f.write(new)


if __name__ == "__main__":
    main(sys.argv[1:])
