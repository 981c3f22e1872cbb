#!/usr/bin/env python3
"""renamed_goals.py [CRATE/EDIT...]: tries must-fail edits that change a condition, with the answers' names changed along.

A goal is named after the condition that it stands behind. So an edit of the condition takes the goal from under its answer, and `rt ci` may refuse the edit whatever
it means. Here each edit is made in a copy, goals and facts are renamed in the function's proof files as the edit renames them, and the function is checked: the edit is
refused for its meaning where an answer then fails. With no arguments, all that `rt ci` cannot tell by itself. Not part of the gate: it takes some minutes.
"""
import json
import os
import re
import shutil
import subprocess
import sys
import tempfile

ROOT = os.path.dirname(os.path.dirname(os.path.abspath(__file__)))
EDITS = """
    names/folds_a_length_octet words/hexadecimal_up_to_g ordering/case_kept_on_one_side lines/number_with_a_leading_zero_reads messages/left_over_passes
    tsig/class_in tkey/left_over_other_data tkey/tkey_of_another_section contents/longest_message_of_65536_octets judging/verdict_ignored
    operator/enrol_at_floor_2_32 operator/new_table_later operator/serial_2_32_issued operator/sixty_five_rows
    resolver_replies/any_id_is_answered resolver_replies/tkey_error_not_looked_at granted/key_data_beside_an_error capi_resolver/refusal_stores_the_state
""".split()
KEY = re.compile(r"Rattle-\w+-proofs\.(.*)\.Lts$")
# An answer that fails, and not for a name that is gone.
FAILS = re.compile(r"\./proofs/.*: error: (?!.*(has no field|is not in scope|has no `|was not admitted|no hole))")


def rt(crate, *words):
    return subprocess.run(["rt", *words], cwd=crate, capture_output=True, text=True).stdout


def generated(crate):
    """Of each function, the names that Rattle gives its goals and the places of its code, in their order."""
    with tempfile.TemporaryDirectory() as to:
        rt(crate, "check", "--generated", to, "--old-names")
        with open(os.path.join(to, "names.json"), encoding="utf-8") as f:
            named = json.load(f)
    of = {}
    for key, info in named.items():
        m = KEY.match(key)
        if m:
            arms = [a[0] if a else None for a in info["arms"]]
            of[m[1].replace(".", "/")] = ([n[1] for n in info["needs"]], [p[2][1] for p in info["places"]], arms)
    return of


def renamed(before, after):
    names = {}
    for old, new in zip(before, after):
        if len(old) == len(new):
            names.update((a, b) for a, b in zip(old, new) if a and b and a != b)
    # where ways meet, a way is named after the tests that it has passed
    tests = [(a[3:], b[3:]) for a, b in names.items() if a.startswith("if-")]
    names.update((way + a, way + b) for a, b in tests for way in ("then-", "else-"))
    return names


def apply(crate, name):
    """Makes the edit; answers the functions that it stands in."""
    functions = set()
    with open(os.path.join(crate, "must-fail", name + ".edit"), encoding="utf-8") as f:
        lines = f.read().split("\n")
    path = old = None
    for line in lines:
        if line.startswith("file: "):
            path = os.path.join(crate, line[6:].strip())
        elif line.startswith("old: "):
            old = line[5:]
        elif line.startswith("new: "):
            with open(path, encoding="utf-8") as f:
                text = f.read()
            assert text.count(old) == 1, f"{name}: its old text does not stand once"
            functions.add(re.findall(r"\bfn (\w+)", text[: text.index(old)])[-1])
            with open(path, "w", encoding="utf-8") as f:
                f.write(text.replace(old, line[5:]))
    return functions


def tried(copy, edit):
    crate = os.path.join(copy, "crates", edit.split("/")[0])
    before = generated(crate)
    functions = apply(crate, edit.split("/")[1])
    after = generated(crate)
    # of functions of one name, the one whose goals have other names now
    only = ["::".join([edit.split("/")[0], *path.split("/")]) for path in before if path.split("/")[-1] in functions and after.get(path) != before[path]]
    for path in before:
        names = renamed(before[path], after.get(path, ()))
        for file in ("Answers.antt", "Invariants.antt"):
            proof = os.path.join(crate, "proofs", path, file)
            if names and os.path.exists(proof):
                with open(proof, encoding="utf-8") as f:
                    text = f.read()
                either = "|".join(sorted(map(re.escape, names), key=len, reverse=True))
                with open(proof, "w", encoding="utf-8") as f:
                    f.write(re.sub(rf"(?<![\w'-])({either})(?![\w'-])", lambda m: names[m[1]], text))
    said = rt(crate, "check", *[w for function in only or sorted(functions) for w in ("--only", function)])
    # as it was, for the edits of the crates above it
    shutil.rmtree(crate)
    shutil.copytree(os.path.join(ROOT, "crates", edit.split("/")[0]), crate, symlinks=True)
    return next((line for line in said.split("\n") if FAILS.match(line)), None)


def main(edits):
    with tempfile.TemporaryDirectory() as copy:
        shutil.copytree(os.path.join(ROOT, "crates"), os.path.join(copy, "crates"), symlinks=True)
        shutil.copy(os.path.join(ROOT, "crates.txt"), copy)
        lost = 0
        for edit in edits or EDITS:
            first = tried(copy, edit)
            lost += first is None
            print(f"{edit}: {first[:200] if first else 'NO ANSWER FAILS'}", flush=True)
    print(f"{len(edits or EDITS) - lost} passed, {lost} failed")
    return 1 if lost else 0


if __name__ == "__main__":
    raise SystemExit(main(sys.argv[1:]))
