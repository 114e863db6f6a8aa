#!/usr/bin/env python3
"""Brings the repository's own definitions, lemmas, fields and constructors to one spelling: words in snake case.

usage: python3 tools/respell.py        at the top, once, after the kit's port.py

`numberTo` becomes `number_to`, and `stands-variable` becomes `stands_variable`. Types, facts and modules keep their camel case.
It renames what specs/*.antt and proofs/*.antt declare, in every .antt and .rt file and in must-fail edits' text of antt. It leaves alone what Rattle
makes (goals and steps, which the folders of proofs/ answer), names of src/, and names that the kit's libraries have too. Two names that would
fall together stop it before a file is written.
"""

import glob
import os
import re
import subprocess
import sys

WORD = r"[^\s(){}.;,@\"«»\[\]\\λ:→×∷]+"
# A text, a comment, a name in its place.
TOKEN = re.compile(r"--[^\n]*|//[^\n]*|\"(?:[^\"\\]|\\.)*\"|" + WORD)
DECLARED = re.compile(r"^(?P<indent>[ ]*)(?:(?:abbrev|unfoldable|pub|ruleset|data|record)\s+)*(?P<names>" + WORD + r"(?:\s+" + WORD + r")*)\s*:(?:\s|$)", re.M)
RULESET = re.compile(r"^[ ]*(?:pub )?ruleset (?:pub )?(" + WORD + ")", re.M)
# The folder of the kit's libraries: beside the page that `rt doc` names.
KIT = os.path.join(os.path.dirname(subprocess.check_output(["rt", "doc"], text=True).strip()), "rattle")
# A local lemma that has the name of a function of src/, and of a definition in its new spelling.
LOCAL = {"crates/readings/proofs/Greatest.antt": {"row_type": "row_type_lem"}}


def read(path):
    with open(path, encoding="utf-8") as f:
        return f.read()


def snake(name):
    name = re.sub(r"(?<=[a-z0-9])-(?=\w)", "_", name)
    name = re.sub(r"(?<=[A-Za-z0-9])-(?=[a-zA-Z0-9])", "_", name)
    return re.sub(r"(?<=[a-z0-9])([A-Z])", lambda m: "_" + m.group(1).lower(), name)


def declared():
    found = set()
    for path in glob.glob("crates/*/specs/*.antt") + glob.glob("crates/*/proofs/*.antt"):
        text = re.sub(r"--[^\n]*", "", read(path))
        for m in DECLARED.finditer(text):
            for name in m.group("names").split():
                found.add(name)
        found |= set(RULESET.findall(text))
    return {n for n in found if re.match(r"[a-z]\w*(?:[-\w'′₀-₉])*$", n)}


def functions():
    found = set()
    for path in glob.glob("crates/*/src/**/*.rt", recursive=True):
        found |= set(re.findall(r"\bfn (\w+)", read(path)))
    return found


def kit_names():
    found = set()
    for path in glob.glob(KIT + "/**/*.antt", recursive=True):
        for m in TOKEN.finditer(read(path)):
            found.add(m.group(0))
    return found


def main():
    if not os.path.isdir("crates"):
        sys.exit("run it at the top")
    own = declared()
    kit = kit_names()
    made = functions()
    turn = {}
    kept = []
    groups = {}
    for name in sorted(own):
        if name in made and any(name in names for names in LOCAL.values()):
            continue
        groups.setdefault(snake(name), []).append(name)
    for to, names in sorted(groups.items()):
        # A definition keeps the plain name before a lemma: it was in camel case, or the kit's script has turned it.
        names.sort(key=lambda n: (not re.search("[A-Z]", n), n != to, n))
        for place, name in enumerate(names):
            new = to if place == 0 else to + "_lem"
            if name == new:
                continue
            if name in kit and place == 0:
                kept.append(name)
                continue
            turn[name] = new
        if len(names) > 2:
            sys.exit("three names fall together: " + ", ".join(names))
    for name, to in turn.items():
        if to.endswith("_lem"):
            print(f"{name} becomes {to}, beside {to[:-4]}")
    wrong = []
    for name, to in turn.items():
        if to in own and to not in turn and not any(to in names for names in LOCAL.values()):
            wrong.append(f"{name} would be {to}, which is declared")
    files = sorted(glob.glob("crates/**/*.antt", recursive=True) + glob.glob("crates/*/src/**/*.rt", recursive=True))
    files = [f for f in files if "/out/" not in f]
    print("kept, as the kit has them: " + ", ".join(kept))
    if wrong:
        print("\n".join(wrong))
        sys.exit(f"{len(wrong)} names fall together; nothing was written")
    for path in files:
        text = read(path)

        local = LOCAL.get(path, {})
        folder = path.count("/") > 3 and "/proofs/" in path

        def one(m):
            word = m.group(0)
            if word in local:
                return local[word]
            # A step or a goal of a function that has the same name.
            if folder and word in turn and snake(word) in made and text[m.start() - 1] == ".":
                return word
            if word.startswith(('"',)):
                return word
            if word.startswith(("--", "//")):
                return re.sub(r"`([^`]+)`", lambda c: "`" + turn.get(c.group(1), c.group(1)) + "`", word)
            return turn.get(word, word)

        new = TOKEN.sub(one, text)
        if new != text:
            with open(path, "w", encoding="utf-8") as f:
                f.write(new)
    print(f"{len(turn)} names respelled")


main()
