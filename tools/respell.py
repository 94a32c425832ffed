#!/usr/bin/env python3
"""Brings the repository's own names to the spelling of the installed Rattle, after its port.py.

usage: python3 tools/respell.py [ROOT]

Definitions, lemmas, fields and cases that are spelled inTwoCases become in_two_cases, in every .antt, .rt and .edit file below
crates/. Functions of src/ are in snake case already and keep their names, and so do types and modules. Where a lemma would then
have its definition's name it gets `_lem`; `firstOf` becomes `first_said`, since `first_of` is a tactic. Run it once, on what
port.py left: a second run would take definitions for the lemmas that it renames.
"""

import os
import re
import sys

TOKEN = re.compile(r"(?<![\w'-])[A-Za-z_][\w'-]*")
CAMEL = re.compile(r"[a-z][a-z0-9]*[A-Z]")
# names of Rattle's own that stand in old proofs, and names that only look so
KEPT = re.compile(r"(?:\w*_(?:Tells|Makes|Lawful|Meets|Line|Row)|x[0-9A-F]+|b'[A-Z]')$")

# a lemma with its definition's name, in the files that name the lemma
LEMMAS = {
    "block_size": ["effects/proofs/Done.antt", "effects/proofs/Told.antt"],
    "fits_in": ["replying/proofs/Sealing.antt", "seal/proofs/Room.antt"],
    "in_use": ["holding/proofs/Records.antt"],
    "no_room": ["fields/proofs/Told.antt", "fields/proofs/block/Proof.antt", "fields/proofs/record/Proof.antt", "fields/proofs/sizes/Proof.antt", "fields/proofs/timer/Proof.antt", "lines/proofs/Outcomes.antt"],
    "other_length": ["typed/proofs/Telling.antt", "typed/proofs/sizes_in/Proof.antt", "typed/proofs/timer_in/Proof.antt"],
    "same_kind": ["reader/proofs/ReadBack.antt"],
}
# what port.py spelled otherwise than the library does
WORDS = {"all_get_d": "all-get_or", "first_of": "first_said", "firstOf": "first_said"}


def snake(part):
    return re.sub(r"(?<=[a-z0-9])[A-Z]+", lambda m: "_" + m.group(0).lower(), part)


def spelled(name):
    if KEPT.match(name):
        return name
    return "-".join(snake(p) if CAMEL.match(p) else p for p in name.split("-"))


def turned(text, path):
    inside = path.split("crates/", 1)[1]
    lemmas = {n for n, files in LEMMAS.items() if inside in files}

    def ghost(at):
        if not path.endswith(".rt"):
            return path.endswith(".antt") and text[at - 1] not in ".:`"
        return re.match(r"\s*(?:ghost use|requires|ensures)\b", text[text.rfind("\n", 0, at) + 1 :]) is not None

    def word(m):
        t = m.group(0)
        if t in lemmas and text[m.start() - 1] != ".":
            return t + "_lem"
        if t in WORDS and (t != "first_of" or ghost(m.start())):
            return WORDS[t]
        return spelled(t)

    return TOKEN.sub(word, text)


def main(root):
    changed = 0
    for folder, dirs, files in os.walk(os.path.join(root, "crates")):
        dirs[:] = [d for d in dirs if d != "out"]
        for f in files:
            if f.endswith((".antt", ".rt", ".edit")):
                path = os.path.join(folder, f)
                old = open(path, encoding="utf-8").read()
                new = turned(old, path)
                if new != old:
                    open(path, "w", encoding="utf-8").write(new)
                    changed += 1
    print(f"respell: {changed} files changed")


if __name__ == "__main__":
    main(sys.argv[1] if len(sys.argv) > 1 else ".")
