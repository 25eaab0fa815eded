#!/usr/bin/env python3
"""Respells the repository's own definitions, fields and lemmas: words in snake case, where port.py left camel case.

usage: python3 tools/respell.py        at the top of the repository, once, after port.py

Names that Rattle's library has keep their spelling, and so do types and modules, which begin with a capital. A lemma whose name would then
be its definition's gets '_lem'. The module Contracts of crate bench, a name that Rattle now makes, becomes Outcomes.
"""

import os
import re

# names of Rattle's library
LIBRARY = {"getD", "arrayTy"}
CAMEL = re.compile(r"(?<![A-Za-z0-9_])[a-z][a-z0-9]*[A-Z][A-Za-z0-9]*(?![A-Za-z0-9_])")
# the name of a lemma that its definition takes, in each file that has it
LEMMAS = {
    "all_pass": ["crates/protocol/proofs/Known.antt"],
    "ready_for": ["crates/bench/proofs/RunSteps.antt", "crates/bench/proofs/TieWhole.antt"],
    "left_by": ["crates/bench/proofs/QueueAnswers.antt"],
    "list_on": ["crates/runner/proofs/ListFields.antt"],
    "steps_on": ["crates/runner/proofs/ListSteps.antt", "crates/runner/proofs/ListResults.antt", "crates/runner/proofs/ListFields.antt"],
    "field_fits": ["crates/runner/proofs/FieldSteps.antt", "crates/runner/proofs/steps/step/Proof.antt"],
}


def snake(match):
    word = match[0]
    return word if word in LIBRARY else re.sub(r"(?<=[a-z0-9])[A-Z]+", lambda m: "_" + m[0].lower(), word)


def files():
    for folder, dirs, names in os.walk("crates"):
        dirs[:] = sorted(d for d in dirs if d != "out")
        for name in sorted(names):
            if name.endswith((".rt", ".antt", ".edit")):
                yield os.path.join(folder, name)


def respell(path, text):
    for lemma, places in LEMMAS.items():
        if path in places:
            text = re.sub(rf"(?<![\w'.-]){lemma}(?![\w'-])", lemma + "_lem", text)
    text = CAMEL.sub(snake, text)
    return re.sub(r"(Rattle.bench.specs.)Contracts\b", r"\1Outcomes", text)


def main():
    for path in list(files()):
        with open(path, encoding="utf-8") as f:
            old = f.read()
        new = respell(path, old)
        if path == "crates/bench/specs/Lib.antt":
            new = new.replace("mod Contracts", "mod Outcomes")
        if new != old:
            with open(path, "w", encoding="utf-8") as f:
                f.write(new)
    os.rename("crates/bench/specs/Contracts.antt", "crates/bench/specs/Outcomes.antt")


main()
