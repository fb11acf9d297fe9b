#!/usr/bin/env python3
"""Looks for definitions and lemmas that stand in two crates.

usage: checks/copies.py      (it ends with 1 where a definition stands in two crates, or more than LEMMAS_MOST lemmas do)

A definition of specs/ is compared by its whole text without comments and imports, a lemma of proofs/ by its name and its statement. What the prover
names itself in the files of a function (`returns`, `stayed`) isn't looked at.
"""
import collections
import glob
import os
import re

from page_texts import TOP, end

LEMMAS_MOST = 10
# Definitions that stand in two crates for now, and why. The list is to be empty.
FOR_NOW = {
}
OWN = {"returns", "stayed"}


def blocks(text):
    """The pieces of a file between empty lines, without comments, each as one line."""
    for block in re.split(r"\n\s*\n", re.sub(r"--[^\n]*", "", text)):
        plain = " ".join(block.split())
        if re.match(r"(abbrev|unfoldable|(pub )?(record|data))\b", plain):
            yield plain


def statements(text):
    """The name and the statement of each lemma."""
    for name, first, rest in re.findall(r"^(?:abbrev |unfoldable )?(?:pub )?([A-Za-z_0-9']+) :(.*)((?:\n .*)*)", text, re.M):
        plain = " ".join((first + rest).split())
        if name not in OWN and len(plain) > 7:
            yield f"{name} : {plain}"


def in_two_crates(folder, pieces):
    found = collections.defaultdict(set)
    for path in glob.glob(os.path.join(TOP, "crates", "*", folder, "**", "*.antt"), recursive=True):
        with open(path, encoding="utf-8") as source:
            for piece in pieces(source.read()):
                found[piece].add(os.path.relpath(path, TOP).split(os.sep)[1])
    return {piece: sorted(crates) for piece, crates in found.items() if len(crates) > 1}


def main():
    definitions, lemmas = in_two_crates("specs", blocks), in_two_crates("proofs", statements)
    said = [f"{', '.join(crates)}: the definition {piece[:90]}" for piece, crates in sorted(definitions.items())
            if not set(FOR_NOW) & set(piece.split()[:3])]
    if len(lemmas) > LEMMAS_MOST:
        said += [f"{', '.join(crates)}: the lemma {piece[:90]}" for piece, crates in sorted(lemmas.items())]
    end(said, f"copies: {len(definitions)} definitions and {len(lemmas)} lemmas in two crates")


if __name__ == "__main__":
    main()
