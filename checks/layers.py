#!/usr/bin/env python3
"""The layers of the crates, as the headings of crates.txt have them.

A line `# NAME` of crates.txt begins a layer, and the crates below it are in it, the lowest layer first. A crate uses crates of its own
layer and of lower ones. This check refuses a crate without a layer, a use that goes up, a circle, and a library that crates.txt lists
for a crate which names it nowhere.

usage: checks/layers.py     (it ends with 1 where it finds a fault)
"""
import os
import re
import sys

TOP = os.path.dirname(os.path.dirname(os.path.abspath(__file__)))

# Libraries of which a crate may use an impl alone, which it doesn't name, and what shows that it does.
IMPLS = {"subtle": r"\bbool::from\(", "clap": r"\bmatches\.\w+\("}


def layers(top=TOP):
    """The layers, the lowest first: a name, and for each crate the libraries that it uses, the kit's among them."""
    found = [("", {})]
    with open(os.path.join(top, "crates.txt"), encoding="utf-8") as file:
        for line in file:
            if line.startswith("# "):
                found.append((line[2:].strip(), {}))
            elif line.strip():
                name, uses = line.split("#")[0].split(":")
                found[-1][1][name.split()[0]] = uses.split()
    return [layer for layer in found if layer[1]]


def uses_of(all_layers):
    """Each crate's crates, without the kit's libraries."""
    crates = {name for _, layer in all_layers for name in layer}
    return {name: [use for use in uses if use in crates] for _, layer in all_layers for name, uses in layer.items()}


def below(uses, name):
    """All that a crate uses, also by way of others."""
    found, left = set(), list(uses[name])
    while left:
        use = left.pop()
        if use not in found:
            found.add(use)
            left += uses[use]
    return found


def direct(uses):
    """The uses that no other use implies."""
    return {name: [use for use in its if not any(use in below(uses, other) for other in its if other != use)] for name, its in uses.items()}


def text_of(top, name):
    """All that a crate says, in Rattle and in its definitions and proofs."""
    parts = []
    for folder, inner, files in os.walk(os.path.join(top, "crates", name)):
        inner[:] = [part for part in inner if part != "out"]
        for file in files:
            if file.endswith((".rt", ".antt")):
                with open(os.path.join(folder, file), encoding="utf-8") as one:
                    parts.append(one.read())
    return "\n".join(parts)


def faults(top=TOP):
    all_layers = layers(top)
    place = {name: number for number, (_, layer) in enumerate(all_layers) for name in layer}
    uses = uses_of(all_layers)
    for title, layer in all_layers:
        if not title:
            yield f"no layer has {', '.join(layer)}"
        for name, libraries in layer.items():
            text = text_of(top, name)
            for library in libraries:
                if place.get(library, -1) > place[name]:
                    yield f"{name} ({title}) uses {library}, which is in a higher layer"
                if library in IMPLS and re.search(IMPLS[library], text):
                    continue
                if not re.search(rf"\b{library}::|\bRattle\.{library}\.|\buse {library};", text):
                    yield f"{name} names {library} nowhere"
            if name in below(uses, name):
                yield f"{name} uses itself, by way of others"


def main():
    found = list(faults())
    print("\n".join(f"layers.py: {fault}" for fault in found) or f"layers.py: {len(layers())} layers, no use goes up, each library is named")
    return 1 if found else 0


if __name__ == "__main__":
    sys.exit(main())
