#!/usr/bin/env python3
"""Checks what the pages name: each path of the repository, and each must-fail edit of docs/internals/ARCHITECTURE.md's list.

usage: checks/pages.py             (it ends with 1 where a page names what isn't there, or where one of PLAIN has a sentence of more than 40 words)
       checks/pages.py sentences   (prints for each page its sentences, their mean length in words, and those of more than 40 words)
"""
import glob
import itertools
import os
import re
import sys

from page_texts import TOP, end, page_texts

# The pages that are held to sentences of at most LONG words. The others are reported by `sentences`.
PLAIN = ("README.md", "SECURITY.md", "CONTRIBUTING.md", "CHANGELOG.md", "docs/COMPATIBILITY.md", "docs/DEFINITIONS.md", "docs/DIFFERENCES.md", "docs/FORMAT.md", "docs/GUIDE.md",
         "docs/PROGRAMS.md", "docs/PROMISES.md", "docs/PROOF.md", "docs/README.md", "docs/SPEED.md", "docs/internals/ARCHITECTURE.md",
         "docs/internals/DECISIONS.md", "docs/internals/HOSTILE.md", "bench/README.md")
LONG = 40
ROOTS = ("crates", "docs", "bench", "examples", "bindings", "include", "man", "scale", "packaging", "checks", "crypt3", "face")


def spread(path):
    """The paths of one with {a, b} in it."""
    parts = re.split(r"\{([^}]*)\}", path)
    choices = [[part] if place % 2 == 0 else [word.strip() for word in part.split(",")] for place, part in enumerate(parts)]
    return ["".join(words) for words in itertools.product(*choices)]


def is_there(path):
    whole = os.path.join(TOP, path.rstrip("/"))
    if glob.glob(whole) or any(glob.glob(whole + end) for end in (".rt", ".antt", ".py", ".sh", ".md")):
        return True
    # built, and so absent in a clean checkout
    return bool(re.search(r"/out(/|$)|\*", path)) or "PREFIX" in path


def dead_paths(page, text):
    for path in re.findall(r"(?<![\w/.-])((?:%s)/[\w./*{}, -]*[\w/*}])" % "|".join(ROOTS), text):
        path = path if "{" in path else path.split()[0].rstrip(",.")
        for each in spread(path):
            if not is_there(each.rstrip(".,")):
                yield f"{page}: {each} isn't there"


def dead_edits(text):
    table = text.split("## Wrong bodies and what stands for them")[1].split("\n## ")[0]
    for row in re.findall(r"^\|[^|]*\|([^|]*)\|$", table, re.M):
        crate = None
        for crate_name, name in re.findall(r"`(\w+)`|\b([a-z]\w*_\w+)\b", row):
            crate = crate_name or crate
            if name and not os.path.exists(os.path.join(TOP, "crates", crate or "", "must-fail", name + ".edit")):
                yield f"docs/internals/ARCHITECTURE.md: {crate} has no edit {name}"


def sentences(text):
    """The sentences of a page's paragraphs, list items and quotations: no blocks, no headings, no cells of tables.

    Two blanks at the end of a line break it, as after each form of a synopsis: a sentence ends there.
    """
    text = re.sub(r"^```.*?^```$", "", text, flags=re.M | re.S)
    found = []
    for paragraph in re.split(r"\n\s*\n|  \n|\n(?=\s*(?:[-*]|\d+\.) )", text):
        if re.match(r"\s*(#|\||!|    )", paragraph.strip("\n")):
            continue
        plain = " ".join(re.sub(r"^\s*>\s?", "", paragraph, flags=re.M).split())
        found += [each for each in re.split(r"(?<=[.!?:;])\s+(?=[A-Z`*_\"(])", plain) if each]
    return found


def words(sentence):
    return len(re.findall(r"\S*\w\S*", sentence))


def long_sentences(page, text):
    return [f"{page}: a sentence of {words(each)} words: {each[:90]}.." for each in sentences(text) if words(each) > LONG]


def print_sentences(pages):
    for page, text in pages.items():
        if not page.endswith(".md"):
            continue
        found = sentences(text)
        print(f"{page}: {len(found)} sentences, {sum(map(words, found)) / max(len(found), 1):.1f} words on the average, "
              f"{len(long_sentences(page, text))} of more than {LONG}")


def main():
    faults = []
    pages = page_texts()
    if sys.argv[1:] == ["sentences"]:
        print_sentences(pages)
        return
    for page, text in pages.items():
        faults += dead_paths(page, text)
        if page in PLAIN:
            faults += long_sentences(page, text)
        if page == "docs/internals/ARCHITECTURE.md":
            faults += dead_edits(text)
    end(faults, f"pages: {len(pages)} read")


if __name__ == "__main__":
    main()
