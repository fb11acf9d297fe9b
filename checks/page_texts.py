"""The pages of the repository, for the checks that read them."""
import glob
import os
import sys

TOP = os.path.dirname(os.path.dirname(os.path.abspath(__file__)))
PAGES = ("README.md", "CONTRIBUTING.md", "SECURITY.md", "CHANGELOG.md", "NOTICE", "docs/*.md", "docs/internals/*.md", "bench/README.md", "man/*", "include/*.h")


def page_texts():
    """Returns the text of each page by its path."""
    texts = {}
    for pattern in PAGES:
        for page in sorted(glob.glob(pattern, root_dir=TOP)):
            with open(os.path.join(TOP, page), encoding="utf-8") as file:
                texts[page] = file.read()
    return texts


def end(faults, said):
    """Prints the faults and what was looked at, and ends with 1 where there is a fault."""
    for fault in faults:
        print(fault)
    print(f"{said}, {len(faults)} faults")
    sys.exit(1 if faults else 0)
