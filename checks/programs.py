#!/usr/bin/env python3
"""Writes docs/PROGRAMS.md from the manual pages of the programs, by mandoc.

usage: checks/programs.py          (ends with 1 where the page isn't what the manual pages give)
       checks/programs.py write    (writes the page)

It needs mandoc, and says so where there is none. The pages in man/ are the reference: a change is made there. Mandoc gives a line for each
macro and an indented block for each item of a list; here these are paragraphs and items.
"""
import os
import re
import shutil
import subprocess
import sys
import textwrap

TOP = os.path.dirname(os.path.dirname(os.path.abspath(__file__)))
PAGE = os.path.join(TOP, "docs", "PROGRAMS.md")
PAGES = ["pwtool.1", "pwcheck.1", "pwcheck.5", "pwstore.1", "pwfile.1", "pwkdf.1", "pwlegacy.1", "wrapstream.1"]
HEAD = """# The programs

These are the manual pages, made by `checks/programs.py` for reading here. A change is made in `man/`, and `./install.sh` installs those.
"""
WIDTH = 130


def blocks(text):
    """The blocks of mandoc's output: headings, displays and text, each with its lines."""
    for part in re.split(r"\n{2,}", text):
        lines = part.split("\n")
        if lines[0].startswith("#"):
            yield "heading", lines
        elif lines[0].startswith("\t"):
            yield "indented", [line[1:] if line.startswith("\t") else line for line in lines]
        elif lines[0].startswith("> "):
            yield "display", [line[2:] if line.startswith("> ") else line.lstrip(">") for line in lines]
        elif part.strip():
            yield "text", lines


def joined(lines):
    """The lines as one, without the quotes around literals; a break that mandoc means stays."""
    text = ""
    for line in lines:
        text += line + ("\n" if line.endswith("  ") else " ")
    return text.rstrip().replace("'`", "`").replace("`'", "`")


def wrapped(text, indent=""):
    """The text in lines of at most WIDTH characters."""
    done = []
    for part in text.split("\n"):
        done += textwrap.wrap(part, WIDTH, subsequent_indent=indent, break_long_words=False, break_on_hyphens=False) or [""]
        if part.endswith("  "):
            done[-1] += "  "
    return "\n".join(done)


def is_tag(text):
    """Whether a paragraph before an indented block is the name of an item."""
    return len(text) < 100 and not text.endswith((":", ".", ",", "?"))


def converted(text):
    """The paragraphs, items and displays of a page."""
    tag, in_item = None, False
    for kind, lines in blocks(text):
        if tag is not None and kind != "indented":
            yield wrapped(tag)
            tag = None
        if kind == "heading":
            in_item = False
            yield "##" + lines[0]
        elif kind == "display":
            yield "\n".join("    " + line if line else "" for line in lines)
        elif kind == "text":
            in_item = False
            if is_tag(joined(lines)):
                tag = joined(lines)
            else:
                yield wrapped(joined(lines))
        elif tag is not None:
            yield wrapped(f"- {tag}: {joined(lines)}", "  ")
            tag, in_item = None, True
        elif in_item:
            yield wrapped("  " + joined(lines), "  ")
        else:
            yield "\n".join("    " + line if line else "" for line in lines)
    if tag is not None:
        yield wrapped(tag)


def in_markdown(page):
    """A manual page, without the first and the last line that mandoc gives."""
    text = subprocess.run(["mandoc", "-Tmarkdown", "-Ios=Bovchiril", os.path.join(TOP, "man", page)],
                          stdout=subprocess.PIPE, check=True).stdout.decode()
    body = text.split("\n", 1)[1].strip("\n").rsplit("\n", 1)[0]
    name, section = page.rsplit(".", 1)
    parts = re.sub(r"(?m)(^- .*(?:\n  .*)*)\n\n(?=- )", r"\1\n", "\n\n".join(converted(body)))
    return f"## {name}({section})\n\n{parts}\n"


def main():
    if shutil.which("mandoc") is None:
        print("programs.py: there is no mandoc here, so docs/PROGRAMS.md isn't compared with the manual pages")
        return 0
    text = HEAD + "\n" + "\n".join(in_markdown(page) for page in PAGES)
    if sys.argv[1:] == ["write"]:
        with open(PAGE, "w", encoding="utf-8") as file:
            file.write(text)
        return 0
    with open(PAGE, encoding="utf-8") as file:
        same = file.read() == text
    print("programs.py: docs/PROGRAMS.md is " + ("what the manual pages give" if same else "not what the manual pages give: run checks/programs.py write"))
    return 0 if same else 1


if __name__ == "__main__":
    sys.exit(main())
