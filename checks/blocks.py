#!/usr/bin/env python3
"""Runs the blocks of the pages that show a session, and compares what each command prints.

    checks/blocks.py [FOLDER]      (the folder of the programs; dist/ if left out)

A block is marked `console`. A line that begins with `$ ` is a command for bash (`> ` goes on with it); the lines after it are what it prints
on standard output and standard error together, where `..` stands for anything. The blocks of a page run in one new folder, in their order,
with a copy of examples/ and dist/ in it, so that a later block finds the files of an earlier one.
"""
import os
import re
import shutil
import subprocess
import sys
import tempfile

from page_texts import TOP, end

PAGES = ("README.md", "docs/GUIDE.md", "docs/PROOF.md")


def sessions(text):
    """Each command of a page with the lines that it prints."""
    for block in re.findall(r"^```console\n(.*?)^```$", text, re.M | re.S):
        command, wanted = None, []
        for line in block.splitlines():
            if line.startswith("$ "):
                if command is not None:
                    yield command, wanted
                command, wanted = line[2:], []
            elif line.startswith("> ") and not wanted:
                command += "\n" + line[2:]
            else:
                wanted.append(line)
        if command is not None:
            yield command, wanted


def is_printed(wanted, got):
    pattern = "\n".join(".*".join(re.escape(part) for part in line.split("..")) for line in wanted)
    return re.fullmatch(pattern, got.rstrip("\n")) is not None


def main():
    programs = os.path.abspath(sys.argv[1] if len(sys.argv) > 1 else os.path.join(TOP, "dist"))
    environment = {**os.environ, "PATH": programs + ":" + os.environ["PATH"], "LC_ALL": "C.UTF-8"}
    faults, count = [], 0
    for page in PAGES:
        with open(os.path.join(TOP, page), encoding="utf-8") as source:
            text = source.read()
        with tempfile.TemporaryDirectory() as folder:
            shutil.copytree(os.path.join(TOP, "examples"), os.path.join(folder, "examples"))
            os.symlink(os.path.join(TOP, "dist"), os.path.join(folder, "dist"))
            for command, wanted in sessions(text):
                count += 1
                done = subprocess.run(["bash", "-c", command], cwd=folder, env=environment, stdout=subprocess.PIPE, stderr=subprocess.STDOUT,
                                      stdin=subprocess.DEVNULL, text=True, check=False)
                if not is_printed(wanted, done.stdout):
                    faults.append(f"{page}: {command}\nprints\n{done.stdout}where the page has\n" + "\n".join(wanted) + "\n")
    if not count:
        faults.append("no page has a block")
    end(faults, f"blocks: {count} commands of {len(PAGES)} pages")


if __name__ == "__main__":
    main()
