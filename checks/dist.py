#!/usr/bin/env python3
"""Says whether dist/ is of the sources that stand here, and where it is, compares it with what is built.

usage: checks/dist.py      (it ends with 1 where dist/ doesn't hold together, or claims to be of these sources and differs)

dist/ is made by packaging/dist.sh. Its sums are compared in any case. Where its SOURCES are those that stand here, each program that was
built here, by `rt ci` or `rt run` or for x86-64-v3 by packaging/newer.py, and the header have to be the same bytes. The version of the GNU C
library that the pages and the packages name has to be the newest that a program or a shared library asks for.
"""
import hashlib
import os
import re
import sys

TOP = os.path.dirname(os.path.dirname(os.path.abspath(__file__)))
sys.path.insert(0, os.path.join(TOP, "packaging"))
from sources import checksum  # noqa: E402


def content(*path):
    with open(os.path.join(TOP, *path), "rb") as file:
        return file.read()


def listed():
    """The sums by name."""
    lines = content("dist", "SHA256SUMS").decode().splitlines()
    return {name: total for total, name in (line.split("  ", 1) for line in lines)}


def bad_sums(sums):
    """The files of dist/ that aren't those of its own list."""
    dist = os.path.join(TOP, "dist")
    names = {os.path.relpath(os.path.join(at, name), dist) for at, _, files in os.walk(dist) for name in files} - {"SHA256SUMS"}
    for name in sorted(names ^ set(sums)):
        yield f"dist/{name} is in one of SHA256SUMS and the folder alone"
    for name in sorted(names & set(sums)):
        if hashlib.sha256(content("dist", name)).hexdigest() != sums[name]:
            yield f"dist/{name} isn't what SHA256SUMS says"


def built(name):
    """What stands here in the place of this file, if something does."""
    folder, name = os.path.split(name)
    for path in (("crates", name, "out", folder, name), ("include", name)):
        if os.path.isfile(os.path.join(TOP, *path)):
            return path
    return None


NAMED = (("README.md", r"GNU C library ([0-9.]+[0-9])"), ("packaging/README.release.md", r"library ([0-9]+\.[0-9]+)"), ("packaging/deb.sh", r"libc6 \(>= ([0-9.]+)\)"))


def other_versions(sums):
    """The files that name another version of the GNU C library than the newest one that what is in dist/ asks for."""
    asked = {found.decode() for name in sums for found in re.findall(rb"GLIBC_([0-9]+\.[0-9]+)", content("dist", name))}
    newest = max(asked, key=lambda version: [int(part) for part in version.split(".")])
    for path, pattern in NAMED:
        named = re.findall(pattern, content(path).decode())
        if set(named) != {newest}:
            yield f"{path} names the GNU C library {', '.join(named) or '-'}, and dist/ asks for {newest}"


def main():
    if not os.path.isdir(os.path.join(TOP, "dist")):
        print("dist: there is none")
        return
    sums = listed()
    faults = [*bad_sums(sums), *other_versions(sums)]
    if content("dist", "SOURCES").decode().strip() != checksum():
        print(f"dist: {len(sums)} files, of other sources than those here")
    else:
        places = {name: built(name) for name in sums}
        compared = [name for name, path in places.items() if path]
        faults += [f"dist/{name} isn't {'/'.join(places[name])}" for name in compared if content("dist", name) != content(*places[name])]
        print(f"dist: {len(sums)} files, of these sources; compared with what is built here: {', '.join(compared)}")
    for fault in faults:
        print(fault)
    sys.exit(1 if faults else 0)


if __name__ == "__main__":
    main()
