#!/usr/bin/env python3
"""Prints the checksum of the sources that the programs and libraries are built from: crates.txt, and what stands in crates/,
face/, include/, bindings/ and crypt3/, without what is built there.

usage: packaging/sources.py
"""
import hashlib
import os

TOP = os.path.join(os.path.dirname(os.path.abspath(__file__)), "..")
FOLDERS = ("crates", "face", "include", "bindings", "crypt3")
BUILT = ("out", "target", "__pycache__", "Cargo.lock")


def files():
    """The sources' paths, in order."""
    found = ["crates.txt"]
    for folder in FOLDERS:
        for at, folders, names in os.walk(os.path.join(TOP, folder)):
            folders[:] = sorted(name for name in folders if name not in BUILT)
            found += [os.path.relpath(os.path.join(at, name), TOP) for name in names if name not in BUILT]
    return sorted(found)


def checksum():
    whole = hashlib.sha256()
    for path in files():
        with open(os.path.join(TOP, path), "rb") as file:
            whole.update(f"{hashlib.sha256(file.read()).hexdigest()}  {path}\n".encode())
    return whole.hexdigest()


if __name__ == "__main__":
    print(checksum())
