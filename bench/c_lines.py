#!/usr/bin/env python3
"""Gives each of 300 generated lines to the C caller, and compares its words with the program's.

    bench/c_lines.py [SEED [LINES]]

The lines are those of bench/differ.py. bindings/c/check_lines.c is built over the static library (bindings/library.py,
which builds what is missing), and its words have to be those of `pwcheck check` and those that differ.py computes from
pwcheck(1). It prints each difference, and ends with 0 where there is none. It needs gcc and binutils; without
them it says so.
"""
import collections
import importlib.util
import os
import random
import shutil
import subprocess
import sys
import tempfile

HERE = os.path.dirname(os.path.abspath(__file__))
sys.path.insert(0, os.path.join(os.path.dirname(HERE), "bindings"))
from library import HERE as BINDINGS, laid_out, program, run  # noqa: E402

spec = importlib.util.spec_from_file_location("differ", os.path.join(HERE, "differ.py"))
differ = importlib.util.module_from_spec(spec)
spec.loader.exec_module(differ)


def words(command, data):
    return subprocess.run(command, input=data, stdout=subprocess.PIPE, check=False).stdout.decode().splitlines()


def main():
    if not (shutil.which("gcc") and shutil.which("ar")):
        print("c_lines: no gcc and binutils, so nothing was compared")
        return 0
    rng = random.Random(int(sys.argv[1]) if len(sys.argv) > 1 else 1)
    number = int(sys.argv[2]) if len(sys.argv) > 2 else 300
    lines = [differ.a_line(rng) for _ in range(number)]
    data = b"".join(line + b"\n" for line in lines)
    computed = [differ.answer(line)[0] for line in lines]
    with tempfile.TemporaryDirectory() as folder:
        lib = laid_out(folder)
        binary = os.path.join(folder, "check_lines")
        run("gcc", "-O2", "-Wall", "-Wextra", "-Werror", "-I", os.path.join(folder, "include"),
            os.path.join(BINDINGS, "c", "check_lines.c"), os.path.join(lib, "libpwcheck.a"), "-o", binary)
        ours, theirs = words([binary], data), words([program(), "check"], data)
    found = [(line, *row) for line, *row in zip(lines, ours, theirs, computed) if len(set(row)) > 1]
    for line, c, own, want in found:
        print(f"{line!r}: C {c}, program {own}, computed {want}")
    counts = collections.Counter(ours)
    print(f"{number} lines, {len(counts)} words: {', '.join(f'{n} {word}' for word, n in counts.most_common())}")
    good = not found and len(ours) == len(theirs) == number
    print("no difference" if good else f"{len(found)} differences, {len(ours)} and {len(theirs)} answers")
    return 0 if good else 1


if __name__ == "__main__":
    sys.exit(main())
