#!/usr/bin/env python3
"""Builds the two static libraries and the programs for processors of x86-64-v3 (AVX2, BMI2), over the libraries that `rt ci` proved.

    packaging/newer.py [CHECKOUT] [NAME..]      (this checkout, and all of them, if left out)

CHECKOUT is one in which `rt ci` or `rt run` ended, so that crates/*/out/rlib are there. The sources, the proofs and the contracts are the
same; the code alone is another. Each crate is checked by rattle as `rt lib` does it, with the flag --cpu, and goes to
crates/NAME/out/x86-64-v3. What is newer than all that it is made of is left as it is. A static library doesn't look at the processor:
the loader does, by the folder glibc-hwcaps. A program looks, and ends with 127 where an instruction lacks.
"""
import os
import subprocess
import sys

TOP = os.path.dirname(os.path.dirname(os.path.abspath(__file__)))
sys.path.insert(0, os.path.join(TOP, "bindings"))
from library import CPU, PROGRAMS, need  # noqa: E402

STATIC = ("pwcheck_c", "pwcrypt_c")


def used(top):
    """The libraries that each crate names in crates.txt."""
    uses = {}
    with open(os.path.join(top, "crates.txt"), encoding="utf-8") as lines:
        for line in lines:
            if ":" in line and not line.startswith("#"):
                head, tail = line.split(":", 1)
                uses[head.split()[0]] = tail.split()
    return uses


def below(uses, crate):
    """The repository's libraries that a crate reaches."""
    found, left = [], list(uses[crate])
    while left:
        name = left.pop(0)
        if name in uses and name not in found:
            found.append(name)
            left += uses[name]
    return found


def newest(*folders):
    """The time of the newest file in these folders."""
    return max((os.path.getmtime(os.path.join(at, name)) for folder in folders for at, _, names in os.walk(folder) for name in names), default=0)


class Build:
    """How a crate of a checkout is built with a kit."""

    def __init__(self, top, kit, crate):
        self.top, self.kit, self.crate = top, kit, crate
        self.folder = os.path.join(top, "crates", crate)
        self.out = os.path.join(self.folder, "out", CPU)
        self.is_static = crate in STATIC
        self.file = os.path.join(self.out, f"lib{crate}.a" if self.is_static else crate)

    def rlib(self, name):
        """The folder of a proved library of the checkout, or of the kit."""
        own = os.path.join(self.top, "crates", name, "out", "rlib", name + ".rlib")
        place = own if os.path.isdir(os.path.join(self.top, "crates", name)) else os.path.join(self.kit, "rlibs", name + ".rlib")
        need(os.path.isdir(place), f"{place} isn't there: rt ci proves and makes it")
        return place

    def words(self, uses):
        """The words for rattle that name the libraries and the logic."""
        words = ["--extern", f"std={self.kit}/rlibs/std.rlib", "-L", f"dependency={self.kit}/rlibs"]
        for name in uses[self.crate]:
            words += ["--extern", f"{name}={self.rlib(name)}"]
        for name in below(uses, self.crate):
            words += ["-L", "dependency=" + os.path.dirname(self.rlib(name))]
        return [*words, "--antt-project", f"{self.kit}/rattle/logic/antt-project.json", "--logic-built", f"{self.kit}/logic_built",
                "--links", self.crate + "=", "--jobs", "1", "--toolchain", f"{self.kit}/toolchain", "--backend", "llvm", "--cpu", CPU]

    def is_new(self, uses):
        """Whether the built file is newer than all that it is made of."""
        sources = [os.path.join(self.folder, part) for part in ("src", "specs", "proofs")]
        libraries = [self.rlib(name) for name in below(uses, self.crate)]
        return os.path.exists(self.file) and os.path.getmtime(self.file) > newest(*sources, *libraries)

    def run(self, *command):
        done = subprocess.run(command, cwd=self.folder, stdin=subprocess.DEVNULL)
        need(done.returncode == 0, f"{os.path.basename(command[0])} ended with {done.returncode} for {self.crate}")

    def build(self, uses):
        """The archive, or the program."""
        if self.is_new(uses):
            print(f"newer.py: {self.crate}: nothing changed")
            return
        os.makedirs(self.out, exist_ok=True)
        begin = ["build", "--crate-name", self.crate]
        if self.is_static:
            self.run(f"{self.kit}/bin/rattle", *begin, "src/lib.rt", "--crate-type", "staticlib", *self.words(uses), "-o", self.file)
            return
        made = self.file + ".o"
        self.run(f"{self.kit}/bin/rattle", *begin, "src/main.rt", *self.words(uses), "-o", made)
        self.run(f"{self.kit}/bin/rattle-link", "--target", "x86_64-unknown-linux-gnu", "--toolchain", f"{self.kit}/toolchain", "-o", self.file,
                 made, f"{self.kit}/c/libos_c.a", f"{self.kit}/c/liblibc_c.a")
        os.remove(made)


def main():
    if sys.argv[1:2] in (["--help"], ["-h"]):
        print(__doc__)
        return
    top = os.path.abspath(sys.argv[1]) if len(sys.argv) > 1 else TOP
    kit = os.environ.get("KIT") or os.path.dirname(subprocess.run(["rt", "doc"], capture_output=True, text=True, check=True).stdout.strip())
    uses = used(top)
    for crate in sys.argv[2:] or [*STATIC, *PROGRAMS]:
        Build(top, kit, crate).build(uses)


if __name__ == "__main__":
    main()
