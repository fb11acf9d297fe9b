#!/usr/bin/env python3
"""Prints the Debian package's copyright file, in its machine-readable form, from LICENSE-MIT, LICENSE-APACHE and NOTICE.

usage: packaging/copyright.py
"""
import os

TOP = os.path.join(os.path.dirname(os.path.abspath(__file__)), "..")
CARRIED = {
    "subtle": ("crates/subtle/*", "BSD-3-Clause"),
    "base64ct": ("crates/base64ct/*", "Apache-2.0 or Expat"),
    "mcf": ("crates/mcf/*", "Apache-2.0 or Expat"),
    "phc": ("crates/phc/*", "Apache-2.0 or Expat"),
    "sha-crypt": ("crates/sha_crypt/*", "Apache-2.0 or Expat"),
}


def read(name):
    with open(os.path.join(TOP, name)) as file:
        return file.read()


def notices(text):
    """The notices of NOTICE: the crate's name with the text below its title."""
    found, lines = {}, text.split("\n")
    starts = [i for i, line in enumerate(lines) if i and line and set(line) == {"-"} and ": " in lines[i - 1]]
    for at, start in enumerate(starts):
        end = starts[at + 1] - 1 if at + 1 < len(starts) else len(lines)
        found[lines[start - 1].split(": ")[0]] = "\n".join(lines[start + 1 : end]).strip("\n")
    return found


def split(notice):
    """The lines of a notice that begin with `Copyright`, and the rest."""
    lines = notice.split("\n")
    copyrights = [line for line in lines if line.startswith("Copyright (c)")]
    return [line[len("Copyright (c) ") :] for line in copyrights], "\n".join(line for line in lines if line not in copyrights).strip("\n")


def indented(text):
    return "\n".join(" " + line.rstrip() if line.strip() else " ." for line in text.split("\n"))


def stanza(files, copyrights, license_name):
    return f"Files: {files}\nCopyright: " + "\n           ".join(copyrights) + f"\nLicense: {license_name}"


def main():
    found = notices(read("NOTICE"))
    own, expat = split(read("LICENSE-MIT").strip("\n"))
    stanzas = [
        "Format: https://www.debian.org/doc/packaging-manuals/copyright-format/1.0/\nUpstream-Name: bovchiril",
        stanza("*", own, "Expat or Apache-2.0"),
    ]
    for crate, (files, license_name) in CARRIED.items():
        stanzas.append(
            stanza(files, split(found[crate])[0], license_name)
            + "\nComment: Names, interfaces and documentation are carried over; no line of code is."
        )
    stanzas.append("License: Expat\n" + indented(expat))
    stanzas.append("License: BSD-3-Clause\n" + indented(split(found["subtle"])[1]))
    stanzas.append(
        "License: Apache-2.0\n On Debian systems the text of the Apache License, Version 2.0, is in\n /usr/share/common-licenses/Apache-2.0."
    )
    print("\n\n".join(stanzas))


if __name__ == "__main__":
    main()
