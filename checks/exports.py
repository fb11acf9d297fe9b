#!/usr/bin/env python3
"""Looks at the libraries that bindings/library.py laid out: which names they define, under which versions, and how the
shared one is protected.

    checks/exports.py FOLDER

The static and the shared library define the functions that the header declares, and no other name; the shared one has
each under the version of the interface in which it came (SINCE below; all others came with 1.0), the soname libpwcheck.so.1,
links to its full name, full RELRO and no executable stack.
"""
import os
import re
import subprocess
import sys

# The calls that came behind version 1.0, by theirs. A call never changes its version.
SINCE = dict.fromkeys(("pwcheck_check_any", "pwcheck_check_login", "pwcheck_make", "pwcheck_needs_remake", "pwcheck_bcrypt_text", "pwcheck_yescrypt_text", "pwcheck_argon2id_text",
                       "pwcheck_pbkdf2_sha256_text"), "1.1")

LIB, INCLUDE = (os.path.join(sys.argv[1], name) for name in ("lib", "include"))


def need(condition, text):
    if not condition:
        sys.exit("exports.py: " + text)


def told(*command):
    return subprocess.run(command, check=True, capture_output=True, text=True).stdout


def defined(*command):
    """The names that nm tells as defined, with their versions."""
    return {line.split()[-1] for line in told("nm", "--defined-only", "--extern-only", *command).splitlines()
            if len(line.split()) == 3}


def main():
    with open(os.path.join(INCLUDE, "pwcheck.h"), encoding="utf-8") as source:
        header = re.sub(r"/\*.*?\*/", "", source.read(), flags=re.S)
    version = re.search(r'PWCHECK_VERSION "(([0-9]+)\.[0-9]+)"', header)
    declared = set(re.findall(r"^\w+ (pwcheck_\w+)\(", header, re.M))
    static = defined(os.path.join(LIB, "libpwcheck.a"))
    need(static == declared, f"libpwcheck.a and the header differ by {sorted(static ^ declared)}")
    shared = os.path.join(LIB, "libpwcheck.so." + version.group(1))
    wanted = {f"{name}@@PWCHECK_{SINCE.get(name, '1.0')}" for name in declared}
    names = {name for name in defined("-D", shared) if not name.startswith("PWCHECK_")}
    need(names == wanted, f"the shared library and the header differ by {sorted(names ^ wanted)}")
    soname = "libpwcheck.so." + version.group(2)
    for link, target in [("libpwcheck.so", soname), (soname, os.path.basename(shared))]:
        need(os.readlink(os.path.join(LIB, link)) == target, f"{link} doesn't name {target}")
    dynamic = told("readelf", "-d", shared)
    need(f"soname: [{soname}]" in dynamic, "another soname")
    need("BIND_NOW" in dynamic and "TEXTREL" not in dynamic, "not bound at once, or text relocations")
    segments = told("readelf", "-lW", shared)
    need("GNU_RELRO" in segments, "no RELRO")
    need(re.search(r"GNU_STACK.* RW ", segments), "an executable stack")
    print(f"exports.py: {len(declared)} functions, {soname}, versions 1.0 to {version.group(1)}, full RELRO")


main()
