#!/usr/bin/env python3
"""Compares the numbers of crypt3/pwcrypt_core.h with the definitions of crates/pwcrypt_c, and the limits of crates/crypt_text with
those of libxcrypt's <crypt.h>, where that is installed.

    crypt3/numbers.py
    crypt3/numbers.py swaps      swaps each two numbers of the header in turn, and finds each such header refused

It ends with 1 where two differ.
"""
import itertools
import os
import re
import sys

HERE = os.path.dirname(os.path.abspath(__file__))
TOP = os.path.dirname(HERE)
NAMES = {"status_done": "DONE", "status_too_long": "TOO_LONG", "status_no_memory": "NO_MEMORY", "status_no_room": "NO_ROOM",
         "status_no_setting": "NO_SETTING"}
SALTS = {"Valid": "CRYPT_SALT_OK", "Invalid": "CRYPT_SALT_INVALID", "Legacy": "CRYPT_SALT_METHOD_LEGACY"}


def read(*path):
    with open(os.path.join(TOP, *path), encoding="utf-8") as source:
        return source.read()


def number(text):
    kind, digits = re.fullmatch(r"(pos|negsuc) ([0-9]+)", text).groups()
    return int(digits) if kind == "pos" else -1 - int(digits)


def defined():
    """The statuses and the numbers of crypt_checksalt, by their names in C."""
    text = "\n".join(re.sub(r"--.*", "", read("crates", crate, "specs", "Statuses.antt")) for crate in ("c_buffers", "pwcrypt_c"))
    found = dict(re.findall(r"^(status_\w+) = (.*)$", text, re.M))
    if set(found) != set(NAMES):
        sys.exit(f"numbers.py: statuses {sorted(set(found) ^ set(NAMES))}")
    salts = dict(re.findall(r"^salt_number (\w+) = (.*)$", text, re.M))
    return {NAMES[name]: number(value) for name, value in found.items()}, \
        {SALTS[name]: number(value) for name, value in salts.items()}


def refused(header):
    """Why a header is none, or None."""
    found = {name: int(value) for name, value in re.findall(r"\bPWCRYPT_(\w+) = (-?[0-9]+)", header)}
    statuses, _ = defined()
    return None if found == statuses else f"pwcrypt_core.h has {found}, the definitions {statuses}"


def limits():
    """A name of <crypt.h> and its number by the definitions, as pairs."""
    text = re.sub(r"--.*", "", read("crates", "crypt_text", "specs", "Limits.antt"))
    found = {name: int(value) for name, value in re.findall(r"^(\w+) = ([0-9]+)$", text, re.M)}
    return [("CRYPT_MAX_PASSPHRASE_SIZE", found["phrase_max"] + 1), ("CRYPT_OUTPUT_SIZE", found["text_max"])]


def main():
    header = read("crypt3", "pwcrypt_core.h")
    wrong = refused(header)
    if os.path.exists("/usr/include/crypt.h"):
        with open("/usr/include/crypt.h", encoding="utf-8") as source:
            system = dict(re.findall(r"^#define\s+(CRYPT_\w+)\s+([0-9]+)", source.read(), re.M))
        for name, value in [*limits(), *defined()[1].items()]:
            if int(system.get(name, -1)) != value:
                wrong = wrong or f"{name} is {system.get(name)} in <crypt.h>, and {value} by the definitions"
    if sys.argv[1:] == ["swaps"]:
        for a, b in itertools.combinations(re.findall(r"= (-?[0-9]+)", header), 2):
            swapped = header.replace(f"= {a}", "= @").replace(f"= {b}", f"= {a}").replace("= @", f"= {b}")
            if refused(swapped) is None:
                wrong = wrong or f"{a} and {b} swapped are not refused"
    if wrong:
        sys.exit("numbers.py: " + wrong)
    print("numbers.py: pwcrypt_core.h and the limits are as the definitions say")


if __name__ == "__main__":
    main()
