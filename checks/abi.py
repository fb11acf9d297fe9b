#!/usr/bin/env python3
"""Compares the binary interface of both C libraries with the kept list of it, bindings/abi.txt.

    checks/abi.py FOLDER            (a folder as packaging/dist.sh makes it)
    checks/abi.py FOLDER --write    writes the list anew: for a release that adds calls or numbers
    checks/abi.py FOLDER changed    changes the header in ten ways, and finds each of them

The list has the symbols of both shared libraries with their versions, and of pwcheck.h each call with its types in order, each number
of an enumerator, each length, and the size and the fields of each struct, as a compiler lays them out. What programs that were
compiled with an older header rely on is in it; the recommended costs and the limits of a login are not, since a version may change them.
A line of the list that doesn't hold any more is a fault, and so is what isn't in the list: no interface comes without a look at it.
"""
import os
import re
import shutil
import subprocess
import sys
import tempfile

TOP = os.path.dirname(os.path.dirname(os.path.abspath(__file__)))
KEPT = os.path.join(TOP, "bindings", "abi.txt")
# A change of the header, as a pattern and what is put in its place, and a word of the line that has to be missed.
CHANGES = [
    (r"uint32_t passes,\s+uint32_t lanes", "uint32_t passes, uint64_t lanes", "pwcheck_argon2id_text"),
    (r"\bconst uint8_t \*stored, size_t stored_len,\s+uint32_t max_rounds, uint64_t max_bytes",
     "const uint8_t *stored, size_t stored_len, uint64_t max_bytes, uint32_t max_rounds", "pwcheck_check_limited"),
    (r"PWCHECK_MISMATCH = 1\b", "PWCHECK_MISMATCH = 43", "PWCHECK_MISMATCH"),
    (r"PWCHECK_NO_RANDOM = -8\b", "PWCHECK_NO_RANDOM = -9", "PWCHECK_NO_RANDOM"),
    (r"#define PWCHECK_TEXT_MAX 123", "#define PWCHECK_TEXT_MAX 124", "PWCHECK_TEXT_MAX"),
    (r"uint32_t bcrypt_cost;", "uint64_t bcrypt_cost;", "bcrypt_cost"),
    (r"(uint32_t scrypt_r;)\s+(uint32_t scrypt_p;)", r"\2 \1", "scrypt_r"),
    (r"(    uint32_t argon2_lanes;)", r"    uint32_t argon2_key; \1", "argon2_lanes"),
    (r"bool pwcheck_needs_remake", "int32_t pwcheck_needs_remake", "pwcheck_needs_remake"),
    (r"size_t pwcheck_word\(int32_t number, uint8_t \*out, size_t out_len\);", "", "pwcheck_word"),
]


def need(condition, text):
    if not condition:
        sys.exit("abi.py: " + text)


def symbols(path):
    """The symbols that a shared library defines, with their versions."""
    told = subprocess.run(["nm", "-D", "--defined-only", path], check=True, capture_output=True, text=True).stdout
    return [line.split()[-1] for line in told.splitlines() if line.split()[1] in "TWD"]


def soname(path):
    told = subprocess.run(["readelf", "-d", path], check=True, capture_output=True, text=True).stdout
    return re.search(r"soname: \[(.*)\]", told).group(1)


def parameter(text):
    """A parameter without its name."""
    return re.sub(r"\s*\b\w+$", "", " ".join(text.split())).replace(" *", "*")


def calls(header):
    for kind, name, listed in re.findall(r"^((?:u?int\d+_t|size_t|bool|void)) (pwcheck_\w+)\(([^)]*)\);", header, re.M):
        yield f"{kind} {name}({', '.join(parameter(one) for one in listed.split(','))})"


def structs(header, folder):
    """The size of each struct and the place of each field, by a program that a compiler makes of the header."""
    lines = []
    for name, body in re.findall(r"^struct (pwcheck_\w+) \{(.*?)^\};", header, re.M | re.S):
        lines.append(f'printf("struct {name}: %zu bytes\\n", sizeof(struct {name}));')
        for kind, field in re.findall(r"(\w+) (\w+);", body):
            lines.append(f'printf("struct {name}: {field}, {kind}, at %zu\\n", offsetof(struct {name}, {field}));')
    path, program = os.path.join(folder, "pwcheck.h"), os.path.join(folder, "places")
    with open(path, "w", encoding="utf-8") as file:
        file.write(header)
    code = f'#include "{path}"\n#include <stdio.h>\nint main(void) {{ {" ".join(lines)} return 0; }}\n'
    subprocess.run(["gcc", "-x", "c", "-", "-o", program], input=code, text=True, check=True)
    return subprocess.run([program], check=True, capture_output=True, text=True).stdout.splitlines()


def of_header(header):
    header = re.sub(r"/\*.*?\*/", "", header, flags=re.S)
    lines = sorted(calls(header))
    lines += [f"{name} = {number}" for name, number in re.findall(r"\b(PWCHECK_\w+) = (-?\d+)", header)]
    lines += [f"{name} = {number}" for name, number in re.findall(r"^#define (PWCHECK_(?!RECOMMENDED|VERSION)\w+) (\d+)$", header, re.M)]
    with tempfile.TemporaryDirectory() as folder:
        return lines + structs(header, folder)


def of_folder(folder):
    lines = []
    for name in sorted(os.listdir(folder)):
        if re.search(r"\.so\.\d+\.\d+$", name):
            path = os.path.join(folder, name)
            lines += [f"{soname(path)}: {symbol}" for symbol in sorted(symbols(path))]
    need(lines, f"no shared library is in {folder}")
    with open(os.path.join(TOP, "include", "pwcheck.h"), encoding="utf-8") as file:
        return lines + of_header(file.read())


def kept():
    with open(KEPT, encoding="utf-8") as file:
        return [line.rstrip("\n") for line in file if line.strip() and not line.startswith("#")]


def changed():
    with open(os.path.join(TOP, "include", "pwcheck.h"), encoding="utf-8") as file:
        header = file.read()
    for pattern, put, word in CHANGES:
        other, count = re.subn(pattern, put, header)
        need(count == 1, f"the change of {word} isn't one")
        missed = [line for line in kept() if "libpw" not in line and line not in of_header(other)]
        need(any(word in line for line in missed), f"a header with {put!r} passes")
    print(f"abi.py: {len(CHANGES)} changed headers, each found")


def main():
    need(len(sys.argv) in (2, 3), "usage: abi.py FOLDER [--write|changed]")
    lacking = [name for name in ("gcc", "nm", "readelf") if not shutil.which(name)]
    if lacking:
        print(f"abi.py: no {lacking[0]}, so nothing was compared")
        return
    lines = of_folder(sys.argv[1])
    if sys.argv[2:] == ["--write"]:
        with open(KEPT, "w", encoding="utf-8") as file:
            file.write("# The binary interface of libpwcheck.so.1 and libpwcrypt.so.1 since version 1.1, which programs rely on. checks/abi.py compares.\n")
            file.writelines(line + "\n" for line in lines)
        return
    gone = [line for line in kept() if line not in lines]
    more = [line for line in lines if line not in kept()]
    for line in gone:
        print("abi.py: no more:", line)
    for line in more:
        print("abi.py: not in bindings/abi.txt:", line)
    need(not gone and not more, f"{len(gone)} lines of the interface do not hold, {len(more)} are new")
    if sys.argv[2:] == ["changed"]:
        changed()
    print(f"abi.py: {len(lines)} lines of the interface hold")


main()
