#!/usr/bin/env python3
"""Where a scheme has to be named and isn't: a file that names all other schemes is a place for every scheme.

usage: checks/scheme.py NAME [CRATE]    (NAME as in scheme_list, such as sha1-crypt; CRATE is the scheme's own crate, which is left out)

What a file names tells what it is a place for: one that names all schemes is for every scheme, one that names those of which texts are made
is for such, and so with the methods of crypt(3) and with texts in a form of their own. A file that names all of them by what their texts ask
for (`CostFamily`, `SchemeCosts`) is for a scheme with numbers of its own. So no list of places has to be kept. What scheme_list says of NAME
decides which of these count; before it says something all of them do. A file that reads the table of texts, pwtool's stored run, names what
is in that table. What a compiler finds (a `match` without an arm) is among the places. It ends with 1 where one that counts is left. Two kinds are
told and count for no scheme. They are the causes of faults, which a scheme may share with another, and the places where the texts of other
programs are compared, since not every scheme has a maker.
"""
import os
import re
import subprocess
import sys

TOP = os.path.dirname(os.path.dirname(os.path.abspath(__file__)))
# The families of schemes by the words that name them in code and in pages, and their crates.
SCHEMES = {
    "md5-crypt": (r"md5[-_ ]?crypt|Md5|\bapr1\b|\$1\$", {"md5_plain", "md5_crypt"}),
    "sha-crypt": (r"sha(256|512)?[-_ ]?crypt|Sha(Crypt|256|512)|SHA-crypt|\$[56]\$", {"sha_crypt"}),
    "bcrypt": (r"bcrypt|Bcrypt|\$2[aby]\$", {"bcrypt_plain"}),
    "yescrypt": (r"yescrypt|Yescrypt|\$y\$", {"yescrypt_plain"}),
    "scrypt": (r"(?<![a-z])scrypt|Scrypt|\$7\$", {"scrypt_plain"}),
    "pbkdf2": (r"pbkdf2|Pbkdf2|PBKDF2", {"pbkdf2_key", "pbkdf2_plain"}),
    "argon2": (r"argon2|Argon2", {"argon2_plain", "blake2b"}),
}
MADE = set(SCHEMES) - {"md5-crypt"}
METHODS = {"md5-crypt", "sha-crypt", "bcrypt", "yescrypt", "scrypt"}
# The table of texts of every scheme, with their words beside it.
TABLE = "crates/pwtool/data/lines.txt"
# Files that name all schemes and aren't places for every one: what each is for, or why none has to stand there.
OTHERWISE = {
    "bench/made_any.py": "made",
    "checks/stack.py": "made",
    "crates/any_make_tests/src/tests.rt": "made",
    "crates/any_check_tests/src/memory_tests.rt": "family",
    "bindings/numbers.py": "made",
    "crates/pwtool_cli/src/make_cli.rt": "made",
    "checks/memory.c": "made",
    "checks/threads.c": "made",
    "crates/pwtool_cli/src/cli.rt": "family",
    "bindings/rust/src/lib.rs": "family",
    "crates/shadow_survey/specs/Leasts.antt": "family",
    "crates/shadow_survey/src/least.rt": "family",
    # Causes and their numbers. What scheme_list says doesn't tell whether a scheme has faults of its own.
    "crates/any_check/src/error.rt": "fault",
    "crates/pwcheck_c/src/answer.rt": "fault",
    # What a word mostly means in a file that people have.
    "man/pwcheck.1": None,
    # Each call once: texts of every scheme are tried by checks/c_calls.c, from the table.
    "crates/pwcheck_c/src/any_tests.rt": None,
    "bindings/rust/src/tests.rs": None,
    "bindings/try.py": None,
    # Commands of a table on some texts: the verdict is that of any_check.
    "crates/shadow_table_tests/src/tests.rt": None,
    "bench/README.md": None,
    "bench/run.py": None,
    "checks/scheme.py": None,
}
HEADS = {"all": "for every scheme", "own": "where its texts are no records", "made": "where texts of it are made",
         "method": "where it is a method of crypt(3)", "family": "where it has numbers of its own",
         "fault": "where it has faults of its own (not counted)",
         "maker": "where other programs write its texts (not counted)"}
NOT_COUNTED = {"fault", "maker"}


def source(*path):
    with open(os.path.join(TOP, *path), encoding="utf-8") as file:
        return file.read()


def variants():
    """The variant of each name in scheme_list."""
    return {name: variant for variant, name in re.findall(r'^ +Scheme::(\w+) => "([a-z0-9-]+)",$', source("crates", "scheme_list", "src", "schemes.rt"), re.M)}


def kinds(name):
    """What a scheme is, by scheme_list where it is new: whether texts of it are made and so on; everything where nothing is known."""
    variant = variants().get(name)
    if name in SCHEMES:
        return {"made": name in MADE, "method": name in METHODS, "own": name in METHODS, "family": True}
    if variant is None:
        return dict.fromkeys(("made", "method", "own", "family"), True)
    code, row = source("crates", "scheme_list", "src", "schemes.rt"), row_of(variant)
    made = re.search(r"fn is_made\(.*?=> true,", code, re.S).group(0)
    families = re.search(r"fn family\(.*?^    \}$", code, re.M | re.S).group(0)
    arm = next(arm for arm in re.findall(r"(Scheme::[^=]*) =>\s+CostFamily", families) if re.search(rf"::{variant}\b", arm))
    methods = source("crates", "scheme_list", "src", "methods.rt")
    return {"made": bool(re.search(rf"::{variant}\b", made)), "method": bool(re.search(rf"::{variant}\b", methods)),
            "own": not re.search(r"\bphc\b", row), "family": "|" not in arm}


def row_of(variant):
    """The row of a variant, with the rows that it is made of."""
    text = source("crates", "scheme_list", "specs", "Schemes.antt")
    row = re.search(rf"^row_of {variant} = (.*)$", text, re.M).group(1)
    own = re.search(rf"^{row} = (.*?)\n\n", text, re.M | re.S) if row.isidentifier() else None
    return own.group(1) if own else row


def forms(name, own):
    """The ways in which code and pages write a name, its variant and its crates, and the fronts of its texts, where scheme_list has them."""
    words = re.split(r"[-_ ]", name)
    camel = "".join(word.capitalize() for word in words)
    variant = variants().get(name)
    fronts = [f"${identifier}$" for identifier in re.findall(r'codes "([A-Za-z0-9-]+)"', row_of(variant) if variant else "") if identifier != name]
    return "|".join(map(re.escape, [name, *own, *([f"::{variant}", f"of.{variant}", f"{{{variant}", f" {variant} ", f"in-{variant}"] if variant else []), "-".join(words), "_".join(words), "_".join(words).upper(), camel, "".join(words), "$" + name + "$", *fronts]))


def files():
    """The repository's files as text, without what is built and what is outside data."""
    listed = subprocess.run(["git", "ls-files"], cwd=TOP, capture_output=True, text=True, check=True).stdout.split("\n")
    for path in filter(None, listed):
        if path.startswith(("dist/", "bench/corpus/", "docs/parts.svg")) or "/must-fail/" in path:
            continue
        try:
            yield path, source(path)
        except (UnicodeDecodeError, FileNotFoundError):
            continue


def kind_of(path, text, name):
    """What a file is a place for, by the other schemes that it names; none where these are no such set."""
    if path in OTHERWISE or TABLE in text:
        return OTHERWISE.get(path)
    named = {other for other, (pattern, _) in SCHEMES.items() if other != name and re.search(pattern, text)}
    if named == MADE - {name} and not (name in MADE and named == set(SCHEMES) - {name}):
        return "made"
    if named >= set(SCHEMES) - {name}:
        if path.startswith(("bench/", "crates/foreign_", "examples/")):
            return "maker"
        by_family = path.startswith("crates/") and re.search("CostFamily|SchemeCosts", text)
        return "family" if by_family and not re.search(r"Scheme::\w|[Ss]cheme\.TheVariants|AnyError", text) else "all"
    if named >= METHODS - {name}:
        return "method" if re.search(r"setting|method", text) else "own"
    return None


def places(name, own):
    """The places that don't name the scheme, by what they are for."""
    pattern, found = re.compile(SCHEMES[name][0] if name in SCHEMES else forms(name, own)), {}
    for path, text in files():
        parts = path.split("/")
        if parts[0] == "crates" and parts[1].removesuffix("_tests") in own or pattern.search(text):
            continue
        found.setdefault(kind_of(path, text, name), []).append(path)
    return found


def main():
    if len(sys.argv) not in (2, 3):
        sys.exit(__doc__)
    name = sys.argv[1]
    plain = name.replace("-", "_")
    own = {sys.argv[2]} if len(sys.argv) > 2 else SCHEMES[name][1] if name in SCHEMES else {plain, plain + "_plain"}
    counts, found = kinds(name), places(name, own)
    told = [kind for kind in HEADS if kind in found and counts.get(kind, True)]
    for kind in told:
        print(f"scheme.py: {HEADS[kind]}:", *found[kind], sep="\n  ")
    if not set(told) - NOT_COUNTED:
        print(f"scheme.py: {name} is named wherever it has to be")
    return 1 if set(told) - NOT_COUNTED else 0


if __name__ == "__main__":
    sys.exit(main())
