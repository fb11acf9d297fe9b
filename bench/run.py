#!/usr/bin/env python3
"""The scripts of this folder: which there are, what each is for, and runs of one kind.

    bench/run.py --list             prints the table (bench/README.md has the same, which `--check` compares)
    bench/run.py --check            ends with 1 where a script is in no row, a row has no script, or bench/README.md has another table
    bench/run.py times              runs each script that measures time or memory
    bench/run.py compare [--quick]  runs each script that compares ours with other programs or with the definitions; --quick: below a minute each
    bench/run.py damage             runs each script that damages inputs, kills runs, or refuses memory
    bench/run.py NAME [WORDS]       runs one script

A script whose programs are missing is named and left out. The last line counts what ran; the status is 1 where a script failed.
"""
import collections
import os
import shutil
import subprocess
import sys

HERE = os.path.dirname(os.path.abspath(__file__))
TOP = os.path.dirname(HERE)

# The name, the kind, what it needs beside python3 and the built programs, its minutes, the words of a run that is quick (or None), what it does.
Row = collections.namedtuple("Row", "name kind needs minutes quick what")
ROWS = [Row(*row) for row in (
    ("argon2.py", "times", "rt", 4, None, "Argon2id beside libargon2 and libsodium"),
    ("base64_times.py", "times", "rt cargo", 6, None, "the coders beside Debian's crate base64ct"),
    ("base64_streams.py", "times", "rt cargo base64 openssl", 8, None, "wrapped Base64 in streams and whole programs"),
    ("bcrypt.py", "times", "rt htpasswd", 5, None, "bcrypt beside libxcrypt, htpasswd and python3-bcrypt"),
    ("c_tables.py", "times", "", 2, None, "calls of the C libraries on large tables, beside another build, libargon2 and libxcrypt"),
    ("check.py", "times", "gcc grep", 6, None, "`pwcheck check` over large inputs and over lines with a digest"),
    ("crypt_time.py", "times", "gcc", 2, None, "a call of crypt_r beside libxcrypt"),
    ("gate_times.py", "times", "rt", 60, None, "processor time of the gate, crate by crate"),
    ("logins.py", "times", "", 1, None, "a login by each scheme at its recommended cost, beside libargon2, libxcrypt and OpenSSL"),
    ("md5_crypt.py", "times", "rt openssl", 3, None, "md5-crypt beside libxcrypt and openssl"),
    ("pbkdf2.py", "times", "rt", 3, None, "PBKDF2 beside OpenSSL and hashlib"),
    ("pw_file.py", "times", "rt", 3, None, "checks of `pwfile` beside a dict and passlib"),
    ("pw_store.py", "times", "gcc", 10, None, "changes, checks and starts of `pwstore` beside SQLite and htpasswd"),
    ("pwtool.py", "times", "gcc awk join", 5, None, "`pwtool` over millions of lines beside coreutils"),
    ("scrypt.py", "times", "rt", 3, None, "scrypt beside OpenSSL, libxcrypt, libscrypt and Tarsnap's"),
    ("sha_crypt.py", "times", "gcc", 3, None, "SHA-crypt beside libxcrypt and Drepper's steps over OpenSSL"),
    ("wrap_stream.py", "times", "gcc base64 openssl", 5, None, "`wrapstream` beside coreutils and openssl"),
    ("yescrypt.py", "times", "rt", 4, None, "`$y$` and `$7$` beside libxcrypt"),
    ("any_texts.py", "compare", "openssl htpasswd mkpasswd argon2", 3, None, "texts of each maker, asked of `pwtool check`"),
    ("argon2_tags.py", "compare", "rt argon2", 4, None, "tags of Argon2 beside libargon2"),
    ("bcrypt_definitions.py", "compare", "", 4, "1 6", "the definition of bcrypt in Python beside libxcrypt"),
    ("bcrypt_digest.py", "compare", "", 1, None, "texts of bcrypt of a digest, of makers and damaged, beside the definitions in Python"),
    ("bcrypt_texts.py", "compare", "rt", 3, None, "texts of bcrypt, ours and libxcrypt's, asked of each other"),
    ("c_lines.py", "compare", "gcc", 2, None, "lines by the C caller beside the program"),
    ("crypt_clients.py", "compare", "perl", 2, None, "programs that call crypt(3), with libpwcrypt under them"),
    ("crypt_definitions.py", "compare", "", 2, "2000", "the definitions of crypt(3) in Python beside libxcrypt"),
    ("crypt_differ.py", "compare", "gcc", 5, None, "libpwcrypt beside libxcrypt"),
    ("damaged_texts.py", "compare", "", 2, None, "damaged texts of every scheme: `pwtool check` and `survey` agree on each"),
    ("differ.py", "compare", "", 2, "1 400", "`pwcheck check` beside a reading of pwcheck(1)"),
    ("foreign_texts.py", "compare", "", 3, None, "texts of Django, LDAP and passlib, asked of `pwtool --from`"),
    ("htpasswd_lines.py", "compare", "htpasswd", 1, None, "lines of htpasswd, asked of `pwlegacy`"),
    ("made_any.py", "compare", "", 3, None, "texts of `pwtool make`, asked of libxcrypt, hashlib and libargon2"),
    ("made_c.py", "compare", "gcc", 3, None, "texts of the C library, asked of the same"),
    ("made_texts.py", "compare", "rt", 3, None, "texts of SHA-crypt and scrypt, asked of others"),
    ("maker_texts.py", "compare", "", 2, None, "texts of 28 makers, asked of `pwtool --from`, and damaged ones by their first fault"),
    ("normal_texts.py", "compare", "", 1, None, "`pwcheck normalize` beside its definition"),
    ("scram.py", "compare", "pg_ctlcluster", 1, None, "the definitions of SCRAM in Python beside a server of PostgreSQL"),
    ("sha1_crypt.py", "compare", "", 1, None, "the definitions of sha1-crypt in Python beside libxcrypt and passlib"),
    ("welch.py", "compare", "gcc", 5, None, "the time of coders and comparisons on two classes of bytes"),
    ("wrapped_texts.py", "compare", "", 1, "1 20", "`wrapstream unwrap` beside its definition"),
    ("yescrypt_definitions.py", "compare", "", 5, "1 6", "the definitions of yescrypt in Python beside libxcrypt"),
    ("yescrypt_texts.py", "compare", "rt", 6, None, "texts of yescrypt, ours and libxcrypt's, asked of each other"),
    ("crashes.py", "damage", "strace", 1, "quick", "what a crash can leave of a table"),
    ("failed_sync.sh", "damage", "losetup", 1, None, "a sync that fails on a real ext4"),
    ("fuzz.py", "damage", "", 1, "20", "mutated inputs for `pwcheck`"),
    ("fuzz.sh", "damage", "afl-fuzz", 10, None, "the same by AFL++"),
    ("pwfile_restart.py", "damage", "", 1, None, "a table of `pwfile` through restarts, and each status"),
    ("pwstore_hostile.py", "damage", "", 4, None, "files of `pwstore` that are damaged, full or held by another"),
    ("pwstore_kills.py", "damage", "", 10, "40", "`pwstore` killed at random moments"),
    ("refused_memory.py", "damage", "rt", 60, None, "each request for memory refused in turn"),
    ("taint.py", "damage", "valgrind gcc", 5, None, "jumps and addresses of the C library that depend on secret bytes"),
)]
# Parts of the scripts above.
PARTS = {"argon2_peer.py", "building.py", "disk_model.py", "libxcrypt.py", "makers.py", "pwstore_model.py", "pictures.py", "run.py"}
KINDS = {"times": "Time and memory", "compare": "Ours beside others and beside the definitions", "damage": "Damage, kills, refused memory, secrets"}


def table():
    """The rows as bench/README.md has them."""
    lines = []
    for kind, title in KINDS.items():
        lines += [f"## {title}", "", "| Script | What it does | It needs | Minutes |", "|---|---|---|---|"]
        lines += [f"| `{row.name}` | {row.what} | {row.needs.replace(' ', ', ') or '-'} | {row.minutes} |" for row in ROWS if row.kind == kind]
        lines.append("")
    return "\n".join(lines)


def faults():
    there = {name for name in os.listdir(HERE) if name.endswith((".py", ".sh"))} - PARTS
    rows = {row.name for row in ROWS}
    yield from (f"bench/{name} is in one of the folder and the table alone" for name in sorted(there ^ rows))
    with open(os.path.join(HERE, "README.md"), encoding="utf-8") as source:
        if table() not in source.read():
            yield "bench/README.md has another table than bench/run.py --list prints"


def run(row, words):
    """Whether a script ended well; None where a program that it needs is missing."""
    missing = [program for program in row.needs.split() if not shutil.which(program)]
    if missing:
        print(f"run.py: {row.name} is left out: no {', '.join(missing)}", flush=True)
        return None
    print(f"run.py: {row.name} {' '.join(words)}".rstrip(), flush=True)
    starter = ["bash"] if row.name.endswith(".sh") else [sys.executable]
    return subprocess.run([*starter, os.path.join(HERE, row.name), *words], check=False).returncode == 0


def library_words(row):
    """The library that a script on the C libraries is given, and for c_tables.py both builds of it."""
    if row.name == "c_tables.py":
        builds = [os.path.join(TOP, "dist", *folder, "libpwcheck.so.1.1") for folder in ((), ("x86-64-v3",))]
        return [build for build in builds if os.path.exists(build)]
    return [os.path.join(TOP, "dist", "libpwcrypt.so.1.0")] if row.name in ("crypt_clients.py", "crypt_differ.py", "crypt_time.py") else []


def main(words):
    if not words or words[0] in ("-h", "--help"):
        sys.exit(__doc__)
    if words[0] == "--list":
        print(table())
        return
    if words[0] == "--check":
        found = list(faults())
        print("\n".join([*found, f"run.py: {len(ROWS)} scripts, {len(found)} faults"]))
        sys.exit(1 if found else 0)
    quick = "--quick" in words
    chosen = [row for row in ROWS if row.kind == words[0] and (not quick or row.quick is not None)]
    named = [row for row in ROWS if words[0] in (row.name, row.name.rsplit(".", 1)[0])]
    if not chosen and not named:
        sys.exit(f"run.py: {words[0]} is no kind and no script; --list prints them")
    if named:
        results = [run(named[0], words[1:] or library_words(named[0]))]
    else:
        results = [run(row, row.quick.split() if quick else library_words(row)) for row in chosen]
    failed = results.count(False)
    print(f"run.py: {results.count(True)} ended well, {failed} failed, {results.count(None)} left out")
    sys.exit(1 if failed else 0)


if __name__ == "__main__":
    main(sys.argv[1:])
