#!/usr/bin/env python3
"""Asks `pwtool check` about texts that other programs make on the spot: every answer must be as the maker says.

Each maker (openssl, htpasswd, mkpasswd, chpasswd, argon2, and Python's crypt, hashlib, bcrypt and passlib) makes a text of each of
some passwords. The right password must get `match`, two wrong ones `mismatch`; a text that no scheme reads gets `no-scheme`
from all, and two forms of known schemes the word that stands in the list. Then the same lines are asked under a bound for
each scheme: `too-costly` must come exactly where the text names more. It prints a table of makers.

What a machine lacks is left out, with a line. It needs the program, which
    (cd crates/pwtool && rt run </dev/null)
proves and builds as crates/pwtool/out/pwtool. It installs nothing, and writes into a folder of its own alone.

usage: /usr/bin/python3 bench/any_texts.py [SEED]      (1 if left out; passlib, bcrypt and crypt are the system's Python's)
"""
import os
import sys

HERE = os.path.dirname(os.path.abspath(__file__))
# Files beside this one are named as modules are that others import (base64, bcrypt, scrypt, argon2).
sys.path[:] = [folder for folder in sys.path if os.path.abspath(folder) != HERE]

import base64
import hashlib
import random
import re
import shutil
import string
import subprocess
import tempfile
import warnings

PROGRAM = os.environ.get("PWTOOL", os.path.join(HERE, "..", "crates", "pwtool", "out", "pwtool"))
VERDICT = "a verdict"
NO_SCHEME = "no-scheme"
CHARACTERS = "./0123456789ABCDEFGHIJKLMNOPQRSTUVWXYZabcdefghijklmnopqrstuvwxyz"


def need(condition, text):
    if not condition:
        sys.exit("bench: " + text)


def output(words, text=""):
    """What a program writes for a text on its standard input; nothing where it fails."""
    run = subprocess.run(words, input=text.encode(), capture_output=True, check=False)
    return run.stdout.decode("utf-8", "replace").strip("\n") if run.returncode == 0 else ""


def has(program):
    if shutil.which(program):
        return True
    print(f"left out: {program} isn't here")
    return False


# ---- the makers: each gives rows of a name, what is wanted, and a function from a password to a text

def of_openssl():
    if not has("openssl"):
        return
    for flag in ("-1", "-apr1", "-5", "-6"):
        def make(password, flag=flag):
            # openssl takes an empty line for no password
            return output(["openssl", "passwd", flag, "-stdin"], password + "\n") if password else ""
        yield f"openssl passwd {flag}", VERDICT, make


def of_htpasswd():
    if not has("htpasswd"):
        return
    rows = [(["-m"], VERDICT), (["-B", "-C", "4"], VERDICT), (["-B"], VERDICT), (["-2"], VERDICT), (["-5"], VERDICT),
            (["-5", "-r", "1000"], VERDICT), (["-s"], NO_SCHEME), (["-d"], NO_SCHEME)]
    for flags, wanted in rows:
        def make(password, flags=flags):
            line = output(["htpasswd", "-nb", *flags, "u", password]).split("\n")[0]
            return line[2:] if line.startswith("u:") else ""
        yield f"htpasswd {' '.join(flags)}", wanted, make


def of_mkpasswd():
    if not has("mkpasswd"):
        return
    known = {"sha512crypt", "sha256crypt", "md5crypt", "bcrypt", "bcrypt-a", "yescrypt", "scrypt"}
    methods = [line.split()[0] for line in output(["mkpasswd", "-m", "help"]).split("\n")[1:]]
    rows = [([method], VERDICT if method in known else NO_SCHEME) for method in methods]
    rows += [([method, "-R", rounds], VERDICT)
             for method, rounds in (("sha512crypt", "1000"), ("sha256crypt", "9999"), ("bcrypt", "6"), ("yescrypt", "1"), ("scrypt", "6"))]
    for words, wanted in rows:
        yield (f"mkpasswd -m {' '.join(words)}", wanted,
               lambda password, words=words: output(["mkpasswd", "-s", "-m", *words], password + "\n"))


def of_chpasswd(folder):
    """Into a shadow file below a folder, which wants root."""
    if not has("chpasswd"):
        return
    root = os.path.join(folder, "root")
    os.makedirs(os.path.join(root, "etc"))
    known = {"MD5", "BCRYPT", "SHA256", "SHA512", "YESCRYPT"}
    for method in ("DES", "MD5", "BCRYPT", "SHA256", "SHA512", "YESCRYPT"):
        def make(password, method=method):
            for name, line in (("passwd", "u:x:1000:1000::/:/bin/sh\n"), ("shadow", "u:*:20000:0:99999:7:::\n")):
                with open(os.path.join(root, "etc", name), "w", encoding="utf-8") as file:
                    file.write(line)
            output(["chpasswd", "-R", root, "-c", method], f"u:{password}\n")
            with open(os.path.join(root, "etc", "shadow"), encoding="utf-8") as file:
                text = file.read().split(":")[1]
            return "" if text == "*" else text
        yield f"chpasswd -c {method}", VERDICT if method in known else NO_SCHEME, make


def of_argon2():
    if not has("argon2"):
        return
    rows = [("-id", "-t", "1", "-k", "8"), ("-i", "-t", "3", "-k", "64", "-p", "2"), ("-d", "-t", "2", "-m", "10", "-l", "24"),
            ("-id",), ("-id", "-t", "1", "-m", "6", "-l", "64", "-p", "4")]
    for words in rows:
        yield (f"argon2 {' '.join(words)}", VERDICT,
               lambda password, words=words: output(["argon2", "saltsaltsalt", *words, "-e"], password))
    # version 16, which no record without 19 means here
    yield ("argon2 -id -v 10", "kdf",
           lambda password: output(["argon2", "saltsaltsalt", "-id", "-t", "1", "-m", "6", "-v", "10", "-e"], password))


def of_hashlib():
    def field(data):
        return base64.b64encode(data).decode().rstrip("=")

    def scrypt(password, ln, r, p):
        salt = os.urandom(16)
        key = hashlib.scrypt(password.encode(), salt=salt, n=1 << ln, r=r, p=p, dklen=32, maxmem=1 << 26)
        return f"$scrypt$ln={ln},r={r},p={p}${field(salt)}${field(key)}"

    def pbkdf2(name, password, rounds):
        salt = os.urandom(16)
        return f"$pbkdf2-{name}$i={rounds}${field(salt)}${field(hashlib.pbkdf2_hmac(name, password.encode(), salt, rounds))}"

    for cost in ((4, 8, 1), (10, 8, 1), (8, 4, 3)):
        yield "hashlib.scrypt ln={},r={},p={}".format(*cost), VERDICT, lambda password, cost=cost: scrypt(password, *cost)
    for name in ("sha1", "sha256", "sha512"):
        for rounds in (1, 1000, 20000):
            yield (f"hashlib.pbkdf2_hmac {name} i={rounds}", VERDICT,
                   lambda password, name=name, rounds=rounds: pbkdf2(name, password, rounds))


def of_crypt():
    try:
        with warnings.catch_warnings():
            warnings.simplefilter("ignore")
            import crypt
    except ImportError:
        print("left out: Python's crypt isn't here")
        return
    for method in crypt.methods:
        rounds = {"SHA512": 2000, "SHA256": 1000, "BLOWFISH": 16}.get(method.name)
        yield (f"crypt.crypt {method.name}", NO_SCHEME if method.name == "CRYPT" else VERDICT,
               lambda password, method=method, rounds=rounds: crypt.crypt(password, crypt.mksalt(method, rounds=rounds)))


def of_bcrypt():
    try:
        import bcrypt
    except ImportError:
        print("left out: python3-bcrypt isn't here")
        return
    for prefix in (b"2a", b"2b"):
        yield (f"bcrypt.hashpw {prefix.decode()}", VERDICT,
               lambda password, prefix=prefix: bcrypt.hashpw(password.encode(), bcrypt.gensalt(4, prefix)).decode())


def of_passlib():
    try:
        import passlib.hash as handlers
    except ImportError:
        print("left out: passlib isn't here")
        return
    rows = [("md5_crypt", {}, VERDICT), ("apr_md5_crypt", {}, VERDICT), ("sha256_crypt", {"rounds": 1000}, VERDICT),
            ("sha512_crypt", {"rounds": 5000}, VERDICT), ("bcrypt", {"rounds": 5}, VERDICT), ("bcrypt_sha256", {"rounds": 5}, VERDICT),
            ("bcrypt_sha256", {"rounds": 4, "version": 1}, VERDICT), ("sha1_crypt", {"rounds": 1000}, VERDICT), ("scrypt", {"rounds": 6}, VERDICT),
            ("phpass", {"rounds": 7}, VERDICT), ("phpass", {"rounds": 8, "ident": "$H$"}, VERDICT),
            ("pbkdf2_sha256", {"rounds": 1000}, "phc-salt-short"), ("pbkdf2_sha512", {"rounds": 1000}, "phc-salt-short")]
    rows += [(name, {}, NO_SCHEME) for name in (
        "des_crypt", "bsdi_crypt", "bigcrypt", "sun_md5_crypt", "nthash", "bsd_nthash", "ldap_sha1",
        "ldap_salted_sha1", "ldap_md5", "pbkdf2_sha1", "cta_pbkdf2_sha1", "grub_pbkdf2_sha512",
        "django_pbkdf2_sha256", "fshp", "mysql41", "hex_sha256", "unix_disabled")]
    for name, settings, wanted in rows:
        def make(password, name=name, settings=settings):
            handler = getattr(handlers, name)
            return (handler.using(**settings) if settings else handler).hash(password)
        yield f"passlib {name}", wanted, make


# ---- what is asked, and what must be answered

def drawn(source):
    """Passwords of many lengths; a maker that reads a line gets no blank at an end."""
    letters = string.ascii_letters + string.digits + string.punctuation + " äß€"
    lengths = (1, 7, 8, 9, 15, 24, 40, 64)
    passwords = ["".join(source.choice(letters) for _ in range(length)).strip() or "p" for length in lengths]
    return ["", *[password.replace("\t", "t") for password in passwords]]


def others(password):
    """Two wrong passwords that are near."""
    return [password + "x", password.swapcase() if password.swapcase() != password else "X" + password[1:] + "y"]


def asked(makers, passwords):
    """Rows of a maker, a password, a text, and the word that is wanted."""
    rows, lacking = [], []
    for name, wanted, make in makers:
        before = len(rows)
        for password in passwords:
            try:
                text = make(password)
            except Exception as error:  # a maker of another version may refuse
                lacking.append(f"left out: {name}: {error}")
                break
            if not text:
                continue
            rows.append((name, password, text, "match" if wanted == VERDICT else wanted))
            rows += [(name, wrong, text, "mismatch" if wanted == VERDICT else wanted) for wrong in others(password)]
        if len(rows) == before:
            lacking.append(f"left out: {name} made no text")
    print("\n".join(sorted(set(lacking))), end="\n" if lacking else "")
    return rows


def answers(words, rows):
    lines = "".join(f"{password}\t{text}\n" for _, password, text, _ in rows).encode()
    run = subprocess.run([PROGRAM, "check", "--quiet", *words], input=lines, capture_output=True, check=False)
    found = run.stdout.decode().splitlines()
    need(len(found) == len(rows) and not run.stderr, f"{len(found)} answers to {len(rows)} lines: {run.stderr}")
    need(run.returncode == (0 if set(found) == {"match"} else 1), f"status {run.returncode}")
    return found


BOUNDS = {"--max-sha-rounds": 4999, "--max-bcrypt-cost": 4, "--max-pbkdf2-rounds": 1000, "--max-scrypt-ln": 8, "--max-scrypt-p": 1,
          "--max-yescrypt-ln": 11, "--max-argon2-memory": 63, "--max-argon2-passes": 1, "--max-argon2-lanes": 1}


def costs(text):
    """What a text names, by the option that bounds it."""
    found = re.match(r"\$[56]\$(?:rounds=(\d+)\$)?", text)
    if found:
        return {"--max-sha-rounds": int(found[1] or 5000)}
    found = re.match(r"\$sha1\$(\d+)\$", text)
    if found:
        return {"--max-sha-rounds": int(found[1])}
    found = re.match(r"\$2[aby]\$(\d\d)\$", text)
    if found:
        return {"--max-bcrypt-cost": int(found[1])}
    found = re.match(r"\$bcrypt-sha256\$(?:v=2,t=2b,r=|2[ab],)(\d+)\$", text)
    if found:
        return {"--max-bcrypt-cost": int(found[1])}
    found = re.match(r"\$[PH]\$(.)", text)
    if found:
        return {"--max-bcrypt-cost": CHARACTERS.index(found[1])}
    found = re.match(r"\$y\$j(.)", text)
    if found:
        return {"--max-yescrypt-ln": CHARACTERS.index(found[1]) + 1}
    found = re.match(r"\$7\$(.)", text)
    if found:
        return {"--max-scrypt-ln": CHARACTERS.index(found[1])}
    found = re.match(r"\$(scrypt|pbkdf2-sha(?:1|256|512)|argon2[a-z]+)\$(?:v=19\$)?([a-z]+=[a-z0-9=,]+)\$", text)
    if not found:
        return {}
    scheme = re.match("[a-z]+2?", found[1])[0]
    names = {"m": "memory", "t": "passes", "p": "lanes"} if scheme == "argon2" else {"i": "rounds"}
    pairs = (pair.split("=") for pair in found[2].split(","))
    return {f"--max-{scheme}-{names.get(name, name)}": int(value) for name, value in pairs}


def is_above(text):
    return any(number > BOUNDS.get(option, number) for option, number in costs(text).items())


def of_users(folder, rows):
    """What `check --users` and `join` answer, the second with the smaller file of each kind, as words of the rows; and the
    schemes that `survey` tells. Each row is a user's; behind each user's password stands an earlier one in the file."""
    rows = [row for row in rows if ":" not in row[2] and "\n" not in row[1]]
    texts, passwords, many = (os.path.join(folder, name) for name in ("texts", "passwords", "many"))
    with open(texts, "w", encoding="utf-8") as file:
        file.writelines(f"user{n}:{row[2]}:19700:0:99999:7:::\n" for n, row in enumerate(rows))
    with open(passwords, "w", encoding="utf-8") as file:
        file.writelines(f"user{n}:an earlier one\n" for n in range(3))
        file.writelines(f"user{n}:{row[1]}\n" for n, row in enumerate(rows))
    with open(passwords, encoding="utf-8") as file, open(many, "w", encoding="utf-8") as more:
        more.write("".join(f"nobody{n}:{'x' * 4000}\n" for n in range(200)) + file.read())
    need(os.path.getsize(passwords) < os.path.getsize(texts) < os.path.getsize(many), "the files have other sizes than are tried")
    users = "".join(f"user{n}:{row[1]}\t{row[2]}\n" for n, row in enumerate(rows)).encode()
    runs = [
        subprocess.run([PROGRAM, "check", "--quiet", "--users"], input=users, capture_output=True, check=False),
        subprocess.run([PROGRAM, "join", "--quiet", texts, passwords], capture_output=True, check=False),
        subprocess.run([PROGRAM, "join", "--quiet", texts, many], capture_output=True, check=False),
        subprocess.run([PROGRAM, "survey", "--quiet", texts], capture_output=True, check=False),
    ]
    found = []
    for run in runs:
        lines = run.stdout.decode().split("\n\n")[0].splitlines()
        need(not run.stderr and len(lines) == len(rows), f"{len(lines)} answers to {len(rows)} users: {run.stderr}")
        parts = [line.split("\t") for line in lines]
        need(all(part[0] == f"user{n}" for n, part in enumerate(parts)), "a user isn't in the place of the line")
        found.append([part[1] for part in parts])
    left = subprocess.run([PROGRAM, "join", "--quiet", "--no-text", texts, many], capture_output=True, check=False).stdout.decode()
    need(left == "".join(f"nobody{n}\tno-text\n" for n in range(200)), "users without a text")
    return rows, found


def join_word(row):
    """The word of `join`: a text that is empty or begins with `*` or `!` is not judged, but for MySQL 4.1's `*` and 40 hexadecimal digits."""
    if not row[2]:
        return "empty"
    return "locked" if row[2][0] in "*!" and not re.fullmatch(r"\*[0-9A-Fa-f]{40}", row[2]) else row[3]


def compare(what, rows, found, wanted):
    wrong = [(row[0], row[1], row[2], want, got) for row, want, got in zip(rows, wanted, found) if want != got]
    need(not wrong, f"{what}: {len(wrong)} answers are wrong: {wrong[:5]}")


def table(rows, found):
    names = list(dict.fromkeys(row[0] for row in rows))
    for name in names:
        words = [got for row, got in zip(rows, found) if row[0] == name]
        print(f"{name:36} " + ", ".join(f"{words.count(word)} {word}" for word in dict.fromkeys(words)))


def main():
    seed = int(sys.argv[1]) if len(sys.argv) > 1 else 1
    need(os.path.exists(PROGRAM), "build the program first: (cd crates/pwtool && rt run </dev/null)")
    passwords = drawn(random.Random(seed))
    with tempfile.TemporaryDirectory() as folder:
        makers = [*of_openssl(), *of_htpasswd(), *of_mkpasswd(), *of_chpasswd(folder), *of_argon2(), *of_hashlib(), *of_crypt(),
                  *of_bcrypt(), *of_passlib()]
        rows = asked(makers, passwords)
    found = answers([], rows)
    compare("as made", rows, found, [row[3] for row in rows])
    words = [f"{option}={most}" for option, most in BOUNDS.items()]
    bounded = ["too-costly" if row[3] in ("match", "mismatch") and is_above(row[2]) else row[3] for row in rows]
    compare("under a bound", rows, answers(words, rows), bounded)
    right = [row for row in rows if row[3] == "match"]
    compare("right ones alone", right, answers([], right), ["match"] * len(right))
    with tempfile.TemporaryDirectory() as folder:
        named, (by_lines, by_passwords, by_texts, schemes) = of_users(folder, rows)
    wanted = [join_word(row) for row in named]
    compare("with users", named, by_lines, [row[3] for row in named])
    compare("joined, the passwords kept", named, by_passwords, wanted)
    compare("joined, the needed passwords kept", named, by_texts, wanted)
    told = {}
    for row, scheme in zip(named, schemes):
        told.setdefault((row[0], scheme), 0)
        told[row[0], scheme] += 1
    table(rows, found)
    print("survey: " + ", ".join(f"{maker}: {scheme} {count}" for (maker, scheme), count in sorted(told.items())))
    print(f"seed {seed}: {len(rows)} lines of {len({row[0] for row in rows})} makers, all answered right;"
          f" {bounded.count('too-costly')} too costly under the bound")


if __name__ == "__main__":
    main()
