#!/usr/bin/env python3
"""Has texts that `pwtool make` writes taken by others, and by `pwtool check`.

Of each of the eight schemes 100 texts of random passwords and costs are made, and each is asked about with its password and with
a wrong one: by `pwtool check`; for SHA-crypt, bcrypt and yescrypt by libxcrypt's crypt (libcrypt.so.1, through ctypes); for scrypt
by passlib; for Argon2id by libargon2's argon2id_verify (libargon2.so.1); for PBKDF2 by Python's hashlib, since no program here
reads its records. No two texts may have one salt. Then one text of each scheme is made of no option, and its cost compared with
what passlib itself has as default, and what OWASP, RFC 9106 and libxcrypt name. The refusals and their statuses are tried, on a
terminal too, and that no more than a line is waited for; and `pwtool normalize`, `wrap` and `unwrap` beside `pwcheck` and `wrapstream` on the same bytes.

It needs the three programs, built as
    (cd crates/pwtool && rt run </dev/null); (cd crates/pwcheck && rt run </dev/null); (cd crates/wrapstream && rt run </dev/null)
and Debian's argon2, python3-passlib and python3-bcrypt. It installs nothing.

usage: /usr/bin/python3 bench/made_any.py [TEXTS] [SEED]      (100 and 1 if left out)
"""
import ctypes
import hashlib
import os
import pty
import random
import subprocess
import sys
import warnings

from libxcrypt import crypt_r

HERE = os.path.dirname(os.path.abspath(__file__))
# This folder has scripts of the names base64, argon2 and bcrypt, which passlib would take for the modules.
sys.path = [folder for folder in sys.path if os.path.abspath(folder) != HERE]
warnings.simplefilter("ignore")
import base64  # noqa: E402
from passlib import hash as passlib_hash  # noqa: E402



def program(name):
    return os.environ.get(name.upper(), os.path.join(HERE, "..", "crates", name, "out", name))


PWTOOL = program("pwtool")
LETTERS = "abcxyzABCXYZ0189 .,:;$*!\"'\\/#~äßçñÅ漢字🔑"
FAULTS = []


def fault(text):
    FAULTS.append(text)
    print("WRONG: " + text)


def run(words, given):
    return subprocess.run([PWTOOL] + words, input=given, capture_output=True, check=False)


def made(words, password):
    done = run(["make", "--empty"] + words, password.encode() + b"\n")
    if done.returncode != 0 or done.stderr or done.stdout.count(b"\n") != 1:
        fault(f"make {words}: {done}")
        return None
    return done.stdout.decode().rstrip("\n")


def costs(scheme, rng):
    """The options of a random cost."""
    numbers = {
        "sha256-crypt": lambda: [("rounds", rng.choice([1000, 5000, rng.randint(1000, 6000)]))],
        "sha512-crypt": lambda: [("rounds", rng.choice([1000, 5000, rng.randint(1000, 6000)]))],
        "bcrypt": lambda: [("cost", rng.randint(4, 7))],
        "yescrypt": lambda: [("ln", rng.randint(8, 11)), ("r", rng.randint(4, 16)), ("t", rng.randint(0, 2))],
        "scrypt": lambda: [("ln", rng.randint(1, 9)), ("r", rng.randint(1, 12)), ("p", rng.randint(1, 4))],
        "argon2id": lambda: [("memory", rng.randint(32, 600)), ("passes", rng.randint(1, 4)), ("lanes", rng.randint(1, 4))],
        "pbkdf2-sha256": lambda: [("rounds", rng.randint(1, 5000))],
        "pbkdf2-sha512": lambda: [("rounds", rng.randint(1, 5000))],
    }[scheme]()
    return [word for name, number in numbers for word in ("--" + name, str(number))]


CRYPT = crypt_r()


def by_crypt(password, text):
    return CRYPT(password.encode(), text.encode()) == text.encode()


def by_passlib(password, text):
    return passlib_hash.scrypt.verify(password, text)


def by_argon2(password, text):
    library = ctypes.CDLL("libargon2.so.1")
    return library.argon2id_verify(text.encode(), password.encode(), len(password.encode())) == 0


def unpadded(field):
    return base64.b64decode(field + "=" * (-len(field) % 4))


def by_hashlib(password, text):
    nothing, name, numbers, salt, key = text.split("$")
    rounds, length = (int(pair.split("=")[1]) for pair in numbers.split(","))
    right = nothing == "" and name in ("pbkdf2-sha256", "pbkdf2-sha512") and numbers == f"i={rounds},l={length}" and length == 32
    return right and hashlib.pbkdf2_hmac(name.removeprefix("pbkdf2-"), password.encode(), unpadded(salt), rounds, length) == unpadded(key)


SCHEMES = {
    "sha256-crypt": ("$5$", by_crypt),
    "sha512-crypt": ("$6$", by_crypt),
    "bcrypt": ("$2b$", by_crypt),
    "yescrypt": ("$y$", by_crypt),
    "scrypt": ("$scrypt$", by_passlib),
    "argon2id": ("$argon2id$v=19$", by_argon2),
    "pbkdf2-sha256": ("$pbkdf2-sha256$", by_hashlib),
    "pbkdf2-sha512": ("$pbkdf2-sha512$", by_hashlib),
}


def salt_of(scheme, text):
    fields = text.split("$")
    return fields[3][:22] if scheme == "bcrypt" else fields[-2]


def named(scheme, words, text):
    """Whether the text names the cost that the options ask for, as outside readers see it."""
    asked = {words[i][2:]: int(words[i + 1]) for i in range(0, len(words), 2)}
    fields = text.split("$")
    if scheme in ("sha256-crypt", "sha512-crypt"):
        return asked["rounds"] == (int(fields[2][7:]) if fields[2].startswith("rounds=") else 5000)
    if scheme == "bcrypt":
        return asked["cost"] == int(fields[2])
    if scheme == "scrypt":
        return fields[2] == f"ln={asked['ln']},r={asked['r']},p={asked['p']}"
    if scheme == "argon2id":
        return fields[3] == f"m={asked['memory']},t={asked['passes']},p={asked['lanes']}"
    return scheme == "yescrypt" or fields[2] == f"i={asked['rounds']},l=32"


def try_scheme(scheme, texts, rng):
    prefix, taken = SCHEMES[scheme]
    lines, words, salts, wrong = [], [], set(), 0
    for _ in range(texts):
        password = "".join(rng.choice(LETTERS) for _ in range(rng.randint(0, 18)))
        options = costs(scheme, rng)
        text = made([scheme] + options, password)
        if text is None:
            continue
        if not text.startswith(prefix) or not named(scheme, options, text):
            fault(f"{scheme} {options}: {text}")
        other = password + rng.choice("abc") if rng.random() < 0.5 else password[1:] + "?"
        if not taken(password, text) or taken(other, text):
            fault(f"{scheme}: {taken.__name__} on {text}")
            wrong += 1
        salts.add(salt_of(scheme, text))
        lines += [f"{password}\t{text}", f"{other}\t{text}"]
        words += ["match", "mismatch"]
    answers = run(["check", "--quiet"], "".join(line + "\n" for line in lines).encode()).stdout.decode().splitlines()
    if answers != words:
        fault(f"{scheme}: pwtool check: {[line for line, a, w in zip(lines, answers, words) if a != w][:3]}")
    if len(salts) != len(words) // 2:
        fault(f"{scheme}: a salt stands twice")
    print(f"{scheme}: {len(words) // 2} texts, {len(salts)} salts, {wrong} not taken by {taken.__name__}")


def try_defaults():
    sha = [passlib_hash.sha256_crypt.default_rounds, passlib_hash.sha512_crypt.default_rounds]
    for scheme, front in [
        ("sha256-crypt", f"$5$rounds={sha[0]}$"),
        ("sha512-crypt", f"$6$rounds={sha[1]}$"),
        ("bcrypt", f"$2b${passlib_hash.bcrypt.default_rounds}$"),
        ("yescrypt", "$y$j9T$"),
        ("scrypt", "$scrypt$ln=17,r=8,p=1$"),
        ("argon2id", "$argon2id$v=19$m=65536,t=3,p=4$"),
        ("pbkdf2-sha256", "$pbkdf2-sha256$i=600000,l=32$"),
        ("pbkdf2-sha512", "$pbkdf2-sha512$i=210000,l=32$"),
    ]:
        text = made([scheme], "correct horse")
        if text is None or not text.startswith(front) or not SCHEMES[scheme][1]("correct horse", text):
            fault(f"{scheme} without options: {text}")


REFUSED = [
    (["md5-crypt"], b"x\n", 64), (["md5"], b"x\n", 64), (["BCRYPT"], b"x\n", 64), ([], b"x\n", 64),
    (["bcrypt", "--rounds", "1000"], b"x\n", 64), (["bcrypt", "--cost", "3"], b"x\n", 64), (["bcrypt", "--cost", "32"], b"x\n", 64),
    (["bcrypt", "--cost", "x"], b"x\n", 64), (["sha512-crypt", "--rounds", "999"], b"x\n", 64),
    (["scrypt", "--ln", "25"], b"x\n", 64), (["argon2id", "--memory", "31"], b"x\n", 64), (["yescrypt", "--p", "1"], b"x\n", 64),
    (["pbkdf2-sha256", "--rounds", "0"], b"x\n", 64), (["bcrypt", "--cost", "4", "x"], b"x\n", 64),
    (["bcrypt", "--cost", "4"], b"", 1), (["bcrypt", "--cost", "4"], b"\n", 1), (["bcrypt", "--cost", "4", "--empty"], b"", 1), (["bcrypt", "--cost", "4"], b"a" * 73 + b"\n", 1), (["bcrypt", "--cost", "4"], b"\xff\n", 1),
    (["bcrypt", "--cost", "4"], b"a\0b\n", 1), (["sha256-crypt"], b"a\0b\n", 1), (["yescrypt"], b"\0\n", 1),
    (["scrypt", "--ln", "4"], b"a" * 4097 + b"\n", 1), (["scrypt", "--ln", "4"], b"a" * 8193, 1), (["argon2id"], b"\xc3\n", 1),
]


def try_refusals():
    for words, given, status in REFUSED:
        done = run(["make"] + words, given)
        if done.returncode != status or done.stdout or done.stderr.count(b"\n") != 1 or not done.stderr.startswith(b"pwtool: "):
            fault(f"make {words} < {given[:20]}: {done}")
    with open("/dev/full", "wb") as full:
        done = subprocess.run([PWTOOL, "make", "bcrypt", "--cost", "4"], input=b"x\n", stdout=full, stderr=subprocess.PIPE, check=False)
    if done.returncode != 4:
        fault(f"/dev/full: {done}")
    folder = os.open("/", os.O_RDONLY)
    done = subprocess.run([PWTOOL, "make", "bcrypt", "--cost", "4"], stdin=folder, capture_output=True, check=False)
    os.close(folder)
    if done.returncode != 3:
        fault(f"a folder as input: {done}")
    # Of the first line alone a text is made, with or without a line feed; a carriage return is a byte of it.
    for given, password in [(b"one\ntwo\n", "one"), (b"one", "one"), (b"\n", ""), (b"one\r\n", "one\r"), (b" one \n", " one ")]:
        done = run(["make", "bcrypt", "--cost", "4"], given)
        if done.returncode != 0 or not by_crypt(password, done.stdout.decode().strip()):
            fault(f"first line of {given}: {done}")


def try_open_pipe():
    """The text comes once the line is there, though the pipe stays open."""
    with subprocess.Popen([PWTOOL, "make", "bcrypt", "--cost", "4"], stdin=subprocess.PIPE, stdout=subprocess.PIPE) as done:
        done.stdin.write(b"one\n")
        done.stdin.flush()
        try:
            status = done.wait(timeout=30)
        except subprocess.TimeoutExpired:
            status = None
            done.kill()
        out = done.stdout.read().decode().strip()
    if status != 0 or not by_crypt("one", out):
        fault(f"an open pipe: {status} {out}")


def on_terminal(words):
    """What the program does where its input is a terminal, on which a line is typed."""
    near, far = pty.openpty()
    with subprocess.Popen([PWTOOL, "make"] + words, stdin=far, stdout=subprocess.PIPE, stderr=subprocess.PIPE) as done:
        os.close(far)
        os.write(near, b"typed\n")
        out, err = done.communicate(timeout=60)
    os.close(near)
    return done.returncode, out.decode().strip(), err.decode()


def try_terminal():
    status, out, err = on_terminal(["bcrypt", "--cost", "4"])
    if status != 64 or out or "stty -echo" not in err or err.count("\n") != 1:
        fault(f"terminal: {status} {out} {err}")
    status, out, err = on_terminal(["bcrypt", "--cost", "4", "--echo"])
    if status != 0 or not by_crypt("typed", out):
        fault(f"terminal with --echo: {status} {out} {err}")


def try_small_forms(rng):
    texts = b"$5$rounds=05000$saltstring$5B8vYYiY.CVt1RlTTf8KbXBH3hsxY/GNooZaBBGWEc5\nx\n\xff\n" + b"a" * 8193 + b"\n$5$a"
    data = bytes(rng.randrange(256) for _ in range(10_000))
    wrapped = subprocess.run([program("wrapstream"), "wrap", "64"], input=data, capture_output=True, check=False).stdout
    for ours, theirs, given in [
        (["normalize"], [program("pwcheck"), "normalize"], texts),
        (["wrap", "64"], [program("wrapstream"), "wrap", "64"], data),
        (["unwrap", "64"], [program("wrapstream"), "unwrap", "64"], wrapped),
        (["unwrap", "64"], [program("wrapstream"), "unwrap", "64"], wrapped[:500] + b"!" + wrapped[500:]),
        (["wrap", "4"], [program("wrapstream"), "wrap", "4"], b""),
    ]:
        one = run(ours, given)
        two = subprocess.run(theirs, input=given, capture_output=True, check=False)
        if (one.returncode, one.stdout) != (two.returncode, two.stdout):
            fault(f"{ours}: {one.returncode} beside {two.returncode}")
    for words in (["wrap", "3"], ["wrap", "065"], ["wrap"], ["unwrap", "65537"], ["normalize", "/none", "x"]):
        if run(words, b"").returncode != 64:
            fault(f"{words}: {run(words, b'')}")
    for form in ("make", "normalize", "wrap", "unwrap"):
        done = run([form, "--help"], b"")
        if done.returncode != 0 or f"pwtool {form}" not in done.stdout.decode():
            fault(f"{form} --help: {done}")


def main():
    texts = int(sys.argv[1]) if len(sys.argv) > 1 else 100
    rng = random.Random(int(sys.argv[2]) if len(sys.argv) > 2 else 1)
    for scheme in SCHEMES:
        try_scheme(scheme, texts, rng)
    try_defaults()
    try_refusals()
    try_open_pipe()
    try_terminal()
    try_small_forms(rng)
    print(f"{len(FAULTS)} wrong")
    sys.exit(1 if FAULTS else 0)


if __name__ == "__main__":
    main()
