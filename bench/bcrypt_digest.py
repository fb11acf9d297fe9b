#!/usr/bin/env python3
"""Texts of bcrypt with a digest in front: the definitions of crates/bcrypt_digest/specs, transcribed, beside libxcrypt and the makers' texts.

It checks the transcription on the texts of corpus/digest_texts.tsv, which the makers' own programs made (python3-passlib, python3-django;
WordPress's by its published form with PHP's own functions): by it each password matches its text, and the same with `~` in front
doesn't. bcrypt itself is libxcrypt's crypt. Then it asks `pwtool check` about these texts, and about so many damaged ones, under a bound
of cost 5: each word must be the transcription's. Django's texts have `$bcrypt-sha256-hex` in the place of `bcrypt_sha256$`.

A row of the corpus is a password in hexadecimal digits, a text, and the program and version that made it.

It needs the built program, by default crates/pwtool/out/pwtool, or what PWTOOL names; with `-` for it, the transcription alone runs. It
writes nothing.

usage: bench/bcrypt_digest.py [SEED [DAMAGED]]       (1 and 2000 if left out)
"""
import base64
import hashlib
import hmac
import os
import random
import subprocess
import sys

from libxcrypt import crypt_r

HERE = os.path.dirname(os.path.abspath(__file__))
PROGRAM = os.environ.get("PWTOOL", os.path.join(HERE, "..", "crates", "pwtool", "out", "pwtool"))
CRYPT = "./ABCDEFGHIJKLMNOPQRSTUVWXYZabcdefghijklmnopqrstuvwxyz0123456789"
MOST_COST = 5
crypt = crypt_r()


class Fault(Exception):
    pass


def need(condition, word):
    if not condition:
        raise Fault(word)


# ---- specs/Front

def front_text(front, salt, password):
    if front == "hex":
        return hashlib.sha256(password).hexdigest().encode()
    if front == "plain":
        return base64.b64encode(hashlib.sha256(password).digest())
    if front == "salted":
        return base64.b64encode(hmac.new(salt, password, hashlib.sha256).digest())
    return base64.b64encode(hmac.new(b"wp-sha384", password.strip(b" \t\n\r\0\x0b"), hashlib.sha384).digest())


# ---- bcrypt_plain's specs/Text

def cost_of(text):
    """The cost of a text of bcrypt, or its first fault."""
    pieces = text.split(b"$")
    need(pieces[0] == b"", "bcrypt-format")
    need(len(pieces) > 1 and pieces[1] in (b"2", b"2x", b"2a", b"2b", b"2y"), "bcrypt-format")
    need(pieces[1] not in (b"2", b"2x"), "bcrypt-obsolete")
    need(len(pieces) == 4, "bcrypt-format")
    cost, rest = pieces[2:]
    need(len(cost) == 2 and all(c in b"0123456789" for c in cost) and 4 <= int(cost) <= 31, "bcrypt-cost")
    need(len(rest) == 53, "bcrypt-format")
    values = [CRYPT.find(chr(c)) for c in rest]
    need(min(values) >= 0 and values[21] % 16 == 0 and values[52] % 4 == 0, "bcrypt-b64")
    return int(cost)


# ---- specs/Text

def beneath(front, text):
    need(len(text) == 60, "bcrypt-format")
    return front, text


def passlib_cost(text):
    need(len(text) in (1, 2) and all(c in b"0123456789" for c in text) and not (len(text) == 2 and text[:1] == b"0"), "bcrypt-cost")
    need(4 <= int(text) <= 31, "bcrypt-cost")
    return b"%02d" % int(text)


def passlib(rest):
    parameters, *pieces = rest.split(b"$")
    for start, front, name in ((b"v=2,t=2b,r=", "salted", b"2b"), (b"2b,", "plain", b"2b"), (b"2a,", "plain", b"2a")):
        if parameters.startswith(start):
            need(len(pieces) == 2, "bcrypt-format")
            cost = passlib_cost(parameters[len(start):])
            need(len(pieces[0]) == 22 and len(pieces[1]) == 31, "bcrypt-format")
            return front, b"$" + name + b"$" + cost + b"$" + pieces[0] + pieces[1]
    raise Fault("bcrypt-format")


def digest_parts(text):
    for start, front, name in ((b"$wp", "wordpress", b"$2y$"), (b"$bcrypt-sha256-hex", "hex", b"$2")):
        if text.startswith(start):
            rest = text[len(start):]
            need(rest.startswith(name), "bcrypt-format")
            return beneath(front, rest)
    need(text.startswith(b"$bcrypt-sha256$"), "bcrypt-format")
    return passlib(text[len(b"$bcrypt-sha256$"):])


# ---- the word

def word(password, text):
    identifier = (text.split(b"$") + [b""])[1] if b"$" in text else b""
    if identifier not in (b"wp", b"bcrypt-sha256", b"bcrypt-sha256-hex"):
        return None
    try:
        front, under = digest_parts(text)
        cost = cost_of(under)
    except Fault as fault:
        return str(fault)
    if cost > MOST_COST:
        return "too-costly"
    return "match" if crypt(front_text(front, under[7:29], password), under) == under else "mismatch"


def rows():
    with open(os.path.join(HERE, "corpus", "digest_texts.tsv"), encoding="utf-8") as file:
        for line in file:
            password, text, _ = line.rstrip("\n").split("\t")
            if text.startswith("bcrypt_sha256$"):
                text = "$bcrypt-sha256-hex" + text.removeprefix("bcrypt_sha256$")
            yield bytes.fromhex(password), text.encode()


def damaged(rng, text):
    """A text with one to three characters changed, left out or put in, or cut off, or with a piece left out or doubled."""
    for _ in range(rng.choice([1, 1, 1, 2, 3])):
        way, at, one = rng.randrange(6), rng.randrange(len(text)), bytes([rng.choice(b"$=,./0123459abrtvyzAZ+-")])
        if way < 2:
            text = text[:at] + one + text[at + 1:]
        elif way == 2:
            text = text[:at] + text[at + 1:]
        elif way == 3:
            text = text[:at] + one + text[at:]
        elif way == 4:
            text = text[:at]
        else:
            pieces = text.split(b"$")
            which = rng.randrange(len(pieces))
            text = b"$".join(pieces[:which] + rng.choice([[], [pieces[which]] * 2]) + pieces[which + 1:])
        if not text:
            return b"$wp"
    return text


def asked(lines):
    run = subprocess.run([PROGRAM, "check", "--quiet", "--max-bcrypt-cost", str(MOST_COST)], input=b"".join(line + b"\n" for line in lines),
                         stdout=subprocess.PIPE, check=False)
    return run.stdout.decode().split("\n")[:-1]


def main():
    seed, number = int(sys.argv[1]) if len(sys.argv) > 1 else 1, int(sys.argv[2]) if len(sys.argv) > 2 else 2000
    rng, known, faults = random.Random(seed), list(rows()), 0
    pairs = [(password, text) for password, text in known] + [(b"~" + password, text) for password, text in known]
    wanted = []
    for at, (password, text) in enumerate(pairs):
        got = word(password, text)
        right = "match" if at < len(known) else "mismatch"
        if got not in (right, "too-costly"):
            print(f"the transcription says {got} of {text!r}")
            faults += 1
        wanted.append(got)
    for _ in range(number):
        password, text = rng.choice(known)
        text = damaged(rng, text)
        got = word(password, text)
        if got is not None:
            pairs.append((password, text))
            wanted.append(got)
    if PROGRAM != "-":
        usable = [at for at, (password, text) in enumerate(pairs) if not set(password + text) & set(b"\t\n")]
        got = asked([pairs[at][0] + b"\t" + pairs[at][1] for at in usable])
        for at, answer in zip(usable, got, strict=True):
            if answer != wanted[at]:
                print(f"{pairs[at][1]!r}: pwtool says {answer}, the transcription {wanted[at]}")
                faults += 1
    counts = {answer: wanted.count(answer) for answer in sorted(set(wanted))}
    print(f"bcrypt_digest.py: {len(known)} texts of makers, {len(pairs) - 2 * len(known)} damaged ones; {counts}; {faults} faults")
    return 1 if faults else 0


if __name__ == "__main__":
    sys.exit(main())
