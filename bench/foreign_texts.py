#!/usr/bin/env python3
"""Asks `pwtool` about texts that Django's own hashers and passlib make on the spot: every answer must be as the maker says.

For each foreign spelling (django, ldap, passlib) it makes 300 texts of random passwords with random salts and costs, by
each maker in turn whose texts are read, and ten by each whose texts aren't. Each is asked about its password or another;
the maker's own check says which. Then
    pwtool check --from SPELLING           answers lines of a password, a tab and a text,
    pwtool check --users --from SPELLING   the same behind a user,
    pwtool join --from SPELLING            a file of users and texts beside one of users and passwords, and
    pwtool survey --from SPELLING          tells the scheme of each text.
The right password must get `match`, the wrong one `mismatch`, and a text of a scheme that isn't read its word. It prints a
table of makers.

It needs the program, which
    (cd crates/pwtool && rt run </dev/null)
proves and builds as crates/pwtool/out/pwtool, and of the system's Python python3-django, python3-passlib, python3-argon2
and python3-bcrypt. It writes into a folder of its own alone.

usage: /usr/bin/python3 bench/foreign_texts.py [SEED] [COUNT]      (1 and 300 if left out)
"""
import os
import sys

HERE = os.path.dirname(os.path.abspath(__file__))
# Files beside this one are named as modules are that others import (base64, bcrypt, scrypt, argon2).
sys.path[:] = [folder for folder in sys.path if os.path.abspath(folder) != HERE]

import random
import subprocess
import tempfile
import warnings

warnings.simplefilter("ignore")

import argon2
import django
from django.conf import settings

settings.configure()
django.setup()

import passlib
from django.contrib.auth import hashers
from passlib import hash as of_passlib

PROGRAM = os.environ.get("PWTOOL", os.path.join(HERE, "..", "crates", "pwtool", "out", "pwtool"))
ALPHABET = "abcdefghijklmnopqrstuvwxyzABCDEFGHIJKLMNOPQRSTUVWXYZ0123456789 .,:;!$#/{}\\'\"äöüßéñ€漢字\U0001F511"
SALT = "abcdefghijklmnopqrstuvwxyzABCDEFGHIJKLMNOPQRSTUVWXYZ0123456789"


def need(condition, text):
    if not condition:
        sys.exit("foreign_texts.py: " + text)


def password(rng):
    """One to fifteen characters, at most 60 bytes: bcrypt reads 72."""
    return "".join(rng.choice(ALPHABET) for _ in range(rng.randint(1, 15)))


def salt(rng, characters=SALT, least=8, most=40):
    return "".join(rng.choice(characters) for _ in range(rng.randint(least, most)))


# ---- makers: a name, the scheme that a survey tells or the word where the text isn't read, and two functions, from a
# generator of numbers and a password to a text, and from a password and a text to whether they belong together

def django_maker(name, scheme, hasher, make):
    return name, scheme, make, lambda word, text: hasher.verify(word, text)


def changed(hasher, **numbers):
    """A hasher of Django with other costs."""
    return type(hasher.__name__, (hasher,), numbers)()


def of_django():
    pbkdf2 = hashers.PBKDF2PasswordHasher()
    bcrypt = changed(hashers.BCryptPasswordHasher, rounds=4)
    bcrypt_sha256 = changed(hashers.BCryptSHA256PasswordHasher, rounds=4)

    def pbkdf2_text(rng, word, characters=SALT, most=40):
        return pbkdf2.encode(word, salt(rng, characters, 8, most), rng.randint(1, 3000))

    def argon2_text(rng, word):
        hasher = changed(hashers.Argon2PasswordHasher, time_cost=rng.randint(1, 3), memory_cost=rng.randint(64, 300),
                         parallelism=rng.randint(1, 4))
        return hasher.encode(word, salt(rng, SALT, 8, 22))

    return [
        django_maker("pbkdf2_sha256", "pbkdf2-sha256", pbkdf2, pbkdf2_text),
        # A salt of Django may be any characters but `$`: these are of two to four bytes each.
        django_maker("pbkdf2_sha256, salt not ASCII", "pbkdf2-sha256", pbkdf2,
                     lambda rng, word: pbkdf2_text(rng, word, "äöü€漢\U0001F511", 12)),
        django_maker("argon2", "argon2", hashers.Argon2PasswordHasher(), argon2_text),
        django_maker("bcrypt", "bcrypt", bcrypt, lambda rng, word: bcrypt.encode(word, bcrypt.salt())),
        django_maker("bcrypt_sha256", "bcrypt-digest", bcrypt_sha256,
                     lambda rng, word: bcrypt_sha256.encode(word, bcrypt_sha256.salt())),
        django_maker("pbkdf2_sha1", "pbkdf2-sha1", hashers.PBKDF2SHA1PasswordHasher(),
                     lambda rng, word: hashers.PBKDF2SHA1PasswordHasher().encode(word, salt(rng, SALT, 8, 40), rng.randint(1, 3000))),
        django_maker("sha1", "unsupported-sha1", hashers.SHA1PasswordHasher(),
                     lambda rng, word: hashers.SHA1PasswordHasher().encode(word, salt(rng))),
        django_maker("md5", "unsupported-md5", hashers.MD5PasswordHasher(),
                     lambda rng, word: hashers.MD5PasswordHasher().encode(word, salt(rng))),
    ]


def passlib_maker(name, scheme, hasher, costs=lambda rng: {}):
    return name, scheme, lambda rng, word: hasher.using(**costs(rng)).hash(word), hasher.verify


def rounds(least, most, **more):
    return lambda rng: {"rounds": rng.randint(least, most), **more}


def of_ldap():
    h = of_passlib

    def argon2_text(rng, word):
        hasher = argon2.PasswordHasher(time_cost=rng.randint(1, 3), memory_cost=rng.randint(64, 300),
                                       parallelism=rng.randint(1, 4), type=rng.choice(list(argon2.Type)))
        return "{ARGON2}" + hasher.hash(word)

    def argon2_verify(word, text):
        try:
            return argon2.PasswordHasher().verify(text[len("{ARGON2}"):], word)
        except argon2.exceptions.VerifyMismatchError:
            return False

    return [
        passlib_maker("{PBKDF2-SHA256}", "pbkdf2-sha256", h.ldap_pbkdf2_sha256,
                      lambda rng: {"rounds": rng.randint(1, 3000), "salt_size": rng.randint(8, 48)}),
        passlib_maker("{PBKDF2-SHA512}", "pbkdf2-sha512", h.ldap_pbkdf2_sha512,
                      lambda rng: {"rounds": rng.randint(1, 3000), "salt_size": rng.randint(8, 48)}),
        ("{ARGON2}", "argon2", argon2_text, argon2_verify),
        passlib_maker("{CRYPT}$5$", "sha256-crypt", h.ldap_sha256_crypt, rounds(1000, 3000)),
        passlib_maker("{CRYPT}$6$", "sha512-crypt", h.ldap_sha512_crypt, rounds(1000, 3000)),
        passlib_maker("{CRYPT}$1$", "md5-crypt", h.ldap_md5_crypt),
        passlib_maker("{CRYPT}$2b$", "bcrypt", h.ldap_bcrypt, rounds(4, 5, ident="2b")),
        passlib_maker("{CRYPT} of DES", "unsupported-des-crypt", h.ldap_des_crypt),
        passlib_maker("{MD5}", "salted-digest", h.ldap_md5),
        passlib_maker("{SHA}", "salted-digest", h.ldap_sha1),
        *(passlib_maker("{" + tag + "}", "salted-digest", hasher, lambda rng: {"salt_size": rng.randint(4, 16)})
          for tag, hasher in (("SMD5", h.ldap_salted_md5), ("SSHA", h.ldap_salted_sha1), ("SSHA256", h.ldap_salted_sha256),
                              ("SSHA512", h.ldap_salted_sha512))),
        passlib_maker("{PBKDF2}", "pbkdf2-sha1", h.ldap_pbkdf2_sha1,
                      lambda rng: {"rounds": rng.randint(1, 3000), "salt_size": rng.randint(8, 48)}),
    ]


def of_others():
    h = of_passlib
    h.argon2.set_backend()
    return [
        passlib_maker("pbkdf2_sha256", "pbkdf2-sha256", h.pbkdf2_sha256,
                      lambda rng: {"rounds": rng.randint(1, 3000), "salt_size": rng.randint(8, 48)}),
        passlib_maker("pbkdf2_sha512", "pbkdf2-sha512", h.pbkdf2_sha512,
                      lambda rng: {"rounds": rng.randint(1, 3000), "salt_size": rng.randint(8, 48)}),
        passlib_maker("argon2", "argon2", h.argon2,
                      lambda rng: {"rounds": rng.randint(1, 3), "memory_cost": rng.randint(64, 300),
                                   "parallelism": rng.randint(1, 4), "type": rng.choice(["i", "d", "id"])}),
        passlib_maker("scrypt", "scrypt", h.scrypt,
                      lambda rng: {"rounds": rng.randint(2, 8), "block_size": rng.randint(1, 8)}),
        passlib_maker("bcrypt", "bcrypt", h.bcrypt, rounds(4, 5, ident="2b")),
        passlib_maker("sha256_crypt", "sha256-crypt", h.sha256_crypt, rounds(1000, 3000)),
        passlib_maker("sha512_crypt", "sha512-crypt", h.sha512_crypt, rounds(1000, 3000)),
        passlib_maker("md5_crypt", "md5-crypt", h.md5_crypt),
        passlib_maker("apr_md5_crypt", "md5-crypt", h.apr_md5_crypt),
        passlib_maker("pbkdf2_sha1", "pbkdf2-sha1", h.pbkdf2_sha1,
                      lambda rng: {"rounds": rng.randint(1, 3000), "salt_size": rng.randint(8, 48)}),
        passlib_maker("bcrypt_sha256", "bcrypt-digest", h.bcrypt_sha256, rounds(4, 5)),
        passlib_maker("bcrypt_sha256, version 1", "bcrypt-digest", h.bcrypt_sha256, lambda rng: {"rounds": rng.randint(4, 5), "version": 1}),
        passlib_maker("des_crypt", "unsupported-scheme", h.des_crypt),
    ]


SPELLINGS = {"django": of_django, "ldap": of_ldap, "passlib": of_others}


# ---- rows

def row_of(rng, maker, is_right):
    """A maker's name, its scheme, a password, a text, and whether its maker says that both belong together."""
    name, scheme, make, verify = maker
    word = password(rng)
    text = make(rng, word)
    need("\t" not in text and "\n" not in text and ":" not in text, f"{name} makes {text!r}")
    asked = word if is_right else password(rng) + "x"
    return name, scheme, asked, text, bool(verify(asked, text))


def rows_of(rng, makers, count):
    read = [maker for maker in makers if not maker[1].startswith("unsupported-")]
    rows = [row_of(rng, read[k % len(read)], k // len(read) % 2 == 0) for k in range(count)]
    return rows + [row_of(rng, maker, k % 2 == 0) for maker in makers if maker not in read for k in range(10)]


def wanted(scheme, belongs):
    return scheme if scheme.startswith("unsupported-") else "match" if belongs else "mismatch"


# ---- runs

def told(words, text, status):
    run = subprocess.run([PROGRAM, *words], input=text.encode(), capture_output=True, check=False)
    need(run.returncode == status, f"pwtool {' '.join(words)} ended with {run.returncode}: {run.stderr.decode()}")
    return run.stdout.decode().split("\n")[:-1]


def same(spelling, form, rows, answers):
    need(len(answers) == len(rows), f"{spelling}, {form}: {len(answers)} answers to {len(rows)} lines")
    for (name, scheme, asked, text, belongs), answer in zip(rows, answers):
        need(answer == wanted(scheme, belongs), f"{spelling}, {form}: {answer} for {name}, {asked!r}, {text}")


def run_check(spelling, rows):
    lines = "".join(f"{asked}\t{text}\n" for _, _, asked, text, _ in rows)
    same(spelling, "check", rows, told(["check", "--quiet", "--from", spelling], lines, 1))
    lines = "".join(f"u{k}:{asked}\t{text}\n" for k, (_, _, asked, text, _) in enumerate(rows))
    answers = told(["check", "--users", "--quiet", "--from", spelling], lines, 1)
    same(spelling, "users", rows, [answer.removeprefix(f"u{k}\t") for k, answer in enumerate(answers)])


def run_join(spelling, rows, folder):
    texts, words = os.path.join(folder, "texts"), os.path.join(folder, "passwords")
    with open(texts, "w", encoding="utf-8") as out:
        out.writelines(f"u{k}:{row[3]}:19000:0:99999:7:::\n" for k, row in enumerate(rows))
    # Once with the smaller file of texts, once with the smaller one of passwords.
    for more in (0, 200 * len(rows)):
        with open(words, "w", encoding="utf-8") as out:
            out.writelines(f"u{k}:{row[2]}\n" for k, row in enumerate(rows))
            out.writelines(f"nobody{k}:x\n" for k in range(more))
        answers = told(["join", "--quiet", "--from", spelling, texts, words], "", 1)
        same(spelling, "join", rows, [answer.removeprefix(f"u{k}\t") for k, answer in enumerate(answers)])


def run_survey(spelling, rows):
    lines = "".join(f"u{k}:{row[3]}:19000\n" for k, row in enumerate(rows))
    columns, *answers = told(["survey", "--csv", "--quiet", "--from", spelling], lines, 1)
    need(columns == "user,scheme,cost,judgement", f"{spelling}, survey: the columns are {columns}")
    need(len(answers) == len(rows), f"{spelling}, survey: {len(answers)} rows for {len(rows)} lines")
    for (name, scheme, _, text, _), answer in zip(rows, answers):
        cells = answer.split(",")
        if scheme.startswith("unsupported-"):
            need(cells[1] == "" and cells[-1].startswith("unsupported: "), f"{spelling}, survey: {answer} for {name}, {text}")
        else:
            need(cells[1].startswith(scheme), f"{spelling}, survey: {answer} for {name}, {text}")


def main():
    rng = random.Random(int(sys.argv[1]) if len(sys.argv) > 1 else 1)
    count = int(sys.argv[2]) if len(sys.argv) > 2 else 300
    need(os.access(PROGRAM, os.X_OK), f"{PROGRAM} isn't there: (cd crates/pwtool && rt run </dev/null) makes it")
    print(f"Django {django.__version__}, passlib {passlib.__version__}, argon2-cffi {argon2.__version__}")
    for spelling, makers in SPELLINGS.items():
        rows = rows_of(rng, makers(), count)
        with tempfile.TemporaryDirectory() as folder:
            run_check(spelling, rows)
            run_join(spelling, rows, folder)
            run_survey(spelling, rows)
        for name in dict.fromkeys(row[0] for row in rows):
            of_name = [row for row in rows if row[0] == name]
            words = [wanted(row[1], row[4]) for row in of_name]
            kinds = ", ".join(f"{word} {words.count(word)}" for word in dict.fromkeys(sorted(words)))
            print(f"{spelling:8} {name:30} {kinds}")
        print(f"{spelling}: all {len(rows)} texts have the right answer, in check, users, join and survey")


main()
