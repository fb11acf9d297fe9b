#!/usr/bin/env python3
"""Runs the definitions of crates/scram_plain/specs, transcribed word for word, beside PostgreSQL.

It starts a server of its own on a socket in a folder of the temporary files. First PostgreSQL makes texts of random passwords, and the
definitions have to answer them: a match for an ASCII password, `NotAscii` for another. Then texts of the definition, of random rounds and
salts, become passwords of a role: PostgreSQL has to keep such a text as it is, and to let a client of libpq in with its password alone. The
client compares the server key, and the server the stored key. Last come texts in which a key is another password's, or characters are changed,
left out or put in. A text without a fault lets a client in exactly where the definition says match. Texts with a fault are counted by whether
PostgreSQL keeps them too: it reads rounds as C's strtol, and a salt of any length. Texts that name more than MOST rounds are not hashed.
The script runs no code of ours. As root it runs the server as the user `postgres`.

usage: bench/scram.py [SEED [TEXTS]]      (1 and 300 if left out)
"""
import base64
import ctypes
import glob
import hashlib
import os
import random
import re
import shutil
import subprocess
import sys
import tempfile

from building import need
from libxcrypt import edited

LENGTHS = [1, 2, 7, 8, 16, 31, 32, 33, 55, 56, 63, 64, 65, 80, 128, 255, 300]
SALTS = [1, 2, 3, 8, 15, 16, 16, 17, 32, 46, 47, 48]
ROUNDS = [1, 1, 2, 3, 9, 10, 100, 255, 1000]
MOST = 5000
DAMAGED = 4
FORM = r"SCRAM-SHA-256\$([^$:]*):([^$:]*)\$([^$:]*):([^$:]*)"
BASE64 = "ABCDEFGHIJKLMNOPQRSTUVWXYZabcdefghijklmnopqrstuvwxyz0123456789+/"


class Fault(Exception):
    pass


def so(condition, name):
    if not condition:
        raise Fault(name)


# ---- hmac_plain's specs/Hmac, and pbkdf2_key's specs/Pbkdf2

def sha256(message):
    return hashlib.sha256(message).digest()


def short_key(key):
    return sha256(key) if 64 < len(key) else key


def block_key(key):
    return short_key(key) + bytes(64 - len(short_key(key)))


def xor_bytes(some, others):
    return bytes(x ^ y for x, y in zip(some, others))


def hmac_sha256(key, text):
    block = block_key(key)
    return sha256(xor_bytes(block, b"\x5c" * 64) + sha256(xor_bytes(block, b"\x36" * 64) + text))


def output_block(password, salt, i, rounds):
    code, block = salt + i.to_bytes(4, "big"), bytes(32)
    for _ in range(rounds):
        code = hmac_sha256(password, code)
        block = xor_bytes(block, code)
    return block


# ---- specs/Keys

def salted_password(password, salt, rounds):
    return output_block(password, salt, 1, rounds)


def stored_key(salted):
    return sha256(hmac_sha256(salted, b"Client Key"))


def server_key(salted):
    return hmac_sha256(salted, b"Server Key")


# ---- specs/Text, and the encoding that it names

def encoding(some):
    return base64.b64encode(some)


def decoding(text):
    """The bytes whose encoding a text is."""
    values = [BASE64.find(chr(c)) for c in text.rstrip(b"=")]
    bits = "".join(f"{v:06b}" for v in values) if -1 not in values else ""
    found = bytes(int(bits[i:i + 8], 2) for i in range(0, len(bits) - 7, 8))
    return found if encoding(found) == text else None


def identifier(preparation):
    return {"SaslPrep": b"scram-sha-256", "Raw": b"scram-sha-256-raw"}[preparation]


def leaves(preparation, password):
    return preparation == "Raw" or all(c < 128 for c in password)


def text_fields(text):
    front, *others = text.split(b"$")
    so(front == b"", "NoDollar")
    named = [p for p in ("SaslPrep", "Raw") if others and others[0] == identifier(p)]
    so(named, "WrongId")
    pieces = others[1:]
    for count, fault in enumerate(["NoRounds", "NoSalt", "NoStoredKey", "NoServerKey"]):
        so(len(pieces) > count, fault)
    so(len(pieces) == 4, "Trailing")
    return named[0], *pieces


def rounds_of(text):
    return int(text) if re.fullmatch(rb"[1-9][0-9]*", text) and int(text) < 2 ** 32 else None


def salt_of(text):
    so(1 <= len(text) <= 64, "SaltLength")
    found = decoding(text)
    so(found is not None, "SaltEncoding")
    return found


def key_of(name, text):
    so(len(text) == 44, name + "Length")
    found = decoding(text)
    so(found is not None and len(found) == 32, name + "Encoding")
    return found


def text_parts(text):
    preparation, rounds, salt, stored, server = text_fields(text)
    rounds = rounds_of(rounds)
    so(rounds is not None, "Rounds")
    return preparation, rounds, salt_of(salt), key_of("StoredKey", stored), key_of("ServerKey", server)


# ---- specs/Check

def scram_answer(password, text):
    preparation, rounds, salt, stored, server = text_parts(text)
    so(leaves(preparation, password), "NotAscii")
    salted = salted_password(password, salt, rounds)
    return stored_key(salted) == stored and server_key(salted) == server


def text_of(preparation, rounds, salt, stored, server):
    return b"$".join([b"", identifier(preparation), b"%d" % rounds, encoding(salt), encoding(stored), encoding(server)])


def answer(password, text):
    try:
        return scram_answer(password, text)
    except Fault as fault:
        return str(fault)


# ---- PostgreSQL

class Libpq:
    """The calls of libpq that a client needs."""

    def __init__(self, host):
        self.calls, self.host = ctypes.CDLL("libpq.so.5"), host
        for name in ("PQconnectdbParams", "PQexec"):
            getattr(self.calls, name).restype = ctypes.c_void_p
        self.calls.PQgetvalue.restype = ctypes.c_char_p

    def connected(self, user, password):
        """A connection; None where the server refuses it, or where the client refuses the server's signature."""
        words = {b"host": self.host.encode(), b"dbname": b"postgres", b"user": user, b"password": password, b"client_encoding": b"UTF8"}
        rows = [(ctypes.c_char_p * 6)(*some, None) for some in (words.keys(), words.values())]
        link = ctypes.c_void_p(self.calls.PQconnectdbParams(*rows, 0))
        if self.calls.PQstatus(link) == 0:
            return link
        self.calls.PQfinish(link)
        return None

    def asked(self, link, command):
        """The first value of what a command gives; None where it gives no row."""
        rows = ctypes.c_void_p(self.calls.PQexec(link, command))
        status = self.calls.PQresultStatus(rows)
        need(status in (1, 2), f"PostgreSQL refuses {command}")
        value = self.calls.PQgetvalue(rows, 0, 0) if status == 2 else None
        self.calls.PQclear(rows)
        return value

    def enters(self, password):
        link = self.connected(b"tried", password)
        if link:
            self.calls.PQfinish(link)
        return link is not None


class Server:
    """A server in a folder of its own, where `postgres` needs no password and any other role one by SCRAM."""

    def __enter__(self):
        found = sorted(glob.glob("/usr/lib/postgresql/*/bin/initdb"))
        need(found, "no PostgreSQL server is installed")
        self.programs, self.folder = os.path.dirname(found[-1]), tempfile.mkdtemp(prefix="scram-")
        self.owner = {"user": "postgres", "group": "postgres", "extra_groups": []} if os.getuid() == 0 else {}
        if self.owner:
            shutil.chown(self.folder, "postgres", "postgres")
        self.run("initdb", "-A", "trust", "-U", "postgres", "-E", "UTF8", "--locale=C", "-N")
        with open(os.path.join(self.folder, "data", "pg_hba.conf"), "w", encoding="utf-8") as rules:
            rules.write("local all postgres trust\nlocal all all scram-sha-256\n")
        self.run("pg_ctl", "-w", "-s", "-l", os.path.join(self.folder, "log"), "-o",
                 f"-c listen_addresses= -c unix_socket_directories={self.folder} -c fsync=off", "start")
        return self.folder

    def run(self, program, *words):
        subprocess.run([os.path.join(self.programs, program), "-D", os.path.join(self.folder, "data"), *words], check=True, cwd="/",
                       stdout=subprocess.DEVNULL, **self.owner)

    def __exit__(self, *_):
        self.run("pg_ctl", "-w", "-s", "-m", "immediate", "stop")
        shutil.rmtree(self.folder)


class Role:
    """The role whose password is set and tried."""

    def __init__(self, libpq):
        self.libpq, self.link = libpq, libpq.connected(b"postgres", b"")
        need(self.link, "the server lets nobody in")
        libpq.asked(self.link, b"create role tried login")

    def kept(self, password):
        """What the server stores for a password, or for a text that it may take for a stored one."""
        self.libpq.asked(self.link, b"alter role tried password '%s'" % password.replace(b"'", b"''"))
        return self.libpq.asked(self.link, b"select rolpassword from pg_authid where rolname = 'tried'")


def of_postgresql(text):
    """Our text of one in PostgreSQL's form; None where it has another form."""
    found = re.fullmatch(FORM, text.decode())
    return "$".join(["", "scram-sha-256", *found.groups()]).encode() if found else None


def in_postgresql(text):
    rounds, salt, stored, server = text.split(b"$")[2:]
    return b"SCRAM-SHA-256$%s:%s$%s:%s" % (rounds, salt, stored, server)


# ---- what is compared

def random_password(rnd, most):
    return bytes(rnd.randrange(1, most) for _ in range(rnd.choice(LENGTHS)))


def compare_made(rnd, role):
    """The answers to a text that PostgreSQL makes, of ASCII letters or of others."""
    ascii_one = rnd.random() < 0.7
    password = random_password(rnd, 128) if ascii_one else "".join(rnd.choice("aZ\u00e4\u00aa\u2168\u00ad\u5bc6\ufb01") for _ in range(8)).encode()
    text = of_postgresql(role.kept(password))
    need(text, f"PostgreSQL makes another form of {password}")
    wanted = True if leaves("SaslPrep", password) else "NotAscii"
    need(answer(password, text) == wanted, f"another answer than {wanted}: {password} {text}")
    need(answer(b"x" + password, text) in (False, "NotAscii"), f"a match of another password: {password} {text}")


def other_text(rnd, password, salt, rounds):
    """A text of the definition in which a key is another password's, or all are."""
    salted, other = salted_password(password, salt, rounds), salted_password(password + b"x", salt, rounds)
    keys = rnd.choice([(stored_key(other), server_key(salted)), (stored_key(salted), server_key(other)), (stored_key(other), server_key(other)),
                       (server_key(salted), stored_key(salted))])
    return in_postgresql(text_of("SaslPrep", rounds, salt, *keys))


def other_form(rnd, text):
    """A text with other rounds, another salt, or a key that is longer, shorter or spelled otherwise."""
    rounds, salt, stored, server = re.fullmatch(FORM, text.decode()).groups()
    keys = [encoding(bytes(32) + b"x"), encoding(bytes(31)), stored[:-2].encode() + b"A=", stored.encode()[:-1]]
    kind = rnd.randrange(4)
    if kind == 0:
        rounds = rnd.choice(["0", "00", "01", "+1", " 1", "1 ", "-1", "4294967295", "4294967296", "4294967297", "", "9" * 30])
    elif kind == 1:
        salt = rnd.choice([encoding(bytes(rnd.choice([49, 50, 64, 99]))).decode(), "", "AB==", "A", "AAAA\n", "AA=="])
    elif kind == 2:
        stored = rnd.choice(keys).decode()
    else:
        server = rnd.choice(keys).decode()
    return f"SCRAM-SHA-256${rounds}:{salt}${stored}:{server}".encode()


def changed(rnd, text):
    def place(text):
        return rnd.choice([0, 13, 14, 15, 16, len(text) - 1, len(text) - 2, len(text) - 44, len(text) - 45, len(text) - 46, rnd.randrange(len(text) + 1)])
    return edited(rnd, text, place, BASE64 + "0001$$::=== -\n")


def compare(role, password, stored):
    """What the definition answers to a text in PostgreSQL's form, and whether PostgreSQL keeps the text."""
    text = of_postgresql(stored)
    if text is None:
        return "another form"
    number = rounds_of(text.split(b"$")[2])
    if number is not None and number > MOST:
        return "dear"
    said, kept = answer(password, text), role.kept(stored) == stored
    if isinstance(said, bool):
        need(kept, f"PostgreSQL keeps no such text: {stored}")
        need(role.libpq.enters(password) == said, f"PostgreSQL disagrees: {said} {password} {stored}")
    return f"{said}, kept" if kept and not isinstance(said, bool) else str(said)


def main():
    rnd = random.Random(int(sys.argv[1]) if len(sys.argv) > 1 else 1)
    count = int(sys.argv[2]) if len(sys.argv) > 2 else 300
    answers = {}
    with Server() as folder:
        role = Role(Libpq(folder))
        for _ in range(count):
            compare_made(rnd, role)
            password, salt, rounds = random_password(rnd, 128), rnd.randbytes(rnd.choice(SALTS)), rnd.choice(ROUNDS)
            salted = salted_password(password, salt, rounds)
            text = in_postgresql(text_of("SaslPrep", rounds, salt, stored_key(salted), server_key(salted)))
            need(compare(role, password, text) == "True", f"no match: {password} {text}")
            need(not role.libpq.enters(password + b"x"), f"PostgreSQL lets another password in: {password} {text}")
            others = [text, other_text(rnd, password, salt, rounds), other_form(rnd, text)] + [changed(rnd, text) for _ in range(DAMAGED)]
            for other in others:
                said = compare(role, password, other)
                answers[said] = answers.get(said, 0) + 1
    print(f"{count} texts of PostgreSQL and {count} of the definition match their passwords alone, in both")
    print(f"{sum(answers.values())} answers, of which each verdict is PostgreSQL's: " + ", ".join(f"{said} {times}" for said, times in sorted(answers.items())))


main()
