#!/usr/bin/env python3
"""The time of a login: each scheme at the cost that is recommended for a new text, by libpwcheck and by the library that one would replace.

    bench/logins.py [LIBRARY [ROUNDS]]      (dist/libpwcheck.so.1.1 and 7 rounds if left out)
    bench/logins.py --picture               writes docs/logins.svg from bench/logins.csv alone

Ours is pwcheck_check_any, which answers a text of the right password; theirs makes the same hash anew and has to give the same one. The calls are
interleaved, and of each the least processor time counts. It writes bench/logins.csv, with the processor, its instructions that matter, the commit and
the load, and draws docs/logins.svg. The peers are libxcrypt (libcrypt.so.1), OpenSSL (Python's hashlib) and libargon2.so.1; one that is absent is left out.
"""
import base64
import csv
import ctypes
import hashlib
import os
import subprocess
import sys
import time

from building import need
from pictures import picture, text

HERE = os.path.dirname(os.path.abspath(__file__))
TOP = os.path.dirname(HERE)
ROWS = os.path.join(HERE, "logins.csv")
PASSWORD, SALT = b"correct horse", b"0123456789abcdef"


def b64(data):
    return base64.b64encode(data).rstrip(b"=").decode()


def by_libxcrypt(setting):
    lib = ctypes.CDLL("libcrypt.so.1")
    lib.crypt.restype = ctypes.c_char_p
    return lambda: lib.crypt(PASSWORD, setting)


def by_openssl_scrypt():
    key = hashlib.scrypt(PASSWORD, salt=SALT, n=1 << 17, r=8, p=1, dklen=32, maxmem=1 << 28)
    return f"$scrypt$ln=17,r=8,p=1${b64(SALT)}${b64(key)}".encode()


def by_openssl_pbkdf2():
    key = hashlib.pbkdf2_hmac("sha256", PASSWORD, SALT, 600000, 32)
    return f"$pbkdf2-sha256$i=600000,l=32${b64(SALT)}${b64(key)}".encode()


def by_libargon2():
    lib = ctypes.CDLL("libargon2.so.1")
    out = ctypes.create_string_buffer(256)

    def call():
        size = ctypes.c_size_t
        done = lib.argon2id_hash_encoded(3, 65536, 4, PASSWORD, size(len(PASSWORD)), SALT, size(len(SALT)), size(32), out, size(256))
        need(done == 0, "libargon2 refuses")
        return out.value
    return call


PEERS = [
    ("Argon2id", "64 MiB, 3 passes", "libargon2", by_libargon2),
    ("yescrypt", "16 MiB", "libxcrypt", lambda: by_libxcrypt(b"$y$j9T$k2XAnEHBqQ1Ct2aMXFKNa/")),
    ("scrypt", "128 MiB", "OpenSSL", lambda: by_openssl_scrypt),
    ("bcrypt", "cost 12", "libxcrypt", lambda: by_libxcrypt(b"$2b$12$KBCwKxOzLha2MUDgW0PjXe")),
    ("PBKDF2-SHA-256", "600,000 rounds", "OpenSSL", lambda: by_openssl_pbkdf2),
    ("SHA-512-crypt", "656,000 rounds", "libxcrypt", lambda: by_libxcrypt(b"$6$rounds=656000$wJ8a1Xl0mQ3tYb7c")),
]


def ours(library, stored):
    lib = ctypes.CDLL(library)
    limits = (ctypes.c_uint32 * 13)(52, *[0xFFFFFFFF] * 12)

    def call():
        answer = lib.pwcheck_check_any(PASSWORD, ctypes.c_size_t(len(PASSWORD)), stored, ctypes.c_size_t(len(stored)), ctypes.byref(limits))
        need(answer == 0, f"{answer} for {stored[:20]}")
    return call


def least(calls, rounds):
    """The least processor time of each, in milliseconds."""
    best = [float("inf")] * len(calls)
    for _ in range(rounds):
        for place, call in enumerate(calls):
            start = time.process_time()
            call()
            best[place] = min(best[place], time.process_time() - start)
    return [1000 * seconds for seconds in best]


def machine():
    with open("/proc/cpuinfo", encoding="utf-8") as source:
        info = source.read()
    model = next((line.split(":", 1)[1].strip() for line in info.splitlines() if line.startswith("model name")), "an unknown processor")
    flags = next((line.split() for line in info.splitlines() if line.startswith("flags")), [])
    return model + ", " + " ".join(name for name in ("sha_ni", "avx2", "avx512f") if name in flags)


def measured(library, rounds):
    for scheme, cost, name, peer in PEERS:
        try:
            theirs = peer()
            stored = theirs()
        except OSError:
            print(f"logins.py: no {name}, so no {scheme}")
            continue
        own, other = least([ours(library, stored), theirs], rounds)
        print(f"{scheme}, {cost}: {own:.1f} ms, {name} {other:.1f} ms, {own / other:.2f}", flush=True)
        yield {"scheme": scheme, "cost": cost, "ours": f"{own:.1f}", "peer": name, "theirs": f"{other:.1f}"}


def rows():
    with open(ROWS, newline="", encoding="utf-8") as source:
        return list(csv.DictReader(source))


def drawn(rows):
    """Two bars a scheme: ours, and below it that of the peer."""
    left, unit = 230, 480 / max(float(row[key]) for row in rows for key in ("ours", "theirs"))
    parts = [text(10, 20, "The time of a login in milliseconds: shorter is faster"), text(10, 38, f"{rows[0]['machine']}; commit {rows[0]['commit']}; load {rows[0]['load']}", "small")]
    for place, row in enumerate(rows):
        y = 54 + 50 * place
        parts.append(text(10, y + 13, row["scheme"]))
        parts.append(text(10, y + 30, row["cost"], "small"))
        for step, (key, name, kind) in enumerate((("ours", "this", "bar"), ("theirs", row["peer"], "tip"))):
            width = unit * float(row[key])
            parts.append(f'<rect class="{kind}" x="{left}" y="{y + 19 * step}" width="{width:.0f}" height="15"/>')
            parts.append(text(left + width + 8, y + 12 + 19 * step, f"{row[key]} {name}", "small"))
    return picture(860, 60 + 50 * len(rows), parts)


def draw():
    with open(os.path.join(TOP, "docs", "logins.svg"), "w", encoding="utf-8") as out:
        out.write(drawn(rows()))


def main(words):
    if words != ["--picture"]:
        library = os.path.abspath(words[0] if words else os.path.join(TOP, "dist", "libpwcheck.so.1.1"))
        commit = subprocess.run(["git", "-C", TOP, "rev-parse", "--short", "HEAD"], capture_output=True, text=True, check=False).stdout.strip()
        told = [{**row, "machine": machine(), "commit": commit, "load": f"{os.getloadavg()[0]:.1f}"}
                for row in measured(library, int(words[1]) if len(words) > 1 else 7)]
        with open(ROWS, "w", newline="", encoding="utf-8") as out:
            writer = csv.DictWriter(out, list(told[0]))
            writer.writeheader()
            writer.writerows(told)
    draw()


if __name__ == "__main__":
    main(sys.argv[1:])
