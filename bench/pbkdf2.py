#!/usr/bin/env python3
"""Times PBKDF2 with HMAC-SHA-256 and with HMAC-SHA-512 beside OpenSSL and Python's hashlib, in one run.

Each batch derives one key of 32 bytes with 2,000 rounds, some 1 to 2 ms: short enough that on a loaded machine some batch
runs undisturbed. The batches are interleaved by sixties, and of each the least time counts. All keys must agree.

Ours is bench/pbkdf2_time.txt, the source of a program that calls `pbkdf2_sha256` and `pbkdf2_sha512` of `pbkdf2_plain`; the
script proves and builds it outside of the checkout, over the repository's crates. The peers are PKCS5_PBKDF2_HMAC of libcrypto.so.3, through ctypes,
and Python's hashlib. The goal is at most 0.92 of the time of each, with either hash function. It installs nothing.

usage: bench/pbkdf2.py [ROUNDS]      (8 if left out)
"""
import ctypes
import hashlib
import os
import subprocess
import sys
import time

from building import built, need

PASSWORD = b"p" * 8
SALT = b"saltsalt"
COUNT = 2000
BATCHES = 60
GOAL = 0.92
HASHES = ("sha256", "sha512")


def openssl(name):
    """PKCS5_PBKDF2_HMAC of OpenSSL's library, with a hash function."""
    library = ctypes.CDLL("libcrypto.so.3")
    of_name = getattr(library, "EVP_" + name)
    of_name.restype = ctypes.c_void_p
    call = library.PKCS5_PBKDF2_HMAC
    call.argtypes = [ctypes.c_char_p, ctypes.c_int, ctypes.c_char_p, ctypes.c_int, ctypes.c_int,
                     ctypes.c_void_p, ctypes.c_int, ctypes.c_char_p]
    digest = of_name()
    key = ctypes.create_string_buffer(32)

    def derive():
        need(call(PASSWORD, len(PASSWORD), SALT, len(SALT), COUNT, digest, 32, key) == 1, "OpenSSL failed")
        return key.raw
    return derive


def ours(program):
    """The hash function, the time and the key of each batch of a run of the program."""
    out = subprocess.run([program], capture_output=True, text=True, check=True).stdout
    return [(name, int(took), bytes.fromhex(key)) for name, took, key in (line.split() for line in out.splitlines())]


def batches(derive):
    """The same of a function for each hash function."""
    made = []
    for _ in range(BATCHES):
        for name in HASHES:
            begin = time.perf_counter_ns()
            key = derive[name]()
            made.append((name, time.perf_counter_ns() - begin, key))
    return made


def main():
    rounds = int(sys.argv[1]) if len(sys.argv) > 1 else 8
    program = built("pbkdf2_time", "pbkdf2_time.txt", "pbkdf2_plain")
    peer = {name: openssl(name) for name in HASHES}
    by_hashlib = {name: lambda name=name: hashlib.pbkdf2_hmac(name, PASSWORD, SALT, COUNT, 32) for name in HASHES}
    calls = {"ours": lambda: ours(program), "OpenSSL": lambda: batches(peer), "hashlib": lambda: batches(by_hashlib)}
    keys = {name: by_hashlib[name]() for name in HASHES}
    least = {(who, name): float("inf") for who in calls for name in HASHES}
    for _ in range(rounds):
        for who, call in calls.items():
            for name, took, key in call():
                need(key == keys[name], f"{who}'s key of {name} is another")
                least[who, name] = min(least[who, name], took / COUNT)
    print(f"nanoseconds a round of PBKDF2, least of {rounds * BATCHES} interleaved batches of {COUNT} rounds,"
          f" load {os.getloadavg()[0]:.1f}")
    for (who, name), took in least.items():
        print(f"{name}  {who:8}  {took:6.0f}" + ("" if who == "ours" else f"  ours to it {least['ours', name] / took:.2f}"))
    for name in HASHES:
        for who in ["OpenSSL", "hashlib"]:
            met = least["ours", name] <= GOAL * least[who, name]
            print(f"{name}: goal, at most {GOAL} of {who}'s: {'met' if met else 'not met'}")


main()
