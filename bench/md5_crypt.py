#!/usr/bin/env python3
"""Times md5-crypt beside libxcrypt and OpenSSL, in one run.

Each batch makes ten digests of one password, some 1.5 to 3 ms: short enough that on a loaded machine some batch runs
undisturbed. The batches are interleaved by sixties, and of each the least time counts. All hash fields must agree.

Ours is bench/md5_crypt_time.txt, the source of a program that calls `md5_crypt::md5_crypt`; the script proves and
builds it outside of the checkout, over the repository's crates. The peers are libxcrypt's crypt_r (libcrypt.so.1) for `$1$`,
through ctypes, and `openssl passwd -apr1`: the processor's time of a run over 400 lines less that of a run over one,
as its function can't be called from outside. The goals are at most 1.0 of libxcrypt's time and 0.35 of OpenSSL's. It
installs nothing.

usage: bench/md5_crypt.py [ROUNDS]      (8 if left out)
"""
import os
import resource
import subprocess
import sys
import time

from building import built, need
from libxcrypt import crypt_r

SALT = "saltsalt"
LENGTHS = [1, 8, 12, 16, 32, 64]
BATCHES = 60
RUNS = 10
LINES = 400
GOALS = {"libxcrypt": 1.0, "openssl": 0.35}


def ours(program):
    """The length, the nanoseconds of a digest and the hash field of each batch of a run of the program."""
    out = subprocess.run([program], capture_output=True, text=True, check=True).stdout
    lines = [line.split() for line in out.splitlines()]
    return [(int(length), int(took) / RUNS, field) for length, took, field in lines]


def libxcrypt():
    call = crypt_r()
    setting = ("$1$" + SALT).encode()

    def batches(length):
        password, made = b"p" * length, []
        for _ in range(BATCHES):
            begin = time.perf_counter_ns()
            for _ in range(RUNS):
                text = call(password, setting)
            made.append(((time.perf_counter_ns() - begin) / RUNS, text.decode().rsplit("$", 1)[1]))
        return made
    return batches


def openssl(length, lines):
    """The nanoseconds of the processor in which `openssl passwd` answers so many lines."""
    before = resource.getrusage(resource.RUSAGE_CHILDREN).ru_utime
    subprocess.run(["openssl", "passwd", "-apr1", "-salt", SALT, "-stdin"], input=("p" * length + "\n") * lines,
                   capture_output=True, text=True, check=True)
    return (resource.getrusage(resource.RUSAGE_CHILDREN).ru_utime - before) * 1e9


def main():
    rounds = int(sys.argv[1]) if len(sys.argv) > 1 else 8
    program, peer = built("md5_crypt_time", "md5_crypt_time.txt", "md5_crypt"), libxcrypt()
    names = ["ours", *GOALS]
    least = {(name, length): float("inf") for name in names for length in LENGTHS}
    for _ in range(rounds):
        fields = {}
        for length in LENGTHS:
            for took, field in peer(length):
                fields[length] = field
                least["libxcrypt", length] = min(least["libxcrypt", length], took)
            took = (openssl(length, LINES) - openssl(length, 1)) / (LINES - 1)
            least["openssl", length] = min(least["openssl", length], took)
        for length, took, field in ours(program):
            need(field == fields[length], "ours and libxcrypt disagree")
            least["ours", length] = min(least["ours", length], took)
    print(f"microseconds for a digest of md5-crypt, salt of 8 bytes, least of {rounds * BATCHES} interleaved batches of"
          f" {RUNS} (openssl: of {rounds} runs), load {os.getloadavg()[0]:.1f}")
    print("password    ours  libxcrypt  openssl  to-libxcrypt  to-openssl")
    for length in LENGTHS:
        took = [least[name, length] / 1e3 for name in names]
        print(f"{length:8}  {took[0]:6.1f}  {took[1]:9.1f}  {took[2]:7.1f}"
              f"  {took[0] / took[1]:12.2f}  {took[0] / took[2]:10.2f}")
    for name, goal in GOALS.items():
        met = all(least["ours", length] <= goal * least[name, length] for length in LENGTHS)
        print(f"goal, at most {goal} of {name}'s at each length: {'met' if met else 'not met'}")


main()
