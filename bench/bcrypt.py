#!/usr/bin/env python3
"""Times bcrypt beside libxcrypt, `htpasswd -B` and python3-bcrypt at the costs 5, 8, 10 and 12, in one run.

The batches are interleaved by rounds, and of each the least time counts. All hashes must agree. Ours is
bench/bcrypt_time.txt, the source of a program that calls `bcrypt_plain::bcrypt`; the script proves and builds it under
outside of the checkout, over the repository's crates. libxcrypt's crypt_r (libcrypt.so.1) is called through ctypes, python3-bcrypt as
a module of /usr/bin/python3 in a process of its own, whose clock it is. `htpasswd -nbB` draws its own salt: it is the
processor's time of a run less that of a run of the same program over a hash that costs little (`-s`). A peer that is
absent is skipped. The goal is at most 1.0 of libxcrypt's time. It installs nothing.

usage: bench/bcrypt.py [ROUNDS]      (8 if left out)
"""
import os
import resource
import shutil
import subprocess
import sys
import time

from building import built, need
from libxcrypt import crypt_r

PASSWORD = b"correct horse battery staple"
SALT = b"0123456789abcdef"
CHARACTERS = "./ABCDEFGHIJKLMNOPQRSTUVWXYZabcdefghijklmnopqrstuvwxyz0123456789"
BATCHES = {5: (60, 1), 8: (12, 1), 10: (6, 1), 12: (2, 1)}
MODULE = """
import sys, time, bcrypt
cost, batches, runs = map(int, sys.argv[1:4])
setting = sys.argv[4].encode()
for _ in range(batches):
    begin = time.perf_counter_ns()
    for _ in range(runs):
        text = bcrypt.hashpw(sys.argv[5].encode(), setting)
    print(cost, time.perf_counter_ns() - begin, text.decode()[29:])
"""


def setting(cost):
    bits = "".join(f"{byte:08b}" for byte in SALT) + "0000"
    return f"$2b${cost:02}$" + "".join(CHARACTERS[int(bits[i:i + 6], 2)] for i in range(0, 132, 6))


def lines_of(command):
    """The cost, the nanoseconds of a hash and its characters, of each batch that a program prints."""
    out = subprocess.run(command, capture_output=True, text=True, check=True).stdout
    rows = [line.split() for line in out.splitlines()]
    return [(int(cost), int(took) / BATCHES[int(cost)][1], field) for cost, took, field in rows]


def libxcrypt():
    call = crypt_r()

    def rows():
        made = []
        for cost, (batches, runs) in BATCHES.items():
            for _ in range(batches):
                begin = time.perf_counter_ns()
                for _ in range(runs):
                    text = call(PASSWORD, setting(cost).encode())
                made.append((cost, (time.perf_counter_ns() - begin) / runs, text.decode()[29:]))
        return made
    return rows


def python_bcrypt():
    command = ["/usr/bin/python3", "-c", MODULE]
    try:
        found = subprocess.run(command[:2] + ["import bcrypt"], capture_output=True, check=False).returncode == 0
    except OSError:
        found = False
    if not found:
        return None

    def rows():
        return [row for cost, (batches, runs) in BATCHES.items() for row in
                lines_of(command + [str(cost), str(batches), str(runs), setting(cost), PASSWORD.decode()])]
    return rows


def processor(command):
    before = resource.getrusage(resource.RUSAGE_CHILDREN)
    subprocess.run(command, capture_output=True, check=True)
    after = resource.getrusage(resource.RUSAGE_CHILDREN)
    return (after.ru_utime - before.ru_utime + after.ru_stime - before.ru_stime) * 1e9


def htpasswd():
    if shutil.which("htpasswd") is None:
        return None

    def rows():
        made = []
        for cost, (batches, _) in BATCHES.items():
            for _ in range(min(batches, 6)):
                base = processor(["htpasswd", "-nbs", "u", PASSWORD.decode()])
                made.append((cost, processor(["htpasswd", "-nbB", "-C", str(cost), "u", PASSWORD.decode()]) - base, None))
        return made
    return rows


def main():
    rounds = int(sys.argv[1]) if len(sys.argv) > 1 else 8
    program = built("bcrypt_time", "bcrypt_time.txt", "bcrypt_plain")
    names = {"ours": lambda: lines_of([program]), "libxcrypt": libxcrypt(), "htpasswd": htpasswd(),
             "python3-bcrypt": python_bcrypt()}
    names = {name: rows for name, rows in names.items() if rows}
    least, fields = {}, {cost: set() for cost in BATCHES}
    for _ in range(rounds):
        for name, rows in names.items():
            for cost, took, field in rows():
                least[name, cost] = min(least.get((name, cost), float("inf")), took)
                if field is not None:
                    fields[cost].add(field)
    for cost, found in fields.items():
        need(len(found) == 1, f"the hashes of cost {cost} disagree: {found}")
    print(f"milliseconds for a hash of bcrypt, least of {rounds} interleaved rounds, load {os.getloadavg()[0]:.1f}")
    print("cost  " + "  ".join(f"{name:>14}" for name in names) + "  "
          + "  ".join(f"{'to-' + name:>17}" for name in names if name != "ours"))
    for cost in BATCHES:
        ours = least["ours", cost]
        print(f"{cost:4}  " + "  ".join(f"{least[name, cost] / 1e6:14.3f}" for name in names) + "  "
              + "  ".join(f"{ours / least[name, cost]:17.3f}" for name in names if name != "ours"))
    met = all(least["ours", cost] <= least["libxcrypt", cost] for cost in BATCHES)
    print(f"goal, at most 1.0 of libxcrypt's at each cost: {'met' if met else 'not met'}")


main()
