#!/usr/bin/env python3
"""Times Argon2id beside libargon2 with one thread, and with one lane beside libsodium, in one run.

Each call derives one tag of 32 bytes with memory taken afresh. The calls are interleaved, and of each the least time
counts. All tags must agree. Ours is bench/argon2_time.txt, the source of a program that calls `argon2_plain::argon2`; the
script proves and builds it outside of the checkout, over the repository's crates. The peers are called through ctypes, and one
that is absent is skipped: libargon2.so.1 (Debian's libargon2-1) and libsodium.so.23 (Debian's libsodium23).
It installs nothing.

usage: bench/argon2.py [ROUNDS]      (6 if left out)
"""
import ctypes
import subprocess
import sys
import time

import argon2_peer
from building import built, need

PASSWORD = b"pleaseletmein"
SALT = b"SodiumChloride!!"
COSTS = {65536: (3, 4), 19456: (2, 1), 1048576: (1, 4)}


def libargon2():
    library = argon2_peer.library()
    if library is None:
        return None

    def derive(m):
        t, p = COSTS[m]
        return argon2_peer.tag(library, 2, PASSWORD, SALT, b"", b"", t, m, p, 32)
    return derive


def libsodium():
    try:
        library = ctypes.CDLL("libsodium.so.23")
    except OSError:
        return None
    need(library.sodium_init() >= 0, "libsodium failed")
    call = library.crypto_pwhash
    call.argtypes = [ctypes.c_char_p, ctypes.c_ulonglong, ctypes.c_char_p, ctypes.c_ulonglong, ctypes.c_char_p,
                     ctypes.c_ulonglong, ctypes.c_size_t, ctypes.c_int]

    def derive(m):
        out = ctypes.create_string_buffer(32)
        need(call(out, 32, PASSWORD, len(PASSWORD), SALT, COSTS[m][0], m * 1024, 2) == 0, "libsodium failed")
        return out.raw
    return derive


def main():
    rounds = int(sys.argv[1]) if len(sys.argv) > 1 else 6
    program = built("argon2_time", "argon2_time.txt", "argon2_plain")
    peers = {"libargon2": libargon2(), "libsodium": libsodium()}
    least = {}
    tags = {m: set() for m in COSTS}
    for _round in range(rounds):
        out = subprocess.run([program], capture_output=True, text=True, check=True).stdout
        for line in out.splitlines():
            m, took, tag = line.split()
            tags[int(m)].add(tag)
            least[("ours", int(m))] = min(least.get(("ours", int(m)), 1e9), float(took) / 1e6)
        for name, derive in peers.items():
            for m in COSTS:
                if derive and (name == "libargon2" or COSTS[m][1] == 1):
                    for _run in range(4):
                        begin = time.perf_counter()
                        tag = derive(m)
                        took = time.perf_counter() - begin
                        tags[m].add(tag[:4].hex())
                        least[(name, m)] = min(least.get((name, m), 1e9), took)
    for m in COSTS:
        need(len(tags[m]) == 1, f"tags differ at {m} KiB: {tags[m]}")
        ours = least[("ours", m)]
        print(f"m={m},t={COSTS[m][0]},p={COSTS[m][1]}: ours {ours:.4f} s; " + "; ".join(
            f"{name} {least[(name, m)]:.4f} s, ratio {ours / least[(name, m)]:.2f}"
            for name in peers if (name, m) in least))


if __name__ == "__main__":
    main()
