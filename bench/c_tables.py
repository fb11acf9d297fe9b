#!/usr/bin/env python3
"""The time of calls on large tables: builds of the C libraries beside each other and beside libargon2 and libxcrypt, each call in turn.

    bench/c_tables.py [--rounds N] [--only WORD] LIBRARY..      (9 rounds if left out)

A LIBRARY is a build of libpwcheck or of libpwcrypt, as dist/libpwcheck.so.1.1 and dist/x86-64-v3/libpwcheck.so.1.1. Each makes the text or tag of
one password, memory taken and given back within the call; all of a row have to agree. Printed are the least processor times, and each as a part
of the first library's and of the peer's. The peers run with one thread: libargon2.so.1 and libcrypt.so.1; one that is absent is left
out. Run it on a core of its own, as by chrt -f 50 taskset -c 3.
"""
import base64
import ctypes
import os
import sys
import time

import argon2_peer
from building import need

PASSWORD, SALT = b"pleaseletmein", b"SodiumChloride!!"
ARGON2 = [(1024, 2, 1), (2048, 2, 1), (4096, 2, 1), (8192, 2, 1), (19456, 2, 1), (65536, 3, 4), (1048576, 1, 4)]
CRYPT = ["$1$saltsalt", "$5$saltsaltsaltsalt", "$6$saltsaltsaltsalt", "$2b$05$abcdefghijklmnopqrstuu", "$y$j9T$saltsaltsaltsaltsalt..",
         "$7$CU..../....saltsaltsaltsalt", "$y$jFT$saltsaltsaltsaltsalt.."]
PBKDF2, BCRYPT = 20000, 5


def number(n):
    return ctypes.c_uint32(n)


def by_maker(library, name, costs):
    """A maker of libpwcheck, which gives a text."""
    call = getattr(library, name)
    out, length = ctypes.create_string_buffer(123), ctypes.c_size_t()

    def run():
        status = call(PASSWORD, ctypes.c_size_t(len(PASSWORD)), SALT, ctypes.c_size_t(len(SALT)), *map(number, costs), out, ctypes.c_size_t(123),
                      ctypes.byref(length))
        need(status == 0, f"{name} answers {status}")
        return out.raw[:length.value].decode()
    return run


def by_crypt(library, setting):
    library.crypt_r.restype = ctypes.c_char_p
    data = ctypes.create_string_buffer(32768)
    return lambda: library.crypt_r(PASSWORD, setting.encode(), data).decode()


def by_libargon2(memory, passes, lanes):
    library = argon2_peer.library()

    def run():
        tag = argon2_peer.tag(library, 2, PASSWORD, SALT, b"", b"", passes, memory, lanes, 32)
        fields = [base64.b64encode(part).decode().rstrip("=") for part in (SALT, tag)]
        return f"$argon2id$v=19$m={memory},t={passes},p={lanes}${fields[0]}${fields[1]}"
    return run if library else None


def rows(libraries):
    """The name of each row, the calls of the libraries, and that of the peer."""
    if all(hasattr(library, "crypt_r") for library in libraries):
        for setting in CRYPT:
            yield setting, [by_crypt(library, setting) for library in libraries], by_crypt(ctypes.CDLL("libcrypt.so.1"), setting)
        return
    for costs in ARGON2:
        yield "argon2id m={},t={},p={}".format(*costs), [by_maker(lib, "pwcheck_argon2id_text", costs) for lib in libraries], by_libargon2(*costs)
    for name, call, costs in [("yescrypt 16 MiB", "pwcheck_yescrypt_text", (12, 32, 0)), ("scrypt 16 MiB", "pwcheck_scrypt_text", (14, 8, 1)),
                              ("scrypt 128 MiB", "pwcheck_scrypt_text", (17, 8, 1)), (f"bcrypt {BCRYPT}", "pwcheck_bcrypt_text", (BCRYPT,)),
                              (f"pbkdf2-sha256 {PBKDF2}", "pwcheck_pbkdf2_sha256_text", (PBKDF2,))]:
        yield name, [by_maker(lib, call, costs) for lib in libraries], None


def least(calls, rounds):
    """The least processor time of each, in milliseconds; what they give is the same."""
    best, given = [float("inf")] * len(calls), set()
    for turn in range(rounds):
        for place in range(len(calls)) if turn % 2 else reversed(range(len(calls))):
            start = time.process_time()
            text = calls[place]()
            best[place] = min(best[place], 1000 * (time.process_time() - start))
            given.add(text)
    need(len(given) == 1, f"they give {given}")
    return best


def main():
    words, rounds, only = sys.argv[1:], 9, ""
    while words[:1] in (["--rounds"], ["--only"]):
        rounds, only = (int(words[1]), only) if words[0] == "--rounds" else (rounds, words[1])
        words = words[2:]
    need(words, __doc__)
    libraries = [ctypes.CDLL(os.path.abspath(path)) for path in words]
    for name, calls, peer in rows(libraries):
        if only not in name:
            continue
        times = least([*calls, *([peer] if peer else [])], rounds)
        parts = [f"{took:.3f} ms ({took / times[0]:.2f}" + (f"; {took / times[-1]:.2f} of the peer" if peer else "") + ")" for took in times[:len(calls)]]
        print(f"{name}: " + ", ".join(parts) + (f"; peer {times[-1]:.3f} ms" if peer else ""), flush=True)


if __name__ == "__main__":
    main()
