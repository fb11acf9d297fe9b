#!/usr/bin/env python3
"""Times scrypt beside OpenSSL, libxcrypt and Debian's two libraries of scrypt, in one run.

Each call derives one key at ln = 14 or 16, r = 8, p = 1 with memory taken afresh. The calls are interleaved, and of
each the least time counts. All keys must agree, and at ln = 14 with RFC 7914, section 12.

Ours is bench/scrypt_time.txt, the source of a program that calls `scrypt_plain::scrypt`; the script proves and builds it
outside of the checkout, over the repository's crates. The peers are called through ctypes, and one that is absent is skipped:
    OpenSSL            Python's hashlib
    libxcrypt $7$      libcrypt.so.1 (Debian's libcrypt1)
    libscrypt          libscrypt.so.0 (Debian's libscrypt0)
    libscrypt-kdf      libscrypt-kdf.so.1 (Debian's libscrypt-kdf1, Tarsnap's code)
It installs nothing.

usage: bench/scrypt.py [ROUNDS]      (8 if left out)
"""
import ctypes
import hashlib
import subprocess
import sys
import time

from building import built, need
from libxcrypt import CHARACTERS, crypt_r

PASSWORD = b"pleaseletmein"
SALT = b"SodiumChloride"
LNS = [14, 16]
RUNS = 8
RFC = bytes.fromhex("7023bdcb3afd7348461c06cd81fd38ebfda8fbba904f8e3ea9b543f6545da1f2")
TAB = CHARACTERS.encode()


def openssl(ln):
    return hashlib.scrypt(PASSWORD, salt=SALT, n=1 << ln, r=8, p=1, maxmem=1 << 30, dklen=32)


def from_kdf(name, function):
    """A peer with the arguments of Tarsnap's crypto_scrypt, or None where its library is absent."""
    try:
        call = getattr(ctypes.CDLL(name), function)
    except (OSError, AttributeError):
        return None
    call.argtypes = [ctypes.c_char_p, ctypes.c_size_t, ctypes.c_char_p, ctypes.c_size_t,
                     ctypes.c_uint64, ctypes.c_uint32, ctypes.c_uint32, ctypes.c_char_p, ctypes.c_size_t]

    def derive(ln):
        key = ctypes.create_string_buffer(32)
        need(call(PASSWORD, len(PASSWORD), SALT, len(SALT), 1 << ln, 8, 1, key, 32) == 0, name + " failed")
        return key.raw
    return derive


def libxcrypt():
    """libxcrypt's $7$, whose salt is used as it stands; the 43 characters are the key, lowest bits first."""
    try:
        call = crypt_r()
    except (OSError, AttributeError):
        return None

    def derive(ln):
        setting = b"$7$" + TAB[ln:ln + 1] + b"6..../...." + SALT
        text = call(PASSWORD, setting)
        need(text is not None and text.startswith(setting + b"$"), "libxcrypt failed")
        characters = text[len(setting) + 1:]
        bits = sum(TAB.index(c) << 6 * i for i, c in enumerate(characters))
        return bits.to_bytes(33, "little")[:32]
    return derive


def ours(program):
    """The times and keys of a run of the program, by ln."""
    out = subprocess.run([program], capture_output=True, text=True, check=True).stdout
    return [(int(ln), float(took), key) for ln, took, key in (line.split() for line in out.splitlines())]


def timed(derive, ln):
    begin = time.perf_counter()
    key = derive(ln)
    return (time.perf_counter() - begin) * 1e6, key.hex()


def main():
    rounds = int(sys.argv[1]) if len(sys.argv) > 1 else 8
    program = built("scrypt_time", "scrypt_time.txt", "scrypt_plain")
    need(openssl(14) == RFC, "OpenSSL's key isn't that of RFC 7914")
    keys = {ln: openssl(ln).hex() for ln in LNS}
    peers = {"OpenSSL": openssl, "libxcrypt $7$": libxcrypt(),
             "libscrypt": from_kdf("libscrypt.so.0", "libscrypt_scrypt"),
             "libscrypt-kdf": from_kdf("libscrypt-kdf.so.1", "crypto_scrypt")}
    for name in [name for name, derive in peers.items() if derive is None]:
        print(name + " is absent and skipped")
        del peers[name]
    times = {(name, ln): [] for name in ["ours", *peers] for ln in LNS}
    for _ in range(rounds):
        for ln, took, key in ours(program):
            need(keys[ln].startswith(key), "our key is another")
            times["ours", ln].append(took)
        for name, derive in peers.items():
            for ln in LNS:
                for _ in range(RUNS):
                    took, key = timed(derive, ln)
                    need(key == keys[ln], name + "'s key is another")
                    times[name, ln].append(took)
    print(f"milliseconds for one key, r = 8, p = 1, least (median) of {rounds * RUNS} interleaved runs")
    for ln in LNS:
        base = min(times["OpenSSL", ln])
        for name in ["ours", *peers]:
            all_times = sorted(times[name, ln])
            print(f"ln={ln}  {name:14}  {all_times[0] / 1e3:7.1f}  ({all_times[len(all_times) // 2] / 1e3:7.1f})"
                  f"  to OpenSSL {all_times[0] / base:.2f}", flush=True)


if __name__ == "__main__":
    main()
