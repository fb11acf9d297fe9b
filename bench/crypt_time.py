#!/usr/bin/env python3
"""The time of a call of crypt_r: libpwcrypt beside libxcrypt, in one run, each call in turn.

    bench/crypt_time.py LIBRARY [ROUNDS]      (libpwcrypt.so.1; 15 rounds if left out)

For each method a setting as crypt_gensalt or a distribution makes it. Printed are the least processor times of both, and their ratio.
"""
import ctypes
import os
import sys
import time

SETTINGS = [
    ("`$1$`", b"$1$saltsalt", 20),
    ("`$5$`, 5,000 rounds", b"$5$saltsaltsaltsalt", 1),
    ("`$6$`, 5,000 rounds", b"$6$saltsaltsaltsalt", 1),
    ("`$2b$05$`", b"$2b$05$abcdefghijklmnopqrstuu", 1),
    ("`$2b$10$`", b"$2b$10$abcdefghijklmnopqrstuu", 1),
    ("`$y$j9T$`", b"$y$j9T$saltsaltsaltsaltsalt..", 1),
    ("`$7$CU..../....`", b"$7$CU..../....saltsaltsaltsalt", 1),
    ("`$sha1`, 20,000 rounds", b"$sha1$20000$saltsaltsaltsalt", 1),
]


def caller(name):
    call = ctypes.CDLL(name).crypt_r
    call.argtypes = [ctypes.c_char_p, ctypes.c_char_p, ctypes.c_void_p]
    call.restype = ctypes.c_char_p
    data = ctypes.create_string_buffer(32768)
    return lambda setting: call(b"correct horse battery", setting, data)


def main():
    if len(sys.argv) < 2:
        sys.exit(__doc__)
    rounds = int(sys.argv[2]) if len(sys.argv) > 2 else 15
    calls = [caller(os.path.abspath(sys.argv[1])), caller("libcrypt.so.1")]
    print("| Setting | libpwcrypt | libxcrypt | ratio |\n|---|---|---|---|")
    for name, setting, times in SETTINGS:
        texts = [call(setting) for call in calls]
        if texts[0] != texts[1]:
            sys.exit(f"{name}: {texts}")
        least = [float("inf")] * 2
        for _ in range(rounds):
            for i, call in enumerate(calls):
                start = time.process_time()
                for _ in range(times):
                    call(setting)
                least[i] = min(least[i], (time.process_time() - start) / times)
        print(f"| {name} | {least[0] * 1e3:.3f} ms | {least[1] * 1e3:.3f} ms | {least[0] / least[1]:.2f} |")
    return 0


if __name__ == "__main__":
    sys.exit(main())
