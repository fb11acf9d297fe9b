#!/usr/bin/env python3
"""Times the checks of `$y$` and `$7$` beside libxcrypt's crypt_r, in one run.

Each call checks one password: ours by a table of its own (`yescrypt_check`, `scrypt_check`) and by a kept one, which serves
the next text too (`yescrypt_check_kept`, `scrypt_check_kept`); libxcrypt's by crypt_r, which maps a table for each call.
The calls are interleaved by rounds, and of each the least time counts. All texts must agree. Ours is
bench/yescrypt_time.txt, the source of a program that the script proves and builds outside of the checkout, over the repository's
crates. libcrypt.so.1 is called through ctypes. It takes up to 1 GiB, and installs nothing.

usage: bench/yescrypt.py [ROUNDS]      (5 if left out)
"""
import os
import subprocess
import sys
import time

from building import built, need
from libxcrypt import crypt_r

# the setting, the calls of a round, and the goal as a ratio
ROWS = {"$y$j9T$": (12, 0.92), "$y$jFT$": (1, 1.0), "$7$CU..../....": (3, 1.0)}
SALT = "aaaaaaaaaaaaaaaaaaaaa/"


def main():
    rounds = int(sys.argv[1]) if len(sys.argv) > 1 else 5
    program = built("yescrypt_time", "yescrypt_time.txt", "yescrypt_plain", "base64ct")
    call = crypt_r()
    least = {}
    for _ in range(rounds):
        out = subprocess.run([program], capture_output=True, text=True, check=True).stdout
        texts = {}
        for line in out.splitlines():
            text, table, took, found = line.split(maxsplit=3)
            row = next(name for name in ROWS if text.startswith(name + SALT))
            need(found == "Ok(())", f"{text}: {found}")
            texts[row] = text
            least[row, table] = min(least.get((row, table), float("inf")), int(took) / 1e6)
        for row, (calls, _) in ROWS.items():
            for _call in range(calls):
                begin = time.perf_counter_ns()
                same = call(b"pw", texts[row].encode()) == texts[row].encode()
                took = (time.perf_counter_ns() - begin) / 1e6
                need(same, f"libxcrypt disagrees at {row}")
                least[row, "peer"] = min(least.get((row, "peer"), float("inf")), took)
    print(f"milliseconds for a check, least of {rounds} interleaved rounds, load {os.getloadavg()[0]:.1f}")
    for row, (_, goal) in ROWS.items():
        own, kept, peer = (least[row, name] for name in ("own", "kept", "peer"))
        print(f"{row:16} own table {own:9.2f} ({own / peer:.2f}), kept table {kept:9.2f} ({kept / peer:.2f}), libxcrypt"
              f" {peer:9.2f}; goal {goal}: {'met' if own <= goal * peer else 'met with a kept table' if kept <= goal * peer else 'not met'}")


if __name__ == "__main__":
    main()
