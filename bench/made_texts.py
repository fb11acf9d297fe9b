#!/usr/bin/env python3
"""Hands texts that sha_crypt's simple calls make to libxcrypt's crypt, which must give them back.

It proves and builds bench/made_texts_ours.txt outside of the checkout over the repository's crates, and calls libcrypt.so.1 through
ctypes. It installs nothing.
"""
import subprocess
import sys

from building import built
from libxcrypt import crypt_r


def main():
    program = built("made_texts", "made_texts_ours.txt", "sha_crypt", "@rattle//crates/rand_core",
                    "@rattle//crates/rand_chacha")
    out = subprocess.run([program], capture_output=True, text=True, check=True).stdout
    call = crypt_r()
    lines = [line.rsplit("\t", 1) for line in out.splitlines()]
    wrong = [text for password, text in lines if call(password.encode(), text.encode()) != text.encode()]
    lengths = sorted({len(text) for _, text in lines})
    print(f"{len(lines)} texts of the lengths {lengths}, {len(wrong)} not given back by libxcrypt")
    for text in wrong:
        print(text)
    sys.exit(1 if wrong or len(lines) != 36 else 0)


if __name__ == "__main__":
    main()
