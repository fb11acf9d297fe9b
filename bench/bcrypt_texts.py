#!/usr/bin/env python3
"""Asks both of bcrypt_plain and libxcrypt about each other's texts, at the costs 4 and 5.

300 texts that libxcrypt's crypt makes of random passwords and salts, with the identifiers 2a, 2b and 2y in turn, must
match their password, and no other one, by `bcrypt_check`; and 300 texts that `bcrypt_simple` makes must be given back by
libxcrypt for their password. It proves and builds bench/bcrypt_texts_ours.txt outside of the checkout over the repository's
crates, and calls libcrypt.so.1 through ctypes. It installs nothing.
"""
import random
import sys

from building import answers, built, need
from libxcrypt import crypt_r

COUNT = 300
CHARACTERS = "./ABCDEFGHIJKLMNOPQRSTUVWXYZabcdefghijklmnopqrstuvwxyz0123456789"
LETTERS = [chr(c) for c in range(32, 127)] + list("äöüßéÿ€ łжあ漢🔑")
LENGTHS = [0, 1, 2, 3, 4, 5, 7, 8, 12, 16, 17, 24, 35, 36, 54, 55, 56, 57, 63, 64, 70, 71, 72, 73, 90, 128]


def password(rnd, most):
    length = rnd.choice([n for n in LENGTHS if n <= most])
    text = ""
    while True:
        letter = rnd.choice(LETTERS)
        if len((text + letter).encode()) > length:
            return text
        text += letter


def main():
    rnd = random.Random(20)
    program = built("bcrypt_texts", "bcrypt_texts_ours.txt", "bcrypt_plain", "pieces", "@rattle//crates/rand_core",
                    "@rattle//crates/rand_chacha")
    call = crypt_r()

    def crypt(text, setting):
        return call(text.encode(), setting.encode()).decode()

    theirs = []
    for k in range(COUNT):
        salt = "".join(rnd.choice(CHARACTERS) for _ in range(21)) + rnd.choice(".Oeu")
        right = password(rnd, 128)
        theirs.append((right, crypt(right, f"${['2a', '2b', '2y'][k % 3]}$0{4 + k % 2}${salt}")))
    need(all(len(text) == 60 for _, text in theirs), "libxcrypt refused")
    right = answers(program, [f"{word}\t{text}" for word, text in theirs])
    # another first letter: a longer password may have the same first 72 bytes
    wrong = answers(program, [f"{'X' if word[:1] != 'X' else 'Y'}{word[1:]}\t{text}" for word, text in theirs])
    print(f"texts of libxcrypt: {COUNT}; right password: {right.count('match')} match; wrong password:"
          f" {wrong.count('mismatch')} mismatch")
    words = [password(rnd, 72) for _ in range(COUNT)]
    ours = answers(program, [f"{word}\t{4 + k % 2}" for k, word in enumerate(words)])
    back = sum(crypt(word, text) == text for word, text in zip(words, ours))
    other = sum(crypt(word + "x", text) != text for word, text in zip(words, ours) if len(word.encode()) < 72)
    shorter = sum(len(word.encode()) < 72 for word in words)
    print(f"texts of ours: {COUNT}; given back by libxcrypt: {back}; of another password: {other} of {shorter} not given"
          " back")
    agree = right.count("match") == wrong.count("mismatch") == back == COUNT and other == shorter
    sys.exit(0 if agree else 1)


if __name__ == "__main__":
    main()
