#!/usr/bin/env python3
"""Asks both of yescrypt_plain and libxcrypt about each other's texts `$y$` and `$7$`.

200 texts of each form that libxcrypt's crypt makes of random passwords, salts and small costs must match their password,
and no other one; so must texts of each number of rows from 2^2 on with the largest rows within the bound on memory, and of
each count of crypt_gensalt, 1 to 11 for `$y$` and 6 to 11 for `$7$`; and 200 texts `$y$` that `yescrypt_text` makes must be
given back by libxcrypt. It proves and builds bench/yescrypt_texts_ours.txt outside of the checkout over the repository's crates,
and calls libcrypt.so.1 through ctypes. It takes up to 1 GiB and some minutes, and installs nothing.

usage: bench/yescrypt_texts.py [SEED]      (34 if left out)
"""
import random
import sys

from building import answers, built, need
from libxcrypt import CHARACTERS, crypt_field, crypt_r

COUNT = 200
LETTERS = [chr(c) for c in range(32, 127)] + list("äöüßéÿ€łжあ漢🔑")
GENSALT_Y = ["j75", "j85", "j7T", "j8T", "j9T", "jAT", "jBT", "jCT", "jDT", "jET", "jFT"]
GENSALT_7 = ["BU..../....", "CU..../....", "DU..../....", "EU..../....", "FU..../....", "GU..../...."]


def number(value):
    """A number above the least possible, as the reference of yescrypt writes it."""
    base, start, more = 0, 0, 0
    for end, size in ((48, 1), (56, 64), (60, 64 ** 2), (62, 64 ** 3), (63, 64 ** 4), (64, 64 ** 5)):
        if value < base + (end - start) * size:
            value -= base
            break
        base, start, more = base + (end - start) * size, end, more + 1
    return CHARACTERS[start + (value >> 6 * more)] + "".join(
        CHARACTERS[value >> 6 * k & 63] for k in reversed(range(more)))


def field(ln, r, t):
    return "j" + number(ln - 1) + number(r - 1) + (number(1) + number(t - 1) if t else "")


def five(value):
    return "".join(CHARACTERS[value >> 6 * k & 63] for k in range(5))


def password(rnd):
    return "".join(rnd.choice(LETTERS) for _ in range(rnd.choice([0, 1, 2, 3, 5, 8, 12, 16, 31, 32, 33, 55, 63, 64, 65, 90])))


def settings(rnd):
    """The settings of both forms: random ones, and those of each number of rows and of each count of crypt_gensalt."""
    y, seven = [], []
    for _ in range(COUNT):
        salt = crypt_field(rnd.randbytes(rnd.choice([1, 2, 3, 8, 16, 16, 16, 32, 63, 64])))
        y.append(f"$y${field(rnd.randint(2, 9), rnd.randint(1, 9), rnd.choice([0, 0, 0, 1, 2, 3]))}${salt}")
        salt = "".join(rnd.choice(CHARACTERS) for _ in range(rnd.choice([0, 1, 2, 8, 22, 22, 43, 86])))
        seven.append(f"$7${CHARACTERS[rnd.randint(2, 9)]}{five(rnd.randint(1, 9))}{five(rnd.randint(1, 4))}{salt}")
    y += [f"$y${field(ln, min(2 ** (23 - ln), 2 ** 15), 0)}${crypt_field(rnd.randbytes(16))}" for ln in range(2, 24)]
    y += [f"$y${name}${crypt_field(rnd.randbytes(16))}" for name in GENSALT_Y]
    seven += [f"$7${name}{crypt_field(rnd.randbytes(16))}" for name in GENSALT_7]
    return {"$y$": y, "$7$": seven}


def main():
    rnd = random.Random(int(sys.argv[1]) if len(sys.argv) > 1 else 34)
    program = built("yescrypt_texts", "yescrypt_texts_ours.txt", "yescrypt_plain", "pieces")
    call = crypt_r()

    def crypt(text, setting):
        return call(text.encode(), setting.encode()).decode()

    agree = True
    for form, rows in settings(rnd).items():
        theirs = [(word, crypt(word, setting)) for word, setting in ((password(rnd), row) for row in rows)]
        need(all(text.startswith(form) for _, text in theirs), "libxcrypt refused")
        right = answers(program, [f"{word}\t{text}" for word, text in theirs])
        wrong = answers(program, [f"{word}x\t{text}" for word, text in theirs[:COUNT]])
        print(f"texts {form} of libxcrypt: {len(theirs)}; right password: {right.count('match')} match; of the first"
              f" {COUNT}, with a wrong password: {wrong.count('mismatch')} mismatch")
        agree = agree and right.count("match") == len(theirs) and wrong.count("mismatch") == COUNT
    words = [(password(rnd), field(rnd.randint(2, 9), rnd.randint(1, 9), rnd.choice([0, 1, 2, 3]))) for _ in range(COUNT)]
    ours = answers(program, [f"{word}\t{name} {'s' * rnd.randint(1, 64)}" for word, name in words])
    back = sum(crypt(word, text) == text for (word, _), text in zip(words, ours))
    print(f"texts $y$ of ours: {COUNT}; given back by libxcrypt: {back}")
    sys.exit(0 if agree and back == COUNT else 1)


if __name__ == "__main__":
    main()
