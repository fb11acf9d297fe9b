#!/usr/bin/env python3
"""Brings 300 earlier SHA-crypt texts to their normal form by the built program, and compares the verdicts.

    bench/normal_texts.py [SEED]

The texts are made by libxcrypt (Python's module `crypt`) and altered to earlier spellings: a sign or leading zeros before
the rounds, bytes behind the sixteenth of the salt, `rounds=5000`; some are damaged. Whether an earlier text matches is
computed by bench/differ.py's steps with the earlier rules. `pwcheck normalize` must keep every line's place, and after it
`pwcheck check` must say `match` exactly where the earlier text matched, and so must a second `normalize` change nothing.
"""
import hashlib
import importlib.util
import os
import random
import re
import subprocess
import sys
import warnings

HERE = os.path.dirname(os.path.abspath(__file__))
sys.path = [folder for folder in sys.path if os.path.abspath(folder or ".") != HERE]
warnings.filterwarnings("ignore", category=DeprecationWarning)
import crypt  # noqa: E402

spec = importlib.util.spec_from_file_location("differ", os.path.join(HERE, "differ.py"))
differ = importlib.util.module_from_spec(spec)
spec.loader.exec_module(differ)


def matched_before(password, text):
    """Whether the earlier rules gave a match: one sign and leading zeros are read, a long salt is cut."""
    found = re.fullmatch(r"\$([56])\$(?:rounds=(\+?[0-9]+)\$)?([A-Za-z0-9./+=,-]+)\$([./0-9A-Za-z]+)", text)
    if not found:
        return False
    identifier, rounds, salt, field = found.groups()
    if rounds is None and salt.startswith("rounds="):
        return False
    rounds = int(rounds or 5000)
    if not 1000 <= rounds <= 999_999_999:
        return False
    hasher, places = {"5": (hashlib.sha256, differ.PLACES_256), "6": (hashlib.sha512, differ.PLACES_512)}[identifier]
    return differ.field(places, differ.sha_crypt(hasher, password.encode(), salt.encode(), rounds)) == field


def earlier(rng, password):
    identifier = rng.choice("56")
    salt = "".join(rng.choice(differ.CRYPT) for _ in range(rng.choice([1, 8, 16, 16])))
    rounds = rng.choice([None, 1000, 1042, 5000])
    text = crypt.crypt(password, f"${identifier}${f'rounds={rounds}$' if rounds else ''}{salt}$")
    field = text.rsplit("$", 1)[1]
    if len(salt) == 16 and rng.random() < 0.7:
        salt += "".join(rng.choice(differ.CRYPT) for _ in range(rng.randint(1, 20)))
    written = f"rounds={rng.choice(['', '0', '00', '+', '+0'])}{rounds}$" if rounds else ""
    text = f"${identifier}${written}{salt}${field}"
    if rng.random() < 0.15:
        place = rng.randrange(len(text))
        text = text[:place] + rng.choice("$=.A") + text[place + 1:]
    return text


def main():
    rng = random.Random(int(sys.argv[1]) if len(sys.argv) > 1 else 1)
    pairs = []
    for _ in range(300):
        password = "".join(rng.choice("abcXYZ 019!") for _ in range(rng.randint(1, 20)))
        pairs.append((password if rng.random() < 0.7 else password + "?", earlier(rng, password)))
    data = "".join(text + "\n" for _, text in pairs).encode()
    new = subprocess.run([differ.PROGRAM, "normalize"], input=data, stdout=subprocess.PIPE, check=False)
    again = subprocess.run([differ.PROGRAM, "normalize"], input=new.stdout, stdout=subprocess.PIPE, check=False)
    texts = new.stdout.decode().split("\n")[:-1]
    lines = "".join(f"{password}\t{text}\n" for (password, _), text in zip(pairs, texts)).encode()
    words = subprocess.run([differ.PROGRAM, "check"], input=lines, stdout=subprocess.PIPE, check=False).stdout.decode().split()
    before = [matched_before(password, text) for password, text in pairs]
    after = [word == "match" for word in words]
    wrong = [(pairs[i], texts[i]) for i in range(len(texts)) if before[i] != after[i]]
    changed = sum(old != text for (_, old), text in zip(pairs, texts))
    good = len(texts) == len(words) == 300 and new.returncode == again.returncode == 0 and again.stdout == new.stdout and not wrong
    print(f"300 texts, {changed} changed, {sum(before)} matched before, {sum(after)} match now, {len(wrong)} differ"
          f"{'' if good else ': WRONG'}")
    for pair, text in wrong:
        print(pair, text)
    return 0 if good else 1


sys.exit(main())
