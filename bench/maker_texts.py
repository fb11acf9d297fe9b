#!/usr/bin/env python3
"""Asks `pwtool --from` about texts of twenty makers: those of their own programs (corpus/maker_texts.tsv), and the same with damage.

Each text that is read gets `match` for its password and `mismatch` for another by `check`, `match` by `join`, and its scheme by `survey`;
each other one gets the word of its first fault as makers.py, a transcription in Python, has it. Then 1,000 damaged texts of each maker:
a word of a fault must be the transcription's, and a text that is read must be answered as its stored text is without --from.

A row of the corpus is an option of --from, a password in hexadecimal digits, a text, and the program and version that made it. Where no
program was at hand, the text was made by the published form.

It needs the built program, by default crates/pwtool/out/pwtool, or what PWTOOL names. It writes into a folder of its own alone.

usage: bench/maker_texts.py [SEED] [DAMAGED]       (1 and 1000 if left out)
"""
import collections
import csv
import os
import random
import subprocess
import sys
import tempfile

HERE = os.path.dirname(os.path.abspath(__file__))
sys.path[:] = [folder for folder in sys.path if os.path.abspath(folder) != HERE]
import importlib.util

spec = importlib.util.spec_from_file_location("makers", os.path.join(HERE, "makers.py"))
makers = importlib.util.module_from_spec(spec)
spec.loader.exec_module(makers)

PROGRAM = os.environ.get("PWTOOL", os.path.join(HERE, "..", "crates", "pwtool", "out", "pwtool"))
# Bounds under which no damaged text costs much: those above get too-costly.
BOUNDS = ["--max-pbkdf2-rounds", "2000", "--max-scrypt-ln", "10", "--max-scrypt-r", "8", "--max-scrypt-p", "2", "--max-bcrypt-cost", "5",
          "--max-sha-rounds", "2000", "--max-argon2-memory", "1024", "--max-argon2-passes", "3", "--max-argon2-lanes", "4",
          "--max-yescrypt-ln", "8"]


# Identifiers that are read. passlib keeps others too, as `$scram$`: such a text is kept as it is, and has no scheme here.
READ = {"1", "5", "6", "7", "2a", "2b", "2y", "bcrypt-sha256", "bcrypt-sha256-hex", "wp", "y", "scrypt", "argon2i", "argon2d", "argon2id", "pbkdf2-sha256",
        "pbkdf2-sha512", "pbkdf2-sha1", "sha1", "scram-sha-256", "scram-sha-256-raw", "smd5", "ssha", "ssha256", "ssha512", "P", "H", "mysql"}


def ask(words, lines):
    run = subprocess.run([PROGRAM, *words], input=b"".join(line + b"\n" for line in lines), stdout=subprocess.PIPE, stderr=subprocess.PIPE, check=False)
    if run.returncode not in (0, 1):
        sys.exit(f"maker_texts.py: {words}: status {run.returncode}, {run.stderr.decode()!r}")
    return run.stdout.decode(errors="replace").split("\n")[:-1]


def rows():
    with open(os.path.join(HERE, "corpus", "maker_texts.tsv"), encoding="utf-8") as file:
        for line in file:
            maker, password, text, program = line.rstrip("\n").split("\t")
            yield maker, bytes.fromhex(password), text, program


def vectors(count, faults):
    """Each vector by `check`, and those that are read by `join` and `survey`."""
    for maker in makers.MAKERS:
        wanted, lines, told = [], [], []
        for name, password, text, _ in rows():
            if name != maker or b"\t" in password or b"\n" in password:
                continue
            kind, answer = makers.converted(maker, text)
            scheme = answer.split("$")[1] if kind == "text" else None
            if kind == "text" and scheme not in READ:
                scheme, answer = None, "no-scheme"
            # PostgreSQL prepares a password that isn't ASCII, which isn't done here.
            verdicts = ("not-ascii", "not-ascii") if scheme == "scram-sha-256" and not password.isascii() else ("match", "mismatch")
            wanted += verdicts if scheme in READ else [answer]
            lines += [password + b"\t" + text.encode(), b"~" + password + b"\t" + text.encode()] if scheme in READ else [password + b"\t" + text.encode()]
            told.append((password, text, scheme, verdicts[0] if scheme in READ else answer))
        compare(maker, "check", lines, wanted, ask(["check", "--quiet", "--from", maker], lines), count, faults)
        users = [f"user{at}" for at in range(len(told))]
        with tempfile.TemporaryDirectory() as folder:
            passwords = os.path.join(folder, "passwords")
            with open(passwords, "wb") as file:
                file.write(b"".join(user.encode() + b":" + password + b"\n" for user, (password, *_) in zip(users, told)))
            texts = [f"{user}:{text}".encode() for user, (_, text, *_) in zip(users, told)]
            wanted = [f"{user}\t{'locked' if text[:1] in '!*' and maker != 'mysql' else answer}"
                      for user, (_, text, scheme, answer) in zip(users, told)]
            compare(maker, "join", texts, wanted, ask(["join", "--quiet", "--from", maker, "-", passwords], texts), count, faults)
        got = [row[1] for row in csv.reader(ask(["survey", "--quiet", "--csv", "--from", maker], texts))][1:]
        names = {"1": "md5-crypt", "5": "sha256-crypt", "6": "sha512-crypt", "2a": "bcrypt", "2b": "bcrypt", "2y": "bcrypt",
                 "bcrypt-sha256": "bcrypt-digest", "bcrypt-sha256-hex": "bcrypt-digest", "wp": "bcrypt-digest", "y": "yescrypt", "sha1": "sha1-crypt", "scram-sha-256-raw": "scram-sha-256",
                 "P": "phpass", "H": "phpass", "mysql": "mysql-sha2", **dict.fromkeys(makers.DIGESTS, "salted-digest"), None: ""}
        compare(maker, "survey", texts, [names.get(scheme, scheme) for _, _, scheme, _ in told], got, count, faults)


def compare(maker, form, lines, wanted, got, count, faults):
    count[maker, form] += len(wanted)
    if len(got) != len(wanted):
        faults.append((maker, form, "lines", len(wanted), len(got)))
    faults += [(maker, form, line, want, word) for line, want, word in zip(lines, wanted, got) if want != word]


def damaged(rng, text):
    """A text with a character changed, left out, put in or doubled, cut off, or with two of its parts exchanged."""
    way, at = rng.randrange(6), rng.randrange(len(text) + 1)
    one = rng.choice("$:.{}=+/,0179aAfFgGzZ@-! \u00e9")
    if way == 0:
        return text[:at] + one + text[at + 1:]
    if way == 1:
        return text[:at] + text[at + 1:]
    if way == 2:
        return text[:at] + one + text[at:]
    if way == 3:
        return text[:at]
    mark = rng.choice("$:.")
    parts = text.split(mark)
    if way == 4:
        parts.insert(rng.randrange(len(parts) + 1), rng.choice(parts))
    else:
        a, b = rng.randrange(len(parts)), rng.randrange(len(parts))
        parts[a], parts[b] = parts[b], parts[a]
    return mark.join(parts)


def damage(rng, number, count, faults):
    for maker in makers.MAKERS:
        texts = [text for name, _, text, _ in rows() if name == maker]
        made = [damaged(rng, damaged(rng, rng.choice(texts)) if rng.random() < 0.3 else rng.choice(texts)) for _ in range(number)]
        lines, stored, wanted = [], [], []
        for text in made:
            kind, answer = makers.converted(maker, text)
            lines.append(b"secret\t" + text.encode())
            stored.append(b"secret\t" + (answer if kind == "text" else "").encode())
            wanted.append(answer if kind == "word" else None)
        plain = ask(["check", "--quiet", *BOUNDS], stored)
        wanted = [word if want is None else want for want, word in zip(wanted, plain)]
        compare(maker, "damaged", lines, wanted, ask(["check", "--quiet", *BOUNDS, "--from", maker], lines), count, faults)


def main():
    seed, number = (int(word) for word in (sys.argv[1:] + ["1", "1000"][len(sys.argv) - 1:])[:2])
    count, faults = collections.Counter(), []
    vectors(count, faults)
    damage(random.Random(seed), number, count, faults)
    for maker in makers.MAKERS:
        print(maker, *(f"{form} {count[maker, form]}" for form in ("check", "join", "survey", "damaged")), sep="\t")
    for fault in faults[:20]:
        print("differs:", *fault)
    print(f"{sum(count.values())} answers, {len(faults)} differ")
    sys.exit(1 if faults else 0)


main()
