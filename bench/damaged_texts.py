#!/usr/bin/env python3
"""Asks `pwtool survey` and `pwtool check` about damaged texts of every scheme: they must agree on each.

It damages texts that outside programs made (openssl, libxcrypt, passlib, the program argon2, hashlib, slappasswd, Dovecot, 389-ds,
htpasswd), COUNT in all: one to
three characters of a text are changed, left out, doubled, put in or exchanged, or the text is cut, or a field of it is left
out or doubled. Of each damaged text
    pwtool survey           tells a judgement, and
    pwtool check --max-..   answers it with a password, under bounds so low that no dear text is hashed.
A text with a verdict (`match`, `mismatch` or `too-costly`) must be `ok` or `weak: ..`, one of `no-scheme` `unsupported: ..`,
and each other must be `invalid`. It prints how many of each scheme there were, and ends with 1 where one differs.

It needs the program, which
    (cd crates/pwtool && rt run </dev/null)
proves and builds as crates/pwtool/out/pwtool; PWTOOL names another. It writes nothing.

usage: python3 bench/damaged_texts.py [SEED] [COUNT]      (1 and 12000 if left out)
"""
import collections
import os
import random
import subprocess
import sys

HERE = os.path.dirname(os.path.abspath(__file__))
PROGRAM = os.environ.get("PWTOOL", os.path.join(HERE, "..", "crates", "pwtool", "out", "pwtool"))
# No text that is asked for more is hashed.
BOUNDS = ["--max-sha-rounds", "1000", "--max-bcrypt-cost", "4", "--max-yescrypt-ln", "8", "--max-scrypt-ln", "5", "--max-scrypt-p", "2",
          "--max-pbkdf2-rounds", "1000", "--max-argon2-memory", "128", "--max-argon2-passes", "3"]
CHARACTERS = "./+=,$-abcdefghijklmnopqrstuvwxyzABCDEFGHIJKLMNOPQRSTUVWXYZ0123456789"
# The password of each is `secret`, but for that of the text `$7$`, whose is `pleaseletmein`.
TEXTS = {
    "md5-crypt": ["$1$abcdefgh$cHJi5PXp/ki/ktXzqlk6I1", "$apr1$abcdefgh$h9FWgUz3n9YxylKLlR5SQ/"],
    "sha256-crypt": ["$5$abcdefgh$gruCpC7VkOTspMQTTSAR8mtlO9Upms.fwqE5y16JVM.",
                     "$5$rounds=1500$abcdefgh$qXUmNmbLEOn5YPWvewYoPCAAHp5vzLn73xcpCUC256C"],
    "sha512-crypt": ["$6$abcdefgh$ltjgWl6579NluT/Vi1nwEvcil.G5Nbc4NiXZaNGStk8PSwGfQv72N2CKPPrVACtLtip/cZ/1GM/O6IND4WQhG."],
    "bcrypt": ["$2b$04$abcdefghijklmnopqrstuu2r9OfJnfCsdneAXAGHnS4UpFFP8WIrW",
               "$2y$05$abcdefghijklmnopqrstuuOQiyCxlgf/oeuTqixKmWdcYUh4Hjl0a"],
    "bcrypt-digest": ["$bcrypt-sha256$v=2,t=2b,r=4$abcdefghijklmnopqrstuu$m8phM5HLiIEvmH7mK6Z5Wd.AC8vC0.y",
                      "$bcrypt-sha256$2b,5$73zp3UbEDtKCA3/c0gbi5O$Ou1TgC1rvZCXN/vwc3Yg1rFcB4042Hm",
                      "$bcrypt-sha256-hex$2b$04$abcdefghijklmnopqrstuuraR8y8jUb0UMmCc9fwl/YxKZSpSs52u",
                      "$wp$2y$04$abcdefghijklmnopqrstuuEeHkRZpI6C0z7R9xxYj6cAAQJttpxEy"],
    "scram-sha-256": ["$scram-sha-256$19$c2FsdHNhbHRzYWx0$yKryWWaEJIQZh+JLbGHI0L6CiAe9Z/A045jMaYLvY5Q=$m68IZJjNEbv8HGR356PYAHysNh90ZvhvCDdy6qKIKYw=",
                      "$scram-sha-256-raw$20$c2FsdHNhbHRzYWx0$RdX4ARLvYgtG49yrH5Ad+1cSP6sX3ne7wcvyE05dWd8=$nqZeGYnz3lpZ+Z9cF+fW31+zlAed1+TSM+lgpSCnf7Q="],
    "phpass": ["$P$63CSgRZlssLJbqxzpCXYPhDoROG16t0", "$H$5abcdefghRQTwXLGkACWdXkqlmTP.k1"],
    "mysql-sha2": ["$mysql$A$005*091F0C4838086B4A107B1D52524C7B084B4C3407*3576313333324C494456316E3243426A5A594F706E4B477263396B702F73426A4145764F6B566C64565030"],
    "salted-digest": ["$smd5$eqxaag==$8HSBkgbWtU2ZNtAT/chuyA==", "$ssha$kYts+A==$N/O7ZPYFWQ9QtdpxAglBt23rONc=",
                      "$ssha$$5en6G6MezRroT3XKqkdPOmY/BfQ=", "$ssha256$3xme0w==$ROfTnljnyvDpXJG9tjcgy5mIhpPVTOREnfMvABPrZb8=",
                      "$ssha512$GvCtCYhcG9k=$J37XHP+ir/NHsU3KWxpsW1E5qI1JbYSCLMsvRp8JLWp9qGsZFRUt+FzVtKiQcbF+wArqqKP0sW6Cuqjg/K97LQ=="],
    "sha1-crypt": ["$sha1$19$abcdefgh$nl4bYNUkvp1kTppWm6kb5cqPQqNG", "$sha1$1000$abcdefgh$ji8ESnkwjcTjo4hThodnLYyi.3yG"],
    "yescrypt": ["$y$j75$0123456789ab$kb1fsIrDP1wOa4Q3gNpxZkfwQ3ce8kmPbnemuN65IT2",
                 "$y$j6///$./$eG1H3hAdiIw7LAyaeC1wsfq6rJHemsvZ8fPCiI8TWx/"],
    "scrypt-crypt": ["$7$4/....0....SodiumChloride$V4S.p0ArbLXh9bvI9g1ReO/qmFMyvEX4e98XynaDdN9"],
    "scrypt": ["$scrypt$ln=4,r=8,p=1$c2FsdHNhbHRzYWx0$09/untC+3Bg44eiJQ8bqhTXgE2ali+ykLaojkJZlF9U"],
    "pbkdf2-sha256": ["$pbkdf2-sha256$i=1000,l=32$c2FsdHNhbHRzYWx0$sVaWem31qy3rw+Ldi3plA/XzhMSNi9/XHnnD1Ytj05o"],
    "pbkdf2-sha512": ["$pbkdf2-sha512$i=999$c2FsdHNhbHRzYWx0$GK6ZfhTx3pI28IQ6HYQzaUek5XduggVQ0zhLSF6WB1ROBlCW2ybd4hR7tgTVg/2i//vv5K7hcJGgBe"
                      "doUEO6ag"],
    "pbkdf2-sha1": ["$pbkdf2-sha1$i=998$c2FsdHNhbHRzYWx0$dfthYyTIsPBB/GS86Ihv/tqCRr0"],
    "argon2d": ["$argon2d$v=19$m=128,t=1,p=1$c2FsdHNhbHRzYWx0$cnmEAHaXnZyNK8al32lcZA"],
    "argon2i": ["$argon2i$v=19$m=64,t=2,p=2$c2FsdHNhbHRzYWx0$vtdpD5eGGsEQdYh52JSgUbWdj2vdH1FR/Ncvk1mmMU8"],
    "argon2id": ["$argon2id$v=19$m=64,t=1,p=1$c2FsdHNhbHRzYWx0$Sm3MnLdCFk0Af+croKgebRoqqmhbKd88iiW3yUOXn78"],
}


def need(condition, text):
    if not condition:
        sys.exit("damaged_texts.py: " + text)


# ---- damage

def changed(rng, text, at):
    return text[:at] + rng.choice(CHARACTERS) + text[at + 1:]


def left_out(rng, text, at):
    return text[:at] + text[at + 1:]


def doubled(rng, text, at):
    return text[:at] + text[at] + text[at:]


def put_in(rng, text, at):
    return text[:at] + rng.choice(CHARACTERS) + text[at:]


def exchanged(rng, text, at):
    return text[:at] + text[at + 1:at + 2] + text[at] + text[at + 2:]


def cut(rng, text, at):
    return text[:at]


def without_a_field(rng, text, at):
    fields = text.split("$")
    del fields[rng.randrange(1, len(fields))]
    return "$".join(fields)


def with_a_field_twice(rng, text, at):
    fields = text.split("$")
    which = rng.randrange(1, len(fields))
    return "$".join(fields[:which] + [fields[which]] + fields[which:])


DAMAGES = [changed, changed, changed, left_out, doubled, put_in, exchanged, cut, without_a_field, with_a_field_twice]


def damaged(rng, text):
    for _ in range(rng.choice([1, 1, 1, 2, 3])):
        text = rng.choice(DAMAGES)(rng, text, rng.randrange(len(text))) if "$" in text[1:] else text
    return text


def texts_of(rng, count):
    """So many damaged texts, each with the scheme of the whole one; of each scheme as many."""
    names = list(TEXTS)
    for number in range(count):
        name = names[number % len(names)]
        yield name, damaged(rng, rng.choice(TEXTS[name]))


# ---- what is told

def told(words, lines):
    run = subprocess.run([PROGRAM, *words], input="".join(line + "\n" for line in lines), capture_output=True, text=True, check=False)
    need(run.returncode in (0, 1), f"{words[0]} ends with {run.returncode}: {run.stderr}")
    return run.stdout.split("\n")


def agree(word, judgement):
    if word in ("match", "mismatch", "too-costly"):
        return judgement == "ok" or judgement.startswith("weak: ")
    return judgement.startswith("unsupported: ") if word == "no-scheme" else judgement == "invalid"


def main():
    seed, count = int(sys.argv[1]) if len(sys.argv) > 1 else 1, int(sys.argv[2]) if len(sys.argv) > 2 else 12000
    rng = random.Random(seed)
    # A survey has words of its own for an empty and a locked text, and its text ends at a colon: none of these is here.
    rows = [(name, text) for name, text in texts_of(rng, count) if text and text[0] not in "!*"]
    words = told(["check", *BOUNDS, "--quiet"], [f"secret\t{text}" for _, text in rows])[:len(rows)]
    survey = [line.split("\t") for line in told(["survey", "--quiet"], [f"u{i}:{text}" for i, (_, text) in enumerate(rows)])[:len(rows)]]
    need(len(words) == len(survey) == len(rows), "another number of answers")
    counts, bad = collections.defaultdict(collections.Counter), 0
    for i, ((name, text), word, cells) in enumerate(zip(rows, words, survey)):
        need(cells[0] == f"u{i}" and len(cells) == 4, f"a row is {cells}")
        kind = "a verdict" if word in ("match", "mismatch", "too-costly") else "unsupported" if word == "no-scheme" else "invalid"
        counts[name][kind] += 1
        if not agree(word, cells[3]):
            bad += 1
            print(f"{text}: check says {word}, survey {cells[3]}")
    for name, kinds in counts.items():
        print(f"{name:15}" + "".join(f"{kinds[kind]:6} {kind}" for kind in ("a verdict", "invalid", "unsupported")))
        need(all(kinds[kind] for kind in ("a verdict", "invalid", "unsupported")) or count < 2400, f"{name} lacks a kind")
    print(f"damaged_texts.py: seed {seed}: {len(rows)} damaged texts, survey and check differ on {bad}")
    sys.exit(bool(bad))


main()
