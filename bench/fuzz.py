#!/usr/bin/env python3
"""Feeds the built program with mutated inputs, and looks for crashes, hangs and statuses that no table has.

    bench/fuzz.py [SECONDS [SEED]]

Inputs are taken from bench/corpus and mutated (bytes changed, cut, doubled, spliced with others), with words of each form
and damaged ones. A run must end within ten seconds with a status that pwcheck(1) has for its words; `check` and
`normalize` must write one line for each line of the input, `unwrap` of what `wrap` wrote must give the input back, and
with status 7 nothing may be written. What fails is kept in bench/corpus/found. It ends after the time given (600 s).
"""
import os
import random
import subprocess
import sys
import time

TOP = os.path.dirname(os.path.dirname(os.path.abspath(__file__)))
PROGRAM = os.environ.get("PWCHECK", os.path.join(TOP, "crates/pwcheck/out/pwcheck"))
CORPUS = os.path.join(TOP, "bench", "corpus")
WORDS = [["check"], ["check"], ["check"], ["check", "--count"], ["normalize"], ["normalize"], ["wrap", "4"],
         ["wrap", "5"], ["wrap", "64"], ["unwrap", "4"], ["unwrap", "5"], ["unwrap", "64"], ["bench", "3"], ["bench", "0"],
         ["wrap", "3"], ["unwrap", "65537"], ["check", "--Count"], [], ["normalize", "x"], ["wrap", "\u00e4"]]
STATUSES = {"check": {0, 1}, "normalize": {0, 1}, "wrap": {0}, "unwrap": {0, 7}, "bench": {0}}
TOKENS = [b"$", b"$5$", b"$6$", b"\t", b"\n", b"\r\n", b"=", b",", b"rounds=", b"v=", b"ln=4,r=1,p=1", b"\xff", b"\x00",
          b"A" * 70, b"a" * 8190, b"1000", b"$scrypt$", b"=="]


def is_form(words):
    if words in (["check"], ["check", "--count"], ["normalize"]):
        return True
    if len(words) != 2 or words[0] not in ("bench", "wrap", "unwrap") or not words[1].isascii() or not words[1].isdigit():
        return False
    number = int(words[1])
    low, high = (1, 2000) if words[0] == "bench" else (4, 65536)
    return str(number) == words[1] and low <= number <= high


def mutated(rng, seeds):
    data = bytearray(rng.choice(seeds))
    for _ in range(rng.choice([0, 1, 1, 2, 4, 16])):
        place = rng.randrange(len(data) + 1)
        kind = rng.randrange(6)
        if kind == 0 and place < len(data):
            data[place] = rng.randrange(256)
        elif kind == 1:
            data[place:place] = rng.choice(TOKENS)
        elif kind == 2:
            del data[place:place + rng.choice([1, 1, 4, 40])]
        elif kind == 3:
            other = rng.choice(seeds)
            data[place:] = other[rng.randrange(len(other) + 1):]
        elif kind == 4:
            data[place:place] = data[max(0, place - rng.choice([4, 60])):place]
        elif place < len(data):
            data[place] ^= 1 << rng.randrange(8)
    # No line of these may cost much: large numbers of rounds and costs are made small.
    return bytes(data[:40_000]).replace(b"ln=2", b"ln=1").replace(b"ln=16", b"ln=4")


def costly(data):
    for piece in data.split(b"rounds=")[1:]:
        digits = piece[:piece.find(b"$")] if b"$" in piece else b""
        if digits.isdigit() and len(digits) > 5:
            return True
    return False


def run(words, data):
    done = subprocess.run([PROGRAM, *words], input=data, stdout=subprocess.PIPE, stderr=subprocess.PIPE, timeout=10, check=False)
    return done.returncode, done.stdout, done.stderr


def fault(words, data):
    """What is wrong with the run over an input, or None."""
    try:
        status, out, err = run(words, data)
    except subprocess.TimeoutExpired:
        return "hangs"
    if err:
        return f"writes {err[:80]!r} to standard error"
    if not is_form(words):
        return None if (status, out) == (2, b"") else f"ends with {status}"
    if status not in STATUSES[words[0]]:
        return f"ends with {status}"
    if words[0] in ("check", "normalize"):
        lines = data.count(b"\n") + (not data.endswith(b"\n") and data != b"")
        if out.count(b"\n") != lines or not (out.endswith(b"\n") or not lines):
            return "another number of lines"
    if words[0] == "wrap":
        again, back, _ = run(["unwrap", words[1]], out)
        if (again, back) != (0, data):
            return "not unwrapped again"
    if status == 7 and out:
        return "writes with status 7"
    return None


def main():
    seconds = float(sys.argv[1]) if len(sys.argv) > 1 else 600
    seed = int(sys.argv[2]) if len(sys.argv) > 2 else 1
    rng = random.Random(seed)
    seeds = [open(os.path.join(CORPUS, name), "rb").read() for name in sorted(os.listdir(CORPUS)) if name != "found"]
    end = time.time() + seconds
    runs = found = 0
    while time.time() < end:
        data = mutated(rng, seeds)
        if costly(data):
            continue
        words = rng.choice(WORDS)
        wrong = fault(words, data)
        runs += 1
        if wrong:
            found += 1
            os.makedirs(os.path.join(CORPUS, "found"), exist_ok=True)
            with open(os.path.join(CORPUS, "found", f"{seed}-{runs}"), "wb") as out:
                out.write(data)
            print(f"{words}: {wrong}, kept as found/{seed}-{runs}")
    print(f"seed {seed}: {runs} inputs in {seconds:.0f} s, {found} of them wrong")
    return 1 if found else 0


if __name__ == "__main__":
    sys.exit(main())
