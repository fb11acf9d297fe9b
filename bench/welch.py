#!/usr/bin/env python3
"""Looks by measurement whether the time of the C library's encoders, decoders and comparison depends on the bytes.

    bench/welch.py [COUNT]      (a million measurements a case, where no count is given)

bench/welch.c measures one call on two classes of input, chosen at random each time, and tells Welch's t of the two times: of all
measurements, and the greatest of those below ten bounds. A |t| above 10 says that the times differ, one above 4.5 that they may. Two
controls tell what the machine shows: a comparison that ends at the first difference has to be seen, a loop that adds all
bytes up must not be. What isn't seen here may be there: this is one build on one machine. It needs gcc, and takes the archive that
`rt lib` makes in crates/pwcheck_c.
"""
import os
import subprocess
import sys
import tempfile

HERE = os.path.dirname(os.path.abspath(__file__))
TOP = os.path.dirname(HERE)
sys.path.insert(0, os.path.join(TOP, "bindings"))
from library import archives, need, run  # noqa: E402

ALPHABETS = ["base64", "base64, unpadded", "URL", "URL, unpadded", "bcrypt's", "crypt's", "PBKDF2's", "SHA-crypt's"]
SEEN, MAYBE = 10.0, 4.5


def cases():
    yield "control_leaks", 0, "control: a comparison that ends at the first difference"
    yield "control_cannot", 0, "control: a loop that adds all bytes up"
    for what in ("encode", "decode"):
        for number, name in enumerate(ALPHABETS):
            yield what, number, f"`{what}` of 64 bytes, {name}"
    yield "same_places", 0, "`same_bytes`, differing in the last or in the first byte"
    yield "same_equal", 0, "`same_bytes`, equal or random"


def main():
    count = int(sys.argv[1]) if len(sys.argv) > 1 else 1_000_000
    with tempfile.TemporaryDirectory() as folder:
        binary = os.path.join(folder, "welch")
        run("gcc", "-O2", "-Wall", "-Wextra", "-Werror", "-I", os.path.join(TOP, "include"), os.path.join(HERE, "welch.c"),
            *archives(), "-lm", "-o", binary)
        print("| Call | Measurements | t of all | greatest t below a bound | Mean ticks of the two classes |")
        print("|---|---|---|---|---|")
        seen = {}
        for seed, (what, alphabet, name) in enumerate(cases(), 1):
            done = subprocess.run([binary, what, str(alphabet), str(count), str(seed)], capture_output=True, text=True, check=True)
            number, whole, greatest, first, second = done.stdout.split()
            seen[name] = max(float(whole), float(greatest))
            print(f"| {name} | {int(number):,} | {whole} | {greatest} | {first}, {second} |", flush=True)
    controls = list(seen.values())[:2]
    need(controls[0] > SEEN, "the control that leaks isn't seen, so nothing is")
    need(controls[1] < SEEN, "the control that can't leak is seen, so the machine is too noisy")
    above = [name for name, t in list(seen.items())[2:] if t > MAYBE]
    print(f"above {MAYBE}: {', '.join(above) if above else 'none'}")


main()
