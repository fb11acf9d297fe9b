#!/usr/bin/env python3
"""Times sha256_crypt and sha512_crypt beside libxcrypt and OpenSSL, in one run.

Ours is the program `pwcheck check` itself over lines of `$5$` or `$6$` texts: a line costs one digest of 5,000 rounds,
and all else (reading, decoding, writing) is below a hundredth of it. The peers are programs that compute as many
digests of the same passwords and salt: libxcrypt's crypt_r, and Drepper's steps over libcrypto's hash functions. The
runs are interleaved; of each the least time counts, less the least of its runs over no digest.

It needs gcc, Debian's libcrypt-dev and libssl-dev, and the program, which
    (cd crates/pwcheck && rt run -- check </dev/null)
proves and builds as crates/pwcheck/out/pwcheck. It installs nothing.

usage: bench/sha_crypt.py [RUNS]      (30 if left out)
"""
import os
import subprocess
import sys
import tempfile
import time

HERE = os.path.dirname(os.path.abspath(__file__))
PROGRAM = os.path.join(HERE, "..", "crates", "pwcheck", "out", "pwcheck")
COUNT = 20
LENGTHS = [1, 8, 12, 16, 32, 64]
FAMILIES = [5, 6]


def need(condition, text):
    if not condition:
        sys.exit("bench: " + text)


def passwords(length):
    return [chr(ord("a") + i % 16) + "a" * (length - 1) for i in range(COUNT)]


def texts(binary, length):
    """The texts of the passwords by libxcrypt, of which sixteen differ."""
    made = {}
    for i, password in enumerate(passwords(length)):
        if password not in made:
            out = subprocess.run([binary, "libxcrypt", str(i + 1), str(length)], capture_output=True, text=True, check=True)
            made[password] = out.stdout.strip()
    return "".join(f"{p}\t{made[p]}\n" for p in passwords(length))


def wall(command, **how):
    """The microseconds of a run of a program, from its start to its end, and what it wrote."""
    begin = time.perf_counter()
    out = subprocess.run(command, capture_output=True, text=True, **how)
    return (time.perf_counter() - begin) * 1e6, out


def ours(lines):
    took, out = wall([PROGRAM, "check"], input=lines)
    need(out.stdout == "match\n" * lines.count("\n") and out.returncode == 0, "the program and libxcrypt disagree")
    return took


def theirs(binary, peer, count, length, environment):
    took, out = wall([binary, peer, str(count), str(length)], env={**os.environ, **environment})
    need(out.returncode == 0, peer + " failed")
    return took


def timed(binary, family, length, runs):
    """The least time of each for COUNT digests, less that of its run over none."""
    lines = texts(binary, length)
    scalar = {"OPENSSL_ia32cap": "0x0:0x0"}
    calls = [lambda count: ours(lines if count else ""),
             lambda count: theirs(binary, "libxcrypt", count, length, {}),
             lambda count: theirs(binary, "openssl", count, length, scalar),
             lambda count: theirs(binary, "openssl", count, length, {})]
    empty = [1e18] * len(calls)
    full = [1e18] * len(calls)
    for _ in range(runs):
        for i, call in enumerate(calls):
            empty[i] = min(empty[i], call(0))
            full[i] = min(full[i], call(COUNT))
    each = [(f - e) / COUNT for f, e in zip(full, empty)]
    ratios = [each[0] / e for e in each[1:]]
    print(f"{family:6}  {length:8}  {each[0]:7.0f}  {each[1]:9.0f}  {each[2]:14.0f}  {each[3]:7.0f}"
          f"  {ratios[0]:12.2f}  {ratios[1]:17.2f}  {ratios[2]:10.2f}", flush=True)


def main():
    runs = int(sys.argv[1]) if len(sys.argv) > 1 else 30
    need(os.path.exists(PROGRAM), "build the program first: (cd crates/pwcheck && rt run -- check </dev/null)")
    print(f"microseconds for a digest of 5,000 rounds, salt of 16 bytes, least of {runs} interleaved runs of {COUNT}")
    print("family  password  pwcheck  libxcrypt  openssl-scalar  openssl  to-libxcrypt  to-openssl-scalar  to-openssl")
    with tempfile.TemporaryDirectory() as folder:
        for family in FAMILIES:
            binary = os.path.join(folder, f"peers{family}")
            built = subprocess.run(["gcc", "-O2", "-w", f"-DFAMILY={family}", "-o", binary,
                                    os.path.join(HERE, "sha_crypt_peers.c"), "-lcrypt", "-lcrypto"])
            need(built.returncode == 0, "the peers need gcc, libcrypt-dev and libssl-dev")
            for length in LENGTHS:
                timed(binary, family, length, runs)


main()
