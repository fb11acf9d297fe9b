#!/usr/bin/env python3
"""Times `pwcheck check` over inputs of 1, 10 and 100 MB whose lines need no digest, over 1,000 SHA-256-crypt lines, and
over 50 scrypt lines of ln = 14 and of ln = 16.

For the large inputs it prints bytes a second with output to /dev/null, to a file and through a pipe into `cat`, beside
`grep -c` for a word that stands in no line, and the peak memory of each run. The lines are those of a password file that
another tool made: a bcrypt text, an unknown scheme, a broken SHA-crypt text, a line without a tab; with --kinds each of
the four is timed alone too. For the SHA-256-crypt lines the peer is libxcrypt's crypt_r over the same passwords and salts;
for the scrypt lines OpenSSL's (Python's hashlib) and libxcrypt's `$7$`, one call a line. Runs are interleaved, and of
each the least time counts. A second program that PWCHECK_BEFORE names is timed beside ours.

It needs grep, gcc, Debian's libcrypt-dev and libssl-dev, and the program, which
    (cd crates/pwcheck && rt run -- check </dev/null)
proves and builds as crates/pwcheck/out/pwcheck. It installs nothing.

usage: bench/check.py [RUNS] [--kinds]      (RUNS is 5 if left out)
"""
import binascii
import contextlib
import os
import subprocess
import sys
import tempfile
import time

import scrypt

HERE = os.path.dirname(os.path.abspath(__file__))
PROGRAM = os.environ.get("PWCHECK", os.path.join(HERE, "..", "crates", "pwcheck", "out", "pwcheck"))
PROGRAMS = {"pwcheck": PROGRAM}
if "PWCHECK_BEFORE" in os.environ:
    PROGRAMS["before"] = os.environ["PWCHECK_BEFORE"]
SINKS = ["null", "file", "pipe"]
MEGABYTES = [1, 10, 100]
SCRYPT_LINES = 50
KINDS = ["bcrypt", "argon2", "broken sha", "no tab"]
SHA_LINES = 1000
LINES = (
    b"correct horse battery staple\t$2b$12$R9h/cIPz0gi.URNNX3kh2OPST9/PgBkqquzi.Ss7KIUgO2t0jWMUW\n"
    b"hunter2\t$argon2id$v=19$m=65536,t=3,p=4$c29tZXNhbHRzb21lc2FsdA$AcmqasQgW/wI6wAHAMk4aQ\n"
    b"password\t$6$saltstring$tooshort\n"
    b"root:x:0:0:root:/root:/bin/bash\n"
)


def need(condition, text):
    if not condition:
        sys.exit("bench: " + text)


@contextlib.contextmanager
def opened(sink, folder):
    """What output goes to: /dev/null, a file, or a pipe that `cat` reads."""
    if sink == "pipe":
        with open(os.devnull, "wb") as null, subprocess.Popen(["cat"], stdin=subprocess.PIPE, stdout=null) as reader:
            yield reader.stdin
            reader.stdin.close()
        return
    with open(os.devnull if sink == "null" else os.path.join(folder, "out"), "wb") as file:
        yield file


def run(peak, command, path, sink="null", folder="."):
    """The seconds that a command takes over a file, and its peak memory in KiB."""
    with open(path, "rb") as source, opened(sink, folder) as out:
        done = subprocess.run([peak] + command, stdin=source, stdout=out, stderr=subprocess.PIPE, check=False)
    need(done.returncode in (0, 1), f"{command[0]} ended with {done.returncode}")
    took, memory = done.stderr.split()
    return float(took), int(memory)


def compiled(folder, name, *options):
    binary = os.path.join(folder, name)
    built = subprocess.run(["gcc", "-O2", "-w", "-o", binary, os.path.join(HERE, name + ".c"), *options])
    need(built.returncode == 0, "the peers need gcc, libcrypt-dev and libssl-dev")
    return binary


def speeds(folder, peak, runs, lines, megabytes):
    """MB a second of each program and sink over lines, and ours' peak memory in KiB."""
    path = os.path.join(folder, "lines")
    with open(path, "wb") as out:
        out.write(lines * (megabytes * 1_000_000 // len(lines)))
    total = os.path.getsize(path) / 1e6
    best, most = {}, 0
    for _ in range(runs):
        for name, program in PROGRAMS.items():
            for sink in SINKS:
                took, memory = run(peak, [program, "check"], path, sink, folder)
                best[name, sink] = max(best.get((name, sink), 0), total / took)
                most = max(most, memory) if name == "pwcheck" else most
        took = run(peak, ["grep", "-c", "zebra"], path)[0]
        best["grep", "null"] = max(best.get(("grep", "null"), 0), total / took)
    return best, most


def large(folder, peak, runs, kinds):
    print(f"lines that need no digest, MB/s, best of {runs} interleaved runs")
    print("input              program  to-null  to-file  to-pipe  grep-c  null-to-grep  peak-KiB")
    inputs = [(f"{size} MB", LINES, size) for size in MEGABYTES]
    if kinds:
        inputs += [("10 MB " + name, line, 10) for name, line in zip(KINDS, LINES.splitlines(True))]
    for told, lines, size in inputs:
        best, most = speeds(folder, peak, runs, lines, size)
        for name in PROGRAMS:
            ours, grep = best[name, "null"], best["grep", "null"]
            print(f"{told:17}  {name:7}  {ours:7.0f}  {best[name, 'file']:7.0f}  {best[name, 'pipe']:7.0f}  {grep:6.0f}"
                  f"  {ours / grep:12.2f}  {most if name == 'pwcheck' else '':>8}", flush=True)


def digests(folder, peak, runs):
    peers = compiled(folder, "sha_crypt_peers", "-DFAMILY=5", "-lcrypt", "-lcrypto")
    made = subprocess.run([peers, "libxcrypt", "1", "12"], capture_output=True, text=True, check=True).stdout.strip()
    path = os.path.join(folder, "digests")
    with open(path, "w") as out:
        out.write(f"{'a' * 12}\t{made}\n" * SHA_LINES)
    best = [1e18, 1e18]
    for _ in range(runs):
        best[0] = min(best[0], run(peak, [PROGRAM, "check"], path)[0])
        best[1] = min(best[1], run(peak, [peers, "libxcrypt", str(SHA_LINES), "12"], os.devnull)[0])
    print(f"{SHA_LINES} SHA-256-crypt lines of 5,000 rounds: pwcheck {best[0]:.3f} s, libxcrypt {best[1]:.3f} s, "
          f"ratio {best[0] / best[1]:.2f}")


def scrypt_lines(folder, peak, runs):
    """50 lines of one record beside one call a line of OpenSSL and of libxcrypt."""
    peers = {"OpenSSL": scrypt.openssl, "libxcrypt": scrypt.libxcrypt()}
    peers = {name: derive for name, derive in peers.items() if derive}
    for ln in scrypt.LNS:
        path = os.path.join(folder, "scrypt")
        salt, key = (binascii.b2a_base64(part).rstrip(b"=\n") for part in (scrypt.SALT, scrypt.openssl(ln)))
        with open(path, "wb") as out:
            out.write((scrypt.PASSWORD + b"\t$scrypt$ln=%d,r=8,p=1$%s$%s\n" % (ln, salt, key)) * SCRYPT_LINES)
        best = dict.fromkeys([*PROGRAMS, *peers], 1e18)
        for _ in range(runs):
            for name, program in PROGRAMS.items():
                best[name] = min(best[name], run(peak, [program, "check"], path)[0])
            for name, derive in peers.items():
                begin = time.perf_counter()
                for _line in range(SCRYPT_LINES):
                    derive(ln)
                best[name] = min(best[name], time.perf_counter() - begin)
        told = ", ".join(f"{name} {took:.3f} s ({best['pwcheck'] / took:.2f})" for name, took in best.items())
        print(f"{SCRYPT_LINES} scrypt lines, ln={ln}: {told}", flush=True)


def main():
    numbers = [a for a in sys.argv[1:] if a.isdigit()]
    runs = int(numbers[0]) if numbers else 5
    for program in PROGRAMS.values():
        need(os.path.exists(program), "build the program first: (cd crates/pwcheck && rt run -- check </dev/null)")
    with tempfile.TemporaryDirectory() as folder:
        peak = compiled(folder, "peak")
        large(folder, peak, runs, "--kinds" in sys.argv)
        digests(folder, peak, runs)
        scrypt_lines(folder, peak, max(1, runs // 2))


if __name__ == "__main__":
    main()
