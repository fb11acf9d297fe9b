#!/usr/bin/env python3
"""Runs tests and the program with each request for memory refused in turn, and prints a table.

    bench/refused_memory.py [--programs] [CRATE..]

For each crate (those of CRATES if none is named) `rt try --test --fail-alloc N` runs its tests with request N refused, for N from 1 until a run meets no refusal (at most 40). The tests are those of CRATE_tests where
there is such a crate. For pwcheck it also runs the program over one line of each kind, for pwfile the program alone, over commands that
need no digest. A run ends with its want of memory or as usual; anything else is marked.
A test named `takes_N_..` asks for memory N times: runs 1 to N have to end by want of memory, and run N + 1 as usual. So it shows a
request that is tried again, one too many, and a kept table that isn't used. The status is 1 where that isn't so.
With --programs the tests are left out.
"""
import os
import re
import subprocess
import sys

TOP = os.path.dirname(os.path.dirname(os.path.abspath(__file__)))
CRATES = ["base64ct", "mcf", "phc", "sha_crypt", "scrypt_plain", "argon2_plain", "yescrypt_plain", "pbkdf2_plain", "any_check", "any_make", "crypt_text", "pwcheck_run", "pwcheck", "pwfile"]
PROGRAMS = ["pwcheck", "pwfile"]
RUNS = {
    "pwcheck": [
        (["check"], b"Hello world!\t$5$saltstring$5B8vYYiY.CVt1RlTTf8KbXBH3hsxY/GNooZaBBGWEc5\n"),
        (["check"], b"password\t$scrypt$ln=4,r=1,p=1$abcdabcdabc$AAAAAAAAAAAAAA\n"),
        (["bench", "3"], b""), (["normalize"], b"$5$rounds=+05000$s$x\n"),
        (["wrap", "4"], b"\0" * 6), (["unwrap", "4"], b"AAAA\nAAAA"),
    ],
    "pwfile": [([], b"set\tann\t$5\nset\tbob\t$6\nset\tann\t$1\nlist\n")],
}
MOST = 40
WANT = re.compile(r"AllocError|no-memory|AllocFailed|OutOfMemory|NoMemory|[Oo]ut of memory|want of memory|refused allocation")


def told(text):
    """What a run of tests or of the program says: how it ended, and why tests didn't pass."""
    done = re.search(r"test result: \w+\. (\d+) passed; (\d+) failed", text)
    if not done:
        ended = re.findall(r"run=ended status=\d+", text)
        return ended[-1] if ended else text.strip().splitlines()[-1][:100]
    reasons = re.findall(r"\.\.\. FAILED\n +(.*)", text)
    others = [reason for reason in reasons if not WANT.search(reason)]
    answer = f"{done[1]} tests as usual, {len(reasons) - len(others)} by want of memory"
    return answer + (f", **{len(others)} OTHERS**: " + "; ".join(sorted(set(others))) if others else "")


def miscounted(text, number):
    """What is said of the tests whose name has the number of their requests, where request `number` was refused."""
    for test, count, end, reason in re.findall(r"^test (\S*?takes_(\d+)_\S*) \.\.\. (\w+)(?:\n +(.*))?", text, re.M):
        by_want = end == "FAILED" and WANT.search(reason) is not None
        if by_want != (number <= int(count)):
            yield f"{test}: {'want of memory' if by_want else end} at request {number}"


def folder_of(crate):
    """Where the tests of a crate stand."""
    apart = os.path.join(TOP, "crates", crate + "_tests")
    return crate + "_tests" if os.path.isdir(apart) else crate


def one(crate, flags, data, words):
    command = ["rt", "try", *flags, *(["--"] + words if words else [])]
    try:
        done = subprocess.run(command, cwd=os.path.join(TOP, "crates", crate), input=data, stdout=subprocess.PIPE,
                              stderr=subprocess.STDOUT, timeout=300, check=False)
    except subprocess.TimeoutExpired:
        return "**no answer in 300 s**", "", True
    text = done.stdout.decode("utf-8", "replace")
    return told(text), text, WANT.search(text) is not None or "status=5" in text


def rows(crate, flags, data=b"", words=None):
    """Prints a row for each request, and gives what is wrong."""
    faults = []
    for number in range(1, MOST + 1):
        told, text, refused = one(crate, [*flags, "--fail-alloc", str(number)], data, words)
        print(f"| {crate} {'tests' if words is None else ' '.join(words) or 'commands'} | {number} | {told} |", flush=True)
        faults += miscounted(text, number)
        if not refused:
            break
    return faults


def main():
    print("| run | request refused | answer |\n|---|---|---|")
    tests = "--programs" not in sys.argv
    faults = []
    for crate in [word for word in sys.argv[1:] if word != "--programs"] or CRATES:
        if tests and crate not in PROGRAMS:
            faults += rows(folder_of(crate), ["--test"])
        for words, data in RUNS.get(crate, []):
            faults += rows(crate, [], data, words)
    for fault in faults:
        print(f"refused_memory: {fault}")
    return 1 if faults else 0


if __name__ == "__main__":
    sys.exit(main())
