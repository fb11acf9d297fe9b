#!/usr/bin/python3
"""Checks a password file on the workers of a Dask cluster: the file is cut at line ends, the answers keep their order,
and the status is that of one run: that of the first part that didn't reach its end (which is named; nothing behind its
answers is written), else 1 where some answer is no `match`, else 0. A part whose worker dies is done again by another.

    scale/dask_check.py FILE [--scheduler ADDRESS] [--workers N] [--part BYTES] [--words 'WORDS']

Without a scheduler's address a cluster of N workers (one for each core if left out) is started on this machine and ended
with the run. It needs Debian's python3-distributed. The program's words are `check` if left out; with PWCHECK=pwtool they may be
'check --quiet --users', or 'join --quiet - PASSWORDS' with a file that each worker has. PWCHECK names the program (pwcheck on PATH, else
crates/pwcheck/out/pwcheck), which every worker must find by the same name; the parts go to the workers, passwords with
them, over the cluster's own connections: use TLS (Dask's security) where the network isn't yours.
"""
import argparse
import os
import shutil
import subprocess
import sys

try:
    from distributed import Client, LocalCluster
except ImportError:
    sys.exit("dask_check.py: Dask isn't installed (Debian's python3-distributed): skipped")

HERE = os.path.dirname(os.path.abspath(__file__))
PROGRAM = os.environ.get("PWCHECK") or shutil.which("pwcheck") or os.path.join(HERE, "..", "crates", "pwcheck", "out", "pwcheck")


def parts(path, size):
    """The pieces of a file of about so many bytes, cut behind line feeds."""
    with open(path, "rb") as file:
        while True:
            piece = file.read(size)
            if not piece:
                return
            yield piece + file.readline()


def check(program, words, lines):
    done = subprocess.run([program, *words], input=lines, stdout=subprocess.PIPE, check=False)
    return done.returncode, done.stdout


def main():
    options = argparse.ArgumentParser(description="checks a password file on a Dask cluster")
    options.add_argument("file")
    options.add_argument("--scheduler")
    options.add_argument("--workers", type=int, default=os.cpu_count())
    options.add_argument("--part", type=int, default=1 << 20)
    options.add_argument("--words", default="check")
    asked = options.parse_args()
    cluster = None
    if not asked.scheduler:
        cluster = LocalCluster(n_workers=asked.workers, threads_per_worker=1, dashboard_address=None)
    client = Client(asked.scheduler or cluster)
    some = stop = 0
    try:
        futures = [client.submit(check, PROGRAM, asked.words.split(), piece, pure=False, retries=3) for piece in parts(asked.file, asked.part)]
        for number, future in enumerate(futures, 1):
            status, words = future.result()
            sys.stdout.buffer.write(words)
            if status not in (0, 1):
                print(f"dask_check.py: part {number} ended with {status}", file=sys.stderr)
                stop = status if status > 0 else 128 - status
                break
            some = max(some, status)
    finally:
        client.close()
        if cluster:
            cluster.close()
    sys.stdout.flush()
    sys.exit(stop or some)


if __name__ == "__main__":
    main()
