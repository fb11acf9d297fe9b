#!/usr/bin/env python3
"""Runs the gate and prints what it spends, crate by crate, as a table in Markdown.

The provers that `rt ci` starts are sampled four times a second: which crate, and whether it proves the crate, the crate with its tests,
or an edit. The last line is the processor time of all that the gate started, as the kernel counts it, so what a sample misses is in it.

usage: bench/gate_times.py [CPUS] [NAME..]
       (CPUS as taskset has them, such as 0,1, or - for all; NAME as `rt ci` has them; the report goes to standard output, rt's to gate.log
       in the folder of temporary files)

For a gate from nothing the kit's store has to be empty: a mount over /opt/rattle-kept, as root, makes it so for one run.
"""
import collections
import os
import resource
import subprocess
import sys
import tempfile
import time

TOP = os.path.dirname(os.path.dirname(os.path.abspath(__file__)))
TICKS = os.sysconf("SC_CLK_TCK")


def provers():
    """Each prover that runs: its number with its start, and its crate, its kind and its processor seconds."""
    for pid in os.listdir("/proc"):
        if not pid.isdigit():
            continue
        try:
            with open(f"/proc/{pid}/cmdline", "rb") as file:
                words = file.read().decode(errors="replace").split("\0")
            if not words[0].endswith("/rattle") or "--crate-name" not in words:
                continue
            folder = os.readlink(f"/proc/{pid}/cwd")
            with open(f"/proc/{pid}/stat", encoding="ascii") as file:
                numbers = file.read().rsplit(")", 1)[1].split()
        except (OSError, IndexError):
            continue
        kind = "edits" if "/rt-edit-" in folder else "tests" if "--test" in words else "proof"
        yield (pid, numbers[19]), (words[words.index("--crate-name") + 1], kind, (int(numbers[11]) + int(numbers[12])) / TICKS)


def sampled(child):
    """The processor seconds by crate and kind, until a process ends. What runs before it began is left out."""
    before = {key for key, _ in provers()}
    last = {}
    while child.poll() is None:
        last.update((key, value) for key, value in provers() if key not in before)
        time.sleep(0.25)
    seconds = collections.defaultdict(lambda: collections.Counter())
    for crate, kind, spent in last.values():
        seconds[crate][kind] += spent
    return seconds


def printed(seconds, total, clock):
    print("| Crate | Proof | With tests | Edits | All, in minutes |\n|---|---|---|---|---|")
    sums = collections.Counter()
    for crate, by_kind in sorted(seconds.items(), key=lambda one: -sum(one[1].values())):
        sums.update(by_kind)
        cells = " | ".join(f"{by_kind[kind] / 60:.1f}" if by_kind[kind] else "" for kind in ("proof", "tests", "edits"))
        print(f"| `{crate}` | {cells} | {sum(by_kind.values()) / 60:.1f} |")
    print(f"| all | {sums['proof'] / 60:.1f} | {sums['tests'] / 60:.1f} | {sums['edits'] / 60:.1f} | {sum(sums.values()) / 60:.1f} |")
    print(f"\nProcessor time of the whole gate: {total / 60:.1f} minutes; by the clock {clock / 60:.1f}.")


def main():
    cpus, names = (sys.argv[1] if len(sys.argv) > 1 else "-"), sys.argv[2:]
    words = [*([] if cpus == "-" else ["taskset", "-c", cpus]), "rt", "ci", *names]
    begin = time.time()
    with open(os.path.join(tempfile.gettempdir(), "gate.log"), "wb") as log, subprocess.Popen(words, cwd=TOP, stdout=log, stderr=log) as child:
        seconds = sampled(child)
    spent = resource.getrusage(resource.RUSAGE_CHILDREN)
    printed(seconds, spent.ru_utime + spent.ru_stime, time.time() - begin)
    return child.returncode


if __name__ == "__main__":
    sys.exit(main())
